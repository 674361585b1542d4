//! Holds the C library against the twin, answer by answer, and times both.
//!
//!     compare [--seed N] [--inputs N] [--threads N] [--only INDEX]
//!     compare speed [--repeats N]
//!
//! An input is made of a seed and its index alone, so the one that is named in
//! a difference can be had again by `--seed N --only INDEX`. The status is 1
//! where library and twin differ, and 2 where too few kinds of answers were met.

mod cases;
mod ffi;
mod generate;
mod guarded;
mod mirror;
mod random;
mod report;
mod speed;

use std::env;
use std::process::ExitCode;
use std::sync::atomic::{AtomicU64, Ordering};
use std::thread;
use std::time::{SystemTime, UNIX_EPOCH};

use report::{Counts, Difference};

/// Inputs from which on every kind of answer has to be met.
const ENOUGH: u64 = 100_000;

struct Asked {
    seed: u64,
    inputs: u64,
    threads: u64,
    only: Option<u64>,
    repeats: u64,
    speed: bool,
}

fn main() -> ExitCode {
    let asked = match Asked::read(env::args().skip(1)) {
        Ok(asked) => asked,
        Err(word) => {
            eprintln!("no such word, or no number after it: {word}");
            return ExitCode::from(2);
        }
    };
    if asked.speed {
        speed::table(asked.repeats);
        return ExitCode::SUCCESS;
    }
    println!("seed {}, {} inputs", asked.seed, asked.inputs);
    match asked.only {
        Some(index) => one(asked.seed, index),
        None => all(&asked),
    }
}

impl Asked {
    fn read(mut words: impl Iterator<Item = String>) -> Result<Asked, String> {
        let clock = SystemTime::now().duration_since(UNIX_EPOCH).unwrap_or_default();
        let mut asked = Asked {
            seed: clock.as_nanos() as u64,
            inputs: 1_000_000,
            threads: thread::available_parallelism().map_or(1, |count| count.get() as u64),
            only: None,
            repeats: 9,
            speed: false,
        };
        while let Some(word) = words.next() {
            if word == "speed" {
                asked.speed = true;
                continue;
            }
            let mut number = || words.next().and_then(|number| number.parse().ok());
            let taken = match word.as_str() {
                "--seed" => number().map(|number| asked.seed = number),
                "--inputs" => number().map(|number| asked.inputs = number),
                "--threads" => number().map(|number| asked.threads = number.max(1)),
                "--only" => number().map(|number| asked.only = Some(number)),
                "--repeats" => number().map(|number| asked.repeats = number.max(1)),
                _ => None,
            };
            taken.ok_or(word)?;
        }
        Ok(asked)
    }
}

fn one(seed: u64, index: u64) -> ExitCode {
    let mut counts = Counts::default();
    let outcome = cases::input(seed, index, &mut counts);
    print!("{counts}");
    match outcome {
        Ok(()) => ExitCode::SUCCESS,
        Err(difference) => tell(seed, index, &difference),
    }
}

fn tell(seed: u64, index: u64, difference: &Difference) -> ExitCode {
    println!("{difference}again: compare --seed {seed} --only {index}");
    ExitCode::FAILURE
}

/// The lowest difference that a thread met, and what it counted.
struct Share {
    counts: Counts,
    difference: Option<(u64, Box<Difference>)>,
}

/// Makes every so-manieth input, up to the lowest difference of all threads.
fn share(asked: &Asked, first: u64, lowest: &AtomicU64) -> Share {
    let mut counts = Counts::default();
    let mut index = first;
    while index < asked.inputs.min(lowest.load(Ordering::Relaxed)) {
        if let Err(difference) = cases::input(asked.seed, index, &mut counts) {
            lowest.fetch_min(index, Ordering::Relaxed);
            return Share { counts, difference: Some((index, difference)) };
        }
        index += asked.threads;
    }
    Share { counts, difference: None }
}

fn all(asked: &Asked) -> ExitCode {
    let lowest = AtomicU64::new(u64::MAX);
    let shares: Vec<Share> = thread::scope(|scope| {
        let threads: Vec<_> = (0..asked.threads)
            .map(|first| {
                let lowest = &lowest;
                scope.spawn(move || share(asked, first, lowest))
            })
            .collect();
        threads.into_iter().filter_map(|thread| thread.join().ok()).collect()
    });
    if shares.len() as u64 != asked.threads {
        return ExitCode::from(2);
    }
    let mut counts = Counts::default();
    let mut differences = Vec::new();
    for share in shares {
        counts.take_in(share.counts);
        differences.extend(share.difference);
    }
    print!("{counts}");
    if let Some((index, difference)) = differences.iter().min_by_key(|(index, _)| index) {
        return tell(asked.seed, *index, difference);
    }
    let missing = counts.missing();
    if asked.inputs >= ENOUGH && !missing.is_empty() {
        println!("never met: {missing:?}");
        return ExitCode::from(2);
    }
    println!("{} inputs from seed {}: library and twin alike", asked.inputs, asked.seed);
    ExitCode::SUCCESS
}
