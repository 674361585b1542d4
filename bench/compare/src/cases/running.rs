//! The mains run, step by step.

use std::fmt::{self, Display};

use twin::image::SLOT_BYTES;
use twin::machine;

use crate::ffi::{self, State};
use crate::generate::{hostile, lawful, numbers};
use crate::mirror;
use crate::random::Random;
use crate::report::{Counts, Hex, Outcome, same};

struct Run {
    image: Vec<u8>,
    tape: Vec<u32>,
    from: Option<Box<State>>,
}

impl Display for Run {
    fn fmt(&self, f: &mut fmt::Formatter<'_>) -> fmt::Result {
        writeln!(f, "image: {}", Hex(&self.image))?;
        write!(f, "tape: {:?}", self.tape)?;
        match &self.from {
            Some(state) => write!(f, "\nfrom: {state:?}"),
            None => Ok(()),
        }
    }
}

/// A run from the beginning: every step of it, and then at one go.
pub fn run(random: &mut Random, counts: &mut Counts) -> Outcome {
    let image = match random.below(10) {
        0 => hostile::hostile(random),
        1 => hostile::falling(random),
        2 => lawful::recording(random),
        _ => lawful::any_lawful(random),
    };
    let given = Run { image, tape: numbers::tape(random), from: None };
    let mut state = State { place: 77, ..State::ZERO };
    ffi::state_begin(&mut state);
    let mut twin = machine::State::default();
    same("yatesorrel_state_begin", &state, &mirror::shown(&twin), &given)?;
    let most = random.pick(&[20, 100, 400, 3000]);
    let mut made = 0;
    while made < most && twin.ending.is_none() {
        step(&mut state, &mut twin, &given)?;
        made += 1;
    }
    count(&twin, &given.image, counts);
    if random.percent(50) {
        step(&mut state, &mut twin, &given)?;
    }
    at_one_go(random, &given, made)
}

fn step(state: &mut State, twin: &mut machine::State, given: &Run) -> Outcome {
    let told = ffi::state_step(state, &given.image, &given.tape);
    let twin_told = mirror::step(twin, &given.image, &given.tape);
    same("yatesorrel_state_step", &told, &twin_told, given)?;
    let shown = mirror::shown(twin);
    same("yatesorrel_state_step, state", &mirror::settled(state), &shown, given)
}

/// The same run by one call, for about as many steps.
fn at_one_go(random: &mut Random, given: &Run, made: u64) -> Outcome {
    let most = match random.below(4) {
        0 => random.below(made + 2),
        1 => 0,
        _ => made + random.below(3),
    };
    let mut state = State { place: 77, ending: 99, ..State::ZERO };
    let steps = ffi::run(&given.image, &given.tape, most, &mut state);
    let mut twin = machine::State::default();
    let twin_steps = twin.run_for(&given.image, &given.tape, most);
    same("yatesorrel_run", &steps, &twin_steps, given)?;
    same("yatesorrel_run, state", &mirror::settled(&state), &mirror::shown(&twin), given)
}

fn count(end: &machine::State, image: &[u8], counts: &mut Counts) {
    let slots = 0..(image.len() / SLOT_BYTES) as i64;
    let kind = match mirror::shown(end).ending {
        0 => "goes on",
        1 if slots.contains(&end.slot) => "trap 1, an illegal slot",
        1 => "trap 1, a fall out of the image",
        2 => "trap 2",
        3 => "trap 3",
        4 => "trap 4",
        _ => "exit",
    };
    counts.add("run", kind);
}

/// Some steps from a state with any numbers.
pub fn single(random: &mut Random, counts: &mut Counts) -> Outcome {
    let image = match random.below(10) {
        0 => hostile::hostile(random),
        _ => hostile::single(random),
    };
    let mut state = numbers::state(random);
    let spoiled = random.percent(3);
    if spoiled {
        state.ending = random.pick(&[6, 7, 255]);
    }
    let given = Run { image, tape: numbers::tape(random), from: Some(Box::new(state)) };
    let Some(mut twin) = mirror::state_of(&state) else {
        counts.refusal("state step", ffi::NOT_BEGUN);
        return refused(state, &given);
    };
    counts.add("state step", "from a state with any numbers");
    for _ in 0..=random.below(3) {
        step(&mut state, &mut twin, &given)?;
    }
    Ok(())
}

/// A state that is none is refused, and stays.
fn refused(before: State, given: &Run) -> Outcome {
    let mut state = before;
    let told = ffi::state_step(&mut state, &given.image, &given.tape);
    let refusal = mirror::refused(ffi::NOT_BEGUN);
    let twin_told = ffi::Step { refusal, ..ffi::Step::default() };
    same("yatesorrel_state_step", &told, &twin_told, given)?;
    same("yatesorrel_state_step, state", &state, &before, given)
}
