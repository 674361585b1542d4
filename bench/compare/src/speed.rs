//! Times of the library against the twin's, as a Markdown table.

use std::hint::black_box;
use std::time::Duration;

use twin::certify::Certifier;
use twin::image::{IDLE_BYTES, SAVE_BYTES};
use twin::machine;
use twin::place::place;
use twin::price::OperandModel;
use twin::rig::{self, Rig};
use twin::supply::{Capacitor, Mains, Supply};

use crate::ffi::{self, Prices};

const SIZES: [usize; 5] = [64, 128, 256, 512, 1024];
const PRICES: Prices = Prices { kind: ffi::OPERAND_PRICES, flat: [0; 257] };
const BUDGET: u64 = 100_000_000;

/// How long one measurement goes on at least.
const LONG_ENOUGH: Duration = Duration::from_millis(4);
/// Steps of one measured run.
const STEPS: u64 = 100_000;

const ADD: [u8; 8] = [0x07, 1, 0, 0, 1, 0, 0, 0];
const OVER_ONE: [u8; 8] = [0x55, 1, 1, 0, 5, 0, 0, 0];
const READING: [u8; 8] = [0x85, 0, 0, 0, 2, 0, 0, 0];
const EXIT: [u8; 8] = [0x95, 0, 0, 0, 0, 0, 0, 0];

/// Additions and EXIT.
fn straight(slots: usize) -> Vec<u8> {
    ended(slots, |_| ADD)
}

/// Every second slot a conditional jump over the next.
fn forking(slots: usize) -> Vec<u8> {
    ended(slots, |slot| if slot % 2 == 0 && slot + 2 < slots { OVER_ONE } else { ADD })
}

/// A reading in every 44 slots, and idle slots between.
fn idling(slots: usize) -> Vec<u8> {
    ended(slots, |slot| if slot % 44 == 0 { READING } else { IDLE_BYTES })
}

/// Slots of a kind, and EXIT.
fn ended(slots: usize, slot: impl Fn(usize) -> [u8; 8]) -> Vec<u8> {
    (0..slots - 1).map(slot).chain([EXIT]).flatten().collect()
}

/// A first slot, additions, and a jump back to the first.
fn endless(first: [u8; 8], slots: usize) -> Vec<u8> {
    let [low, high] = (-(slots as i16)).to_le_bytes();
    let back = [0x05, 0, low, high, 0, 0, 0, 0];
    let additions = vec![ADD; slots - 2];
    [vec![first], additions, vec![back]].concat().concat()
}

/// The seconds that one call of a kind takes, on the mean of a measurement.
fn measure(call: &mut dyn FnMut()) -> f64 {
    let (begun, mut calls) = (ffi::processor_time(), 0);
    loop {
        call();
        calls += 1;
        let taken = ffi::processor_time() - begun;
        if taken >= LONG_ENOUGH {
            return taken.as_secs_f64() / f64::from(calls);
        }
    }
}

fn median(mut times: Vec<f64>) -> f64 {
    times.sort_by(f64::total_cmp);
    times[times.len() / 2]
}

/// One row: the medians of both sides, measured in turn.
struct Row {
    what: &'static str,
    slots: usize,
    /// What a call's time is shown in, as a part of a second.
    unit: f64,
}

impl Row {
    fn print(&self, repeats: u64, library: &mut dyn FnMut(), twin: &mut dyn FnMut()) {
        library();
        twin();
        let (ours, theirs): (Vec<f64>, Vec<f64>) =
            (0..repeats).map(|_| (measure(library), measure(twin))).unzip();
        let (ours, theirs) = (median(ours), median(theirs));
        println!(
            "| {} | {} | {:.2} | {:.2} | {:.2} |",
            self.what,
            self.slots,
            ours / self.unit,
            theirs / self.unit,
            theirs / ours
        );
    }
}

const MICROSECONDS: f64 = 1e-6;
/// Of a run of `STEPS` steps, the nanoseconds of one.
const NANOSECONDS_A_STEP: f64 = 1e-9 * STEPS as f64;

pub fn table(repeats: u64) {
    println!("| what | slots | library | twin | twin / library |");
    println!("|---|---|---|---|---|");
    for slots in SIZES {
        certifying("certify straight, µs", straight(slots), repeats);
        certifying("certify forking, µs", forking(slots), repeats);
        certifying("certify idling, µs", idling(slots), repeats);
    }
    for slots in SIZES {
        placing(idling(slots), repeats);
    }
    for slots in SIZES {
        running(endless(ADD, slots), repeats);
        stepping(endless(ADD, slots), repeats);
    }
    for slots in SIZES {
        scripts(endless(SAVE_BYTES, slots), repeats);
        rigs_on_mains(endless(SAVE_BYTES, slots), repeats);
        rigs_on_a_capacitor(endless(SAVE_BYTES, slots), repeats);
    }
}

fn slots_of(image: &[u8]) -> usize {
    image.len() / 8
}

fn certifying(what: &'static str, image: Vec<u8>, repeats: u64) {
    let row = Row { what, slots: slots_of(&image), unit: MICROSECONDS };
    let mut list = vec![ffi::Worth::default(); 1024];
    let mut twin_list = vec![twin::certify::Worth::default(); 1024];
    let certifier = Certifier { model: &OperandModel, budget: BUDGET };
    row.print(
        repeats,
        &mut || {
            black_box(ffi::certify(black_box(&image), &PRICES, BUDGET, &mut list));
        },
        &mut || {
            let _ = black_box(certifier.certify(black_box(&image), &mut twin_list));
        },
    );
}

/// Places saves at a budget that pays for a reading, a saving and some slots.
fn placing(image: Vec<u8>, repeats: u64) {
    const TIGHT: u64 = 300;
    let row = Row { what: "place idling, µs", slots: slots_of(&image), unit: MICROSECONDS };
    let mut list = vec![ffi::Worth::default(); 1024];
    let mut twin_list = vec![twin::certify::Worth::default(); 1024];
    let certifier = Certifier { model: &OperandModel, budget: TIGHT };
    row.print(
        repeats,
        &mut || {
            let mut copy = image.clone();
            black_box(ffi::place(black_box(&mut copy), &PRICES, TIGHT, &mut list));
        },
        &mut || {
            let mut copy = image.clone();
            let _ = black_box(place(black_box(&mut copy), &certifier, &mut twin_list));
        },
    );
}

fn running(image: Vec<u8>, repeats: u64) {
    let what = "machine step of a run, ns";
    let row = Row { what, slots: slots_of(&image), unit: NANOSECONDS_A_STEP };
    let mut state = ffi::State::ZERO;
    row.print(
        repeats,
        &mut || {
            black_box(ffi::run(black_box(&image), &[], STEPS, &mut state));
        },
        &mut || {
            let mut state = machine::State::default();
            black_box(state.run_for(black_box(&image), &[], STEPS));
            black_box(&state);
        },
    );
}

fn stepping(image: Vec<u8>, repeats: u64) {
    let what = "machine step by a call, ns";
    let row = Row { what, slots: slots_of(&image), unit: NANOSECONDS_A_STEP };
    row.print(
        repeats,
        &mut || {
            let mut state = ffi::State::ZERO;
            ffi::state_begin(&mut state);
            for _ in 0..STEPS {
                black_box(ffi::state_step(&mut state, black_box(&image), &[]));
            }
        },
        &mut || {
            let mut state = machine::State::default();
            for _ in 0..STEPS {
                black_box(state.step(black_box(&image), &[]));
            }
        },
    );
}

fn scripts(image: Vec<u8>, repeats: u64) {
    let what = "rig step of a script, on the mains, ns";
    let row = Row { what, slots: slots_of(&image), unit: NANOSECONDS_A_STEP };
    let calls = vec![ffi::Call::default(); STEPS as usize];
    let mut replies = vec![ffi::Reply::default(); STEPS as usize];
    let twin_calls = vec![rig::Call::Step; STEPS as usize];
    let mut twin_replies = vec![rig::Reply::Count(0); STEPS as usize];
    let mut supply = ffi::Supply::default();
    ffi::mains(&mut supply);
    let mut rig = Box::new(crate::cases::NO_RIG);
    row.print(
        repeats,
        &mut || {
            let round = ffi::Round { prices: &PRICES, image: black_box(&image), tape: &[] };
            black_box(ffi::rehearse(&supply, round, &calls, &mut replies, &mut rig));
        },
        &mut || {
            let round = rig::Round { model: &OperandModel, image: black_box(&image), tape: &[] };
            black_box(rig::rehearse(Mains::default(), &round, &twin_calls, &mut twin_replies));
        },
    );
}

fn rigs_on_mains(image: Vec<u8>, repeats: u64) {
    let mut supply = ffi::Supply::default();
    ffi::mains(&mut supply);
    rigs("rig step by a call, on the mains, ns", image, &supply, Mains::default(), repeats);
}

fn rigs_on_a_capacitor(image: Vec<u8>, repeats: u64) {
    const RATINGS: [u32; 4] = [100_000, 5000, 1000, 1_000_000];
    let mut supply = ffi::Supply::default();
    ffi::capacitor(RATINGS, &mut supply);
    let [microfarads, top, bottom, unit] = RATINGS.map(u64::from);
    if let Ok(capacitor) = Capacitor::new(microfarads, top, bottom, unit) {
        rigs("rig step by a call, on a capacitor, ns", image, &supply, capacitor, repeats);
    }
}

fn rigs<S: Supply + Clone>(
    what: &'static str,
    image: Vec<u8>,
    supply: &ffi::Supply,
    twin_supply: S,
    repeats: u64,
) {
    let row = Row { what, slots: slots_of(&image), unit: NANOSECONDS_A_STEP };
    row.print(
        repeats,
        &mut || {
            let mut rig = Box::new(crate::cases::NO_RIG);
            ffi::rig_begin(&mut rig, supply);
            for _ in 0..STEPS {
                black_box(ffi::rig_step(&mut rig, &PRICES, black_box(&image), &[]));
            }
        },
        &mut || {
            let mut rig = Rig::begin(twin_supply.clone());
            for _ in 0..STEPS {
                let round =
                    rig::Round { model: &OperandModel, image: black_box(&image), tape: &[] };
                let _ = black_box(rig.step(&round));
            }
        },
    );
}
