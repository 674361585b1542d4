//! Rigs, call by call.

use crate::cases::given::Given;
use crate::cases::pair::{NO_RIG, Pair, Spoiled};
use crate::ffi::{self, Counts as CCounts, KeptRecord};
use crate::generate::{numbers, scripts, supplies};
use crate::mirror;
use crate::random::Random;
use crate::report::{Counts, Outcome, same};

/// How many calls are still made once no step can be made.
const AFTER_THE_END: u32 = 4;

pub fn steps(random: &mut Random, counts: &mut Counts) -> Outcome {
    let mut given = Given::any(random);
    if random.percent(2) {
        given.prices.kind = random.pick(&[2, u32::MAX]);
    }
    if random.percent(2) {
        supplies::spoil(random, &mut given.supply);
    }
    let cuts = random.pick(&[0, 0, 2, 10]);
    let most = random.pick(&[20, 60, 200, 600]);
    given.calls = (0..random.below(most)).map(|_| scripts::call(random, cuts)).collect();
    let Some(mut pair) = Pair::begin(&given)? else { return Ok(()) };
    if random.percent(10) {
        pair.near_the_end(random);
    }
    let mut after = 0;
    for &call in &given.calls {
        pair.call(call, counts)?;
        after += u32::from(pair.is_over());
        if after > AFTER_THE_END {
            break;
        }
    }
    counts.add("rig", pair.course());
    Ok(())
}

/// Rigs in which numbers stand that no rig has: each call refuses them.
pub fn spoiled(random: &mut Random, counts: &mut Counts) -> Outcome {
    let given = Given::any(random);
    let Some(mut pair) = Pair::begin(&given)? else { return Ok(()) };
    for _ in 0..random.below(20) {
        pair.step(counts)?;
    }
    let rig = &mut pair.rig;
    match random.below(6) {
        0 => rig.state.ending = random.pick(&[6, 255]),
        1 => rig.kept.ending = random.pick(&[6, 255]),
        2 => rig.saves = random.pick(&[rig.attempts + 1, u32::MAX]),
        _ => supplies::spoil(random, &mut rig.supply),
    }
    match mirror::rig_of(rig) {
        None => all_refuse(rig, &given, counts),
        Some(twin) => pair.go_on(random, twin, counts),
    }
}

/// Rigs of numbers that no calls lead to, but that are a rig's.
pub fn strange(random: &mut Random, counts: &mut Counts) -> Outcome {
    let given = Given::any(random);
    let Some(mut pair) = Pair::begin(&given)? else { return Ok(()) };
    let rig = &mut pair.rig;
    for state in [&mut rig.state, &mut rig.kept] {
        if random.percent(70) {
            *state = numbers::state(random);
        }
    }
    rig.before = random.edge();
    rig.attempts = random.pick(&[0, 7, 999_999, 1_000_000, 1_000_001, u32::MAX]);
    rig.cuts = random.pick(&[0, 7, 999_999, 1_000_000, 1_000_001, u32::MAX]);
    rig.saves = random.pick(&[0, 7, 999_999, u32::MAX]).min(rig.attempts);
    match mirror::rig_of(rig) {
        None => all_refuse(rig, &given, counts),
        Some(twin) => {
            counts.add("rig", "of numbers that no calls lead to");
            pair.go_on(random, twin, counts)
        }
    }
}

fn all_refuse(rig: &mut ffi::Rig, given: &Given, counts: &mut Counts) -> Outcome {
    let before = *rig;
    let input = &Spoiled(given, before);
    let refusal = mirror::refused(ffi::NOT_BEGUN);
    counts.refusal("rig step", ffi::NOT_BEGUN);
    let attempt = ffi::rig_step(rig, &given.prices, &given.image, &given.tape);
    let nothing = ffi::Attempt { refusal, ..ffi::Attempt::default() };
    same("yatesorrel_rig_step, of no rig", &attempt, &nothing, input)?;
    same("yatesorrel_rig_cut, of no rig", &ffi::rig_cut(rig), &refusal, input)?;
    let counted = CCounts { refusal, ..CCounts::default() };
    same("yatesorrel_rig_counts, of no rig", &ffi::rig_counts(rig), &counted, input)?;
    let record = KeptRecord { refusal, ..KeptRecord::default() };
    same("yatesorrel_rig_record, of no rig", &ffi::rig_record(rig, 0), &record, input)?;
    let mut state = NO_RIG.state;
    same("yatesorrel_rig_kept, of no rig", &ffi::rig_kept(rig, &mut state), &refusal, input)?;
    same("yatesorrel_rig_kept, of no rig, state", &state, &NO_RIG.state, input)?;
    same("calls of no rig, rig", rig, &before, input)
}
