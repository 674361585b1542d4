//! Long scripts, up to the last attempt and the last cut.

use crate::cases::given::Given;
use crate::cases::pair::Pair;
use crate::cases::rehearsing::script;
use crate::ffi::{Call, FLAT_PRICES, Prices};
use crate::mirror;
use crate::report::{Counts, Outcome};

/// The inputs of the first indices.
pub const INPUTS: [fn(&mut Counts) -> Outcome; 3] = [attempts, cuts, rehearsal];

const MOST: u32 = 1_000_000;

/// How many calls go by between two looks at the whole rig.
const LOOK: u32 = 1024;

/// A save and a jump back to it, which never end, on the mains.
fn endless() -> Given {
    let image = vec![0x85, 0, 0, 0, 1, 0, 0, 0, 0x05, 0, 0xfe, 0xff, 0, 0, 0, 0];
    let prices = Prices { kind: FLAT_PRICES, flat: [7; 257] };
    Given { image, prices, tape: vec![1, 2], supply: mirror::mains(), calls: Vec::new() }
}

fn attempts(counts: &mut Counts) -> Outcome {
    let given = endless();
    let Some(mut pair) = Pair::begin(&given)? else { return Ok(()) };
    for made in 0..MOST + 2 {
        pair.step(&mut Counts::default())?;
        if made % LOOK == 0 || made >= MOST - 1 {
            pair.alike("yatesorrel_rig_step, rig")?;
        }
    }
    counts.add("long", "every attempt of a rig");
    pair.cut(counts)?;
    pair.alike("yatesorrel_rig_cut, rig")
}

fn cuts(counts: &mut Counts) -> Outcome {
    let given = endless();
    let Some(mut pair) = Pair::begin(&given)? else { return Ok(()) };
    for made in 0..MOST + 2 {
        pair.cut(&mut Counts::default())?;
        if made % LOOK == 0 || made >= MOST - 1 {
            pair.alike("yatesorrel_rig_cut, rig")?;
        }
    }
    counts.add("long", "every cut of a rig");
    pair.step(counts)?;
    pair.alike("yatesorrel_rig_step, rig")
}

/// More steps than a rig attempts, with questions at the end.
fn rehearsal(counts: &mut Counts) -> Outcome {
    counts.add("long", "a script of every attempt");
    let mut given = endless();
    given.calls = vec![Call::default(); MOST as usize + 3];
    given.calls.extend((1..7).map(|kind| Call { kind, index: 0 }));
    script(&given, given.calls.len(), counts)
}
