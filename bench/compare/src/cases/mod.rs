//! One input of a number: what is asked of both sides, and what must be alike.

mod given;
mod judging;
mod long;
mod making;
mod pair;
mod rehearsing;
mod rigs;
mod running;

pub use pair::NO_RIG;

use crate::random::Random;
use crate::report::{Counts, Outcome};

/// Makes the input of an index, and holds every answer about it together.
pub fn input(seed: u64, index: u64, counts: &mut Counts) -> Outcome {
    if let Some(long) = long::INPUTS.get(index as usize) {
        return long(counts);
    }
    let mut random = Random::of_input(seed, index);
    let case = random.weighted::<fn(&mut Random, &mut Counts) -> Outcome>(&[
        (14, judging::lawful),
        (24, judging::certify),
        (10, judging::place),
        (6, judging::headroom),
        (14, running::run),
        (14, running::single),
        (14, rigs::steps),
        (4, rehearsing::rehearse),
        (2, making::capacitors),
        (2, rigs::spoiled),
        (3, rigs::strange),
    ]);
    case(&mut random, counts)
}
