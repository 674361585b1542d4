//! Making supplies.

use std::fmt::{self, Display};

use crate::cases::pair::NO_RIG;
use crate::ffi;
use crate::generate::supplies;
use crate::mirror;
use crate::random::Random;
use crate::report::{Counts, Outcome, same};

/// The numbers that a supply is made of.
struct Numbers([u32; 4]);

impl Display for Numbers {
    fn fmt(&self, f: &mut fmt::Formatter<'_>) -> fmt::Result {
        write!(f, "microfarads, top, bottom, unit: {:?}", self.0)
    }
}

pub fn capacitors(random: &mut Random, counts: &mut Counts) -> Outcome {
    for _ in 0..20 {
        let numbers = match random.below(8) {
            0 => [0; 4].map(|_| random.word() as u32),
            1 => supplies::capacitor_of(random, 100),
            _ => supplies::ratings(random),
        };
        let (mut supply, mut twin) = (NO_RIG.supply, NO_RIG.supply);
        let library = ffi::capacitor(numbers, &mut supply);
        counts.refusal("supply", library.number);
        let told = mirror::capacitor(numbers, &mut twin);
        same("yatesorrel_capacitor", &library, &told, &Numbers(numbers))?;
        same("yatesorrel_capacitor, supply", &supply, &twin, &Numbers(numbers))?;
        ffi::mains(&mut supply);
        same("yatesorrel_mains", &supply, &mirror::mains(), &Numbers(numbers))?;
    }
    Ok(())
}
