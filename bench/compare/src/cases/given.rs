//! A round and a supply, as a rig is given them.

use std::fmt::{self, Display};

use crate::ffi::{self, Call, Prices, Supply};
use crate::generate::{hostile, lawful, numbers, supplies};
use crate::mirror;
use crate::random::Random;
use crate::report::Hex;

/// What a rig is given: a round and a supply.
pub struct Given {
    pub image: Vec<u8>,
    pub prices: Prices,
    pub tape: Vec<u32>,
    pub supply: Supply,
    pub calls: Vec<Call>,
}

impl Display for Given {
    fn fmt(&self, f: &mut fmt::Formatter<'_>) -> fmt::Result {
        writeln!(f, "image: {}", Hex(&self.image))?;
        writeln!(f, "prices: {:?}", self.prices)?;
        writeln!(f, "tape: {:?}", self.tape)?;
        writeln!(f, "supply: {:?}", self.supply)?;
        write!(f, "calls:")?;
        self.calls.iter().try_for_each(|call| write!(f, " {}:{}", call.kind, call.index))
    }
}

impl Given {
    /// A round of any kind, on a supply of about its least budget.
    pub fn any(random: &mut Random) -> Given {
        let image = match random.below(12) {
            0 => hostile::hostile(random),
            1 => hostile::falling(random),
            2 => lawful::recording(random),
            _ => lawful::any_idling(random),
        };
        let mut given = Given {
            image,
            prices: numbers::good_prices(random),
            tape: numbers::tape(random),
            supply: mirror::mains(),
            calls: Vec::new(),
        };
        let units = given.units(random);
        if random.percent(85) {
            mirror::capacitor(supplies::capacitor_of(random, units), &mut given.supply);
        }
        if random.percent(30) {
            use_up(random, &mut given.supply);
        }
        given
    }

    /// The units that a capacitor should hold: mostly what the round needs, with
    /// saves placed in it half of the time.
    fn units(&mut self, random: &mut Random) -> u64 {
        let mut working = [ffi::Worth::default(); 1024];
        let mut least =
            |image: &[u8]| mirror::least_budget(image, &self.prices, &mut working).budget.max(20);
        match random.below(8) {
            0 => least(&self.image) / 2,
            1 => random.below(2 * least(&self.image)),
            2 | 3 => least(&self.image),
            _ => {
                let budget = least(&lawful::turned(&self.image)) + random.pick(&[0, 1, 40]);
                mirror::place(&mut self.image, &self.prices, budget, &mut working);
                budget
            }
        }
    }

    pub fn round(&self) -> ffi::Round<'_> {
        ffi::Round { prices: &self.prices, image: &self.image, tape: &self.tape }
    }
}

/// Makes a supply one that was used before.
fn use_up(random: &mut Random, supply: &mut Supply) {
    supply.asked = random.edge();
    supply.charges = random.pick(&[1, 5, u64::MAX - 1, u64::MAX]);
    if supply.kind == ffi::CAPACITOR {
        let [microfarads, top] = [supply.microfarads, supply.top].map(u64::from);
        supply.energy += random.below(microfarads * top * top - supply.energy + 1);
    }
}
