//! What a round draws its charge from.

use crate::refusal::Refusal;

/// A supply of charge that may say no.
pub trait Supply {
    fn recharge(&mut self);
    /// Asks for some units, and answers whether they were there.
    fn draw(&mut self, units: u32) -> bool;
    /// The charge that a recharge assures.
    fn budget(&self) -> u64;
    /// The charge that is certain to be there.
    fn assured(&self) -> u64;
    /// All units asked for so far, modulo 2^64.
    fn asked(&self) -> u64;
    /// How often it was recharged, modulo 2^64.
    fn charges(&self) -> u64;
}

/// The numbers of a capacitor, within their limits.
#[derive(Clone, Copy, Debug, PartialEq, Eq)]
pub struct Ratings {
    microfarads: u64,
    top: u64,
    bottom: u64,
    unit: u64,
}

impl Ratings {
    /// Microfarads, top, bottom and unit.
    pub fn numbers(&self) -> [u64; 4] {
        [self.microfarads, self.top, self.bottom, self.unit]
    }

    /// Microfarads, top and bottom in millivolts, and a unit in picojoules.
    pub fn new(microfarads: u64, top: u64, bottom: u64, unit: u64) -> Result<Ratings, Refusal> {
        let within = (1..=100_000).contains(&microfarads)
            && top <= 10_000
            && bottom < top
            && (1..=1_000_000).contains(&unit);
        if within {
            Ok(Ratings { microfarads, top, bottom, unit })
        } else {
            Err(Refusal::SupplyNumbers)
        }
    }

    /// The energy at a voltage, doubled, in picojoules.
    fn energy_at(&self, millivolts: u64) -> u64 {
        self.microfarads * millivolts * millivolts
    }

    fn floor(&self) -> u64 {
        self.energy_at(self.bottom)
    }

    /// The units between an energy and the bottom.
    fn units_above_floor(&self, energy: u64) -> u64 {
        (energy - self.floor()) / (2 * self.unit)
    }
}

#[derive(Clone, Debug, PartialEq, Eq)]
pub struct Capacitor {
    ratings: Ratings,
    /// Twice the energy in picojoules.
    energy: u64,
    asked: u64,
    charges: u64,
}

impl Capacitor {
    pub fn new(microfarads: u64, top: u64, bottom: u64, unit: u64) -> Result<Capacitor, Refusal> {
        Ratings::new(microfarads, top, bottom, unit).map(Capacitor::at_bottom)
    }

    pub fn at_bottom(ratings: Ratings) -> Capacitor {
        Capacitor { ratings, energy: ratings.floor(), asked: 0, charges: 0 }
    }

    /// A used capacitor, or none where it could not hold that energy.
    pub fn used(ratings: Ratings, energy: u64, asked: u64, charges: u64) -> Option<Capacitor> {
        let held = ratings.floor()..=ratings.energy_at(ratings.top);
        held.contains(&energy).then_some(Capacitor { ratings, energy, asked, charges })
    }

    pub fn ratings(&self) -> Ratings {
        self.ratings
    }

    /// Twice the energy in picojoules.
    pub fn energy(&self) -> u64 {
        self.energy
    }
}

impl Supply for Capacitor {
    fn recharge(&mut self) {
        self.energy = self.ratings.energy_at(self.ratings.top);
        self.charges = self.charges.wrapping_add(1);
    }

    #[inline]
    fn draw(&mut self, units: u32) -> bool {
        self.asked = self.asked.wrapping_add(units.into());
        let floor = self.ratings.floor();
        let taken = 2 * u64::from(units) * self.ratings.unit;
        let enough = floor + taken <= self.energy;
        self.energy = if enough { self.energy - taken } else { floor };
        enough
    }

    fn budget(&self) -> u64 {
        self.ratings.units_above_floor(self.ratings.energy_at(self.ratings.top))
    }

    fn assured(&self) -> u64 {
        self.ratings.units_above_floor(self.energy)
    }

    fn asked(&self) -> u64 {
        self.asked
    }

    fn charges(&self) -> u64 {
        self.charges
    }
}

/// Always answers yes.
#[derive(Clone, Debug, Default, PartialEq, Eq)]
pub struct Mains {
    pub asked: u64,
    pub charges: u64,
}

impl Supply for Mains {
    fn recharge(&mut self) {
        self.charges = self.charges.wrapping_add(1);
    }

    #[inline]
    fn draw(&mut self, units: u32) -> bool {
        self.asked = self.asked.wrapping_add(units.into());
        true
    }

    fn budget(&self) -> u64 {
        100_000_000
    }

    fn assured(&self) -> u64 {
        u32::MAX.into()
    }

    fn asked(&self) -> u64 {
        self.asked
    }

    fn charges(&self) -> u64 {
        self.charges
    }
}
