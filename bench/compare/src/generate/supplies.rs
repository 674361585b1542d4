//! The numbers of supplies.

use crate::ffi;
use crate::random::Random;

/// The numbers of a capacitor at the edges of its limits, and outside.
pub fn ratings(random: &mut Random) -> [u32; 4] {
    let bottom = random.pick(&[0, 0, 1, 999, 2000, 9_998, 9_999, 10_000, u32::MAX]);
    let top = match random.below(4) {
        0 => random.pick(&[0, 1, 9_999, 10_000, 10_001, u32::MAX]),
        1 => bottom,
        _ => bottom.wrapping_add(1 + random.below(3000) as u32),
    };
    [
        random.pick(&[0, 1, 2, 16, 99_999, 100_000, 100_001, u32::MAX]),
        top,
        bottom,
        random.pick(&[0, 1, 2, 1000, 999_999, 1_000_000, 1_000_001, u32::MAX]),
    ]
}

/// A capacitor within its limits that holds about so many units when full.
pub fn capacitor_of(random: &mut Random, units: u64) -> [u32; 4] {
    let bottom = random.below(4000);
    let top = bottom + 1 + random.below(6000);
    let per_microfarad = top * top - bottom * bottom;
    let wanted = (units + random.below(4)).max(1);
    let microfarads = (2 * 1_000_000 * wanted / per_microfarad).clamp(1, 100_000);
    let microfarads = 1 + random.below(microfarads);
    let unit = (microfarads * per_microfarad / (2 * wanted)).clamp(1, 1_000_000);
    [microfarads as u32, top as u32, bottom as u32, unit as u32]
}

/// The numbers of a capacitor but for its capacity, at their edges.
pub fn voltages(random: &mut Random) -> [u32; 3] {
    let [_, top, bottom, unit] = ratings(random);
    [top, bottom, unit]
}

/// The same, of a capacitor that holds about so many units.
pub fn voltages_for(random: &mut Random, units: u64) -> [u32; 3] {
    let [_, top, bottom, unit] = capacitor_of(random, units);
    [top, bottom, unit]
}

/// Voltages and a unit at which a budget takes about the largest capacitor.
pub fn voltages_of_the_largest(random: &mut Random, budget: u64) -> [u32; 3] {
    let bottom = random.below(5000);
    let per_microfarad = 2 * bottom + 1;
    let unit = per_microfarad * 50_000 / budget + random.below(2);
    [bottom as u32 + 1, bottom as u32, unit.clamp(1, 1_000_000) as u32]
}

/// Makes a supply hold a number that no supply has.
pub fn spoil(random: &mut Random, supply: &mut ffi::Supply) {
    match random.below(7) {
        0 => supply.kind = random.pick(&[0, 3, u32::MAX]),
        1 => supply.microfarads = random.pick(&[100_001, u32::MAX]),
        2 => supply.top = random.pick(&[10_001, u32::MAX]),
        3 => supply.bottom = random.pick(&[10_000, u32::MAX]),
        4 => supply.unit = random.pick(&[1_000_001, u32::MAX]),
        5 => supply.energy = random.pick(&[10_000_000_000_001, u64::MAX]),
        _ => supply.kind = if supply.kind == ffi::CAPACITOR { 0 } else { ffi::CAPACITOR },
    }
}
