//! Prices, budgets, working lists, tapes and states.

use crate::ffi::{FLAT_PRICES, MOST_RECORDS, OPERAND_PRICES, Prices, Record, State, Worth};
use crate::random::Random;

/// The operand model or a flat list; sometimes of no kind.
pub fn prices(random: &mut Random) -> Prices {
    let kind = random.weighted(&[(55, OPERAND_PRICES), (43, FLAT_PRICES), (1, 2), (1, u32::MAX)]);
    Prices { kind, flat: flat(random) }
}

/// Prices of one of the two kinds.
pub fn good_prices(random: &mut Random) -> Prices {
    Prices { kind: random.pick(&[OPERAND_PRICES, FLAT_PRICES]), flat: flat(random) }
}

fn flat(random: &mut Random) -> [u16; 257] {
    let most: u64 = random.pick(&[0, 1, 12, 12, 300, 65535]);
    let filler = random.below(most + 1) as u16;
    let spread = random.percent(80);
    let mut flat = [filler; 257];
    for price in &mut flat {
        if spread {
            *price = random.below(most + 1) as u16;
        }
    }
    if random.percent(10) {
        flat.fill(u16::MAX);
    }
    flat
}

/// A budget: near a price that matters, or at an edge.
pub fn budget(random: &mut Random, price: u64) -> u64 {
    match random.below(20) {
        0 => random.pick(&[0, 1, 2, 99_999_999, 100_000_000, 100_000_001, u64::MAX, 1 << 32]),
        1 => random.below(price.saturating_mul(2).saturating_add(2)),
        2 => random.below(1_000),
        3 => 100_000_000,
        4 => price / 2,
        5..=8 => price.saturating_sub(1 + random.below(4)),
        _ => price.saturating_add(random.below(3)),
    }
}

/// A working list full of anything: mostly long enough.
pub fn working(random: &mut Random) -> Vec<Worth> {
    let entries = match random.below(24) {
        0 => random.index(1024),
        1 => random.pick(&[0, 1, 1023]),
        2 => 1025 + random.index(100),
        _ => 1024,
    };
    let filler = random.word();
    let entry =
        |at: u64| Worth { price: filler ^ at, slot: (filler as u16).wrapping_mul(at as u16) };
    (0..entries as u64).map(entry).collect()
}

pub fn tape(random: &mut Random) -> Vec<u32> {
    let most = random.pick(&[1, 4, 4, 70, 300]);
    let readings = random.index(most);
    (0..readings).map(|_| random.edge() as u32).collect()
}

/// A state with any numbers that a state may have.
pub fn state(random: &mut Random) -> State {
    let mut state = State::ZERO;
    state.slot = match random.below(12) {
        0 => random.pick(&[-1, 1, 2, i32::MIN, i32::MAX, 1 << 29]),
        _ => 0,
    };
    state.ending = match random.below(20) {
        0 => 1 + random.below(5) as u8,
        _ => 0,
    };
    for register in &mut state.registers {
        *register = random.edge();
    }
    for byte in &mut state.memory {
        *byte = random.word() as u8;
    }
    state.place = random.pick(&[0, 0, 0, 1, 3, 69, usize::MAX]);
    state.logged = random.pick(&[0, 0, 1, 2, 63, 64, 65, usize::MAX]);
    for record in &mut state.log[..MOST_RECORDS] {
        *record = Record { sensor: random.word() as u8, value: random.edge() };
    }
    state
}
