//! A small generator of numbers (SplitMix64): the same seed and index give the
//! same input on every machine.

use std::ops::RangeInclusive;

pub struct Random(u64);

const STEP: u64 = 0x9e37_79b9_7f4a_7c15;

impl Random {
    /// The numbers of the input of an index.
    pub fn of_input(seed: u64, index: u64) -> Random {
        let mut random = Random(seed ^ index.wrapping_mul(STEP));
        Random(random.word() ^ index)
    }

    pub fn word(&mut self) -> u64 {
        self.0 = self.0.wrapping_add(STEP);
        let mut mixed = self.0;
        mixed = (mixed ^ (mixed >> 30)).wrapping_mul(0xbf58_476d_1ce4_e5b9);
        mixed = (mixed ^ (mixed >> 27)).wrapping_mul(0x94d0_49bb_1331_11eb);
        mixed ^ (mixed >> 31)
    }

    /// A number below a bound that is not 0.
    pub fn below(&mut self, bound: u64) -> u64 {
        ((u128::from(self.word()) * u128::from(bound)) >> 64) as u64
    }

    pub fn index(&mut self, count: usize) -> usize {
        self.below(count as u64) as usize
    }

    /// A number of a range that does not hold every one.
    pub fn within(&mut self, range: RangeInclusive<i64>) -> i64 {
        let count = range.end().abs_diff(*range.start()) + 1;
        range.start().wrapping_add_unsigned(self.below(count))
    }

    /// True so many times in a hundred.
    pub fn percent(&mut self, percent: u64) -> bool {
        self.below(100) < percent
    }

    pub fn pick<T: Copy>(&mut self, of: &[T]) -> T {
        of[self.index(of.len())]
    }

    /// One of some alternatives, by weights that are not all 0.
    pub fn weighted<T: Copy>(&mut self, of: &[(u64, T)]) -> T {
        let mut left = self.below(of.iter().map(|(weight, _)| weight).sum());
        for &(weight, alternative) in of {
            match left.checked_sub(weight) {
                Some(rest) => left = rest,
                None => return alternative,
            }
        }
        of[of.len() - 1].1
    }

    /// A word near the edges as often as anywhere.
    pub fn edge(&mut self) -> u64 {
        let near = |random: &mut Random, edge: u64| edge.wrapping_add_signed(random.within(-3..=3));
        match self.below(6) {
            0 => self.below(64),
            1 => self.word(),
            2 => near(self, 0),
            3 => {
                let bit = self.below(64);
                near(self, 1 << bit)
            }
            4 => near(self, 1 << 63),
            _ => near(self, 512),
        }
    }

    /// An imm near the edges as often as anywhere.
    pub fn imm(&mut self) -> i32 {
        match self.below(5) {
            0 => self.within(-4..=70) as i32,
            1 => self.word() as i32,
            2 => self.pick(&[i32::MIN, i32::MIN + 1, -1, 0, 1, i32::MAX]),
            3 => self.within(0..=600) as i32,
            _ => self.edge() as i32,
        }
    }
}
