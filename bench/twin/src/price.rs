//! What instructions and savings spend.

use crate::opcode::{Arithmetic, Kind, kind_of};

/// A price model: two prices at most, and what is really spent.
pub trait PriceModel {
    /// The most that an instruction spends, whatever its operands.
    fn most(&self, opcode: u8, imm: i32) -> u32;
    /// What it spends at the operands `a` and `b`.
    fn spending(&self, opcode: u8, imm: i32, a: u64, b: u64) -> u32;
    /// The most that a saving spends.
    fn dearest(&self) -> u32;
    /// What a saving spends with so many pending records.
    fn saving(&self, pending: u64) -> u32;
}

/// A price for each opcode, and one for a saving.
#[derive(Clone, Debug, PartialEq, Eq)]
pub struct FlatModel {
    pub opcodes: [u16; 256],
    pub saving: u16,
}

/// Prices by class and operands.
#[derive(Clone, Copy, Debug, Default, PartialEq, Eq)]
pub struct OperandModel;

impl PriceModel for FlatModel {
    #[inline]
    fn most(&self, opcode: u8, _imm: i32) -> u32 {
        self.opcodes[usize::from(opcode)].into()
    }

    #[inline]
    fn spending(&self, opcode: u8, imm: i32, _a: u64, _b: u64) -> u32 {
        self.most(opcode, imm)
    }

    #[inline]
    fn dearest(&self) -> u32 {
        self.saving.into()
    }

    #[inline]
    fn saving(&self, _pending: u64) -> u32 {
        self.saving.into()
    }
}

const READING: i32 = 2;
const RECORD: i32 = 3;

#[inline]
fn class_price(opcode: u8) -> u32 {
    match opcode & 7 {
        1 => 3,
        2 | 3 => 4,
        7 => 2,
        _ => 1,
    }
}

impl PriceModel for OperandModel {
    #[inline]
    fn most(&self, opcode: u8, imm: i32) -> u32 {
        self.spending(opcode, imm, u64::MAX, u64::MAX)
    }

    #[inline]
    fn spending(&self, opcode: u8, imm: i32, a: u64, b: u64) -> u32 {
        let added = match kind_of(opcode) {
            Some(Kind::Arithmetic(_, _, Arithmetic::Div | Arithmetic::Mod)) => 6,
            Some(Kind::StoreImm(size) | Kind::StoreRegister(size)) => size.cut(b).count_ones(),
            Some(Kind::Call) if imm == READING => 60 + 10 * (a % 4) as u32,
            Some(Kind::Call) if imm == RECORD => 12,
            _ => 0,
        };
        class_price(opcode) + added
    }

    #[inline]
    fn dearest(&self) -> u32 {
        self.saving(u64::MAX)
    }

    #[inline]
    fn saving(&self, pending: u64) -> u32 {
        20 + 2 * pending.min(64) as u32
    }
}
