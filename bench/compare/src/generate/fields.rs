//! Slots by their fields.

use std::sync::LazyLock;

use twin::image::SLOT_BYTES;
use twin::opcode::{Arithmetic, CALL, JUMP, Kind, Operand, kind_of};

use crate::random::Random;

pub const ADD_IMM: u8 = 0x07;
pub const MOVE_IMM: u8 = 0xb7;
pub const UNEQUAL_IMM: u8 = 0x55;
const EXIT: u8 = 0x95;

pub const SAVE: i32 = 1;
pub const READING: i32 = 2;
pub const RECORD: i32 = 3;

/// The fields of a slot, legal or not.
#[derive(Clone, Copy, Debug, Default)]
pub struct Fields {
    pub opcode: u8,
    pub dst: u8,
    pub src: u8,
    pub offset: i16,
    pub imm: i32,
}

impl Fields {
    pub fn call(imm: i32) -> Fields {
        Fields { opcode: CALL, imm, ..Fields::default() }
    }

    pub fn jump(offset: i16) -> Fields {
        Fields { opcode: JUMP, offset, ..Fields::default() }
    }

    pub fn exit() -> Fields {
        Fields { opcode: EXIT, ..Fields::default() }
    }

    pub fn bytes(self) -> [u8; SLOT_BYTES] {
        let [o0, o1] = self.offset.to_le_bytes();
        let [i0, i1, i2, i3] = self.imm.to_le_bytes();
        let registers = (self.dst & 15) | (self.src << 4);
        [self.opcode, registers, o0, o1, i0, i1, i2, i3]
    }
}

/// The legal opcodes, by what they need.
struct Opcodes {
    arithmetic: Vec<u8>,
    branches: Vec<u8>,
    loads: Vec<u8>,
    stores: Vec<u8>,
}

static OPCODES: LazyLock<Opcodes> = LazyLock::new(|| {
    let all = |wanted: fn(Kind) -> bool| {
        (0..=255).filter(|&opcode| kind_of(opcode).is_some_and(wanted)).collect()
    };
    Opcodes {
        arithmetic: all(|kind| matches!(kind, Kind::Arithmetic(..))),
        branches: all(|kind| matches!(kind, Kind::Branch(..))),
        loads: all(|kind| matches!(kind, Kind::Load(_))),
        stores: all(|kind| matches!(kind, Kind::StoreImm(_) | Kind::StoreRegister(_))),
    }
});

/// A legal instruction of arithmetic.
pub fn arithmetic(random: &mut Random) -> Fields {
    let opcode = random.pick(&OPCODES.arithmetic);
    let fields = Fields { opcode, dst: random.below(10) as u8, ..Fields::default() };
    match kind_of(opcode) {
        Some(Kind::Arithmetic(_, _, Arithmetic::Neg)) => fields,
        Some(Kind::Arithmetic(_, Operand::Register, _)) => {
            Fields { src: random.below(11) as u8, ..fields }
        }
        _ => Fields { imm: random.imm(), ..fields },
    }
}

/// A legal conditional jump, to the next slot.
pub fn branch(random: &mut Random) -> Fields {
    let opcode = random.pick(&OPCODES.branches);
    let fields = Fields { opcode, dst: random.below(11) as u8, ..Fields::default() };
    match kind_of(opcode) {
        Some(Kind::Branch(_, Operand::Register, _)) => {
            Fields { src: random.below(11) as u8, ..fields }
        }
        _ => Fields { imm: random.imm(), ..fields },
    }
}

/// A load or a store, mostly within memory by way of r10.
pub fn memory(random: &mut Random) -> Fields {
    let base = if random.percent(90) { 10 } else { random.below(11) as u8 };
    let offset = match random.below(16) {
        0 => random.pick(&[-513, -512, -9, -8, -7, -5, -4, -3, -2, -1, 0, 1]),
        1 => random.word() as i16,
        _ => random.within(-512..=-8) as i16,
    };
    if random.percent(50) {
        let opcode = random.pick(&OPCODES.loads);
        return Fields { opcode, dst: random.below(10) as u8, src: base, offset, imm: 0 };
    }
    let opcode = random.pick(&OPCODES.stores);
    match kind_of(opcode) {
        Some(Kind::StoreImm(_)) => Fields { opcode, dst: base, src: 0, offset, imm: random.imm() },
        _ => Fields { opcode, dst: base, src: random.below(11) as u8, offset, imm: 0 },
    }
}

/// A load into r10, which is read-only.
pub fn load_into_r10(random: &mut Random) -> Fields {
    Fields { opcode: random.pick(&OPCODES.loads), dst: 10, ..Fields::default() }
}
