//! Slots, the rules on them, and lawful images.

use std::ops::RangeInclusive;

use crate::opcode::{CALL, JUMP, Kind, Legal, legal};
use crate::refusal::Refusal;

/// The bytes of a slot.
pub const SLOT_BYTES: usize = 8;
/// The most slots of an image.
pub const MOST_SLOTS: usize = 1024;
/// The helper that keeps the state.
pub const SAVE: i32 = 1;

/// The eight bytes of a save.
pub const SAVE_BYTES: [u8; SLOT_BYTES] = [CALL, 0, 0, 0, 1, 0, 0, 0];
/// The eight bytes of an idle slot.
pub const IDLE_BYTES: [u8; SLOT_BYTES] = [JUMP, 0, 0, 0, 0, 0, 0, 0];

const HIGHEST_REGISTER: u8 = 10;
const FRAME_POINTER: u8 = 10;
const HELPERS: RangeInclusive<i32> = 1..=3;

/// The rules 2 to 6 on a slot.
#[derive(Clone, Copy, Debug, PartialEq, Eq)]
pub enum Rule {
    Opcode,
    Registers,
    Zeros,
    FramePointer,
    Helper,
}

impl Rule {
    fn broken_at(self, slot: u16) -> Refusal {
        match self {
            Rule::Opcode => Refusal::IllegalOpcode { slot },
            Rule::Registers => Refusal::NoRegister { slot },
            Rule::Zeros => Refusal::FieldNotZero { slot },
            Rule::FramePointer => Refusal::FramePointer { slot },
            Rule::Helper => Refusal::NoHelper { slot },
        }
    }
}

/// A legal instruction.
#[derive(Clone, Copy, Debug, PartialEq, Eq)]
pub struct Instruction {
    pub kind: Kind,
    pub opcode: u8,
    pub dst: u8,
    pub src: u8,
    pub offset: i16,
    pub imm: i32,
}

impl Instruction {
    /// The instruction that eight bytes say, or the first rule that they break.
    #[inline]
    pub fn decode(bytes: &[u8; SLOT_BYTES]) -> Result<Instruction, Rule> {
        let [opcode, registers, o0, o1, i0, i1, i2, i3] = *bytes;
        let &Legal { kind, unused } = legal(opcode).ok_or(Rule::Opcode)?;
        let (dst, src) = (registers & 15, registers >> 4);
        if dst > HIGHEST_REGISTER || src > HIGHEST_REGISTER {
            return Err(Rule::Registers);
        }
        if u64::from_le_bytes(*bytes) & unused != 0 {
            return Err(Rule::Zeros);
        }
        let imm = i32::from_le_bytes([i0, i1, i2, i3]);
        match kind {
            Kind::Arithmetic(..) | Kind::Load(_) if dst == FRAME_POINTER => {
                return Err(Rule::FramePointer);
            }
            Kind::Call if !HELPERS.contains(&imm) => return Err(Rule::Helper),
            _ => {}
        }
        Ok(Instruction { kind, opcode, dst, src, offset: i16::from_le_bytes([o0, o1]), imm })
    }

    pub fn is_save(&self) -> bool {
        self.kind == Kind::Call && self.imm == SAVE
    }

    pub fn is_idle(&self) -> bool {
        self.kind == Kind::Jump && self.offset == 0
    }

    /// The ways out of the instruction at a slot: the next slot, and the target
    /// of a jump, which may lie before slot 0.
    #[inline]
    pub fn ways_out(&self, slot: usize) -> (Option<isize>, Option<isize>) {
        let next = slot as isize + 1;
        let target = next + isize::from(self.offset);
        match self.kind {
            Kind::Branch(..) => (Some(next), Some(target)),
            Kind::Jump => (None, Some(target)),
            Kind::Exit => (None, None),
            _ => (Some(next), None),
        }
    }
}

/// The slots of an image, or none where its length is bad.
#[inline]
pub fn slots(image: &[u8]) -> Option<&[[u8; SLOT_BYTES]]> {
    match image.as_chunks() {
        (slots, []) if (1..=MOST_SLOTS).contains(&slots.len()) => Some(slots),
        _ => None,
    }
}

/// The instructions of a lawful image, or the first rule that it breaks.
pub(crate) fn instructions(image: &[u8]) -> Result<Vec<Instruction>, Refusal> {
    let slots = slots(image).ok_or(Refusal::Length)?;
    let mut instructions = Vec::with_capacity(slots.len());
    for (bytes, slot) in slots.iter().zip(0..) {
        instructions.push(Instruction::decode(bytes).map_err(|rule| rule.broken_at(slot))?);
    }
    let stays = |way: isize| way.cast_unsigned() < slots.len();
    for (slot, instruction) in instructions.iter().enumerate() {
        let (next, target) = instruction.ways_out(slot);
        if !(next.is_none_or(stays) && target.is_none_or(stays)) {
            return Err(Refusal::WayOut { slot: slot as u16 });
        }
    }
    Ok(instructions)
}

/// Whether an image keeps every rule, or else the first that it breaks.
pub fn lawful(image: &[u8]) -> Result<(), Refusal> {
    instructions(image).map(|_| ())
}
