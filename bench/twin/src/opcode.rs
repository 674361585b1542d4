//! What an opcode byte means.

/// The width at which arithmetic and comparisons work.
#[derive(Clone, Copy, Debug, PartialEq, Eq)]
pub enum Width {
    Half,
    Full,
}

/// The second operand: `imm` (K) or the register `src` (X).
#[derive(Clone, Copy, Debug, PartialEq, Eq)]
pub enum Operand {
    Imm,
    Register,
}

#[derive(Clone, Copy, Debug, PartialEq, Eq)]
pub enum Arithmetic {
    Add,
    Sub,
    Mul,
    Div,
    Or,
    And,
    Lsh,
    Rsh,
    Neg,
    Mod,
    Xor,
    Mov,
    Arsh,
}

#[derive(Clone, Copy, Debug, PartialEq, Eq)]
pub enum Condition {
    Equal,
    Above,
    AboveOrEqual,
    AnyBit,
    NotEqual,
    Greater,
    GreaterOrEqual,
    Below,
    BelowOrEqual,
    Less,
    LessOrEqual,
}

/// The bytes that a load or a store moves.
#[derive(Clone, Copy, Debug, PartialEq, Eq)]
pub enum Size {
    One = 1,
    Two = 2,
    Four = 4,
    Eight = 8,
}

impl Size {
    #[inline]
    pub const fn bytes(self) -> usize {
        self as usize
    }

    /// The low bytes of a value, as many as are moved.
    #[inline]
    pub const fn cut(self, value: u64) -> u64 {
        value & (u64::MAX >> (64 - 8 * self.bytes()))
    }
}

/// The kind of a legal opcode.
#[derive(Clone, Copy, Debug, PartialEq, Eq)]
pub enum Kind {
    Arithmetic(Width, Operand, Arithmetic),
    Branch(Width, Operand, Condition),
    Jump,
    Call,
    Exit,
    Load(Size),
    StoreImm(Size),
    StoreRegister(Size),
}

/// An idle slot's opcode, JA.
pub const JUMP: u8 = 0x05;
/// A helper's opcode, CALL.
pub const CALL: u8 = 0x85;

const CLASS_LDX: u8 = 1;
const CLASS_ST: u8 = 2;
const CLASS_STX: u8 = 3;
const CLASS_ALU: u8 = 4;
const CLASS_JMP: u8 = 5;
const CLASS_JMP32: u8 = 6;
const CLASS_ALU64: u8 = 7;

/// A legal opcode: its kind, and the bits of a slot that it leaves unused.
#[derive(Clone, Copy, Debug)]
pub(crate) struct Legal {
    pub kind: Kind,
    pub unused: u64,
}

static LEGAL: [Option<Legal>; 256] = table();

/// What a legal opcode is, or none where it is illegal.
#[inline]
pub(crate) fn legal(opcode: u8) -> Option<&'static Legal> {
    LEGAL[usize::from(opcode)].as_ref()
}

/// The kind of an opcode, or none where it is illegal.
#[inline]
pub fn kind_of(opcode: u8) -> Option<Kind> {
    legal(opcode).map(|legal| legal.kind)
}

const fn table() -> [Option<Legal>; 256] {
    let mut table = [None; 256];
    let mut opcode = 0;
    while opcode < 256 {
        if let Some(kind) = classify(opcode as u8) {
            table[opcode] = Some(Legal { kind, unused: unused(kind) });
        }
        opcode += 1;
    }
    table
}

const DST: u64 = 0x0f00;
const SRC: u64 = 0xf000;
const OFFSET: u64 = 0xffff_0000;
const IMM: u64 = 0xffff_ffff_0000_0000;

/// The fields that an instruction does not use, as bits of its slot.
const fn unused(kind: Kind) -> u64 {
    match kind {
        Kind::Arithmetic(_, _, Arithmetic::Neg) => SRC | OFFSET | IMM,
        Kind::Arithmetic(_, Operand::Imm, _) => SRC | OFFSET,
        Kind::Arithmetic(_, Operand::Register, _) => OFFSET | IMM,
        Kind::Branch(_, Operand::Imm, _) | Kind::StoreImm(_) => SRC,
        Kind::Branch(_, Operand::Register, _) | Kind::Load(_) | Kind::StoreRegister(_) => IMM,
        Kind::Jump => DST | SRC | IMM,
        Kind::Call => DST | SRC | OFFSET,
        Kind::Exit => DST | SRC | OFFSET | IMM,
    }
}

const fn classify(opcode: u8) -> Option<Kind> {
    match opcode & 7 {
        CLASS_LDX => match size(opcode) {
            Some(size) => Some(Kind::Load(size)),
            None => None,
        },
        CLASS_ST => match size(opcode) {
            Some(size) => Some(Kind::StoreImm(size)),
            None => None,
        },
        CLASS_STX => match size(opcode) {
            Some(size) => Some(Kind::StoreRegister(size)),
            None => None,
        },
        CLASS_ALU => arithmetic(opcode, Width::Half),
        CLASS_ALU64 => arithmetic(opcode, Width::Full),
        CLASS_JMP => match opcode {
            JUMP => Some(Kind::Jump),
            CALL => Some(Kind::Call),
            0x95 => Some(Kind::Exit),
            _ => branch(opcode, Width::Full),
        },
        CLASS_JMP32 => branch(opcode, Width::Half),
        _ => None,
    }
}

const fn size(opcode: u8) -> Option<Size> {
    match opcode & 0xf8 {
        0x60 => Some(Size::Four),
        0x68 => Some(Size::Two),
        0x70 => Some(Size::One),
        0x78 => Some(Size::Eight),
        _ => None,
    }
}

const fn operand(opcode: u8) -> Operand {
    if opcode & 8 == 0 { Operand::Imm } else { Operand::Register }
}

const fn arithmetic(opcode: u8, width: Width) -> Option<Kind> {
    let operand = operand(opcode);
    let operation = match opcode >> 4 {
        0 => Arithmetic::Add,
        1 => Arithmetic::Sub,
        2 => Arithmetic::Mul,
        3 => Arithmetic::Div,
        4 => Arithmetic::Or,
        5 => Arithmetic::And,
        6 => Arithmetic::Lsh,
        7 => Arithmetic::Rsh,
        8 if matches!(operand, Operand::Imm) => Arithmetic::Neg,
        9 => Arithmetic::Mod,
        10 => Arithmetic::Xor,
        11 => Arithmetic::Mov,
        12 => Arithmetic::Arsh,
        _ => return None,
    };
    Some(Kind::Arithmetic(width, operand, operation))
}

const fn branch(opcode: u8, width: Width) -> Option<Kind> {
    let condition = match opcode >> 4 {
        1 => Condition::Equal,
        2 => Condition::Above,
        3 => Condition::AboveOrEqual,
        4 => Condition::AnyBit,
        5 => Condition::NotEqual,
        6 => Condition::Greater,
        7 => Condition::GreaterOrEqual,
        10 => Condition::Below,
        11 => Condition::BelowOrEqual,
        12 => Condition::Less,
        13 => Condition::LessOrEqual,
        _ => return None,
    };
    Some(Kind::Branch(width, operand(opcode), condition))
}
