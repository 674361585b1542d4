//! Runs a round without interruption.

use crate::image::{Instruction, slots};
use crate::opcode::{Arithmetic, Condition, Kind, Operand, Size, Width};

pub const MEMORY_BYTES: usize = 512;
pub const MOST_RECORDS: usize = 64;
pub const REGISTERS: usize = 11;

const SAVE: i32 = 1;
const READING: i32 = 2;

#[derive(Clone, Copy, Debug, Default, PartialEq, Eq)]
pub struct Record {
    pub sensor: u8,
    pub value: u64,
}

/// The records of a run, at most 64.
#[derive(Debug)]
pub struct Log {
    records: [Record; MOST_RECORDS],
    count: usize,
}

impl Log {
    /// A log with a count of its own: above 64 it is as full as at 64.
    pub fn of(records: [Record; MOST_RECORDS], count: usize) -> Log {
        Log { records, count }
    }

    pub fn records(&self) -> &[Record] {
        &self.records[..self.count.min(MOST_RECORDS)]
    }

    pub fn count(&self) -> usize {
        self.count
    }

    /// Appends a record, or gives it back where the log is full.
    fn push(&mut self, record: Record) -> Result<(), Record> {
        let free = self.records.get_mut(self.count).ok_or(record)?;
        *free = record;
        self.count += 1;
        Ok(())
    }
}

impl Default for Log {
    fn default() -> Log {
        Log { records: [Record::default(); MOST_RECORDS], count: 0 }
    }
}

impl Clone for Log {
    fn clone(&self) -> Log {
        Log { records: self.records, count: self.count }
    }

    fn clone_from(&mut self, source: &Log) {
        self.count = source.count;
        let records = source.records();
        self.records[..records.len()].copy_from_slice(records);
    }
}

impl PartialEq for Log {
    fn eq(&self, other: &Log) -> bool {
        self.count == other.count && self.records() == other.records()
    }
}

impl Eq for Log {}

#[derive(Clone, Copy, Debug, PartialEq, Eq)]
pub enum Trap {
    /// There is no legal instruction at the slot.
    NoInstruction = 1,
    /// An access outside memory.
    Memory = 2,
    /// *Next reading* with the tape finished.
    Tape = 3,
    /// *Record* with a full log.
    Log = 4,
}

#[derive(Clone, Copy, Debug, PartialEq, Eq)]
pub enum Ending {
    Exit,
    Trap(Trap),
}

/// What charge is spent on.
#[derive(Clone, Copy, Debug, PartialEq, Eq)]
pub struct Spent {
    pub opcode: u8,
    pub imm: i32,
    pub a: u64,
    pub b: u64,
}

/// What a step did.
#[derive(Clone, Copy, Debug, PartialEq, Eq)]
pub enum Effect {
    /// Nothing: the run had ended before.
    None,
    /// There was no instruction, and the run ended in trap 1.
    Missing,
    Save(Spent),
    End(Spent),
    Other(Spent),
}

/// The state of a round.
#[derive(Debug, PartialEq, Eq)]
pub struct State {
    /// Where the next instruction stands; a jump can lead past either end.
    pub slot: i64,
    pub registers: [u64; REGISTERS],
    pub memory: [u8; MEMORY_BYTES],
    /// How many readings were taken from the tape.
    pub place: usize,
    pub log: Log,
    pub ending: Option<Ending>,
}

impl Default for State {
    fn default() -> State {
        let mut registers = [0; REGISTERS];
        registers[10] = MEMORY_BYTES as u64;
        State {
            slot: 0,
            registers,
            memory: [0; MEMORY_BYTES],
            place: 0,
            log: Log::default(),
            ending: None,
        }
    }
}

impl Clone for State {
    fn clone(&self) -> State {
        State {
            slot: self.slot,
            registers: self.registers,
            memory: self.memory,
            place: self.place,
            log: self.log.clone(),
            ending: self.ending,
        }
    }

    fn clone_from(&mut self, source: &State) {
        self.slot = source.slot;
        self.registers = source.registers;
        self.memory = source.memory;
        self.place = source.place;
        self.log.clone_from(&source.log);
        self.ending = source.ending;
    }
}

impl State {
    /// Executes one instruction, where the run has not ended.
    #[inline]
    pub fn step(&mut self, image: &[u8], tape: &[u32]) -> Effect {
        if self.ending.is_some() {
            return Effect::None;
        }
        let Some(instruction) = fetch(image, self.slot) else {
            self.ending = Some(Ending::Trap(Trap::NoInstruction));
            return Effect::Missing;
        };
        let (a, b, went) = self.execute(&instruction, tape);
        let spent = Spent { opcode: instruction.opcode, imm: instruction.imm, a, b };
        match went {
            Ok(slot) => {
                self.slot = slot;
                if instruction.is_save() { Effect::Save(spent) } else { Effect::Other(spent) }
            }
            Err(ending) => {
                self.ending = Some(ending);
                Effect::End(spent)
            }
        }
    }

    /// Steps until the run ends, at most so many times, and answers how often.
    pub fn run_for(&mut self, image: &[u8], tape: &[u32], most: u64) -> u64 {
        let mut made = 0;
        while made < most && self.ending.is_none() {
            self.step(image, tape);
            made += 1;
        }
        made
    }

    /// Does what an instruction does. Answers the operands from before, and the
    /// slot to go on to, or the ending, which changes nothing.
    #[inline]
    fn execute(
        &mut self,
        instruction: &Instruction,
        tape: &[u32],
    ) -> (u64, u64, Result<i64, Ending>) {
        let next = self.slot + 1;
        let target = next + i64::from(instruction.offset);
        let dst = self.registers[usize::from(instruction.dst)];
        let src = self.registers[usize::from(instruction.src)];
        let imm = i64::from(instruction.imm) as u64;
        let at_offset = |base: u64| base.wrapping_add_signed(instruction.offset.into());
        let second = |operand| match operand {
            Operand::Imm => imm,
            Operand::Register => src,
        };
        match instruction.kind {
            Kind::Arithmetic(width, operand, operation) => {
                let b = if operation == Arithmetic::Neg { 0 } else { second(operand) };
                self.registers[usize::from(instruction.dst)] = apply(width, operation, dst, b);
                (dst, b, Ok(next))
            }
            Kind::Branch(width, operand, condition) => {
                let b = second(operand);
                (dst, b, Ok(if holds(width, condition, dst, b) { target } else { next }))
            }
            Kind::Jump => (0, 0, Ok(target)),
            Kind::Exit => (0, 0, Err(Ending::Exit)),
            Kind::Load(size) => {
                let loaded = load(&self.memory, at_offset(src), size);
                self.registers[usize::from(instruction.dst)] = loaded.unwrap_or(dst);
                (0, 0, loaded.map(|_| next).ok_or(MEMORY))
            }
            Kind::StoreImm(size) => self.store(at_offset(dst), size, imm, next),
            Kind::StoreRegister(size) => self.store(at_offset(dst), size, src, next),
            Kind::Call => {
                let [_, a, b, ..] = self.registers;
                (a, b, self.help(instruction.imm, tape).map(|()| next).map_err(Ending::Trap))
            }
        }
    }

    #[inline]
    fn store(
        &mut self,
        address: u64,
        size: Size,
        value: u64,
        next: i64,
    ) -> (u64, u64, Result<i64, Ending>) {
        let stored = store(&mut self.memory, address, size, value);
        (address, size.cut(value), stored.map(|()| next).ok_or(MEMORY))
    }

    fn help(&mut self, helper: i32, tape: &[u32]) -> Result<(), Trap> {
        match helper {
            SAVE => {}
            READING => {
                let &reading = tape.get(self.place).ok_or(Trap::Tape)?;
                self.place += 1;
                self.registers[0] = reading.into();
            }
            _ => {
                let record = Record { sensor: self.registers[1] as u8, value: self.registers[2] };
                self.log.push(record).map_err(|_| Trap::Log)?;
                self.registers[0] = 0;
            }
        }
        Ok(())
    }
}

const MEMORY: Ending = Ending::Trap(Trap::Memory);

#[inline]
fn fetch(image: &[u8], slot: i64) -> Option<Instruction> {
    let bytes = slots(image)?.get(usize::try_from(slot).ok()?)?;
    Instruction::decode(bytes).ok()
}

#[inline]
fn load(memory: &[u8; MEMORY_BYTES], address: u64, size: Size) -> Option<u64> {
    let bytes = memory.get(usize::try_from(address).ok()?..)?;
    Some(match size {
        Size::One => u8::from_le_bytes(*bytes.first_chunk()?).into(),
        Size::Two => u16::from_le_bytes(*bytes.first_chunk()?).into(),
        Size::Four => u32::from_le_bytes(*bytes.first_chunk()?).into(),
        Size::Eight => u64::from_le_bytes(*bytes.first_chunk()?),
    })
}

#[inline]
fn store(memory: &mut [u8; MEMORY_BYTES], address: u64, size: Size, value: u64) -> Option<()> {
    let bytes = memory.get_mut(usize::try_from(address).ok()?..)?;
    match size {
        Size::One => *bytes.first_chunk_mut()? = (value as u8).to_le_bytes(),
        Size::Two => *bytes.first_chunk_mut()? = (value as u16).to_le_bytes(),
        Size::Four => *bytes.first_chunk_mut()? = (value as u32).to_le_bytes(),
        Size::Eight => *bytes.first_chunk_mut()? = value.to_le_bytes(),
    }
    Some(())
}

#[inline]
fn apply(width: Width, operation: Arithmetic, a: u64, b: u64) -> u64 {
    match width {
        Width::Full => apply_full(operation, a, b),
        Width::Half => apply_half(operation, a as u32, b as u32).into(),
    }
}

#[inline]
fn holds(width: Width, condition: Condition, a: u64, b: u64) -> bool {
    match width {
        Width::Full => holds_full(condition, a, b),
        Width::Half => holds_half(condition, a as u32, b as u32),
    }
}

/// Arithmetic and comparisons at one width.
macro_rules! at_width {
    ($apply:ident, $holds:ident, $word:ty, $signed:ty) => {
        #[inline]
        fn $apply(operation: Arithmetic, a: $word, b: $word) -> $word {
            match operation {
                Arithmetic::Add => a.wrapping_add(b),
                Arithmetic::Sub => a.wrapping_sub(b),
                Arithmetic::Mul => a.wrapping_mul(b),
                Arithmetic::Div => a.checked_div(b).unwrap_or(0),
                Arithmetic::Or => a | b,
                Arithmetic::And => a & b,
                Arithmetic::Lsh => a.wrapping_shl(b as u32),
                Arithmetic::Rsh => a.wrapping_shr(b as u32),
                Arithmetic::Neg => a.wrapping_neg(),
                Arithmetic::Mod => a.checked_rem(b).unwrap_or(a),
                Arithmetic::Xor => a ^ b,
                Arithmetic::Mov => b,
                Arithmetic::Arsh => (a as $signed).wrapping_shr(b as u32) as $word,
            }
        }

        #[inline]
        fn $holds(condition: Condition, a: $word, b: $word) -> bool {
            let (signed_a, signed_b) = (a as $signed, b as $signed);
            match condition {
                Condition::Equal => a == b,
                Condition::Above => a > b,
                Condition::AboveOrEqual => a >= b,
                Condition::AnyBit => a & b != 0,
                Condition::NotEqual => a != b,
                Condition::Greater => signed_a > signed_b,
                Condition::GreaterOrEqual => signed_a >= signed_b,
                Condition::Below => a < b,
                Condition::BelowOrEqual => a <= b,
                Condition::Less => signed_a < signed_b,
                Condition::LessOrEqual => signed_a <= signed_b,
            }
        }
    };
}

at_width!(apply_full, holds_full, u64, i64);
at_width!(apply_half, holds_half, u32, i32);
