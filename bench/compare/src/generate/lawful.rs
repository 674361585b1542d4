//! Lawful images of every shape.

use std::ops::Range;

use twin::image::{Instruction, MOST_SLOTS, SAVE_BYTES, SLOT_BYTES};
use twin::opcode::JUMP;

use crate::generate::fields::{
    ADD_IMM, Fields, MOVE_IMM, READING, RECORD, SAVE, UNEQUAL_IMM, arithmetic, branch, memory,
};
use crate::random::Random;

/// The register that counts rounds of a loop.
const COUNTER: u8 = 6;

#[derive(Clone, Copy)]
enum Sort {
    Arithmetic,
    Branch,
    Jump,
    Idle,
    Save,
    Reading,
    Record,
    Memory,
    Exit,
}

/// Where the weight of idle slots stands in a style.
const IDLE: usize = 3;

/// How an image is made: what stands in it how often, and how jumps go.
struct Style {
    weights: [(u64, Sort); 9],
    /// How many jumps in a hundred go back.
    back: u64,
    /// How many of those get a save where they go.
    saved: u64,
    /// How far a jump goes at most.
    far: u64,
}

impl Style {
    fn any(random: &mut Random) -> Style {
        let mut weight = |of: &[u64]| random.pick(of);
        let weights = [
            (weight(&[2, 6, 12]), Sort::Arithmetic),
            (weight(&[0, 1, 3, 6]), Sort::Branch),
            (weight(&[0, 0, 1, 3]), Sort::Jump),
            (weight(&[0, 1, 3, 8]), Sort::Idle),
            (weight(&[0, 0, 1, 2]), Sort::Save),
            (weight(&[0, 1, 2]), Sort::Reading),
            (weight(&[0, 1, 2, 4]), Sort::Record),
            (weight(&[0, 2, 4]), Sort::Memory),
            (weight(&[0, 0, 0, 1]), Sort::Exit),
        ];
        Style {
            weights,
            back: random.pick(&[0, 0, 0, 3, 15, 50]),
            saved: random.pick(&[0, 60, 100, 100]),
            far: random.pick(&[3, 10, 1024]),
        }
    }
}

/// How many slots: mostly few, sometimes the most.
pub fn size(random: &mut Random) -> usize {
    let most = random.weighted(&[(30, 8), (40, 24), (22, 64), (6, 160), (1, MOST_SLOTS as u64)]);
    if most == MOST_SLOTS as u64 && random.percent(20) {
        return MOST_SLOTS;
    }
    1 + random.index(most as usize)
}

/// The rounds in `examples/`, as clang compiled them.
const COMPILED: [&[u8]; 3] = [
    include_bytes!("../../../../examples/piezometer_pair.bin"),
    include_bytes!("../../../../examples/vnotch_weir.bin"),
    include_bytes!("../../../../examples/eight_channel_scan.bin"),
];

/// A lawful image of any size and shape, or a compiled round.
pub fn any_lawful(random: &mut Random) -> Vec<u8> {
    if random.percent(2) {
        return random.pick(&COMPILED).to_vec();
    }
    let count = size(random);
    lawful(random, count)
}

/// A lawful image of any size in which idle slots are frequent, or a compiled
/// round.
pub fn any_idling(random: &mut Random) -> Vec<u8> {
    if random.percent(4) {
        return random.pick(&COMPILED).to_vec();
    }
    let count = size(random);
    idling(random, count)
}

/// A lawful image of so many slots, in one of several shapes.
pub fn lawful(random: &mut Random, count: usize) -> Vec<u8> {
    let style = Style::any(random);
    shaped(random, &style, count)
}

/// A lawful image in which idle slots are frequent.
fn idling(random: &mut Random, count: usize) -> Vec<u8> {
    let mut style = Style::any(random);
    style.weights[IDLE].0 = random.pick(&[2, 6, 20]);
    shaped(random, &style, count)
}

/// A lawful image that records until its log is full, mostly.
pub fn recording(random: &mut Random) -> Vec<u8> {
    let count = 8 + random.index(20);
    let style = Style::any(random);
    let times = random.pick(&[62, 63, 64, 65, 66, 200]);
    let mut slots = counted_loop(random, &style, count, times);
    slots[2] = Fields::call(RECORD);
    slots.into_iter().flat_map(Fields::bytes).collect()
}

fn shaped(random: &mut Random, style: &Style, count: usize) -> Vec<u8> {
    let slots = match random.below(4) {
        0 if count >= 6 => {
            let times = random.pick(&[1, 2, 3, 7, 30, 100]);
            counted_loop(random, style, count, times)
        }
        _ => open(random, style, count),
    };
    slots.into_iter().flat_map(Fields::bytes).collect()
}

/// Slots that may jump anywhere among themselves; sometimes the first jumps over
/// some, which may then not be reachable.
fn open(random: &mut Random, style: &Style, count: usize) -> Vec<Fields> {
    let mut slots = vec![Fields::exit(); count];
    let last = count - 1;
    fill(random, style, &mut slots, 0..last, 0..count);
    if random.percent(15) && count > 1 {
        slots[last] = Fields::jump(-1 - random.index(count) as i16);
    }
    if random.percent(10) && count > 1 {
        slots[0] = Fields::jump(random.index(last) as i16);
    }
    slots
}

/// Slots that go round a number of times and then exit.
fn counted_loop(random: &mut Random, style: &Style, count: usize, times: i32) -> Vec<Fields> {
    let mut slots = vec![Fields::exit(); count];
    let tail = count - 3;
    slots[0] = Fields { opcode: MOVE_IMM, dst: COUNTER, imm: times, ..Fields::default() };
    fill(random, style, &mut slots, 1..tail, 1..tail + 1);
    for slot in &mut slots[1..tail] {
        if slot.dst == COUNTER && slot.opcode != JUMP {
            slot.dst = 7;
        }
    }
    if random.percent(60) && tail > 1 {
        slots[1] = Fields::call(SAVE);
    }
    slots[tail] = Fields { opcode: ADD_IMM, dst: COUNTER, imm: -1, ..Fields::default() };
    slots[tail + 1] =
        Fields { opcode: UNEQUAL_IMM, dst: COUNTER, offset: -1 - tail as i16, ..Fields::default() };
    slots
}

/// Fills some slots; their jumps lead to the targets, and the slot after each
/// of them is a target too.
fn fill(
    random: &mut Random,
    style: &Style,
    slots: &mut [Fields],
    filled: Range<usize>,
    targets: Range<usize>,
) {
    for at in filled {
        let sort = random.weighted(&style.weights);
        slots[at] = fields(random, style, sort, at, &targets);
        let to = at as i64 + 1 + i64::from(slots[at].offset);
        let jumps = matches!(sort, Sort::Jump | Sort::Branch);
        if jumps && to < at as i64 && random.percent(style.saved) {
            slots[to as usize] = Fields::call(SAVE);
        }
    }
}

fn fields(
    random: &mut Random,
    style: &Style,
    sort: Sort,
    at: usize,
    targets: &Range<usize>,
) -> Fields {
    match sort {
        Sort::Arithmetic => arithmetic(random),
        Sort::Branch => Fields { offset: way(random, style, at, targets), ..branch(random) },
        Sort::Jump => Fields::jump(way(random, style, at, targets)),
        Sort::Idle => Fields::jump(0),
        Sort::Save => Fields::call(SAVE),
        Sort::Reading => Fields::call(READING),
        Sort::Record => Fields::call(RECORD),
        Sort::Memory => memory(random),
        Sort::Exit => Fields::exit(),
    }
}

/// An offset that leads to one of the targets.
fn way(random: &mut Random, style: &Style, at: usize, targets: &Range<usize>) -> i16 {
    let (low, high) =
        if random.percent(style.back) { (targets.start, at + 1) } else { (at + 1, targets.end) };
    let reach = style.far.min((high - low) as u64);
    let to = if low > at {
        low + random.index(reach as usize)
    } else {
        high - 1 - random.index(reach as usize)
    };
    (to as i64 - at as i64 - 1) as i16
}

/// Turns every idle slot of a lawful image into a save.
pub fn turned(image: &[u8]) -> Vec<u8> {
    let (slots, _) = image.as_chunks::<SLOT_BYTES>();
    let turn = |slot: &[u8; SLOT_BYTES]| match Instruction::decode(slot) {
        Ok(instruction) if instruction.is_idle() => SAVE_BYTES,
        _ => *slot,
    };
    slots.iter().flat_map(turn).collect()
}
