//! Damaged images, and noise.

use std::ops::Range;

use twin::image::{MOST_SLOTS, SLOT_BYTES};
use twin::opcode::JUMP;

use crate::generate::fields::{
    Fields, READING, RECORD, SAVE, arithmetic, branch, load_into_r10, memory,
};
use crate::generate::lawful::{any_lawful, lawful, size};
use crate::random::Random;

/// One slot near the edges of the rules, for every opcode.
fn edge_slot(random: &mut Random) -> [u8; SLOT_BYTES] {
    let fields = Fields {
        opcode: random.word() as u8,
        dst: random.pick(&[0, 0, 0, 1, 9, 10, 11, 15]),
        src: random.pick(&[0, 0, 0, 1, 9, 10, 11, 15]),
        offset: random.pick(&[0, 0, 0, 1, -1, -2, 256, i16::MIN, i16::MAX]),
        imm: random.pick(&[0, 0, 1, 2, 3, 4, -1, 256, 1 << 24, i32::MIN]),
    };
    fields.bytes()
}

/// The byte range of one of the slots, where there is one.
fn any_slot(random: &mut Random, image: &[u8]) -> Option<Range<usize>> {
    let count = image.len() / SLOT_BYTES;
    (count > 0).then(|| {
        let start = SLOT_BYTES * random.index(count);
        start..start + SLOT_BYTES
    })
}

/// Damages an image in one place.
fn damage(random: &mut Random, image: &mut Vec<u8>) {
    let way = random.below(9);
    if way == 0 {
        return resize(random, image);
    }
    let Some(slot) = any_slot(random, image) else { return };
    let slot = &mut image[slot];
    match way {
        1 => slot[random.index(SLOT_BYTES)] ^= 1 << random.below(8),
        2 => slot[1] = (slot[1] & 0xf0) | random.pick(&[10, 10, 11, 15]),
        _ => slot.copy_from_slice(&bad_slot(random)),
    }
}

/// A slot that mostly breaks a rule, each as often as others.
fn bad_slot(random: &mut Random) -> [u8; SLOT_BYTES] {
    match random.below(6) {
        0 => random.word().to_le_bytes(),
        1 => edge_slot(random),
        2 => Fields { dst: 10, ..arithmetic(random) }.bytes(),
        3 => load_into_r10(random).bytes(),
        4 => {
            let other = random.imm();
            Fields::call(random.pick(&[0, 4, -1, 257, other])).bytes()
        }
        _ => far_jump(random).bytes(),
    }
}

/// A jump that mostly leaves the image.
fn far_jump(random: &mut Random) -> Fields {
    let offset = random.pick(&[i16::MIN, -1025, -40, -9, 9, 40, 1024, i16::MAX]);
    if random.percent(50) { Fields::jump(offset) } else { Fields { offset, ..branch(random) } }
}

/// Gives an image a length that it should not have, or at least another one.
fn resize(random: &mut Random, image: &mut Vec<u8>) {
    let whole = MOST_SLOTS * SLOT_BYTES;
    let length = match random.below(6) {
        0 => random.pick(&[0, 1, 7, 9, whole - 1, whole + 1, whole + SLOT_BYTES, 2 * whole]),
        1 | 2 => image.len() + 1 + random.index(20),
        3 | 4 => image.len().saturating_sub(1 + random.index(20)),
        _ => random.index(100),
    };
    let filling = random.pick(&[0, 0x95, JUMP]);
    image.resize(length, filling);
}

/// Bytes of any kind: damaged images and noise.
pub fn hostile(random: &mut Random) -> Vec<u8> {
    match random.below(10) {
        0 => (0..random.index(120)).map(|_| random.word() as u8).collect(),
        1 => (0..size(random)).flat_map(|_| edge_slot(random)).collect(),
        _ => {
            let mut image = any_lawful(random);
            for _ in 0..=random.below(3) {
                damage(random, &mut image);
            }
            image
        }
    }
}

/// A lawful image but for a jump near its beginning that mostly leaves it.
pub fn falling(random: &mut Random) -> Vec<u8> {
    let count = size(random);
    let mut image = lawful(random, count);
    let at = SLOT_BYTES * random.index(count.min(4));
    image[at..at + SLOT_BYTES].copy_from_slice(&far_jump(random).bytes());
    image
}

/// An image whose first slot is legal, mostly, and of any kind.
pub fn single(random: &mut Random) -> Vec<u8> {
    let fields = match random.below(10) {
        0 => return edge_slot(random).to_vec(),
        1 => branch(random),
        2 | 3 => memory(random),
        4 => Fields::call(random.pick(&[SAVE, READING, RECORD])),
        5 => random.pick(&[Fields::exit(), Fields::jump(-1)]),
        6 | 7 => Fields { offset: random.word() as i16, ..branch(random) },
        _ => arithmetic(random),
    };
    fields.bytes().to_vec()
}
