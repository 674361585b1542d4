//! The C library as `include/yatesorrel.h` declares it.
//!
//! The structs and the declarations follow the header one by one, and each call
//! has a safe function here that takes slices. This is the only file with unsafe
//! code.

#![allow(unsafe_code)]

use std::ptr;
use std::time::Duration;

pub const NOT_BEGUN: u8 = 101;
pub const NO_PRICES: u8 = 102;
pub const NO_CALL: u8 = 103;

pub const OPERAND_PRICES: u32 = 0;
pub const FLAT_PRICES: u32 = 1;

pub const CAPACITOR: u32 = 1;
pub const MAINS: u32 = 2;

pub const MOST_RECORDS: usize = 64;

#[repr(C)]
#[derive(Clone, Copy, Debug, Default, PartialEq, Eq)]
pub struct Told {
    pub number: u8,
    pub slot: u16,
    pub price: u64,
}

#[repr(C)]
#[derive(Clone, Copy, Debug, Default, PartialEq, Eq)]
pub struct Answer {
    pub refusal: Told,
    pub carried: Told,
}

#[repr(C)]
#[derive(Clone, Copy, Debug, PartialEq, Eq)]
pub struct Prices {
    pub kind: u32,
    pub flat: [u16; 257],
}

#[repr(C)]
#[derive(Clone, Copy, Debug, Default, PartialEq, Eq)]
pub struct Worth {
    pub price: u64,
    pub slot: u16,
}

#[repr(C)]
#[derive(Clone, Copy, Debug, Default, PartialEq, Eq)]
pub struct Least {
    pub answer: Answer,
    pub budget: u64,
}

#[repr(C)]
#[derive(Clone, Copy, Debug, Default, PartialEq, Eq)]
pub struct Capacity {
    pub answer: Answer,
    pub microfarads: u32,
}

#[repr(C)]
#[derive(Clone, Copy, Debug, Default, PartialEq, Eq)]
pub struct Record {
    pub sensor: u8,
    pub value: u64,
}

#[repr(C)]
#[derive(Clone, Copy, Debug, PartialEq, Eq)]
pub struct State {
    pub slot: i32,
    pub ending: u8,
    pub registers: [u64; 11],
    pub memory: [u8; 512],
    pub place: usize,
    pub log: [Record; MOST_RECORDS],
    pub logged: usize,
}

#[repr(C)]
#[derive(Clone, Copy, Debug, Default, PartialEq, Eq)]
pub struct Step {
    pub refusal: Told,
    pub did: u8,
    pub opcode: u8,
    pub imm: i32,
    pub a: u64,
    pub b: u64,
}

#[repr(C)]
#[derive(Clone, Copy, Debug, Default, PartialEq, Eq)]
pub struct Supply {
    pub kind: u32,
    pub microfarads: u32,
    pub top: u32,
    pub bottom: u32,
    pub unit: u32,
    pub energy: u64,
    pub asked: u64,
    pub charges: u64,
}

#[repr(C)]
#[derive(Clone, Copy, Debug, PartialEq, Eq)]
pub struct Rig {
    pub supply: Supply,
    pub state: State,
    pub kept: State,
    pub before: u64,
    pub saves: u32,
    pub cuts: u32,
    pub attempts: u32,
}

#[repr(C)]
#[derive(Clone, Copy, Debug, Default, PartialEq, Eq)]
pub struct Attempt {
    pub refusal: Told,
    pub said_yes: u8,
    pub ending: u8,
}

#[repr(C)]
#[derive(Clone, Copy, Debug, Default, PartialEq, Eq)]
pub struct Counts {
    pub refusal: Told,
    pub charges: u64,
    pub assured: u64,
    pub saves: u32,
    pub cuts: u32,
    pub attempts: u32,
}

#[repr(C)]
#[derive(Clone, Copy, Debug, Default, PartialEq, Eq)]
pub struct KeptRecord {
    pub refusal: Told,
    pub record: Record,
}

#[repr(C)]
#[derive(Clone, Copy, Debug, Default, PartialEq, Eq)]
pub struct Call {
    pub kind: u32,
    pub index: usize,
}

#[repr(C)]
#[derive(Clone, Copy, Debug, Default, PartialEq, Eq)]
pub struct Reply {
    pub refusal: Told,
    pub said_yes: u8,
    pub ending: u8,
    pub count: u64,
    pub record: Record,
}

const _: () = {
    assert!(size_of::<Told>() == 16);
    assert!(size_of::<Answer>() == 32);
    assert!(size_of::<Prices>() == 520);
    assert!(size_of::<Worth>() == 16);
    assert!(size_of::<Least>() == 40);
    assert!(size_of::<Capacity>() == 40);
    assert!(size_of::<Record>() == 16);
    assert!(size_of::<State>() == 1648);
    assert!(size_of::<Step>() == 40);
    assert!(size_of::<Supply>() == 48);
    assert!(size_of::<Rig>() == 3368);
    assert!(size_of::<Attempt>() == 24);
    assert!(size_of::<Counts>() == 48);
    assert!(size_of::<KeptRecord>() == 32);
    assert!(size_of::<Call>() == 16);
    assert!(size_of::<Reply>() == 48);
};

impl State {
    /// A state of zeros, to be written over.
    pub const ZERO: State = State {
        slot: 0,
        ending: 0,
        registers: [0; 11],
        memory: [0; 512],
        place: 0,
        log: [Record { sensor: 0, value: 0 }; MOST_RECORDS],
        logged: 0,
    };
}

unsafe extern "C" {
    fn yatesorrel_lawful(image: *const u8, image_length: usize) -> Answer;
    fn yatesorrel_certify(
        image: *const u8,
        image_length: usize,
        prices: *const Prices,
        budget: u64,
        working: *mut Worth,
        working_length: usize,
    ) -> Answer;
    fn yatesorrel_place(
        image: *mut u8,
        image_length: usize,
        prices: *const Prices,
        budget: u64,
        working: *mut Worth,
        working_length: usize,
    ) -> Answer;
    fn yatesorrel_least_budget(
        image: *const u8,
        image_length: usize,
        prices: *const Prices,
        working: *mut Worth,
        working_length: usize,
    ) -> Least;
    fn yatesorrel_least_capacity(
        image: *const u8,
        image_length: usize,
        prices: *const Prices,
        top: u32,
        bottom: u32,
        unit: u32,
        working: *mut Worth,
        working_length: usize,
    ) -> Capacity;
    fn yatesorrel_state_begin(state: *mut State);
    fn yatesorrel_state_step(
        state: *mut State,
        image: *const u8,
        image_length: usize,
        tape: *const u32,
        tape_length: usize,
    ) -> Step;
    fn yatesorrel_run(
        image: *const u8,
        image_length: usize,
        tape: *const u32,
        tape_length: usize,
        most: u64,
        state: *mut State,
    ) -> u64;
    fn yatesorrel_capacitor(
        microfarads: u32,
        top: u32,
        bottom: u32,
        unit: u32,
        supply: *mut Supply,
    ) -> Told;
    fn yatesorrel_mains(supply: *mut Supply);
    fn yatesorrel_rig_begin(rig: *mut Rig, supply: *const Supply) -> Told;
    fn yatesorrel_rig_step(
        rig: *mut Rig,
        prices: *const Prices,
        image: *const u8,
        image_length: usize,
        tape: *const u32,
        tape_length: usize,
    ) -> Attempt;
    fn yatesorrel_rig_cut(rig: *mut Rig) -> Told;
    fn yatesorrel_rig_counts(rig: *const Rig) -> Counts;
    fn yatesorrel_rig_record(rig: *const Rig, index: usize) -> KeptRecord;
    fn yatesorrel_rig_kept(rig: *const Rig, state: *mut State) -> Told;
    fn yatesorrel_rehearse(
        supply: *const Supply,
        prices: *const Prices,
        image: *const u8,
        image_length: usize,
        tape: *const u32,
        tape_length: usize,
        calls: *const Call,
        calls_length: usize,
        replies: *mut Reply,
        replies_length: usize,
        rig: *mut Rig,
    ) -> Told;
}

/// The pointer to a list; null where it is empty, as C callers may have it.
fn lent<T>(list: &[T]) -> *const T {
    if list.is_empty() { ptr::null() } else { list.as_ptr() }
}

fn lent_mut<T>(list: &mut [T]) -> *mut T {
    if list.is_empty() { ptr::null_mut() } else { list.as_mut_ptr() }
}

// SAFETY, of every call of the library below: each pointer comes of a reference or of a slice
// with its length (null at length 0, which the header allows), and what a call
// may write is borrowed mutably, so it overlaps nothing else.

pub fn lawful(image: &[u8]) -> Answer {
    unsafe { yatesorrel_lawful(lent(image), image.len()) }
}

pub fn certify(image: &[u8], prices: &Prices, budget: u64, working: &mut [Worth]) -> Answer {
    let entries = working.len();
    unsafe {
        yatesorrel_certify(lent(image), image.len(), prices, budget, lent_mut(working), entries)
    }
}

pub fn place(image: &mut [u8], prices: &Prices, budget: u64, working: &mut [Worth]) -> Answer {
    let (bytes, entries) = (image.len(), working.len());
    unsafe { yatesorrel_place(lent_mut(image), bytes, prices, budget, lent_mut(working), entries) }
}

pub fn least_budget(image: &[u8], prices: &Prices, working: &mut [Worth]) -> Least {
    let entries = working.len();
    unsafe { yatesorrel_least_budget(lent(image), image.len(), prices, lent_mut(working), entries) }
}

pub fn least_capacity(
    image: &[u8],
    prices: &Prices,
    [top, bottom, unit]: [u32; 3],
    working: &mut [Worth],
) -> Capacity {
    let entries = working.len();
    let working = lent_mut(working);
    unsafe {
        yatesorrel_least_capacity(
            lent(image),
            image.len(),
            prices,
            top,
            bottom,
            unit,
            working,
            entries,
        )
    }
}

pub fn state_begin(state: &mut State) {
    unsafe { yatesorrel_state_begin(state) }
}

pub fn state_step(state: &mut State, image: &[u8], tape: &[u32]) -> Step {
    unsafe { yatesorrel_state_step(state, lent(image), image.len(), lent(tape), tape.len()) }
}

pub fn run(image: &[u8], tape: &[u32], most: u64, state: &mut State) -> u64 {
    unsafe { yatesorrel_run(lent(image), image.len(), lent(tape), tape.len(), most, state) }
}

pub fn capacitor([microfarads, top, bottom, unit]: [u32; 4], supply: &mut Supply) -> Told {
    unsafe { yatesorrel_capacitor(microfarads, top, bottom, unit, supply) }
}

pub fn mains(supply: &mut Supply) {
    unsafe { yatesorrel_mains(supply) }
}

pub fn rig_begin(rig: &mut Rig, supply: &Supply) -> Told {
    unsafe { yatesorrel_rig_begin(rig, supply) }
}

pub fn rig_step(rig: &mut Rig, prices: &Prices, image: &[u8], tape: &[u32]) -> Attempt {
    unsafe { yatesorrel_rig_step(rig, prices, lent(image), image.len(), lent(tape), tape.len()) }
}

pub fn rig_cut(rig: &mut Rig) -> Told {
    unsafe { yatesorrel_rig_cut(rig) }
}

pub fn rig_counts(rig: &Rig) -> Counts {
    unsafe { yatesorrel_rig_counts(rig) }
}

pub fn rig_record(rig: &Rig, index: usize) -> KeptRecord {
    unsafe { yatesorrel_rig_record(rig, index) }
}

pub fn rig_kept(rig: &Rig, state: &mut State) -> Told {
    unsafe { yatesorrel_rig_kept(rig, state) }
}

/// What every step of a script is given.
#[derive(Clone, Copy)]
pub struct Round<'r> {
    pub prices: &'r Prices,
    pub image: &'r [u8],
    pub tape: &'r [u32],
}

pub fn rehearse(
    supply: &Supply,
    Round { prices, image, tape }: Round<'_>,
    calls: &[Call],
    replies: &mut [Reply],
    rig: &mut Rig,
) -> Told {
    let (room, replies) = (replies.len(), lent_mut(replies));
    unsafe {
        yatesorrel_rehearse(
            supply,
            prices,
            lent(image),
            image.len(),
            lent(tape),
            tape.len(),
            lent(calls),
            calls.len(),
            replies,
            room,
            rig,
        )
    }
}

#[repr(C)]
#[derive(Default)]
struct Moment {
    seconds: i64,
    nanoseconds: i64,
}

unsafe extern "C" {
    fn clock_gettime(clock: i32, moment: *mut Moment) -> i32;
}

/// The time that this thread has had on a processor, which a busy machine
/// changes less than the time on the wall.
pub fn processor_time() -> Duration {
    const OF_THE_THREAD: i32 = 3;
    let mut moment = Moment::default();
    // SAFETY: the moment is there to be written. The C library below std has this
    // call, and the clock of a thread on Linux is the third.
    unsafe { clock_gettime(OF_THE_THREAD, &mut moment) };
    Duration::new(moment.seconds as u64, moment.nanoseconds as u32)
}
