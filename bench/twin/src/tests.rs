//! The examples of the pages in `docs/reference`.

use crate::certify::{Certifier, Worth};
use crate::headroom::{Voltages, least_budget, least_capacity};
use crate::image::{IDLE_BYTES, SAVE_BYTES, SLOT_BYTES, lawful};
use crate::machine::{Ending, Record, State};
use crate::opcode::kind_of;
use crate::place::place;
use crate::price::{FlatModel, OperandModel, PriceModel};
use crate::refusal::{Refusal, Stuck};
use crate::rig::{Attempt, Rig, Round};
use crate::supply::{Capacitor, Mains, Supply};

const SET_R1: [u8; SLOT_BYTES] = [0xb7, 1, 0, 0, 7, 0, 0, 0];
const READ: [u8; SLOT_BYTES] = [0x85, 0, 0, 0, 2, 0, 0, 0];
const COPY_R2: [u8; SLOT_BYTES] = [0xbf, 2, 0, 0, 0, 0, 0, 0];
const RECORD: [u8; SLOT_BYTES] = [0x85, 0, 0, 0, 3, 0, 0, 0];
const EXIT: [u8; SLOT_BYTES] = [0x95, 0, 0, 0, 0, 0, 0, 0];
const BACK_TWO: [u8; SLOT_BYTES] = [0x05, 0, 0xfe, 0xff, 0, 0, 0, 0];

fn six(third: [u8; SLOT_BYTES]) -> Vec<u8> {
    [SET_R1, READ, COPY_R2, third, RECORD, EXIT].concat()
}

fn list() -> Vec<Worth> {
    vec![Worth { price: 77, slot: 77 }; 1030]
}

fn certify(image: &[u8], budget: u64) -> Result<(), Refusal> {
    Certifier { model: &OperandModel, budget }.certify(image, &mut list())
}

fn over(slot: u16, price: u64) -> Stuck {
    Stuck::OverBudget { slot, price }
}

#[test]
fn legal_opcodes() {
    assert_eq!((0..=255).filter(|&opcode| kind_of(opcode).is_some()).count(), 109);
}

#[test]
fn six_slots_are_certified() {
    let image = six(IDLE_BYTES);
    assert_eq!(lawful(&image), Ok(()));
    assert_eq!(certify(&image, 258), Ok(()));
    assert_eq!(certify(&image, 257), Err(Refusal::Stuck(over(0, 258))));
    assert_eq!(certify(&image, 0), Err(Refusal::Budget));
    assert_eq!(certify(&image, 100_000_001), Err(Refusal::Budget));
}

#[test]
fn worths_are_left() {
    let mut working = list();
    let certifier = Certifier { model: &OperandModel, budget: 258 };
    assert_eq!(certifier.certify(&six(IDLE_BYTES), &mut working), Ok(()));
    let prices: Vec<u64> = working.iter().take(7).map(|worth| worth.price).collect();
    assert_eq!(prices, [258, 256, 165, 163, 162, 149, 77]);
    assert!((0..6).all(|slot| working[slot].slot == slot as u16));
    assert!(working[6..].iter().all(|&worth| worth == Worth { price: 77, slot: 77 }));
}

#[test]
fn two_slots_loop() {
    let idle = [IDLE_BYTES, BACK_TWO].concat();
    assert_eq!(certify(&idle, 1000), Err(Refusal::Stuck(Stuck::Loop { slot: 0 })));
    let saved = [SAVE_BYTES, BACK_TWO].concat();
    assert_eq!(certify(&saved, 149), Ok(()));
    assert_eq!(certify(&saved, 148), Err(Refusal::Stuck(over(1, 149))));
}

#[test]
fn saves_are_placed_in_six_slots() {
    let try_at = |budget| {
        let mut image = six(IDLE_BYTES);
        let by = Certifier { model: &OperandModel, budget };
        let answer = place(&mut image, &by, &mut list());
        (answer, image)
    };
    assert_eq!(try_at(243), (Ok(()), six(SAVE_BYTES)));
    assert_eq!(try_at(258), (Ok(()), six(IDLE_BYTES)));
    assert_eq!(try_at(242), (Err(Refusal::NoPlacement(over(0, 243))), six(IDLE_BYTES)));
}

#[test]
fn headroom_of_six_slots() {
    let image = six(IDLE_BYTES);
    assert_eq!(least_budget(&image, &OperandModel, &mut list()), Ok(258));
    let voltages = Voltages { top: 3000, bottom: 2000, unit: 1_000_000 };
    assert_eq!(least_capacity(&image, &OperandModel, voltages, &mut list()), Ok(Some(104)));
}

#[test]
fn capacitor_of_forty() {
    let mut capacitor = Capacitor::new(16, 3000, 2000, 1_000_000).unwrap();
    assert_eq!((capacitor.energy(), capacitor.budget()), (64_000_000, 40));
    capacitor.recharge();
    assert_eq!((capacitor.energy(), capacitor.assured()), (144_000_000, 40));
    assert!(capacitor.draw(40));
    assert!(!capacitor.draw(1));
    assert_eq!((capacitor.asked(), capacitor.charges()), (41, 1));
    for (microfarads, top, bottom, unit) in
        [(0, 3, 2, 1), (100_001, 3, 2, 1), (1, 2, 2, 1), (1, 10_001, 2, 1), (1, 3, 2, 0)]
    {
        let refused = Capacitor::new(microfarads, top, bottom, unit);
        assert_eq!(refused, Err(Refusal::SupplyNumbers));
    }
}

#[test]
fn rig_of_forty() {
    let model = FlatModel { opcodes: [10; 256], saving: 10 };
    let image = six(SAVE_BYTES);
    let round = &Round { model: &model, image: &image, tape: &[5] };
    for (cut_after, attempts, charges) in [(None, 7, 2), (Some(2), 9, 3)] {
        let mut rig = Rig::begin(Capacitor::new(16, 3000, 2000, 1_000_000).unwrap());
        let mut last = Attempt::Yes;
        while let Ok(attempt) = rig.step(round) {
            last = attempt;
            if Some(rig.attempts()) == cut_after {
                rig.cut().unwrap();
            }
        }
        assert_eq!(last, Attempt::Ended(Ending::Exit));
        assert_eq!((rig.attempts(), rig.charges(), rig.saves()), (attempts, charges, 1));
        assert_eq!(rig.record(0), Ok(Record { sensor: 7, value: 5 }));
        assert_eq!(rig.record(1), Err(Refusal::NoRecord));
        assert_eq!(rig.cut(), Err(Refusal::Ended));
    }
}

fn read(name: &str) -> Vec<u8> {
    let path = format!("{}/../../examples/{name}", env!("CARGO_MANIFEST_DIR"));
    std::fs::read(path).unwrap()
}

fn tape(name: &str) -> Vec<u32> {
    let text = String::from_utf8(read(name)).unwrap();
    let lines = text.lines().filter(|line| !line.is_empty() && !line.starts_with('#'));
    lines.map(|line| line.parse().unwrap()).collect()
}

struct Known {
    name: &'static str,
    slots: usize,
    charge: u64,
    as_compiled: u64,
    placed: &'static [usize],
    dearest: u64,
    on_capacitor: [u64; 3],
    attempts_on_mains: u64,
}

const KNOWN: [Known; 3] = [
    Known {
        name: "piezometer_pair",
        slots: 55,
        charge: 400,
        as_compiled: 459,
        placed: &[11, 35],
        dearest: 342,
        on_capacitor: [3, 3, 61],
        attempts_on_mains: 52,
    },
    Known {
        name: "vnotch_weir",
        slots: 124,
        charge: 300,
        as_compiled: 693,
        placed: &[3, 7, 11, 24],
        dearest: 286,
        on_capacitor: [3, 4, 119],
        attempts_on_mains: 112,
    },
    Known {
        name: "eight_channel_scan",
        slots: 55,
        charge: 300,
        as_compiled: 406,
        placed: &[12, 16],
        dearest: 249,
        on_capacitor: [10, 24, 250],
        attempts_on_mains: 198,
    },
];

#[test]
fn compiled_rounds_are_placed() {
    for known in &KNOWN {
        let stored = read(&format!("{}.bin", known.name));
        assert_eq!(stored.len(), known.slots * SLOT_BYTES, "{}", known.name);
        let refused = Err(Refusal::Stuck(over(0, known.as_compiled)));
        assert_eq!(certify(&stored, known.charge), refused, "{}", known.name);
        let mut image = stored.clone();
        let by = Certifier { model: &OperandModel, budget: known.charge };
        assert_eq!(place(&mut image, &by, &mut list()), Ok(()), "{}", known.name);
        let changed: Vec<usize> = (0..known.slots)
            .filter(|slot| image[8 * slot..8 * slot + 8] != stored[8 * slot..8 * slot + 8])
            .collect();
        assert_eq!(changed, known.placed, "{}", known.name);
        let least = least_budget(&image, &OperandModel, &mut list());
        assert_eq!(least, Ok(known.dearest), "{}", known.name);
    }
}

fn counts<S: Supply, M: PriceModel>(
    supply: S,
    round: &Round<'_, M>,
    cut_after: Option<u64>,
) -> ([u64; 3], State) {
    let mut rig = Rig::begin(supply);
    while rig.step(round).is_ok() {
        if Some(rig.attempts()) == cut_after {
            rig.cut().unwrap();
        }
    }
    ([rig.charges(), rig.saves(), rig.attempts()], rig.kept().clone())
}

#[test]
fn compiled_rounds_are_rehearsed() {
    for known in &KNOWN {
        let mut image = read(&format!("{}.bin", known.name));
        let tape = tape(&format!("{}.tape", known.name));
        let by = Certifier { model: &OperandModel, budget: known.charge };
        place(&mut image, &by, &mut list()).unwrap();
        let round = &Round { model: &OperandModel, image: &image, tape: &tape };
        let capacitor = Capacitor::new(known.charge / 4, 3000, 1000, 1_000_000).unwrap();
        assert_eq!(capacitor.budget(), known.charge);
        let (on_capacitor, end) = counts(capacitor, round, Some(30));
        assert_eq!(on_capacitor, known.on_capacitor, "{}", known.name);
        let ([charges, saves, attempts], end_on_mains) = counts(Mains::default(), round, None);
        assert_eq!((charges, saves), (1, known.on_capacitor[1]), "{}", known.name);
        assert_eq!(attempts, known.attempts_on_mains, "{}", known.name);
        assert_eq!(end, end_on_mains, "{}", known.name);
        assert_eq!(end.ending, Some(Ending::Exit), "{}", known.name);
        let mut run = State::default();
        assert_eq!(run.run_for(&image, &tape, u64::MAX), known.attempts_on_mains);
        assert_eq!(run, end, "{}", known.name);
    }
}

#[test]
fn compiled_rounds_record() {
    let last = |name: &str| {
        let image = read(&format!("{name}.bin"));
        let tape = tape(&format!("{name}.tape"));
        let mut run = State::default();
        run.run_for(&image, &tape, u64::MAX);
        let records = run.log.records().iter();
        records.map(|record| (record.sensor, record.value)).collect::<Vec<_>>()
    };
    assert_eq!(last("piezometer_pair"), [(0, 813), (1, 590), (9, 223)]);
    assert_eq!(last("vnotch_weir"), [(0, 1062), (1, 5072), (9, 5072)]);
    let scan = [
        (0, 8412),
        (1, 8397),
        (2, 8254),
        (3, 7988),
        (4, 9103),
        (5, 9041),
        (6, 6875),
        (7, 7230),
        (100, 9103),
        (101, 1_546_366_028),
    ];
    assert_eq!(last("eight_channel_scan"), scan);
}
