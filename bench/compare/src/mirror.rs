//! The calls of the C library, answered by the twin in the library's structs.

use twin::certify::{self, Certifier};
use twin::headroom::{self, Voltages};
use twin::image;
use twin::machine::{self, Effect, Ending, Log, Trap};
use twin::place;
use twin::price::{FlatModel, OperandModel, PriceModel};
use twin::refusal::{Refusal, Stuck};
use twin::rig::{self, Attempt, Reply};
use twin::supply::{self, Capacitor, Mains, Ratings};

use crate::ffi;

pub fn refused(number: u8) -> ffi::Told {
    ffi::Told { number, ..ffi::Told::default() }
}

fn told(refusal: Refusal) -> ffi::Told {
    ffi::Told { number: refusal.number(), slot: refusal.slot(), price: refusal.price() }
}

fn stuck(stuck: Stuck) -> ffi::Told {
    ffi::Told { number: stuck.number(), slot: stuck.slot(), price: stuck.price() }
}

fn outcome<T>(result: Result<T, Refusal>) -> ffi::Told {
    result.err().map(told).unwrap_or_default()
}

fn answer<T>(result: &Result<T, Refusal>) -> ffi::Answer {
    let Err(refusal) = result else { return ffi::Answer::default() };
    ffi::Answer {
        refusal: told(*refusal),
        carried: refusal.carried().map(stuck).unwrap_or_default(),
    }
}

const WITHOUT_PRICES: ffi::Answer = ffi::Answer {
    refusal: ffi::Told { number: ffi::NO_PRICES, slot: 0, price: 0 },
    carried: ffi::Told { number: 0, slot: 0, price: 0 },
};

/// A price model as the header's struct says it.
#[derive(Clone, Debug)]
pub enum Model {
    Operand(OperandModel),
    Flat(Box<FlatModel>),
}

impl Model {
    /// The model, or none where the kind is neither.
    pub fn of(prices: &ffi::Prices) -> Option<Model> {
        match prices.kind {
            ffi::OPERAND_PRICES => Some(Model::Operand(OperandModel)),
            ffi::FLAT_PRICES => {
                let (&opcodes, rest) = prices.flat.split_first_chunk()?;
                let saving = *rest.first()?;
                Some(Model::Flat(Box::new(FlatModel { opcodes, saving })))
            }
            _ => None,
        }
    }

    pub fn prices(&self) -> &dyn PriceModel {
        match self {
            Model::Operand(model) => model,
            Model::Flat(model) => model.as_ref(),
        }
    }
}

// ----------------------------------------------------------------- images

pub fn lawful(image: &[u8]) -> ffi::Answer {
    answer(&image::lawful(image))
}

/// Lends a working list to the twin, and writes what it left back.
fn lending<R>(working: &mut [ffi::Worth], to: impl FnOnce(&mut [certify::Worth]) -> R) -> R {
    let mut list: Vec<certify::Worth> =
        working.iter().map(|&ffi::Worth { price, slot }| certify::Worth { price, slot }).collect();
    let result = to(&mut list);
    for (entry, certify::Worth { price, slot }) in working.iter_mut().zip(list) {
        *entry = ffi::Worth { price, slot };
    }
    result
}

pub fn certify(
    image: &[u8],
    prices: &ffi::Prices,
    budget: u64,
    working: &mut [ffi::Worth],
) -> ffi::Answer {
    let Some(model) = Model::of(prices) else { return WITHOUT_PRICES };
    let certifier = Certifier { model: model.prices(), budget };
    answer(&lending(working, |working| certifier.certify(image, working)))
}

pub fn place(
    image: &mut [u8],
    prices: &ffi::Prices,
    budget: u64,
    working: &mut [ffi::Worth],
) -> ffi::Answer {
    let Some(model) = Model::of(prices) else { return WITHOUT_PRICES };
    let certifier = Certifier { model: model.prices(), budget };
    answer(&lending(working, |working| place::place(image, &certifier, working)))
}

pub fn least_budget(image: &[u8], prices: &ffi::Prices, working: &mut [ffi::Worth]) -> ffi::Least {
    let Some(model) = Model::of(prices) else {
        return ffi::Least { answer: WITHOUT_PRICES, budget: 0 };
    };
    let least = lending(working, |working| headroom::least_budget(image, model.prices(), working));
    ffi::Least { answer: answer(&least), budget: least.unwrap_or(0) }
}

pub fn least_capacity(
    image: &[u8],
    prices: &ffi::Prices,
    [top, bottom, unit]: [u32; 3],
    working: &mut [ffi::Worth],
) -> ffi::Capacity {
    let Some(model) = Model::of(prices) else {
        return ffi::Capacity { answer: WITHOUT_PRICES, microfarads: 0 };
    };
    let voltages = Voltages { top: top.into(), bottom: bottom.into(), unit: unit.into() };
    let least = lending(working, |working| {
        headroom::least_capacity(image, model.prices(), voltages, working)
    });
    let microfarads = least.ok().flatten().unwrap_or(0) as u32;
    ffi::Capacity { answer: answer(&least), microfarads }
}

// ----------------------------------------------------------------- states

fn ending_number(ending: Option<Ending>) -> u8 {
    match ending {
        None => 0,
        Some(Ending::Trap(trap)) => trap as u8,
        Some(Ending::Exit) => 5,
    }
}

/// The ending of a number; none within where the run goes on.
fn ending_of(number: u8) -> Option<Option<Ending>> {
    Some(match number {
        0 => None,
        1 => Some(Ending::Trap(Trap::NoInstruction)),
        2 => Some(Ending::Trap(Trap::Memory)),
        3 => Some(Ending::Trap(Trap::Tape)),
        4 => Some(Ending::Trap(Trap::Log)),
        5 => Some(Ending::Exit),
        _ => return None,
    })
}

/// The state that some numbers are, or none.
pub fn state_of(state: &ffi::State) -> Option<machine::State> {
    Some(machine::State {
        slot: state.slot.into(),
        registers: state.registers,
        memory: state.memory,
        place: state.place,
        log: Log::of(state.log.map(twin_record), state.logged),
        ending: ending_of(state.ending)?,
    })
}

fn twin_record(ffi::Record { sensor, value }: ffi::Record) -> machine::Record {
    machine::Record { sensor, value }
}

fn record(machine::Record { sensor, value }: machine::Record) -> ffi::Record {
    ffi::Record { sensor, value }
}

/// A state of the twin, with zeros past its records.
pub fn shown(state: &machine::State) -> ffi::State {
    let mut log = ffi::State::ZERO.log;
    for (entry, &kept) in log.iter_mut().zip(state.log.records()) {
        *entry = record(kept);
    }
    ffi::State {
        slot: state.slot as i32,
        ending: ending_number(state.ending),
        registers: state.registers,
        memory: state.memory,
        place: state.place,
        log,
        logged: state.log.count(),
    }
}

/// A state of the library with zeros past its records, which do not count.
pub fn settled(state: &ffi::State) -> ffi::State {
    let mut state = *state;
    if let Some(rest) = state.log.get_mut(state.logged..) {
        rest.fill(ffi::Record::default());
    }
    state
}

pub fn step(state: &mut machine::State, image: &[u8], tape: &[u32]) -> ffi::Step {
    let (did, spent) = match state.step(image, tape) {
        Effect::None => (0, None),
        Effect::Missing => (1, None),
        Effect::Save(spent) => (2, Some(spent)),
        Effect::End(spent) => (3, Some(spent)),
        Effect::Other(spent) => (4, Some(spent)),
    };
    let nothing = ffi::Step { did, ..ffi::Step::default() };
    spent.map_or(nothing, |spent| ffi::Step {
        opcode: spent.opcode,
        imm: spent.imm,
        a: spent.a,
        b: spent.b,
        ..nothing
    })
}

// --------------------------------------------------------------- supplies

/// Either supply.
#[derive(Clone, Debug)]
pub enum Supply {
    Capacitor(Capacitor),
    Mains(Mains),
}

impl Supply {
    fn either(&self) -> &dyn supply::Supply {
        match self {
            Supply::Capacitor(capacitor) => capacitor,
            Supply::Mains(mains) => mains,
        }
    }

    fn either_mut(&mut self) -> &mut dyn supply::Supply {
        match self {
            Supply::Capacitor(capacitor) => capacitor,
            Supply::Mains(mains) => mains,
        }
    }

    /// The supply that some numbers are, or none.
    pub fn of(numbers: &ffi::Supply) -> Option<Supply> {
        let &ffi::Supply { kind, microfarads, top, bottom, unit, energy, asked, charges } = numbers;
        match kind {
            ffi::CAPACITOR => {
                let [microfarads, top, bottom, unit] =
                    [microfarads, top, bottom, unit].map(u64::from);
                let ratings = Ratings::new(microfarads, top, bottom, unit).ok()?;
                Capacitor::used(ratings, energy, asked, charges).map(Supply::Capacitor)
            }
            ffi::MAINS if [microfarads, top, bottom, unit] == [0; 4] && energy == 0 => {
                Some(Supply::Mains(Mains { asked, charges }))
            }
            _ => None,
        }
    }

    fn shown(&self) -> ffi::Supply {
        match self {
            Supply::Capacitor(capacitor) => {
                let [microfarads, top, bottom, unit] =
                    capacitor.ratings().numbers().map(|number| number as u32);
                ffi::Supply {
                    kind: ffi::CAPACITOR,
                    microfarads,
                    top,
                    bottom,
                    unit,
                    energy: capacitor.energy(),
                    asked: self.either().asked(),
                    charges: self.either().charges(),
                }
            }
            Supply::Mains(mains) => ffi::Supply {
                kind: ffi::MAINS,
                asked: mains.asked,
                charges: mains.charges,
                ..ffi::Supply::default()
            },
        }
    }
}

impl supply::Supply for Supply {
    fn recharge(&mut self) {
        self.either_mut().recharge();
    }

    fn draw(&mut self, units: u32) -> bool {
        self.either_mut().draw(units)
    }

    fn budget(&self) -> u64 {
        self.either().budget()
    }

    fn assured(&self) -> u64 {
        self.either().assured()
    }

    fn asked(&self) -> u64 {
        self.either().asked()
    }

    fn charges(&self) -> u64 {
        self.either().charges()
    }
}

pub fn capacitor(ratings: [u32; 4], supply: &mut ffi::Supply) -> ffi::Told {
    let [microfarads, top, bottom, unit] = ratings.map(u64::from);
    let made = Capacitor::new(microfarads, top, bottom, unit);
    if let Ok(capacitor) = &made {
        *supply = Supply::Capacitor(capacitor.clone()).shown();
    }
    outcome(made)
}

pub fn mains() -> ffi::Supply {
    Supply::Mains(Mains::default()).shown()
}

// --------------------------------------------------------------- the rig

pub type Rig = rig::Rig<Supply>;

/// The rig that some numbers are, or none.
pub fn rig_of(numbers: &ffi::Rig) -> Option<Rig> {
    let rig = rig::Rig {
        supply: Supply::of(&numbers.supply)?,
        state: state_of(&numbers.state)?,
        kept: state_of(&numbers.kept)?,
        charges_before: numbers.before,
        saves: numbers.saves.into(),
        cuts: numbers.cuts.into(),
        attempts: numbers.attempts.into(),
    };
    (rig.saves <= rig.attempts).then_some(rig)
}

/// A rig of the twin, with zeros past the records of its states.
pub fn shown_rig(rig: &Rig) -> ffi::Rig {
    ffi::Rig {
        supply: rig.supply.shown(),
        state: shown(&rig.state),
        kept: shown(&rig.kept),
        before: rig.charges_before,
        saves: rig.saves as u32,
        cuts: rig.cuts as u32,
        attempts: rig.attempts as u32,
    }
}

/// A rig of the library, with zeros past the records of its states.
pub fn settled_rig(rig: &ffi::Rig) -> ffi::Rig {
    ffi::Rig { state: settled(&rig.state), kept: settled(&rig.kept), ..*rig }
}

pub fn attempt(result: Result<Attempt, Refusal>) -> ffi::Attempt {
    let (said_yes, ending) = match result {
        Ok(Attempt::Yes) => (1, None),
        Ok(Attempt::Ended(ending)) => (1, Some(ending)),
        Ok(Attempt::No) | Err(_) => (0, None),
    };
    ffi::Attempt { refusal: outcome(result), said_yes, ending: ending_number(ending) }
}

pub fn rig_cut(rig: &mut Rig) -> ffi::Told {
    outcome(rig.cut())
}

pub fn rig_counts(rig: &Rig) -> ffi::Counts {
    ffi::Counts {
        refusal: ffi::Told::default(),
        charges: rig.charges(),
        assured: rig.assured(),
        saves: rig.saves() as u32,
        cuts: rig.cuts() as u32,
        attempts: rig.attempts() as u32,
    }
}

pub fn rig_record(rig: &Rig, index: usize) -> ffi::KeptRecord {
    let kept = rig.record(index as u64);
    ffi::KeptRecord { refusal: outcome(kept), record: kept.map(record).unwrap_or_default() }
}

/// The call of a script, or none where it is of no kind.
pub fn call(call: &ffi::Call) -> Option<rig::Call> {
    Some(match call.kind {
        0 => rig::Call::Step,
        1 => rig::Call::Cut,
        2 => rig::Call::Charges,
        3 => rig::Call::Saves,
        4 => rig::Call::Cuts,
        5 => rig::Call::Attempts,
        6 => rig::Call::Record(call.index as u64),
        _ => return None,
    })
}

pub fn reply(reply: Reply) -> ffi::Reply {
    let nothing = ffi::Reply::default();
    match reply {
        Reply::Step(result) => {
            let ffi::Attempt { refusal, said_yes, ending } = attempt(result);
            ffi::Reply { refusal, said_yes, ending, ..nothing }
        }
        Reply::Cut(result) => ffi::Reply { refusal: outcome(result), ..nothing },
        Reply::Count(count) => ffi::Reply { count, ..nothing },
        Reply::Record(result) => ffi::Reply {
            refusal: outcome(result),
            record: result.map(record).unwrap_or_default(),
            ..nothing
        },
    }
}
