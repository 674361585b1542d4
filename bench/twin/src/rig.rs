//! Runs a round on a supply that may say no.

use crate::machine::{Effect, Ending, Record, Spent, State};
use crate::price::PriceModel;
use crate::refusal::Refusal;
use crate::supply::Supply;

pub const MOST_ATTEMPTS: u64 = 1_000_000;
pub const MOST_CUTS: u64 = 1_000_000;

/// What comes with every step.
#[derive(Clone, Copy, Debug)]
pub struct Round<'r, M: ?Sized> {
    pub model: &'r M,
    pub image: &'r [u8],
    pub tape: &'r [u32],
}

/// How an attempted step ended.
#[derive(Clone, Copy, Debug, PartialEq, Eq)]
pub enum Attempt {
    /// The charge gave out, and the kept state returned.
    No,
    /// The round goes on.
    Yes,
    Ended(Ending),
}

/// A call of a rig, as a value.
#[derive(Clone, Copy, Debug, PartialEq, Eq)]
pub enum Call {
    Step,
    Cut,
    Charges,
    Saves,
    Cuts,
    Attempts,
    Record(u64),
}

/// What a call answers.
#[derive(Clone, Copy, Debug, PartialEq, Eq)]
pub enum Reply {
    Step(Result<Attempt, Refusal>),
    Cut(Result<(), Refusal>),
    Count(u64),
    Record(Result<Record, Refusal>),
}

/// A rig. Its parts are open, so that one may be taken up where another stands.
#[derive(Clone, Debug)]
pub struct Rig<S> {
    pub supply: S,
    pub state: State,
    /// What the rig goes back to.
    pub kept: State,
    /// The supply's count of charges from before beginning.
    pub charges_before: u64,
    pub saves: u64,
    pub cuts: u64,
    pub attempts: u64,
}

impl<S: Supply> Rig<S> {
    pub fn begin(mut supply: S) -> Rig<S> {
        let charges_before = supply.charges();
        supply.recharge();
        Rig {
            supply,
            state: State::default(),
            kept: State::default(),
            charges_before,
            saves: 0,
            cuts: 0,
            attempts: 0,
        }
    }

    /// Attempts one step of the round.
    pub fn step<M: PriceModel + ?Sized>(
        &mut self,
        round: &Round<'_, M>,
    ) -> Result<Attempt, Refusal> {
        self.not_ended()?;
        if self.attempts >= MOST_ATTEMPTS {
            return Err(Refusal::Attempts);
        }
        self.attempts += 1;
        let pending = self.state.log.count().saturating_sub(self.kept.log.count());
        let effect = self.state.step(round.image, round.tape);
        let amount = draws(round.model, &effect, pending as u64);
        if !self.supply.draw(amount) {
            self.fall_back();
            return Ok(Attempt::No);
        }
        if let Effect::Save(_) = effect {
            self.saves += 1;
        }
        if !matches!(effect, Effect::Other(_)) {
            self.kept.clone_from(&self.state);
        }
        Ok(self.state.ending.map_or(Attempt::Yes, Attempt::Ended))
    }

    /// Takes the charge away.
    pub fn cut(&mut self) -> Result<(), Refusal> {
        self.not_ended()?;
        if self.cuts >= MOST_CUTS {
            return Err(Refusal::Cuts);
        }
        self.cuts += 1;
        self.fall_back();
        Ok(())
    }

    /// Charges begun.
    pub fn charges(&self) -> u64 {
        self.supply.charges().wrapping_sub(self.charges_before)
    }

    pub fn saves(&self) -> u64 {
        self.saves
    }

    pub fn cuts(&self) -> u64 {
        self.cuts
    }

    pub fn attempts(&self) -> u64 {
        self.attempts
    }

    /// A record of the kept state's log.
    pub fn record(&self, index: u64) -> Result<Record, Refusal> {
        let index = usize::try_from(index).map_err(|_| Refusal::NoRecord)?;
        self.kept.log.records().get(index).copied().ok_or(Refusal::NoRecord)
    }

    pub fn kept(&self) -> &State {
        &self.kept
    }

    pub fn assured(&self) -> u64 {
        self.supply.assured()
    }

    /// Makes a call that is given as a value.
    pub fn call<M: PriceModel + ?Sized>(&mut self, call: Call, round: &Round<'_, M>) -> Reply {
        match call {
            Call::Step => Reply::Step(self.step(round)),
            Call::Cut => Reply::Cut(self.cut()),
            Call::Charges => Reply::Count(self.charges()),
            Call::Saves => Reply::Count(self.saves()),
            Call::Cuts => Reply::Count(self.cuts()),
            Call::Attempts => Reply::Count(self.attempts()),
            Call::Record(index) => Reply::Record(self.record(index)),
        }
    }

    fn not_ended(&self) -> Result<(), Refusal> {
        match self.kept.ending {
            Some(_) => Err(Refusal::Ended),
            None => Ok(()),
        }
    }

    fn fall_back(&mut self) {
        self.state.clone_from(&self.kept);
        self.supply.recharge();
    }
}

/// What a step draws from the supply.
fn draws<M: PriceModel + ?Sized>(model: &M, effect: &Effect, pending: u64) -> u32 {
    let spending = |spent: &Spent| model.spending(spent.opcode, spent.imm, spent.a, spent.b);
    match effect {
        Effect::None => 0,
        Effect::Save(_) | Effect::Missing => model.saving(pending),
        Effect::End(spent) => spending(spent) + model.saving(pending),
        Effect::Other(spent) => spending(spent),
    }
}

/// Begins a rig and makes the calls of a script, as many as there is room for
/// among the replies.
pub fn rehearse<S: Supply, M: PriceModel + ?Sized>(
    supply: S,
    round: &Round<'_, M>,
    calls: &[Call],
    replies: &mut [Reply],
) -> Rig<S> {
    let mut rig = Rig::begin(supply);
    for (&call, reply) in calls.iter().zip(replies) {
        *reply = rig.call(call, round);
    }
    rig
}
