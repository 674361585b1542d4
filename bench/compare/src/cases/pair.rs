//! A rig of the library beside the twin's.

use std::fmt::{self, Display};

use twin::rig::{self, Rig};

use crate::cases::given::Given;
use crate::ffi::{self, Call, State, Supply};
use crate::generate::scripts;
use crate::mirror::{self, Model};
use crate::random::Random;
use crate::report::{Counts, Difference, Outcome, same};

/// A rig of the library with its twin, which must stay alike.
pub struct Pair<'g> {
    pub rig: Box<ffi::Rig>,
    pub twin: mirror::Rig,
    model: Option<Model>,
    pub given: &'g Given,
}

impl<'g> Pair<'g> {
    /// Begins both, where the supply is one; else the library has to refuse it.
    pub fn begin(given: &'g Given) -> Result<Option<Pair<'g>>, Box<Difference>> {
        let mut rig = Box::new(NO_RIG);
        let told = ffi::rig_begin(&mut rig, &given.supply);
        let Some(supply) = mirror::Supply::of(&given.supply) else {
            same("yatesorrel_rig_begin", &told, &mirror::refused(ffi::NOT_BEGUN), given)?;
            same("yatesorrel_rig_begin, rig", &*rig, &NO_RIG, given)?;
            return Ok(None);
        };
        let twin = Rig::begin(supply);
        same("yatesorrel_rig_begin", &told, &ffi::Told::default(), given)?;
        let pair = Pair { rig, twin, model: Model::of(&given.prices), given };
        pair.alike("yatesorrel_rig_begin, rig")?;
        Ok(Some(pair))
    }

    /// Whether the whole rig is the twin's.
    pub fn alike(&self, call: &'static str) -> Outcome {
        let library = mirror::settled_rig(&self.rig);
        same(call, &library, &mirror::shown_rig(&self.twin), self.given)
    }

    pub fn step(&mut self, counts: &mut Counts) -> Outcome {
        let Given { prices, image, tape, .. } = self.given;
        let library = ffi::rig_step(&mut self.rig, prices, image, tape);
        count_step(&library, counts);
        let twin = match &self.model {
            Some(model) => {
                let round = rig::Round { model: model.prices(), image, tape };
                mirror::attempt(self.twin.step(&round))
            }
            None => {
                let refusal = mirror::refused(ffi::NO_PRICES);
                ffi::Attempt { refusal, ..ffi::Attempt::default() }
            }
        };
        same("yatesorrel_rig_step", &library, &twin, self.given)
    }

    pub fn cut(&mut self, counts: &mut Counts) -> Outcome {
        let library = ffi::rig_cut(&mut self.rig);
        counts.refusal("rig cut", library.number);
        same("yatesorrel_rig_cut", &library, &mirror::rig_cut(&mut self.twin), self.given)
    }

    fn counts(&self) -> Outcome {
        let library = ffi::rig_counts(&self.rig);
        same("yatesorrel_rig_counts", &library, &mirror::rig_counts(&self.twin), self.given)
    }

    fn record(&self, index: usize, counts: &mut Counts) -> Outcome {
        let library = ffi::rig_record(&self.rig, index);
        counts.refusal("rig record", library.refusal.number);
        let twin = mirror::rig_record(&self.twin, index);
        same("yatesorrel_rig_record", &library, &twin, self.given)
    }

    fn kept(&self) -> Outcome {
        let mut state = State { ending: 99, ..State::ZERO };
        let told = ffi::rig_kept(&self.rig, &mut state);
        same("yatesorrel_rig_kept", &told, &ffi::Told::default(), self.given)?;
        let twin = mirror::shown(self.twin.kept());
        same("yatesorrel_rig_kept, state", &mirror::settled(&state), &twin, self.given)
    }

    /// Makes one call, and looks at the whole rig after it.
    pub fn call(&mut self, call: Call, counts: &mut Counts) -> Outcome {
        let before = *self.rig;
        match call.kind {
            0 => self.step(counts)?,
            1 => self.cut(counts)?,
            2 => self.counts()?,
            3 => self.kept()?,
            _ => self.record(call.index, counts)?,
        }
        if call.kind > 1 {
            return same("a question, rig", &*self.rig, &before, self.given);
        }
        self.alike("a step or a cut, rig")
    }

    /// Goes on from where the library's rig stands.
    pub fn go_on(
        &mut self,
        random: &mut Random,
        twin: mirror::Rig,
        counts: &mut Counts,
    ) -> Outcome {
        let begun = Spoiled(self.given, *self.rig);
        self.twin = twin;
        for _ in 0..4 {
            let made = self.call(scripts::call(random, 20), counts);
            made.map_err(|difference| difference.from(&begun))?;
        }
        Ok(())
    }

    pub fn is_over(&self) -> bool {
        self.twin.kept.ending.is_some() || self.twin.attempts >= rig::MOST_ATTEMPTS
    }

    /// What became of the rig.
    pub fn course(&self) -> &'static str {
        let Rig { kept, cuts, saves, .. } = &self.twin;
        match (kept.ending.is_some(), self.twin.charges() > cuts + 1) {
            (true, true) => "ended, after falling back",
            (true, false) if *cuts > 0 => "ended, after cuts alone",
            (true, false) if *saves > 0 => "ended on one charge, with saves",
            (true, false) => "ended on one charge",
            (false, true) => "not ended, after falling back",
            (false, false) => "not ended",
        }
    }

    /// Takes both up shortly before their last attempts and cuts.
    pub fn near_the_end(&mut self, random: &mut Random) {
        let attempts = random.pick(&[999_900, 999_990, 999_999, 1_000_000]);
        let cuts = random.pick(&[0, 999_998, 999_999, 1_000_000]);
        (self.rig.attempts, self.rig.cuts) = (attempts, cuts);
        (self.twin.attempts, self.twin.cuts) = (attempts.into(), cuts.into());
    }
}

fn count_step(attempt: &ffi::Attempt, counts: &mut Counts) {
    match (attempt.refusal.number, attempt.said_yes, attempt.ending) {
        (0, 0, _) => counts.add("rig step", "no"),
        (0, _, 0) => counts.add("rig step", "yes"),
        (0, _, _) => counts.add("rig step", "ended"),
        (number, ..) => counts.refusal("rig step", number),
    }
}

/// What stands in a rig before it is begun.
pub const NO_RIG: ffi::Rig = ffi::Rig {
    supply: Supply {
        kind: 9,
        microfarads: 9,
        top: 9,
        bottom: 9,
        unit: 9,
        energy: 9,
        asked: 9,
        charges: 9,
    },
    state: State { ending: 9, logged: 9, ..State::ZERO },
    kept: State { ending: 9, logged: 9, ..State::ZERO },
    before: 9,
    saves: 9,
    cuts: 9,
    attempts: 9,
};

/// What the calls of a rig with other numbers are given.
pub struct Spoiled<'g>(pub &'g Given, pub ffi::Rig);

impl Display for Spoiled<'_> {
    fn fmt(&self, f: &mut fmt::Formatter<'_>) -> fmt::Result {
        write!(f, "{}\nrig: {:?}", self.0, self.1)
    }
}
