//! Refusals, with the numbers that never change.

use std::error::Error;
use std::fmt;

/// Where the certifier finds that no charge suffices, or not this one.
#[derive(Clone, Copy, Debug, PartialEq, Eq)]
pub enum Stuck {
    /// 9: the lowest slot that some walk holds twice.
    Loop { slot: u16 },
    /// 10: the lowest start with a walk over budget, and its dearest price.
    OverBudget { slot: u16, price: u64 },
}

#[derive(Clone, Copy, Debug, PartialEq, Eq)]
pub enum Refusal {
    Length,
    IllegalOpcode { slot: u16 },
    NoRegister { slot: u16 },
    FieldNotZero { slot: u16 },
    FramePointer { slot: u16 },
    NoHelper { slot: u16 },
    WayOut { slot: u16 },
    Budget,
    Stuck(Stuck),
    NoPlacement(Stuck),
    WorkingList,
    SupplyNumbers,
    Ended,
    Attempts,
    Cuts,
    NoRecord,
}

impl Stuck {
    pub fn number(self) -> u8 {
        match self {
            Stuck::Loop { .. } => 9,
            Stuck::OverBudget { .. } => 10,
        }
    }

    pub fn slot(self) -> u16 {
        match self {
            Stuck::Loop { slot } | Stuck::OverBudget { slot, .. } => slot,
        }
    }

    pub fn price(self) -> u64 {
        match self {
            Stuck::Loop { .. } => 0,
            Stuck::OverBudget { price, .. } => price,
        }
    }
}

impl Refusal {
    pub fn number(self) -> u8 {
        match self {
            Refusal::Length => 1,
            Refusal::IllegalOpcode { .. } => 2,
            Refusal::NoRegister { .. } => 3,
            Refusal::FieldNotZero { .. } => 4,
            Refusal::FramePointer { .. } => 5,
            Refusal::NoHelper { .. } => 6,
            Refusal::WayOut { .. } => 7,
            Refusal::Budget => 8,
            Refusal::Stuck(stuck) => stuck.number(),
            Refusal::NoPlacement(_) => 11,
            Refusal::WorkingList => 12,
            Refusal::SupplyNumbers => 13,
            Refusal::Ended => 21,
            Refusal::Attempts => 22,
            Refusal::Cuts => 23,
            Refusal::NoRecord => 24,
        }
    }

    pub fn slot(self) -> u16 {
        match self {
            Refusal::IllegalOpcode { slot }
            | Refusal::NoRegister { slot }
            | Refusal::FieldNotZero { slot }
            | Refusal::FramePointer { slot }
            | Refusal::NoHelper { slot }
            | Refusal::WayOut { slot } => slot,
            Refusal::Stuck(stuck) => stuck.slot(),
            _ => 0,
        }
    }

    pub fn price(self) -> u64 {
        match self {
            Refusal::Stuck(stuck) => stuck.price(),
            _ => 0,
        }
    }

    /// The 9 or 10 that a refused placement carries.
    pub fn carried(self) -> Option<Stuck> {
        match self {
            Refusal::NoPlacement(stuck) => Some(stuck),
            _ => None,
        }
    }
}

impl fmt::Display for Refusal {
    fn fmt(&self, f: &mut fmt::Formatter<'_>) -> fmt::Result {
        write!(f, "refused {} slot {} price {}", self.number(), self.slot(), self.price())?;
        match self.carried() {
            Some(stuck) => {
                write!(
                    f,
                    " carrying {} slot {} price {}",
                    stuck.number(),
                    stuck.slot(),
                    stuck.price()
                )
            }
            None => Ok(()),
        }
    }
}

impl Error for Refusal {}
