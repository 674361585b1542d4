//! Does every stretch of a round fit one full charge?

use crate::graph::{Found, Graph, Search, lowest_looped};
use crate::image::{Instruction, MOST_SLOTS, instructions};
use crate::price::PriceModel;
use crate::refusal::{Refusal, Stuck};

/// The largest budget that is judged.
pub const MOST_BUDGET: u64 = 100_000_000;

/// The price of the dearest complete list from a slot, with the slot.
#[derive(Clone, Copy, Debug, Default, PartialEq, Eq)]
pub struct Worth {
    pub price: u64,
    pub slot: u16,
}

/// A price model and a budget.
#[derive(Clone, Copy, Debug)]
pub struct Certifier<'m, M: ?Sized> {
    pub model: &'m M,
    pub budget: u64,
}

impl<M: PriceModel + ?Sized> Certifier<'_, M> {
    /// Whether the image is accepted; leaves the worths in the working list.
    pub fn certify(&self, image: &[u8], working: &mut [Worth]) -> Result<(), Refusal> {
        let instructions = self.admit(image, working.len())?;
        let graph = Graph::new(&instructions, self.model);
        self.judge(&graph, &mut Search::default(), working).map_err(Refusal::Stuck)
    }

    /// The instructions of an image that is fit to be judged.
    pub(crate) fn admit(&self, image: &[u8], room: usize) -> Result<Vec<Instruction>, Refusal> {
        if !(1..=MOST_BUDGET).contains(&self.budget) {
            return Err(Refusal::Budget);
        }
        if room < MOST_SLOTS {
            return Err(Refusal::WorkingList);
        }
        instructions(image)
    }

    pub(crate) fn judge(
        &self,
        graph: &Graph,
        search: &mut Search,
        working: &mut [Worth],
    ) -> Result<(), Stuck> {
        if search.run(graph, u64::MAX) == Found::Loop {
            let slot = lowest_looped(graph).unwrap_or_default();
            return Err(Stuck::Loop { slot: slot as u16 });
        }
        for (slot, entry) in working.iter_mut().enumerate().take(graph.len()) {
            *entry = match search.worth(slot) {
                Some(price) => Worth { price, slot: slot as u16 },
                None => Worth::default(),
            };
        }
        match search.lowest_over(graph, self.budget) {
            Some((slot, price)) => Err(Stuck::OverBudget { slot: slot as u16, price }),
            None => Ok(()),
        }
    }
}
