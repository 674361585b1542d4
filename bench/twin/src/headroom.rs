//! How much charge a round needs, and how large a capacitor.

use crate::certify::{Certifier, MOST_BUDGET, Worth};
use crate::image::SLOT_BYTES;
use crate::price::PriceModel;
use crate::refusal::Refusal;
use crate::supply::Ratings;

/// The largest capacitor.
const MOST_MICROFARADS: u64 = 100_000;

/// A capacitor's numbers but for its capacity.
#[derive(Clone, Copy, Debug, PartialEq, Eq)]
pub struct Voltages {
    pub top: u64,
    pub bottom: u64,
    pub unit: u64,
}

/// The least budget at which an image is accepted: the dearest worth of all,
/// since every slot with a worth is on a walk from some start.
pub fn least_budget<M: PriceModel + ?Sized>(
    image: &[u8],
    model: &M,
    working: &mut [Worth],
) -> Result<u64, Refusal> {
    Certifier { model, budget: MOST_BUDGET }.certify(image, working)?;
    let worths = working.iter().take(image.len() / SLOT_BYTES);
    Ok(worths.map(|worth| worth.price).max().unwrap_or(0).max(1))
}

/// The least capacity in microfarads that still fits, or none where not even
/// the largest capacitor does.
pub fn least_capacity<M: PriceModel + ?Sized>(
    image: &[u8],
    model: &M,
    voltages: Voltages,
    working: &mut [Worth],
) -> Result<Option<u64>, Refusal> {
    let Voltages { top, bottom, unit } = voltages;
    Ratings::new(1, top, bottom, unit)?;
    let budget = least_budget(image, model, working)?;
    // Twice the picojoules that a microfarad holds.
    let per_microfarad = top * top - bottom * bottom;
    let capacity = (2 * unit * budget).div_ceil(per_microfarad);
    Ok((capacity <= MOST_MICROFARADS).then_some(capacity))
}
