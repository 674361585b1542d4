//! Turns idle slots into saves, none of which can be dropped.

use crate::certify::{Certifier, Worth};
use crate::graph::{Found, Graph, Role, Search};
use crate::image::SAVE_BYTES;
use crate::price::PriceModel;
use crate::refusal::Refusal;

/// Places saves in an image so that it is accepted, or refuses and leaves it.
pub fn place<M: PriceModel + ?Sized>(
    image: &mut [u8],
    by: &Certifier<'_, M>,
    working: &mut [Worth],
) -> Result<(), Refusal> {
    let instructions = by.admit(image, working.len())?;
    let mut graph = Graph::new(&instructions, by.model);
    let mut search = Search::default();
    let mut placed: Vec<usize> =
        (0..graph.len()).filter(|&slot| graph.role(slot) == Role::Idle).collect();
    for &slot in &placed {
        graph.make_save(slot);
    }
    by.judge(&graph, &mut search, working).map_err(Refusal::NoPlacement)?;

    placed.retain(|&slot| {
        graph.make_idle(slot);
        let needed = search.run(&graph, by.budget) != Found::Within;
        if needed {
            graph.make_save(slot);
        }
        needed
    });
    let (slots, _) = image.as_chunks_mut();
    for slot in placed {
        slots[slot] = SAVE_BYTES;
    }
    by.judge(&graph, &mut search, working).map_err(Refusal::NoPlacement)
}
