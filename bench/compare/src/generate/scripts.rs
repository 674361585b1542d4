//! Scripts of a rig's calls.

use crate::ffi::Call;
use crate::random::Random;

/// One call of a script.
pub fn call(random: &mut Random, cuts: u64) -> Call {
    let kind = match random.below(100) {
        chance if chance < cuts => 1,
        chance if chance < cuts + 8 => 2 + random.below(5) as u32,
        _ => 0,
    };
    Call { kind, index: index(random) }
}

/// An index of a record: mostly small.
pub fn index(random: &mut Random) -> usize {
    random.pick(&[0, 0, 1, 2, 5, 63, 64, 65, usize::MAX])
}
