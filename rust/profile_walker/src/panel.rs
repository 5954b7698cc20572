//! The panel. Its figure is one word, 0 in a new record; only these two calls write it.

use crate::areas;
use crate::refusal::Refusal;
use crate::state::State;

pub use crate::areas::shift_start;

/// Accepts a state in phase 3: the figure is one more, the phase is 6.
///
/// Numbers: 1, 2, 4, 8, 9, 10, 11.
pub fn accept(state: &mut State, figure: &mut u32) -> Result<(), Refusal> {
    areas::accept(state.words_mut(), figure)
}
