//! The panel.

use crate::folded::Fields;
use crate::sizes::{number_of, refuse};

/// From this figure on no card is accepted.
const FULL: u32 = 999_999;

/// Accepts a state in phase 3.
pub fn accept(state: &mut [u16], figure: &mut u32) -> u16 {
    number_of((|| {
        let fields = Fields::without_links(state)?;
        refuse(9, matches!(fields.phase, 5 | 6))?;
        refuse(10, matches!(fields.phase, 1 | 2 | 4))?;
        refuse(11, *figure >= FULL)?;
        Fields { phase: 6, ..fields }.put(state);
        *figure += 1;
        Ok(())
    })())
}

/// Starts a shift.
pub fn shift_start(figure: &mut u32) {
    *figure = 0;
}
