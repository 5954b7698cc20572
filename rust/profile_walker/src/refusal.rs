//! The number with which a call is turned back.

use std::error::Error;
use std::fmt;

/// A call was turned back with this number, and has changed nothing.
///
/// | No. | Condition |
/// |---|---|
/// | 1 | n is 0 or over 1,000 |
/// | 2 | m is over 4,000 |
/// | 3 | a lent area is shorter than stated |
/// | 4 | the start is not in 1 to n |
/// | 5 | an after word is neither 0 nor a reference; a first position breaks its rule |
/// | 6 | a tail, or a from or to in a text, is not in 1 to n |
/// | 7 | a reference is not on exactly one list, once |
/// | 8 | a state field, or a word that the move reads, is out of kind |
/// | 9 | a single move or winding order in phase 3, 5 or 6; accepting in phase 5 or 6 |
/// | 10 | accepting in phase 1, 2 or 4 |
/// | 11 | accepting when the figure is 999,999 or more |
/// | 12 | a text not in its form |
/// | 13 | a text over 65,536 bytes |
/// | 17 | the list of elements already on the blank is not strictly rising, or leaves 1 to n |
/// | 18 | the start is on that list |
#[derive(Clone, Copy, Debug, PartialEq, Eq, Hash)]
pub struct Refusal(pub u16);

impl fmt::Display for Refusal {
    fn fmt(&self, to: &mut fmt::Formatter<'_>) -> fmt::Result {
        write!(to, "refused,{}", self.0)
    }
}

impl Error for Refusal {}

/// What a returned number says: 0 is a call taken.
pub(crate) fn outcome(number: u16) -> Result<(), Refusal> {
    match number {
        0 => Ok(()),
        number => Err(Refusal(number)),
    }
}
