//! Profiles: their text and their links.

use crate::areas;
use crate::refusal::Refusal;

/// The most elements (vertices) of a profile.
pub const MAX_N: u16 = 1_000;
/// The most references (edges) of a profile.
pub const MAX_M: u16 = 4_000;
/// The most bytes of a text.
pub const MAX_TEXT: usize = 65_536;

/// The bytes that serve [`refusal_line`], whatever the number.
pub const REFUSAL_BYTES: usize = 14;

/// The words that serve [`walk_text`](crate::walk_text), whatever the text.
pub mod text_areas {
    /// After words.
    pub const AFTER: usize = 5_000;
    /// Tail words.
    pub const TAIL: usize = 4_000;
    /// Marks.
    pub const MARKS: usize = 5_000;
    /// Event words.
    pub const EVENTS: usize = 54_003;
    /// Bytes of output.
    pub const OUTPUT: usize = 180_066;
}

/// The first line of values of a profile's text.
#[derive(Clone, Copy, Debug, PartialEq, Eq, Hash)]
pub struct Profile {
    /// The number of elements (vertices).
    pub n: u16,
    /// The number of references (edges).
    pub m: u16,
    /// The element that a walk starts from.
    pub start: u16,
}

/// Reads a profile's text into the areas of a linked image. A number in the text may have zeros before it, up to five
/// digits in all.
///
/// Areas, by the n and m of the text: n+m after words, m tail words; 5,000 and 4,000 serve every text.
/// Numbers: 13, 12, 1, 2, 3, 4, 6.
pub fn read_profile(text: &[u8], after: &mut [u16], tail: &mut [u16]) -> Result<Profile, Refusal> {
    let (mut n, mut m, mut start) = (0, 0, 0);
    areas::read_profile(text, after, tail, &mut n, &mut m, &mut start)?;
    Ok(Profile { n, m, start })
}

/// Prints the line of a refusal, as `refused,6` and a line feed, at the front of the output; the number of its bytes.
///
/// Area: as many bytes of output as the line has; [`REFUSAL_BYTES`] serve every number.
/// Numbers: 3.
pub fn refusal_line(refusal: Refusal, output: &mut [u8]) -> Result<usize, Refusal> {
    let mut printed = 0;
    areas::refusal_line(refusal.0, output, &mut printed)?;
    Ok(printed)
}
