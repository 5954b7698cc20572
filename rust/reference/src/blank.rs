//! The elements already on the blank, as a list of them is lent.

use crate::sizes::{refuse, Sizes};

/// The mark of an element already on the blank.
pub const ON_THE_BLANK: u16 = 65_535;

/// Judges a list for a start that is an element: 17, 18. A list is good where nothing changes once what is no element is
/// left out of it, the rest is sorted, and each is kept once.
pub fn judge(sizes: Sizes, start: u16, before: &[u16]) -> Result<(), u16> {
    let mut rising: Vec<u16> = before.to_vec();
    rising.retain(|&word| sizes.element(word));
    rising.sort_unstable();
    rising.dedup();
    refuse(17, rising != before)?;
    refuse(18, rising.contains(&start))
}

/// Marks the elements of a good list.
pub fn mark(marks: &mut [u16], before: &[u16]) {
    for &element in before {
        marks[usize::from(element) - 1] = ON_THE_BLANK;
    }
}
