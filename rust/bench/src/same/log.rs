//! What a walk writes: events, their tally, and marks.

use std::slice::ChunksExactMut;

/// The mark of an element already on the blank.
pub const ON_THE_BLANK: u16 = 65535;

/// Clears the marks of all nodes, and marks the elements already on the blank.
pub fn mark_blanks(marks: &mut [u16], before: &[u16]) {
    marks.fill(0);
    for &x in before {
        marks[usize::from(x) - 1] = ON_THE_BLANK;
    }
}

/// The events of a walk by kind, seven counts: passed to and returned by whatever emits.
pub type Tally = [u32; 7];

/// The part of an event area that is not written yet.
pub struct Events<'a>(ChunksExactMut<'a, u16>);

impl<'a> Events<'a> {
    pub fn new(area: &'a mut [u16]) -> Self {
        Events(area.chunks_exact_mut(3))
    }

    /// Writes one event and counts it; neither where there is no room.
    #[inline]
    pub fn emit(&mut self, kind: u16, r: u16, u: u16, mut tally: Tally) -> Tally {
        if let Some(event) = self.0.next() {
            event.copy_from_slice(&[kind, r, u]);
            tally[usize::from(kind) - 1] += 1;
        }
        tally
    }

    /// Marks u with the next number, and writes its label.
    #[inline]
    pub fn label(&mut self, marks: &mut [u16], u: u16, tally: Tally) -> Tally {
        marks[usize::from(u) - 1] = tally[0] as u16 + 1;
        self.emit(1, 0, u, tally)
    }
}
