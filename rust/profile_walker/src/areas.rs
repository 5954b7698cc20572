//! The sixteen calls with every area lent as a slice of any length, and every word that a call sets lent as a
//! reference. A call that is turned back leaves all of them as they were.
//!
//! `before` lists the elements already on the blank, strictly rising: it may have any length, and none is too short.
//!
//! The calls at the root of the crate are the same ones over [`State`](crate::State), [`Tally`](crate::Tally) and
//! [`Ran`](crate::Ran). Those here take a state or tally area that may be too short.

use crate::raw;
use crate::refusal::{outcome, Refusal};

/// Checks a linked image. It writes nothing.
///
/// Areas: n+m after words, m tail words. Numbers: 1, 2, 3, 5, 6, 7.
pub fn check_image(n: u16, m: u16, after: &[u16], tail: &[u16]) -> Result<(), Refusal> {
    // SAFETY: the slices are valid, aligned and non-null, and the call only reads them.
    outcome(unsafe {
        raw::profile_walker_check_image(
            n,
            m,
            after.as_ptr(),
            after.len(),
            tail.as_ptr(),
            tail.len(),
        )
    })
}

/// Reads a profile's text into the areas of a linked image, and sets `n`, `m` and `start`. A number in the text may
/// have zeros before it, up to five digits in all.
///
/// Areas, by the n and m of the text: n+m after words, m tail words. Numbers: 13, 12, 1, 2, 3, 4, 6.
pub fn read_profile(
    text: &[u8],
    after: &mut [u16],
    tail: &mut [u16],
    n: &mut u16,
    m: &mut u16,
    start: &mut u16,
) -> Result<(), Refusal> {
    // SAFETY: the slices and words are valid, aligned and non-null; borrowed as mutable, none overlaps another.
    outcome(unsafe {
        raw::profile_walker_read_profile(
            text.as_ptr(),
            text.len(),
            after.as_mut_ptr(),
            after.len(),
            tail.as_mut_ptr(),
            tail.len(),
            n,
            m,
            start,
        )
    })
}

/// Converts a linked image to array form. The references of element u stand at positions `firsts[u-1]` to
/// `firsts[u]-1`, counted from 1; `numbers` says which reference each position holds.
///
/// Areas: n+m after words, m tail words, n+1 first positions, m tails, m numbers. Numbers: 1, 2, 3, 5, 6, 7.
pub fn to_array(
    n: u16,
    m: u16,
    after: &[u16],
    tail: &[u16],
    firsts: &mut [u16],
    tails: &mut [u16],
    numbers: &mut [u16],
) -> Result<(), Refusal> {
    // SAFETY: the slices are valid, aligned and non-null; those written are borrowed as mutable and overlap nothing.
    outcome(unsafe {
        raw::profile_walker_to_array(
            n,
            m,
            after.as_ptr(),
            after.len(),
            tail.as_ptr(),
            tail.len(),
            firsts.as_mut_ptr(),
            firsts.len(),
            tails.as_mut_ptr(),
            tails.len(),
            numbers.as_mut_ptr(),
            numbers.len(),
        )
    })
}

/// Prints the folded walk of the profile that a text says, and sets `printed` to the number of bytes printed.
///
/// Areas, whatever the text: 5,000 after words, 4,000 tail words, 5,000 marks, 54,003 event words, 180,066 bytes of
/// output. Numbers: 13, 12, 1, 2, 3, 4, 6. A text that is turned back prints nothing; [`refusal_line`] prints its
/// line.
pub fn walk_text(
    text: &[u8],
    after: &mut [u16],
    tail: &mut [u16],
    marks: &mut [u16],
    events: &mut [u16],
    output: &mut [u8],
    printed: &mut usize,
) -> Result<(), Refusal> {
    // SAFETY: the slices and the word are valid, aligned and non-null; those written overlap nothing.
    outcome(unsafe {
        raw::profile_walker_walk_text(
            text.as_ptr(),
            text.len(),
            after.as_mut_ptr(),
            after.len(),
            tail.as_mut_ptr(),
            tail.len(),
            marks.as_mut_ptr(),
            marks.len(),
            events.as_mut_ptr(),
            events.len(),
            output.as_mut_ptr(),
            output.len(),
            printed,
        )
    })
}

/// Prints the line of a refusal, as `refused,6` and a line feed, at the front of the output, and sets `printed` to the
/// number of its bytes.
///
/// Area: as many bytes of output as the line has; 14 serve every number. Numbers: 3.
pub fn refusal_line(number: u16, output: &mut [u8], printed: &mut usize) -> Result<(), Refusal> {
    // SAFETY: the slice and the word are valid, aligned and non-null; they do not overlap.
    outcome(unsafe {
        raw::profile_walker_refusal_line(number, output.as_mut_ptr(), output.len(), printed)
    })
}

/// Searches depth-first by recursion. It nests up to n calls.
///
/// Areas: n+m after words, m tail words, n+m marks, 6(n+m) event words, 7 tally words.
/// Numbers: 1, 2, 3, 4, 5, 6, 7, 17, 18.
#[allow(clippy::too_many_arguments)]
pub fn dfs_recursive(
    n: u16,
    m: u16,
    start: u16,
    after: &[u16],
    tail: &[u16],
    before: &[u16],
    marks: &mut [u16],
    events: &mut [u16],
    tally: &mut [u32],
) -> Result<(), Refusal> {
    // SAFETY: the slices are valid, aligned and non-null; those written are borrowed as mutable and overlap nothing.
    outcome(unsafe {
        raw::profile_walker_dfs_recursive(
            n,
            m,
            start,
            after.as_ptr(),
            after.len(),
            tail.as_ptr(),
            tail.len(),
            before.as_ptr(),
            before.len(),
            marks.as_mut_ptr(),
            marks.len(),
            events.as_mut_ptr(),
            events.len(),
            tally.as_mut_ptr(),
            tally.len(),
        )
    })
}

/// Searches depth-first with a parent word for each element: at the end the tree reference into the element's
/// parent, 0 for the start, its children and the unreached.
///
/// Areas: n+m after words, m tail words, n+m marks, n parents, 6(n+m) event words, 7 tally words.
/// Numbers: 1, 2, 3, 4, 5, 6, 7, 17, 18.
#[allow(clippy::too_many_arguments)]
pub fn dfs_parent(
    n: u16,
    m: u16,
    start: u16,
    after: &[u16],
    tail: &[u16],
    before: &[u16],
    marks: &mut [u16],
    parents: &mut [u16],
    events: &mut [u16],
    tally: &mut [u32],
) -> Result<(), Refusal> {
    // SAFETY: the slices are valid, aligned and non-null; those written are borrowed as mutable and overlap nothing.
    outcome(unsafe {
        raw::profile_walker_dfs_parent(
            n,
            m,
            start,
            after.as_ptr(),
            after.len(),
            tail.as_ptr(),
            tail.len(),
            before.as_ptr(),
            before.len(),
            marks.as_mut_ptr(),
            marks.len(),
            parents.as_mut_ptr(),
            parents.len(),
            events.as_mut_ptr(),
            events.len(),
            tally.as_mut_ptr(),
            tally.len(),
        )
    })
}

/// Searches depth-first over the array form. Events name position p as n+p. An increment is at the end the place in
/// its list of the element's last tree reference, 1 for a reached element without one, 0 for the unreached. The
/// tails are written while the walk is under way, and are as they were when the call returns.
///
/// Areas: n+1 first positions, m tails, n+m marks, n increments, 6(n+m) event words, 7 tally words.
/// Numbers: 1, 2, 3, 4, 5, 6, 17, 18.
#[allow(clippy::too_many_arguments)]
pub fn dfs_array(
    n: u16,
    m: u16,
    start: u16,
    firsts: &[u16],
    tails: &mut [u16],
    before: &[u16],
    marks: &mut [u16],
    increments: &mut [u16],
    events: &mut [u16],
    tally: &mut [u32],
) -> Result<(), Refusal> {
    // SAFETY: the slices are valid, aligned and non-null; those written are borrowed as mutable and overlap nothing.
    outcome(unsafe {
        raw::profile_walker_dfs_array(
            n,
            m,
            start,
            firsts.as_ptr(),
            firsts.len(),
            tails.as_mut_ptr(),
            tails.len(),
            before.as_ptr(),
            before.len(),
            marks.as_mut_ptr(),
            marks.len(),
            increments.as_mut_ptr(),
            increments.len(),
            events.as_mut_ptr(),
            events.len(),
            tally.as_mut_ptr(),
            tally.len(),
        )
    })
}

/// Searches breadth-first with a queue: at the end the elements in order of labelling, then 0.
///
/// Areas: n+m after words, m tail words, n+m marks, n queue words, 6(n+m) event words, 7 tally words.
/// Numbers: 1, 2, 3, 4, 5, 6, 7, 17, 18.
#[allow(clippy::too_many_arguments)]
pub fn bfs_queue(
    n: u16,
    m: u16,
    start: u16,
    after: &[u16],
    tail: &[u16],
    before: &[u16],
    marks: &mut [u16],
    queue: &mut [u16],
    events: &mut [u16],
    tally: &mut [u32],
) -> Result<(), Refusal> {
    // SAFETY: the slices are valid, aligned and non-null; those written are borrowed as mutable and overlap nothing.
    outcome(unsafe {
        raw::profile_walker_bfs_queue(
            n,
            m,
            start,
            after.as_ptr(),
            after.len(),
            tail.as_ptr(),
            tail.len(),
            before.as_ptr(),
            before.len(),
            marks.as_mut_ptr(),
            marks.len(),
            queue.as_mut_ptr(),
            queue.len(),
            events.as_mut_ptr(),
            events.len(),
            tally.as_mut_ptr(),
            tally.len(),
        )
    })
}

/// Searches breadth-first with the queue folded into the links. The after words are written while the walk is under
/// way, and are as they were when the call returns.
///
/// Areas: n+m after words, m tail words, n+m marks, 6(n+m) event words, 7 tally words.
/// Numbers: 1, 2, 3, 4, 5, 6, 7, 17, 18.
#[allow(clippy::too_many_arguments)]
pub fn bfs_folded(
    n: u16,
    m: u16,
    start: u16,
    after: &mut [u16],
    tail: &[u16],
    before: &[u16],
    marks: &mut [u16],
    events: &mut [u16],
    tally: &mut [u32],
) -> Result<(), Refusal> {
    // SAFETY: the slices are valid, aligned and non-null; those written are borrowed as mutable and overlap nothing.
    outcome(unsafe {
        raw::profile_walker_bfs_folded(
            n,
            m,
            start,
            after.as_mut_ptr(),
            after.len(),
            tail.as_ptr(),
            tail.len(),
            before.as_ptr(),
            before.len(),
            marks.as_mut_ptr(),
            marks.len(),
            events.as_mut_ptr(),
            events.len(),
            tally.as_mut_ptr(),
            tally.len(),
        )
    })
}

/// Opens a folded walk: checks the image, clears the marks, sets those of the elements already on the blank to 65,535,
/// labels the start (mark 32,769), writes one event and the state.
///
/// Areas: n+m after words, m tail words, n+m marks, 3 event words, 9 state words. Numbers: 1, 2, 3, 4, 5, 6, 7, 17, 18.
#[allow(clippy::too_many_arguments)]
pub fn open(
    n: u16,
    m: u16,
    start: u16,
    after: &[u16],
    tail: &[u16],
    before: &[u16],
    marks: &mut [u16],
    events: &mut [u16],
    state: &mut [u16],
) -> Result<(), Refusal> {
    // SAFETY: the slices are valid, aligned and non-null; those written are borrowed as mutable and overlap nothing.
    outcome(unsafe {
        raw::profile_walker_open(
            n,
            m,
            start,
            after.as_ptr(),
            after.len(),
            tail.as_ptr(),
            tail.len(),
            before.as_ptr(),
            before.len(),
            marks.as_mut_ptr(),
            marks.len(),
            events.as_mut_ptr(),
            events.len(),
            state.as_mut_ptr(),
            state.len(),
        )
    })
}

/// Makes one move, and sets `steps` to 1, `made` to the number of events written and `reason` to 0.
///
/// An element that is labelled is marked with its label number plus 32,768; its scan leaves the remainder by 32,768,
/// the number alone. Winding back leaves marks alone before its last move, which clears the n marks of elements, but
/// for those of 65,535.
///
/// Areas, by the state's n and m: 9 state words, n+m after words, m tail words, n+m marks, 6 event words.
/// Numbers: 3 where the state has fewer than 9 words; then 1, 2, 3, 4, 8, 9.
#[allow(clippy::too_many_arguments)]
pub fn step(
    state: &mut [u16],
    after: &mut [u16],
    tail: &mut [u16],
    marks: &mut [u16],
    events: &mut [u16],
    steps: &mut u32,
    made: &mut usize,
    reason: &mut u16,
) -> Result<(), Refusal> {
    // SAFETY: the slices and words are valid, aligned and non-null; borrowed as mutable, none overlaps another.
    outcome(unsafe {
        raw::profile_walker_step(
            state.as_mut_ptr(),
            state.len(),
            after.as_mut_ptr(),
            after.len(),
            tail.as_mut_ptr(),
            tail.len(),
            marks.as_mut_ptr(),
            marks.len(),
            events.as_mut_ptr(),
            events.len(),
            steps,
            made,
            reason,
        )
    })
}

/// Makes moves up to a budget, and sets `steps` to the moves made, `made` to the number of events written and
/// `reason` to the number of the [`Reason`](crate::Reason) why it stopped.
///
/// Areas, by the state's n and m: 9 state words, n+m after words, m tail words, n+m marks, 6 event words for each move
/// of the budget. Numbers: 3 where the state has fewer than 9 words; then 1, 2, 3, 4, 8.
#[allow(clippy::too_many_arguments)]
pub fn run(
    state: &mut [u16],
    budget: u32,
    after: &mut [u16],
    tail: &mut [u16],
    marks: &mut [u16],
    events: &mut [u16],
    steps: &mut u32,
    made: &mut usize,
    reason: &mut u16,
) -> Result<(), Refusal> {
    // SAFETY: the slices and words are valid, aligned and non-null; borrowed as mutable, none overlaps another.
    outcome(unsafe {
        raw::profile_walker_run(
            state.as_mut_ptr(),
            state.len(),
            budget,
            after.as_mut_ptr(),
            after.len(),
            tail.as_mut_ptr(),
            tail.len(),
            marks.as_mut_ptr(),
            marks.len(),
            events.as_mut_ptr(),
            events.len(),
            steps,
            made,
            reason,
        )
    })
}

/// Orders the walk to be wound back: phase 4, from which further moves lead to phase 5.
///
/// Areas: 9 state words. Numbers: 3 where the state has fewer; then 1, 2, 4, 8, 9.
pub fn roll_back(state: &mut [u16]) -> Result<(), Refusal> {
    // SAFETY: the slice is valid, aligned and non-null.
    outcome(unsafe { raw::profile_walker_roll_back(state.as_mut_ptr(), state.len()) })
}

/// Accepts a state in phase 3: the figure is one more, the phase is 6.
///
/// Areas: 9 state words. Numbers: 3 where the state has fewer; then 1, 2, 4, 8, 9, 10, 11.
pub fn accept(state: &mut [u16], figure: &mut u32) -> Result<(), Refusal> {
    // SAFETY: the slice and the word are valid, aligned and non-null; borrowed as mutable, they do not overlap.
    outcome(unsafe { raw::profile_walker_accept(state.as_mut_ptr(), state.len(), figure) })
}

/// Starts a shift: the figure is 0. It is never turned back.
pub fn shift_start(figure: &mut u32) {
    // SAFETY: the word is valid, aligned and non-null.
    unsafe { raw::profile_walker_shift_start(figure) }
}
