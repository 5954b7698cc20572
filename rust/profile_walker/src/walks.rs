//! Whole walks.
//!
//! Each clears the n+m marks and leaves 65,535 for the elements already on the blank, 1 for the start, then 2, 3 and on
//! in order of labelling, and 0 for the rest. Event words past the last event stay as they were.
//!
//! `before` lists the elements already on the blank, strictly rising; none where it is empty. They are labelled before
//! the start is, without an event: a reference to one is nontree, and its own references are not met.

use crate::areas;
use crate::refusal::Refusal;

/// How many words a tally has.
pub const TALLY_WORDS: usize = 7;

/// The kinds of event. An event is three words: kind, reference, element.
pub mod kind {
    /// An element is labelled.
    pub const LABEL: u16 = 1;
    /// A reference to an element not yet labelled is followed.
    pub const ADVANCE_TREE: u16 = 2;
    /// A reference to a labelled element is met.
    pub const ADVANCE_NONTREE: u16 = 3;
    /// A reference to a labelled element is left.
    pub const RETREAT_NONTREE: u16 = 4;
    /// A tree reference is gone back along.
    pub const RETREAT_TREE: u16 = 5;
    /// An element is scanned: all its references are traversed.
    pub const SCAN: u16 = 6;
    /// A reference is traversed breadth-first.
    pub const TRAVERSE: u16 = 7;
}

/// The number of events of each kind, kind 1 first.
#[derive(Clone, Copy, Debug, Default, PartialEq, Eq, Hash)]
pub struct Tally(pub [u32; TALLY_WORDS]);

impl Tally {
    /// The number of events of all kinds.
    pub fn events(&self) -> u64 {
        self.0.iter().map(|&count| u64::from(count)).sum()
    }
}

/// Searches depth-first by recursion. It nests up to n calls.
///
/// Areas: n+m after words, m tail words, n+m marks, 6(n+m) event words. Numbers: 1, 2, 3, 4, 5, 6, 7, 17, 18.
#[allow(clippy::too_many_arguments)]
pub fn dfs_recursive(
    n: u16,
    m: u16,
    start: u16,
    after: &[u16],
    tail: &[u16],
    before: &[u16],
    marks: &mut [u16],
    events: &mut [u16],
) -> Result<Tally, Refusal> {
    let mut tally = Tally::default();
    areas::dfs_recursive(
        n,
        m,
        start,
        after,
        tail,
        before,
        marks,
        events,
        &mut tally.0,
    )?;
    Ok(tally)
}

/// Searches depth-first with a parent word for each element: at the end the tree reference into the element's
/// parent, 0 for the start, its children and the unreached.
///
/// Areas: n+m after words, m tail words, n+m marks, n parents, 6(n+m) event words. Numbers: 1, 2, 3, 4, 5, 6, 7, 17, 18.
#[allow(clippy::too_many_arguments)]
pub fn dfs_parent(
    n: u16,
    m: u16,
    start: u16,
    after: &[u16],
    tail: &[u16],
    before: &[u16],
    marks: &mut [u16],
    parents: &mut [u16],
    events: &mut [u16],
) -> Result<Tally, Refusal> {
    let mut tally = Tally::default();
    areas::dfs_parent(
        n,
        m,
        start,
        after,
        tail,
        before,
        marks,
        parents,
        events,
        &mut tally.0,
    )?;
    Ok(tally)
}

/// Searches depth-first over the array form. Events name position p as n+p. An increment is at the end the place in
/// its list of the element's last tree reference, 1 for a reached element without one, 0 for the unreached. The
/// tails are written while the walk is under way, and are as they were when the call returns.
///
/// Areas: n+1 first positions, m tails, n+m marks, n increments, 6(n+m) event words. Numbers: 1, 2, 3, 4, 5, 6, 17, 18.
#[allow(clippy::too_many_arguments)]
pub fn dfs_array(
    n: u16,
    m: u16,
    start: u16,
    firsts: &[u16],
    tails: &mut [u16],
    before: &[u16],
    marks: &mut [u16],
    increments: &mut [u16],
    events: &mut [u16],
) -> Result<Tally, Refusal> {
    let mut tally = Tally::default();
    areas::dfs_array(
        n,
        m,
        start,
        firsts,
        tails,
        before,
        marks,
        increments,
        events,
        &mut tally.0,
    )?;
    Ok(tally)
}

/// Searches breadth-first with a queue: at the end the elements in order of labelling, then 0.
///
/// Areas: n+m after words, m tail words, n+m marks, n queue words, 6(n+m) event words.
/// Numbers: 1, 2, 3, 4, 5, 6, 7, 17, 18.
#[allow(clippy::too_many_arguments)]
pub fn bfs_queue(
    n: u16,
    m: u16,
    start: u16,
    after: &[u16],
    tail: &[u16],
    before: &[u16],
    marks: &mut [u16],
    queue: &mut [u16],
    events: &mut [u16],
) -> Result<Tally, Refusal> {
    let mut tally = Tally::default();
    areas::bfs_queue(
        n,
        m,
        start,
        after,
        tail,
        before,
        marks,
        queue,
        events,
        &mut tally.0,
    )?;
    Ok(tally)
}

/// Searches breadth-first with the queue folded into the links. The after words are written while the walk is under
/// way, and are as they were when the call returns.
///
/// Areas: n+m after words, m tail words, n+m marks, 6(n+m) event words. Numbers: 1, 2, 3, 4, 5, 6, 7, 17, 18.
#[allow(clippy::too_many_arguments)]
pub fn bfs_folded(
    n: u16,
    m: u16,
    start: u16,
    after: &mut [u16],
    tail: &[u16],
    before: &[u16],
    marks: &mut [u16],
    events: &mut [u16],
) -> Result<Tally, Refusal> {
    let mut tally = Tally::default();
    areas::bfs_folded(
        n,
        m,
        start,
        after,
        tail,
        before,
        marks,
        events,
        &mut tally.0,
    )?;
    Ok(tally)
}
