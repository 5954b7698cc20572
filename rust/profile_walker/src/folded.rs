//! The folded depth-first walk, move by move.
//!
//! From the opening to phase 3 or 5 the links are bent, and nobody else writes links, marks or state.
//! A mark from 32,768 to 65,534 is of an element not yet scanned, 65,535 of one already on the blank; in phase 3 the
//! marks are those of a whole walk.

use crate::areas;
use crate::refusal::Refusal;
use crate::state::{State, STATE_WORDS};

/// A run with this budget ends any walk: 2m + n at the limits.
pub const MAX_MOVES: u32 = 9_000;
/// Words for the event of an opening.
pub const OPEN_EVENTS: usize = 3;
/// Words for the events of one move.
pub const MOVE_EVENTS: usize = 6;

/// Why a run stopped.
#[derive(Clone, Copy, Debug, PartialEq, Eq, Hash)]
pub enum Reason {
    /// None: it was a single move.
    NoReason,
    /// Phase 3, 5 or 6: there is no move to come.
    Ended,
    /// The budget is spent.
    Spent,
    /// A word that the move to come reads is out of kind; the earlier moves stand.
    Stuck,
}

impl Reason {
    /// The reason's number in the header: 0, 1, 2 or 3.
    pub const fn number(self) -> u16 {
        match self {
            Reason::NoReason => 0,
            Reason::Ended => 1,
            Reason::Spent => 2,
            Reason::Stuck => 3,
        }
    }

    /// The reason of a number; any other than 1, 2 and 3 is none.
    const fn of(number: u16) -> Reason {
        match number {
            1 => Reason::Ended,
            2 => Reason::Spent,
            3 => Reason::Stuck,
            _ => Reason::NoReason,
        }
    }
}

/// What a run or a single move did.
#[derive(Clone, Copy, Debug, PartialEq, Eq, Hash)]
pub struct Ran {
    /// The number of moves made.
    pub steps: u32,
    /// The number of events written, three words each.
    pub events: usize,
    /// Why it stopped.
    pub reason: Reason,
}

/// Opens a walk: checks the image, clears the marks, sets those of the elements already on the blank (`before`, strictly
/// rising) to 65,535, labels the start (mark 32,769), writes one event and gives the state.
///
/// Areas: n+m after words, m tail words, n+m marks, 3 event words. Numbers: 1, 2, 3, 4, 5, 6, 7, 17, 18.
#[allow(clippy::too_many_arguments)]
pub fn open(
    n: u16,
    m: u16,
    start: u16,
    after: &[u16],
    tail: &[u16],
    before: &[u16],
    marks: &mut [u16],
    events: &mut [u16],
) -> Result<State, Refusal> {
    let mut state = [0; STATE_WORDS];
    areas::open(n, m, start, after, tail, before, marks, events, &mut state)?;
    Ok(State::from_words(state))
}

/// Makes one move.
///
/// An element that is labelled is marked with its label number plus 32,768; its scan leaves the remainder by 32,768,
/// the number alone. Winding back leaves marks alone before its last move, which clears the n marks of elements, but
/// for those of 65,535.
///
/// Areas, by the state's n and m: n+m after words, m tail words, n+m marks, 6 event words.
/// Numbers: 1, 2, 3, 4, 8, 9.
pub fn step(
    state: &mut State,
    after: &mut [u16],
    tail: &mut [u16],
    marks: &mut [u16],
    events: &mut [u16],
) -> Result<Ran, Refusal> {
    let (mut steps, mut made, mut reason) = (0, 0, 0);
    areas::step(
        state.words_mut(),
        after,
        tail,
        marks,
        events,
        &mut steps,
        &mut made,
        &mut reason,
    )?;
    Ok(Ran {
        steps,
        events: made,
        reason: Reason::of(reason),
    })
}

/// Makes moves up to a budget.
///
/// Areas, by the state's n and m: n+m after words, m tail words, n+m marks, 6 event words for each move of the
/// budget. Numbers: 1, 2, 3, 4, 8.
pub fn run(
    state: &mut State,
    budget: u32,
    after: &mut [u16],
    tail: &mut [u16],
    marks: &mut [u16],
    events: &mut [u16],
) -> Result<Ran, Refusal> {
    let (mut steps, mut made, mut reason) = (0, 0, 0);
    areas::run(
        state.words_mut(),
        budget,
        after,
        tail,
        marks,
        events,
        &mut steps,
        &mut made,
        &mut reason,
    )?;
    Ok(Ran {
        steps,
        events: made,
        reason: Reason::of(reason),
    })
}

/// Orders the walk to be wound back: phase 4, from which further moves lead to phase 5.
///
/// Numbers: 1, 2, 4, 8, 9.
pub fn roll_back(state: &mut State) -> Result<(), Refusal> {
    areas::roll_back(state.words_mut())
}
