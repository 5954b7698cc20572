//! What each call is lent, and the comparison of one call: the library and the reference each get a copy of the same
//! areas; then their numbers and every word of every area must be equal, also past the stated lengths and around it.

use std::fmt::Debug;
use std::hint::black_box;

use profile_walker::{areas, Ran, Refusal, State, STATE_WORDS, TALLY_WORDS};

use crate::area::Area;
use crate::table::{numbers_of, Table};

/// check_image.
#[derive(Clone, Debug, PartialEq)]
pub struct Image {
    pub n: u16,
    pub m: u16,
    pub after: Area<u16>,
    pub tail: Area<u16>,
}

/// to_array.
#[derive(Clone, Debug, PartialEq)]
pub struct ToArray {
    pub n: u16,
    pub m: u16,
    pub after: Area<u16>,
    pub tail: Area<u16>,
    pub firsts: Area<u16>,
    pub tails: Area<u16>,
    pub numbers: Area<u16>,
}

/// read_profile.
#[derive(Clone, Debug, PartialEq)]
pub struct Text {
    pub after: Area<u16>,
    pub tail: Area<u16>,
    pub n: u16,
    pub m: u16,
    pub start: u16,
    pub text: Area<u8>,
}

/// walk_text.
#[derive(Clone, Debug, PartialEq)]
pub struct Print {
    pub after: Area<u16>,
    pub tail: Area<u16>,
    pub marks: Area<u16>,
    pub printed: usize,
    pub events: Area<u16>,
    pub output: Area<u8>,
    pub text: Area<u8>,
}

/// refusal_line.
#[derive(Clone, Debug, PartialEq)]
pub struct Line {
    pub number: u16,
    pub printed: usize,
    pub output: Area<u8>,
}

/// The whole walks. `before` lists the elements already on the blank. `after` and `tail` are first positions and tails
/// for the array form; `own` is the parent, queue or increment area, empty for the walks without one.
#[derive(Clone, Debug, PartialEq)]
pub struct Whole {
    pub n: u16,
    pub m: u16,
    pub start: u16,
    pub after: Area<u16>,
    pub tail: Area<u16>,
    pub before: Area<u16>,
    pub marks: Area<u16>,
    pub own: Area<u16>,
    pub tally: Area<u32>,
    pub events: Area<u16>,
}

/// open.
#[derive(Clone, Debug, PartialEq)]
pub struct Opening {
    pub n: u16,
    pub m: u16,
    pub start: u16,
    pub after: Area<u16>,
    pub tail: Area<u16>,
    pub before: Area<u16>,
    pub marks: Area<u16>,
    pub events: Area<u16>,
    pub state: Area<u16>,
}

/// step, run and roll_back, and what they set.
#[derive(Clone, Debug, PartialEq)]
pub struct Folded {
    pub state: Area<u16>,
    pub after: Area<u16>,
    pub tail: Area<u16>,
    pub marks: Area<u16>,
    pub steps: u32,
    pub made: usize,
    pub reason: u16,
    pub events: Area<u16>,
}

/// accept and shift_start.
#[derive(Clone, Debug, PartialEq)]
pub struct Panel {
    pub state: Area<u16>,
    pub figure: u32,
}

/// The five whole walks.
#[derive(Clone, Copy, Debug, PartialEq, Eq)]
pub enum Walker {
    Recursive,
    Parent,
    Array,
    Queue,
    FoldedQueue,
}

pub const WALKERS: [Walker; 5] = [
    Walker::Recursive,
    Walker::Parent,
    Walker::Array,
    Walker::Queue,
    Walker::FoldedQueue,
];

impl Walker {
    pub fn call(self) -> &'static str {
        match self {
            Walker::Recursive => "dfs_recursive",
            Walker::Parent => "dfs_parent",
            Walker::Array => "dfs_array",
            Walker::Queue => "bfs_queue",
            Walker::FoldedQueue => "bfs_folded",
        }
    }

    /// Whether it is lent an area of n words besides marks and events.
    pub fn has_own(self) -> bool {
        matches!(self, Walker::Parent | Walker::Array | Walker::Queue)
    }
}

fn number(outcome: Result<(), Refusal>) -> u16 {
    match outcome {
        Ok(()) => 0,
        Err(Refusal(number)) => number,
    }
}

/// A text of at most so many characters, for a message.
fn cut(what: &impl Debug) -> String {
    let text = format!("{what:?}");
    match text.char_indices().nth(3_000) {
        Some((end, _)) => format!("{} ..", &text[..end]),
        None => text,
    }
}

/// Compares one call. The typed form, where one is given, must do as the call over areas does.
fn compare<L: Clone + Debug + PartialEq>(
    table: &mut Table,
    call: &'static str,
    before: &L,
    library: impl FnOnce(&mut L) -> Result<(), Refusal>,
    typed: Option<impl FnOnce(&mut L) -> Result<(), Refusal>>,
    reference: impl FnOnce(&mut L) -> u16,
) -> (u16, L) {
    let mut lent = before.clone();
    let got = number(library(&mut lent));
    let lent = black_box(lent);
    let mut expected_lent = before.clone();
    let expected = reference(&mut expected_lent);
    assert!(
        got == expected && lent == expected_lent,
        "{call}: library {got}, reference {expected}\nlent {}\nlibrary left {}\nreference left {}",
        cut(before),
        cut(&lent),
        cut(&expected_lent)
    );
    assert!(
        numbers_of(call).contains(&got),
        "{call} returned {got} on {}",
        cut(before)
    );
    if got != 0 {
        assert!(
            lent == *before,
            "{call} returned {got} and changed {} to {}",
            cut(before),
            cut(&lent)
        );
    }
    if let Some(typed) = typed {
        let mut typed_lent = before.clone();
        let typed_got = number(typed(&mut typed_lent));
        let typed_lent = black_box(typed_lent);
        assert!(
            typed_got == got && typed_lent == lent,
            "{call}: typed {typed_got}, areas {got}\nlent {}\ntyped left {}\nareas left {}",
            cut(before),
            cut(&typed_lent),
            cut(&lent)
        );
    }
    table.count(call, got);
    (got, lent)
}

/// A call in its typed form.
type Typed<L> = fn(&mut L) -> Result<(), Refusal>;

pub fn check_image(table: &mut Table, lent: &Image) -> u16 {
    let outcome = compare(
        table,
        "check_image",
        lent,
        |l| areas::check_image(l.n, l.m, &l.after, &l.tail),
        None::<Typed<Image>>,
        |l| reference::check_image(l.n, l.m, &l.after, &l.tail),
    );
    outcome.0
}

pub fn to_array(table: &mut Table, lent: &ToArray) -> (u16, ToArray) {
    compare(
        table,
        "to_array",
        lent,
        |l| {
            let (firsts, tails, numbers) = (&mut l.firsts, &mut l.tails, &mut l.numbers);
            areas::to_array(l.n, l.m, &l.after, &l.tail, firsts, tails, numbers)
        },
        None::<Typed<ToArray>>,
        |l| {
            let (firsts, tails, numbers) = (&mut l.firsts, &mut l.tails, &mut l.numbers);
            reference::to_array(l.n, l.m, &l.after, &l.tail, firsts, tails, numbers)
        },
    )
}

pub fn read_profile(table: &mut Table, lent: &Text) -> (u16, Text) {
    compare(
        table,
        "read_profile",
        lent,
        |l| {
            areas::read_profile(
                &l.text,
                &mut l.after,
                &mut l.tail,
                &mut l.n,
                &mut l.m,
                &mut l.start,
            )
        },
        Some(|l: &mut Text| {
            let read = profile_walker::read_profile(&l.text, &mut l.after, &mut l.tail)?;
            (l.n, l.m, l.start) = (read.n, read.m, read.start);
            Ok(())
        }),
        |l| {
            reference::read_profile(
                &l.text,
                &mut l.after,
                &mut l.tail,
                &mut l.n,
                &mut l.m,
                &mut l.start,
            )
        },
    )
}

pub fn walk_text(table: &mut Table, lent: &Print) -> (u16, Print) {
    compare(
        table,
        "walk_text",
        lent,
        |l| {
            areas::walk_text(
                &l.text,
                &mut l.after,
                &mut l.tail,
                &mut l.marks,
                &mut l.events,
                &mut l.output,
                &mut l.printed,
            )
        },
        None::<Typed<Print>>,
        |l| {
            reference::walk_text(
                &l.text,
                &mut l.after,
                &mut l.tail,
                &mut l.marks,
                &mut l.events,
                &mut l.output,
                &mut l.printed,
            )
        },
    )
}

pub fn refusal_line(table: &mut Table, lent: &Line) -> (u16, Line) {
    compare(
        table,
        "refusal_line",
        lent,
        |l| areas::refusal_line(l.number, &mut l.output, &mut l.printed),
        Some(|l: &mut Line| {
            l.printed = profile_walker::refusal_line(Refusal(l.number), &mut l.output)?;
            Ok(())
        }),
        |l| reference::refusal_line(l.number, &mut l.output, &mut l.printed),
    )
}

/// One of the five whole walks.
pub fn whole(table: &mut Table, walker: Walker, lent: &Whole) -> (u16, Whole) {
    let typed = (lent.tally.len() == TALLY_WORDS).then_some(|l: &mut Whole| typed_whole(walker, l));
    compare(
        table,
        walker.call(),
        lent,
        |l| library_whole(walker, l),
        typed,
        |l| reference_whole(walker, l),
    )
}

fn library_whole(walker: Walker, l: &mut Whole) -> Result<(), Refusal> {
    let (n, m, start) = (l.n, l.m, l.start);
    let (after, tail, own) = (&mut l.after, &mut l.tail, &mut l.own);
    let before = &l.before;
    let (marks, events, tally) = (&mut l.marks, &mut l.events, &mut l.tally);
    match walker {
        Walker::Recursive => {
            areas::dfs_recursive(n, m, start, after, tail, before, marks, events, tally)
        }
        Walker::Parent => {
            areas::dfs_parent(n, m, start, after, tail, before, marks, own, events, tally)
        }
        Walker::Array => {
            areas::dfs_array(n, m, start, after, tail, before, marks, own, events, tally)
        }
        Walker::Queue => {
            areas::bfs_queue(n, m, start, after, tail, before, marks, own, events, tally)
        }
        Walker::FoldedQueue => {
            areas::bfs_folded(n, m, start, after, tail, before, marks, events, tally)
        }
    }
}

fn reference_whole(walker: Walker, l: &mut Whole) -> u16 {
    let (n, m, start) = (l.n, l.m, l.start);
    let (after, tail, own) = (&mut l.after, &mut l.tail, &mut l.own);
    let before = &l.before;
    let (marks, events, tally) = (&mut l.marks, &mut l.events, &mut l.tally);
    match walker {
        Walker::Recursive => {
            reference::dfs_recursive(n, m, start, after, tail, before, marks, events, tally)
        }
        Walker::Parent => {
            reference::dfs_parent(n, m, start, after, tail, before, marks, own, events, tally)
        }
        Walker::Array => {
            reference::dfs_array(n, m, start, after, tail, before, marks, own, events, tally)
        }
        Walker::Queue => {
            reference::bfs_queue(n, m, start, after, tail, before, marks, own, events, tally)
        }
        Walker::FoldedQueue => {
            reference::bfs_folded(n, m, start, after, tail, before, marks, events, tally)
        }
    }
}

fn typed_whole(walker: Walker, l: &mut Whole) -> Result<(), Refusal> {
    use profile_walker::{bfs_folded, bfs_queue, dfs_array, dfs_parent, dfs_recursive};
    let (n, m, start) = (l.n, l.m, l.start);
    let (after, tail, own) = (&mut l.after, &mut l.tail, &mut l.own);
    let before = &l.before;
    let (marks, events) = (&mut l.marks, &mut l.events);
    let tally = match walker {
        Walker::Recursive => dfs_recursive(n, m, start, after, tail, before, marks, events),
        Walker::Parent => dfs_parent(n, m, start, after, tail, before, marks, own, events),
        Walker::Array => dfs_array(n, m, start, after, tail, before, marks, own, events),
        Walker::Queue => bfs_queue(n, m, start, after, tail, before, marks, own, events),
        Walker::FoldedQueue => bfs_folded(n, m, start, after, tail, before, marks, events),
    }?;
    l.tally = tally.0.to_vec().into();
    Ok(())
}

pub fn open(table: &mut Table, lent: &Opening) -> (u16, Opening) {
    let typed = (lent.state.len() == STATE_WORDS).then_some(|l: &mut Opening| {
        let (after, tail, before) = (&l.after, &l.tail, &l.before);
        let (marks, events) = (&mut l.marks, &mut l.events);
        let state = profile_walker::open(l.n, l.m, l.start, after, tail, before, marks, events)?;
        l.state = state.words().to_vec().into();
        Ok(())
    });
    compare(
        table,
        "open",
        lent,
        |l| {
            let (after, tail, before) = (&l.after, &l.tail, &l.before);
            let (marks, events, state) = (&mut l.marks, &mut l.events, &mut l.state);
            areas::open(l.n, l.m, l.start, after, tail, before, marks, events, state)
        },
        typed,
        |l| {
            let (after, tail, before) = (&l.after, &l.tail, &l.before);
            let (marks, events, state) = (&mut l.marks, &mut l.events, &mut l.state);
            reference::open(l.n, l.m, l.start, after, tail, before, marks, events, state)
        },
    )
}

/// The state of a lent area of exactly nine words.
fn typed_state(words: &[u16]) -> Option<State> {
    let words: [u16; STATE_WORDS] = words.try_into().ok()?;
    Some(State::from_words(words))
}

/// Puts what a typed call gave where the call over areas puts it.
fn put_ran(l: &mut Folded, state: State, ran: Result<Ran, Refusal>) -> Result<(), Refusal> {
    l.state = state.words().to_vec().into();
    let ran = ran?;
    (l.steps, l.made, l.reason) = (ran.steps, ran.events, ran.reason.number());
    Ok(())
}

pub fn step(table: &mut Table, lent: &Folded) -> (u16, Folded) {
    let typed = typed_state(&lent.state).map(|mut state| {
        move |l: &mut Folded| {
            let (after, tail) = (&mut l.after, &mut l.tail);
            let (marks, events) = (&mut l.marks, &mut l.events);
            let ran = profile_walker::step(&mut state, after, tail, marks, events);
            put_ran(l, state, ran)
        }
    });
    compare(
        table,
        "step",
        lent,
        |l| {
            areas::step(
                &mut l.state,
                &mut l.after,
                &mut l.tail,
                &mut l.marks,
                &mut l.events,
                &mut l.steps,
                &mut l.made,
                &mut l.reason,
            )
        },
        typed,
        |l| {
            reference::step(
                &mut l.state,
                &mut l.after,
                &mut l.tail,
                &mut l.marks,
                &mut l.events,
                &mut l.steps,
                &mut l.made,
                &mut l.reason,
            )
        },
    )
}

pub fn run(table: &mut Table, lent: &Folded, budget: u32) -> (u16, Folded) {
    let typed = typed_state(&lent.state).map(|mut state| {
        move |l: &mut Folded| {
            let (after, tail) = (&mut l.after, &mut l.tail);
            let (marks, events) = (&mut l.marks, &mut l.events);
            let ran = profile_walker::run(&mut state, budget, after, tail, marks, events);
            put_ran(l, state, ran)
        }
    });
    let outcome = compare(
        table,
        "run",
        lent,
        |l| {
            areas::run(
                &mut l.state,
                budget,
                &mut l.after,
                &mut l.tail,
                &mut l.marks,
                &mut l.events,
                &mut l.steps,
                &mut l.made,
                &mut l.reason,
            )
        },
        typed,
        |l| {
            reference::run(
                &mut l.state,
                budget,
                &mut l.after,
                &mut l.tail,
                &mut l.marks,
                &mut l.events,
                &mut l.steps,
                &mut l.made,
                &mut l.reason,
            )
        },
    );
    if outcome.0 == 0 {
        let reason = match outcome.1.reason {
            reference::ENDED => "ended",
            reference::SPENT => "spent",
            reference::STUCK => "stuck",
            other => panic!("run gave reason {other}"),
        };
        table.meet("run, reason", reason);
    }
    outcome
}

/// The links, marks and events are not lent to a winding order.
pub fn roll_back(table: &mut Table, lent: &Area<u16>) -> (u16, Area<u16>) {
    let typed = typed_state(lent).map(|mut state| {
        move |l: &mut Area<u16>| {
            let outcome = profile_walker::roll_back(&mut state);
            *l = state.words().to_vec().into();
            outcome
        }
    });
    compare(
        table,
        "roll_back",
        lent,
        |l| areas::roll_back(l),
        typed,
        |l| reference::roll_back(l),
    )
}

pub fn accept(table: &mut Table, lent: &Panel) -> (u16, Panel) {
    let typed = typed_state(&lent.state).map(|mut state| {
        move |l: &mut Panel| {
            let outcome = profile_walker::accept(&mut state, &mut l.figure);
            l.state = state.words().to_vec().into();
            outcome
        }
    });
    compare(
        table,
        "accept",
        lent,
        |l| areas::accept(&mut l.state, &mut l.figure),
        typed,
        |l| reference::accept(&mut l.state, &mut l.figure),
    )
}

pub fn shift_start(table: &mut Table, figure: u32) -> u32 {
    let outcome = compare(
        table,
        "shift_start",
        &figure,
        |l| {
            areas::shift_start(l);
            Ok(())
        },
        Some(|l: &mut u32| {
            profile_walker::shift_start(l);
            Ok(())
        }),
        |l| {
            reference::shift_start(l);
            0
        },
    );
    outcome.1
}
