//! The folded depth-first walk on any words. A move is made on a copy of everything lent; where a word turns out to be
//! out of kind the copy is thrown away.

use crate::blank::{self, ON_THE_BLANK};
use crate::image::lists;
use crate::search::Event;
use crate::sizes::{number_of, refuse, Sizes};

/// The reasons why a run stops.
pub const ENDED: u16 = 1;
pub const SPENT: u16 = 2;
pub const STUCK: u16 = 3;

/// What labelling adds to an element's number, and its scan takes away: a mark as large as this is of an element not
/// yet scanned, unless it is that of an element already on the blank.
const NOT_YET_SCANNED: u16 = 32_768;

/// The words of a state by name.
#[derive(Clone, Copy, Debug, PartialEq, Eq)]
pub struct Fields {
    pub n: u16,
    pub m: u16,
    pub start: u16,
    pub v: u16,
    pub e: u16,
    pub f: u16,
    pub phase: u16,
    pub next: u16,
    pub circular: u16,
}

impl Fields {
    fn of(state: &[u16]) -> Result<Fields, u16> {
        let Some(&[n, m, start, v, e, f, phase, next, circular]) = state.get(..9) else {
            return Err(3);
        };
        Ok(Fields {
            n,
            m,
            start,
            v,
            e,
            f,
            phase,
            next,
            circular,
        })
    }

    /// Writes the fields into the first nine words of a state.
    pub fn put(self, state: &mut [u16]) {
        state[..9].copy_from_slice(&[
            self.n,
            self.m,
            self.start,
            self.v,
            self.e,
            self.f,
            self.phase,
            self.next,
            self.circular,
        ]);
    }

    /// The checks of a call that is lent a state and no links: 3, then 1, 2, 4, 8.
    pub fn without_links(state: &[u16]) -> Result<Fields, u16> {
        let fields = Fields::of(state)?;
        let sizes = Sizes::judged(fields.n, fields.m)?;
        fields.judged(sizes)?;
        Ok(fields)
    }

    /// 4, and 8 for the six fields that have a kind.
    fn judged(&self, sizes: Sizes) -> Result<(), u16> {
        refuse(4, !sizes.element(self.start))?;
        refuse(8, self.field_out_of_kind(sizes).is_some())
    }

    fn field_out_of_kind(&self, sizes: Sizes) -> Option<OutOfKind> {
        let faults = [
            (!sizes.element(self.v), OutOfKind::FieldV),
            (!sizes.reference_or_null(self.e), OutOfKind::FieldE),
            (!sizes.node_or_null(self.f), OutOfKind::FieldF),
            (!(1..=6).contains(&self.phase), OutOfKind::FieldPhase),
            (
                !(2..=self.n + 1).contains(&self.next),
                OutOfKind::FieldNextLabel,
            ),
            (self.circular > 1, OutOfKind::FieldCircular),
        ];
        let fault = faults.into_iter().find(|(fault, _)| *fault);
        fault.map(|(_, what)| what)
    }
}

/// The moves of a folded walk.
#[derive(Clone, Copy, Debug, PartialEq, Eq, PartialOrd, Ord)]
pub enum Move {
    Tree,
    Nontree,
    Turn,
    /// Close of an element that is not the start.
    Close,
    /// Close with f 0.
    LastClose,
    /// Close while winding.
    WindingClose,
    /// Close while winding, with f 0.
    LastWindingClose,
}

/// What is out of kind: first the fields of a state, then the words of a move.
#[derive(Clone, Copy, Debug, PartialEq, Eq, PartialOrd, Ord)]
pub enum OutOfKind {
    FieldV,
    FieldE,
    FieldF,
    FieldPhase,
    FieldNextLabel,
    FieldCircular,
    /// t(e) is not an element when walking.
    Tail,
    /// The next label is over n at a tree move.
    NextLabel,
    /// A word taken into e is neither 0 nor a reference.
    TakenIntoE,
    /// A word taken into f is over n+m.
    TakenIntoF,
    /// In a close with f not 0, a(f) is not a reference.
    AfterOfF,
    /// In a close with f 0, v is not the start.
    NotTheStart,
}

/// Everything that a move reads and writes.
#[derive(Clone, Debug, PartialEq, Eq)]
struct Config {
    sizes: Sizes,
    fields: Fields,
    after: Vec<u16>,
    tail: Vec<u16>,
    marks: Vec<u16>,
}

impl Config {
    /// A copy of what a run or a single move is lent, with its checks: 3, then 1, 2, 3, 4, 8.
    fn lent(
        state: &[u16],
        after: &[u16],
        tail: &[u16],
        marks: &[u16],
        events: &[u16],
        moves: u32,
    ) -> Result<Config, u16> {
        let fields = Fields::of(state)?;
        let sizes = Sizes::judged(fields.n, fields.m)?;
        let short = after.len() < sizes.nodes()
            || tail.len() < sizes.m
            || marks.len() < sizes.nodes()
            || (events.len() as u128) < 6 * u128::from(moves);
        refuse(3, short)?;
        fields.judged(sizes)?;
        Ok(Config {
            sizes,
            fields,
            after: after[..sizes.nodes()].to_vec(),
            tail: tail[..sizes.m].to_vec(),
            marks: marks[..sizes.nodes()].to_vec(),
        })
    }

    fn put(&self, state: &mut [u16], after: &mut [u16], tail: &mut [u16], marks: &mut [u16]) {
        self.fields.put(state);
        after[..self.after.len()].copy_from_slice(&self.after);
        tail[..self.tail.len()].copy_from_slice(&self.tail);
        marks[..self.marks.len()].copy_from_slice(&self.marks);
    }

    fn a(&mut self, node: u16) -> &mut u16 {
        &mut self.after[usize::from(node) - 1]
    }

    fn t(&mut self, reference: u16) -> &mut u16 {
        &mut self.tail[usize::from(reference) - self.sizes.n - 1]
    }

    fn mark(&mut self, element: u16) -> &mut u16 {
        &mut self.marks[usize::from(element) - 1]
    }

    fn at_rest(&self) -> bool {
        matches!(self.fields.phase, 3 | 5 | 6)
    }

    /// Which move is to come.
    fn which(&self) -> Result<Move, OutOfKind> {
        let Fields { e, f, phase, .. } = self.fields;
        if phase == 1 && e != 0 {
            let to = self.tail[usize::from(e) - self.sizes.n - 1];
            if !self.sizes.element(to) {
                return Err(OutOfKind::Tail);
            }
            return Ok(match self.marks[usize::from(to) - 1] {
                0 => Move::Tree,
                _ => Move::Nontree,
            });
        }
        Ok(match (self.sizes.reference(f), phase == 4, f == 0) {
            (true, _, _) => Move::Turn,
            (false, false, false) => Move::Close,
            (false, false, true) => Move::LastClose,
            (false, true, false) => Move::WindingClose,
            (false, true, true) => Move::LastWindingClose,
        })
    }

    /// Makes the move to come on a copy.
    fn moved(&self) -> Result<(Config, Vec<Event>), OutOfKind> {
        let which = self.which()?;
        let mut copy = self.clone();
        let events = copy.make(which)?;
        Ok((copy, events))
    }

    fn make(&mut self, which: Move) -> Result<Vec<Event>, OutOfKind> {
        let Fields { v, e, f, .. } = self.fields;
        match which {
            Move::Tree => {
                if usize::from(self.fields.next) > self.sizes.n {
                    return Err(OutOfKind::NextLabel);
                }
                *self.a(v) = e;
                let child = *self.t(e);
                *self.t(e) = f;
                self.fields.f = v;
                self.fields.v = child;
                *self.mark(child) = NOT_YET_SCANNED + self.fields.next;
                self.fields.next += 1;
                let first = *self.a(child);
                self.take_into_e(first)?;
                Ok(vec![[2, e, v], [1, 0, child]])
            }
            Move::Nontree => {
                self.pass(e, f)?;
                let to = *self.t(e);
                if (NOT_YET_SCANNED..ON_THE_BLANK).contains(self.mark(to)) {
                    self.fields.circular = 1;
                }
                Ok(vec![[3, e, v], [4, e, v]])
            }
            Move::Turn => {
                let before = *self.a(f);
                *self.a(f) = e;
                self.fields.e = f;
                self.take_into_f(before)?;
                if self.fields.phase == 1 {
                    self.fields.phase = 2;
                }
                Ok(vec![])
            }
            Move::LastClose => {
                self.close_start(v, e)?;
                self.scan(v);
                self.fields.phase = 3;
                Ok(vec![[6, 0, v]])
            }
            Move::LastWindingClose => {
                self.close_start(v, e)?;
                let elements = &mut self.marks[..self.sizes.n];
                let cleared = elements.iter_mut().filter(|mark| **mark != ON_THE_BLANK);
                cleared.for_each(|mark| *mark = 0);
                self.fields.phase = 5;
                Ok(vec![])
            }
            Move::Close => {
                let tree = self.close_child(v, e, f)?;
                let trailer = self.fields.f;
                self.pass(tree, trailer)?;
                self.scan(v);
                self.fields.phase = 1;
                Ok(vec![[6, 0, v], [5, tree, f]])
            }
            Move::WindingClose => {
                self.fields.e = self.close_child(v, e, f)?;
                Ok(vec![])
            }
        }
    }

    /// The mark of an element becomes its remainder.
    fn scan(&mut self, element: u16) {
        *self.mark(element) %= NOT_YET_SCANNED;
    }

    /// e, f, a(e) become a(e), e, f.
    fn pass(&mut self, e: u16, f: u16) -> Result<(), OutOfKind> {
        let following = *self.a(e);
        *self.a(e) = f;
        self.fields.f = e;
        self.take_into_e(following)
    }

    /// a(v) becomes e, where v has to be the start.
    fn close_start(&mut self, v: u16, e: u16) -> Result<(), OutOfKind> {
        *self.a(v) = e;
        if v != self.fields.start {
            return Err(OutOfKind::NotTheStart);
        }
        Ok(())
    }

    /// a(v) becomes e; then back to f along the tree reference that a(f) now names, which is returned.
    fn close_child(&mut self, v: u16, e: u16, f: u16) -> Result<u16, OutOfKind> {
        *self.a(v) = e;
        let tree = *self.a(f);
        if !self.sizes.reference(tree) {
            return Err(OutOfKind::AfterOfF);
        }
        let trailer = *self.t(tree);
        *self.t(tree) = v;
        self.fields.v = f;
        self.take_into_f(trailer)?;
        Ok(tree)
    }

    fn take_into_e(&mut self, word: u16) -> Result<(), OutOfKind> {
        self.fields.e = word;
        match self.sizes.reference_or_null(word) {
            true => Ok(()),
            false => Err(OutOfKind::TakenIntoE),
        }
    }

    fn take_into_f(&mut self, word: u16) -> Result<(), OutOfKind> {
        self.fields.f = word;
        match self.sizes.node_or_null(word) {
            true => Ok(()),
            false => Err(OutOfKind::TakenIntoF),
        }
    }
}

/// Opens a walk: 1, 2, 3, 4, 5, 6, 7, 17, 18.
#[allow(clippy::too_many_arguments)]
pub fn open(
    n: u16,
    m: u16,
    start: u16,
    after: &[u16],
    tail: &[u16],
    before: &[u16],
    marks: &mut [u16],
    events: &mut [u16],
    state: &mut [u16],
) -> u16 {
    number_of((|| {
        let sizes = Sizes::judged(n, m)?;
        let short = after.len() < sizes.nodes()
            || tail.len() < sizes.m
            || marks.len() < sizes.nodes()
            || events.len() < 3
            || state.len() < 9;
        refuse(3, short)?;
        refuse(4, !sizes.element(start))?;
        let profile = lists(sizes, after, tail)?;
        blank::judge(sizes, start, before)?;
        marks[..sizes.nodes()].fill(0);
        blank::mark(marks, before);
        marks[usize::from(start) - 1] = NOT_YET_SCANNED + 1;
        events[..3].copy_from_slice(&[1, 0, start]);
        let first = profile.list(start).first();
        let fields = Fields {
            n,
            m,
            start,
            v: start,
            e: first.map_or(0, |reference| reference.number),
            f: 0,
            phase: 1,
            next: 2,
            circular: 0,
        };
        fields.put(state);
        Ok(())
    })())
}

/// The move to come on these words, and what is out of kind for it.
#[derive(Clone, Copy, Debug, PartialEq, Eq, PartialOrd, Ord)]
pub struct ToCome {
    /// None where the state has a field out of kind, or t(e) is no element.
    pub which: Option<Move>,
    pub fault: Option<OutOfKind>,
}

/// Tells which move is to come. There is nothing to tell where a call is turned back with another number than 8, or no
/// move is to come.
pub fn move_to_come(state: &[u16], after: &[u16], tail: &[u16], marks: &[u16]) -> Option<ToCome> {
    match Config::lent(state, after, tail, marks, &[], 0) {
        Ok(config) if config.at_rest() => None,
        Ok(config) => Some(ToCome {
            which: config.which().ok(),
            fault: config.moved().err(),
        }),
        Err(8) => {
            let fields = Fields::of(state).ok()?;
            let sizes = Sizes::judged(fields.n, fields.m).ok()?;
            Some(ToCome {
                which: None,
                fault: fields.field_out_of_kind(sizes),
            })
        }
        Err(_) => None,
    }
}

/// Makes one move: 3, then 1, 2, 3, 4, 8, 9.
#[allow(clippy::too_many_arguments)]
pub fn step(
    state: &mut [u16],
    after: &mut [u16],
    tail: &mut [u16],
    marks: &mut [u16],
    events: &mut [u16],
    steps: &mut u32,
    made: &mut usize,
    reason: &mut u16,
) -> u16 {
    number_of((|| {
        let config = Config::lent(state, after, tail, marks, events, 1)?;
        refuse(9, config.at_rest())?;
        let (config, emitted) = config.moved().map_err(|_| 8u16)?;
        config.put(state, after, tail, marks);
        put_events(events, &emitted);
        (*steps, *made, *reason) = (1, emitted.len(), 0);
        Ok(())
    })())
}

/// Makes moves up to a budget: 3, then 1, 2, 3, 4, 8.
#[allow(clippy::too_many_arguments)]
pub fn run(
    state: &mut [u16],
    budget: u32,
    after: &mut [u16],
    tail: &mut [u16],
    marks: &mut [u16],
    events: &mut [u16],
    steps: &mut u32,
    made: &mut usize,
    reason: &mut u16,
) -> u16 {
    number_of((|| {
        let mut config = Config::lent(state, after, tail, marks, events, budget)?;
        let mut moves = 0;
        let mut emitted = Vec::new();
        *reason = loop {
            if config.at_rest() {
                break ENDED;
            }
            if moves == budget {
                break SPENT;
            }
            match config.moved() {
                Err(_) => break STUCK,
                Ok((next, events)) => {
                    config = next;
                    moves += 1;
                    emitted.extend(events);
                }
            }
        };
        config.put(state, after, tail, marks);
        put_events(events, &emitted);
        (*steps, *made) = (moves, emitted.len());
        Ok(())
    })())
}

fn put_events(area: &mut [u16], events: &[Event]) {
    let words = events.concat();
    area[..words.len()].copy_from_slice(&words);
}

/// Orders the walk to be wound back: 3, then 1, 2, 4, 8, 9.
pub fn roll_back(state: &mut [u16]) -> u16 {
    number_of((|| {
        let fields = Fields::without_links(state)?;
        refuse(9, matches!(fields.phase, 3 | 5 | 6))?;
        Fields { phase: 4, ..fields }.put(state);
        Ok(())
    })())
}
