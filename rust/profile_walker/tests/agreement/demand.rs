//! Demand 3: line A walks a sound profile recursively, line B opens the same one for the folded walk, with the same
//! elements already on the blank, and gets any list of calls. After every call of the list B is held to the demand, and
//! to a picture of the walk that bends no links.

use reference::{Reach, Walk};

use crate::lent::{open, roll_back, run, step, whole, Folded, Opening, Walker, Whole};
use crate::profiles::{area, tally_area, Sound};
use crate::rng::Rng;
use crate::table::Table;

/// What line A gives for a profile, and what is reached and met from its start by paths off the blank.
pub struct LineA {
    events: Vec<u16>,
    marks: Vec<u16>,
    pub reach: Reach,
    /// 1 where some element reached has a path back to itself off the blank.
    circular: u16,
}

impl LineA {
    pub fn walk(table: &mut Table, rng: &mut Rng, sound: &Sound) -> LineA {
        let words = sound.nodes();
        let lent = Whole {
            n: sound.n,
            m: sound.m,
            start: sound.start,
            after: sound.after.clone().into(),
            tail: sound.tail.clone().into(),
            before: sound.before.clone().into(),
            marks: rng.noise(words),
            own: Vec::new().into(),
            events: rng.noise(6 * words),
            tally: tally_area(rng, 7),
        };
        let (number, left) = whole(table, Walker::Recursive, &lent);
        assert_eq!(number, 0);
        let count: u32 = left.tally.iter().sum();
        let reach = Reach::from(&sound.profile, sound.start, &sound.before);
        LineA {
            events: left.events[..3 * count as usize].to_vec(),
            marks: left.marks.to_vec(),
            circular: u16::from(reach.circular(&sound.profile)),
            reach,
        }
    }
}

/// Line B, as its list of calls has left it.
#[derive(Clone)]
pub struct LineB<'a> {
    sound: &'a Sound,
    line_a: &'a LineA,
    lent: Folded,
    picture: Walk<'a>,
    /// How many event words were emitted.
    emitted: usize,
    pub moves: usize,
    /// The moves since the first winding order taken.
    since_order: Option<usize>,
}

impl<'a> LineB<'a> {
    pub fn open(
        table: &mut Table,
        rng: &mut Rng,
        sound: &'a Sound,
        line_a: &'a LineA,
    ) -> LineB<'a> {
        let (words, more) = (sound.nodes(), rng.below(3));
        let lent = Opening {
            n: sound.n,
            m: sound.m,
            start: sound.start,
            after: area(rng, &sound.after, words + more),
            tail: area(rng, &sound.tail, sound.tail.len() + more),
            before: sound.before.clone().into(),
            marks: rng.noise(words + more),
            events: rng.noise(3 + more),
            state: rng.noise(9),
        };
        let (number, left) = open(table, &lent);
        assert_eq!(number, 0);
        let mut line = LineB {
            sound,
            line_a,
            lent: Folded {
                state: left.state,
                after: left.after,
                tail: left.tail,
                marks: left.marks,
                events: left.events,
                steps: rng.word().into(),
                made: rng.word().into(),
                reason: rng.word(),
            },
            picture: Walk::open(&sound.profile, sound.start, &sound.before),
            emitted: 0,
            moves: 0,
            since_order: None,
        };
        line.emit(1);
        line.check();
        line
    }

    /// Phase 3 or 5.
    pub fn at_rest(&self) -> bool {
        self.picture.at_rest()
    }

    /// A single move, with an event area of this length.
    pub fn step(&mut self, table: &mut Table, rng: &mut Rng, words: usize) {
        self.lent.events = rng.noise(words);
        let expected = match (words < 6, self.at_rest()) {
            (true, _) => 3,
            (false, true) => 9,
            (false, false) => 0,
        };
        let (number, left) = step(table, &self.lent);
        assert_eq!(number, expected, "{:?}", self.lent);
        self.lent = left;
        if number == 0 {
            assert_eq!(self.lent.steps, 1);
            self.moved();
        }
        self.check();
    }

    /// A run, with an event area of this length.
    pub fn run(&mut self, table: &mut Table, rng: &mut Rng, budget: u32, words: usize) {
        self.lent.events = rng.noise(words);
        let short = (words as u64) < 6 * u64::from(budget);
        let (number, left) = run(table, &self.lent, budget);
        assert_eq!(number, if short { 3 } else { 0 }, "{:?}", self.lent);
        self.lent = left;
        if number == 0 {
            self.moved();
            // It stops as ended, or as spent with all its moves made, and never as stuck.
            let reason = match self.at_rest() {
                true => reference::ENDED,
                false => reference::SPENT,
            };
            assert_eq!(self.lent.reason, reason, "{:?}", self.lent);
            assert!(self.at_rest() || self.lent.steps == budget);
        }
        self.check();
    }

    /// A winding order.
    pub fn roll_back(&mut self, table: &mut Table) {
        let (number, state) = roll_back(table, &self.lent.state);
        assert_eq!(number, if self.at_rest() { 9 } else { 0 });
        self.lent.state = state;
        if number == 0 {
            self.picture.roll_back();
            self.since_order.get_or_insert(0);
        }
        self.check();
    }

    /// The moves of a call taken: as many of the picture, with the same events.
    fn moved(&mut self) {
        let steps = self.lent.steps as usize;
        let mut events = 0;
        for _ in 0..steps {
            assert!(!self.at_rest(), "a move after the end: {:?}", self.lent);
            events += self.picture.step().len();
        }
        assert_eq!(self.lent.made, events);
        self.moves += steps;
        if let Some(since) = &mut self.since_order {
            *since += steps;
        }
        self.emit(events);
    }

    /// The events of a call taken are the next ones of line A.
    fn emit(&mut self, events: usize) {
        let words = 3 * events;
        let next = self.line_a.events.get(self.emitted..self.emitted + words);
        assert_eq!(next, Some(&self.lent.events[..words]), "{:?}", self.lent);
        self.emitted += words;
    }

    /// A walk that has ended gave all events of line A, has its marks, and says whether there is a circle.
    fn check_ended(&self) {
        let LineB { lent, line_a, .. } = self;
        assert_eq!(self.emitted, line_a.events.len());
        assert!(lent.marks.starts_with(&line_a.marks), "{lent:?}");
        assert_eq!(lent.state[8], line_a.circular, "{lent:?}");
        self.check_marked();
    }

    /// At the end, 65,535 is on the elements already on the blank, a label number on those reached, and 0 elsewhere.
    fn check_marked(&self) {
        let LineB { sound, lent, .. } = self;
        let reach = &self.line_a.reach;
        for (element, &mark) in (1..=sound.n).zip(lent.marks.iter()) {
            let on_blank = sound.before.contains(&element);
            assert_eq!(mark == 65_535, on_blank, "{lent:?}");
            let labelled = (1..=reach.reached).contains(&usize::from(mark));
            assert_eq!(labelled, reach.contains(element), "{lent:?}");
            assert!(labelled || on_blank || mark == 0, "{lent:?}");
        }
    }

    /// Wound back, 65,535 is on the elements already on the blank and 0 elsewhere.
    fn check_withdrawn(&self) {
        let LineB { sound, lent, .. } = self;
        for (node, &mark) in (1..).zip(&lent.marks[..sound.nodes()]) {
            let rest = if sound.before.contains(&node) {
                65_535
            } else {
                0
            };
            assert_eq!(mark, rest, "{lent:?}");
        }
    }

    /// Demand 3, as it stands after any list of calls.
    fn check(&self) {
        let LineB { sound, lent, .. } = self;
        let reach = &self.line_a.reach;
        let phase = lent.state[6];
        match self.since_order {
            None => {
                assert_eq!(phase == 3, self.moves == reach.moves(), "{lent:?}");
                assert_eq!(phase == 3, self.at_rest());
                if phase == 3 {
                    self.check_ended();
                }
            }
            Some(since) => {
                assert!(phase == 4 || phase == 5);
                assert!(since <= reach.met + reach.reached, "{lent:?}");
                assert!(phase == 5 || since < reach.met + reach.reached, "{lent:?}");
                if phase == 5 {
                    self.check_withdrawn();
                }
            }
        }
        if phase == 3 || phase == 5 {
            assert!(lent.after.starts_with(&sound.after), "{lent:?}");
            assert!(lent.tail.starts_with(&sound.tail), "{lent:?}");
        }
        let picture = self.picture.words();
        assert_eq!(lent.state[..], picture.state);
        assert!(lent.after.starts_with(&picture.after), "{lent:?}");
        assert!(lent.tail.starts_with(&picture.tail), "{lent:?}");
        assert!(lent.marks.starts_with(&picture.marks), "{lent:?}");
    }
}
