//! Which number comes first: every combination of the conditions that a call tries. What is expected stands here and
//! is not asked of the reference.

use crate::area::Area;
use crate::lent::{
    accept, check_image, open, read_profile, roll_back, run, step, to_array, walk_text, whole,
    Folded, Image, Opening, Panel, Print, Text, ToArray, Walker, Whole, WALKERS,
};
use crate::profiles::text;
use crate::rng::Rng;
use crate::table::Table;

pub fn compare(table: &mut Table) {
    let mut rng = Rng::new(8);
    for _ in 0..20 {
        images(table, &mut rng);
        walks(table, &mut rng);
        array_walks(table, &mut rng);
        states(table, &mut rng);
        panels(table, &mut rng);
    }
    texts(table, &mut rng);
}

/// Calls this with each set of the conditions and the number expected: the first of the set, else 0.
fn every_set(order: &[u16], mut call: impl FnMut(&[u16], u16)) {
    for set in 0..1u32 << order.len() {
        let members = (0..order.len()).filter(|place| set >> place & 1 == 1);
        let members: Vec<u16> = members.map(|place| order[place]).collect();
        let expected = members.first().copied().unwrap_or(0);
        call(&members, expected);
    }
}

/// A list for three elements: out of order or past them, with the start on it, both or neither.
fn list(rng: &mut Rng, out: bool, with_start: bool, start: u16) -> Vec<u16> {
    let lists: &[&[u16]] = match out {
        true => &[
            &[0],
            &[2, 2],
            &[4],
            &[3, 2],
            &[2, 3, 65_535],
            &[3, 0],
            &[0, 2, 3],
            &[2, 2, 3, 3, 3],
        ],
        false => &[&[], &[2], &[3], &[2, 3]],
    };
    let mut before = rng.pick(lists).to_vec();
    if with_start {
        // Behind a list out of order it stands anywhere, else in its place.
        let place = match out {
            true => rng.below(before.len() + 1),
            false => before.partition_point(|&word| word < start),
        };
        before.insert(place, start);
    }
    before
}

/// An image of three elements and four references, a start and a list in which these conditions are true; for 3 every
/// area but one may be longer, and that one is one word short. The list is of any length.
struct Broken {
    n: u16,
    m: u16,
    start: u16,
    after: Vec<u16>,
    tail: Vec<u16>,
    before: Vec<u16>,
    /// Which area is short.
    short: Option<usize>,
}

impl Broken {
    fn of(rng: &mut Rng, conditions: &[u16], areas: usize) -> Broken {
        let is = |number: u16| conditions.contains(&number);
        let mut after = vec![4, 6, 7, 5, 0, 0, 0];
        let mut tail = vec![2, 3, 3, 1];
        if is(7) {
            // Reference 7 leads to itself, or is on a second list, or on none.
            match rng.below(3) {
                0 => after[6] = 7,
                1 => after[4] = 7,
                _ => after[2] = 0,
            }
        }
        if is(6) {
            tail[rng.below(4)] = rng.pick(&[0, 4, 7, 65_535]);
        }
        if is(5) {
            after[3] = rng.pick(&[1, 3, 8, 65_535]);
        }
        let start = if is(4) { rng.pick(&[0, 4, 65_535]) } else { 1 };
        Broken {
            n: if is(1) {
                rng.pick(&[0, 1_001, 65_535])
            } else {
                3
            },
            m: if is(2) { rng.pick(&[4_001, 65_535]) } else { 4 },
            start,
            after,
            tail,
            before: list(rng, is(17), is(18), start),
            short: is(3).then(|| rng.below(areas)),
        }
    }

    /// The length of an area that needs so many words.
    fn length(&self, rng: &mut Rng, area: usize, needed: usize) -> usize {
        match self.short == Some(area) {
            true => needed - 1,
            false => needed + rng.below(2),
        }
    }

    fn links(&self, rng: &mut Rng) -> (Area<u16>, Area<u16>) {
        let (a, t) = (self.length(rng, 0, 7), self.length(rng, 1, 4));
        let lend = |rng: &mut Rng, words: &[u16], length: usize| {
            let mut lent = words.to_vec();
            lent.extend(rng.words(1));
            lent.truncate(length);
            Area::from(lent)
        };
        (lend(rng, &self.after, a), lend(rng, &self.tail, t))
    }

    fn noise(&self, rng: &mut Rng, area: usize, needed: usize) -> Area<u16> {
        let length = self.length(rng, area, needed);
        rng.noise(length)
    }
}

fn images(table: &mut Table, rng: &mut Rng) {
    let order = [1, 2, 3, 5, 6, 7];
    every_set(&order, |conditions, expected| {
        let broken = Broken::of(rng, conditions, 2);
        let (after, tail) = broken.links(rng);
        let lent = Image {
            n: broken.n,
            m: broken.m,
            after,
            tail,
        };
        assert_eq!(check_image(table, &lent), expected);
    });
    every_set(&order, |conditions, expected| {
        let broken = Broken::of(rng, conditions, 5);
        let (after, tail) = broken.links(rng);
        let lent = ToArray {
            n: broken.n,
            m: broken.m,
            after,
            tail,
            firsts: broken.noise(rng, 2, 4),
            tails: broken.noise(rng, 3, 4),
            numbers: broken.noise(rng, 4, 4),
        };
        assert_eq!(to_array(table, &lent).0, expected);
    });
}

fn walks(table: &mut Table, rng: &mut Rng) {
    let order = [1, 2, 3, 4, 5, 6, 7, 17, 18];
    for walker in WALKERS {
        if walker == Walker::Array {
            continue;
        }
        every_set(&order, |conditions, expected| {
            let broken = Broken::of(rng, conditions, if walker.has_own() { 6 } else { 5 });
            let (after, tail) = broken.links(rng);
            let tally = broken.length(rng, 4, 7);
            let lent = Whole {
                n: broken.n,
                m: broken.m,
                start: broken.start,
                after,
                tail,
                before: broken.before.clone().into(),
                marks: broken.noise(rng, 2, 7),
                own: broken.noise(rng, 5, 3),
                events: broken.noise(rng, 3, 42),
                tally: vec![7; tally].into(),
            };
            assert_eq!(whole(table, walker, &lent).0, expected, "{walker:?}");
        });
    }
    every_set(&order, |conditions, expected| {
        let broken = Broken::of(rng, conditions, 5);
        let (after, tail) = broken.links(rng);
        let lent = Opening {
            n: broken.n,
            m: broken.m,
            start: broken.start,
            after,
            tail,
            before: broken.before.clone().into(),
            marks: broken.noise(rng, 2, 7),
            events: broken.noise(rng, 3, 3),
            state: broken.noise(rng, 4, 9),
        };
        assert_eq!(open(table, &lent).0, expected);
    });
}

fn array_walks(table: &mut Table, rng: &mut Rng) {
    every_set(&[1, 2, 3, 4, 5, 6, 17, 18], |conditions, expected| {
        let mut broken = Broken::of(rng, conditions, 6);
        broken.after = vec![1, 3, 4, 5];
        if conditions.contains(&5) {
            // The first, one that falls, or the last.
            let (at, word) = rng.pick(&[(0, 0), (0, 2), (1, 5), (2, 2), (3, 4), (3, 6)]);
            broken.after[at] = word;
        }
        let a = broken.length(rng, 0, 4);
        broken.after.resize(a, 9);
        let t = broken.length(rng, 1, 4);
        broken.tail.resize(t, 9);
        let tally = broken.length(rng, 4, 7);
        let lent = Whole {
            n: broken.n,
            m: broken.m,
            start: broken.start,
            after: broken.after.clone().into(),
            tail: broken.tail.clone().into(),
            before: broken.before.clone().into(),
            marks: broken.noise(rng, 2, 7),
            own: broken.noise(rng, 5, 3),
            events: broken.noise(rng, 3, 42),
            tally: vec![7; tally].into(),
        };
        assert_eq!(whole(table, Walker::Array, &lent).0, expected);
    });
}

/// A state in which these conditions are true; the phase is given.
fn state(rng: &mut Rng, conditions: &[u16], phase: u16) -> Vec<u16> {
    let is = |number: u16| conditions.contains(&number);
    let mut state = vec![3, 4, 1, 2, 6, 1, phase, 3, 0];
    if is(8) {
        let (field, word) = rng.pick(&[
            (3, 0),
            (3, 4),
            (4, 3),
            (4, 8),
            (5, 8),
            (7, 1),
            (7, 5),
            (8, 2),
        ]);
        state[field] = word;
    }
    if is(4) {
        state[2] = rng.pick(&[0, 4, 65_535]);
    }
    if is(2) {
        state[1] = rng.pick(&[4_001, 65_535]);
    }
    if is(1) {
        state[0] = rng.pick(&[0, 1_001, 65_535]);
    }
    state
}

/// A state area that is too short is number 3 whatever else is true; else the given number is expected.
fn short_or(rng: &mut Rng, state: Vec<u16>, expected: u16) -> (Area<u16>, u16) {
    let mut area = Area::from(state);
    if rng.one_in(4) {
        area.shorten(rng.below(9));
        return (area, 3);
    }
    (area, expected)
}

fn states(table: &mut Table, rng: &mut Rng) {
    let links = |rng: &mut Rng, conditions: &[u16], state: Area<u16>, moves: usize| {
        let mut needed = [7, 4, 7, 6 * moves];
        if conditions.contains(&3) {
            needed[rng.below(4)] -= 1;
        }
        let [after, tail, marks, events] = needed;
        // After the first move of the printed example: 1 advanced to 2.
        let mut lent = Folded {
            state,
            after: vec![4, 6, 7, 5, 0, 0, 0].into(),
            tail: vec![0, 3, 3, 1].into(),
            marks: vec![1, 2, 0, 0, 0, 0, 0].into(),
            events: rng.noise(events),
            steps: 77,
            made: 78,
            reason: 79,
        };
        lent.after.shorten(after);
        lent.tail.shorten(tail);
        lent.marks.shorten(marks);
        lent
    };
    every_set(&[1, 2, 3, 4, 8, 9], |conditions, expected| {
        let phase = match conditions.contains(&9) {
            true => rng.pick(&[3, 5, 6]),
            false => rng.pick(&[1, 2, 4]),
        };
        let words = state(rng, conditions, phase);
        let (area, expected) = short_or(rng, words, expected);
        let lent = links(rng, conditions, area, 1);
        assert_eq!(step(table, &lent).0, expected, "{lent:?}");
    });
    every_set(&[1, 2, 3, 4, 8], |conditions, expected| {
        let phase = rng.between(1, 6) as u16;
        let words = state(rng, conditions, phase);
        let (area, expected) = short_or(rng, words, expected);
        let moves = rng.between(1, 3);
        let lent = links(rng, conditions, area, moves);
        assert_eq!(run(table, &lent, moves as u32).0, expected, "{lent:?}");
    });
    every_set(&[1, 2, 4, 8, 9], |conditions, expected| {
        let phase = match conditions.contains(&9) {
            true => rng.pick(&[3, 5, 6]),
            false => rng.pick(&[1, 2, 4]),
        };
        let words = state(rng, conditions, phase);
        let (area, expected) = short_or(rng, words, expected);
        assert_eq!(roll_back(table, &area).0, expected, "{area:?}");
    });
}

fn panels(table: &mut Table, rng: &mut Rng) {
    for (number, phases) in [(9, &[5, 6][..]), (10, &[1, 2, 4][..])] {
        every_set(&[1, 2, 4, 8, number, 11], |conditions, expected| {
            let phase = match conditions.contains(&number) {
                true => rng.pick(phases),
                false => 3,
            };
            let words = state(rng, conditions, phase);
            let (state, expected) = short_or(rng, words, expected);
            let figure = match conditions.contains(&11) {
                true => rng.pick(&[999_999, 1_000_000, u32::MAX]),
                false => rng.pick(&[0, 1, 999_998]),
            };
            let (got, left) = accept(table, &Panel { state, figure });
            assert_eq!(got, expected);
            assert_eq!(left.figure, figure + u32::from(expected == 0));
        });
    }
}

fn texts(table: &mut Table, rng: &mut Rng) {
    every_set(&[13, 12, 1, 2, 3, 4, 6], |conditions, expected| {
        let is = |number: u16| conditions.contains(&number);
        let n: u16 = if is(1) { 0 } else { 2 };
        let m: u16 = if is(2) { 4_001 } else { 3 };
        let mut pairs = vec![(1, 2); usize::from(m)];
        if is(6) {
            let at = rng.below(pairs.len());
            pairs[at] = rng.pick(&[(0, 1), (1, 0), (3, 1), (1, 65_535)]);
        }
        let start = if is(4) { rng.pick(&[0, 3, 65_535]) } else { 2 };
        let mut bytes = text(n, m, start, &pairs);
        if is(12) {
            bytes.push(b'\n');
        }
        if is(13) {
            bytes.resize(65_537, b'\n');
        }
        let (mut after, mut tail) = (usize::from(n + m), usize::from(m));
        if is(3) {
            match rng.below(2) {
                0 => after -= 1,
                _ => tail -= 1,
            }
        }
        let lent = Text {
            text: bytes.clone().into(),
            after: rng.noise(after),
            tail: rng.noise(tail),
            n: 77,
            m: 78,
            start: 79,
        };
        assert_eq!(read_profile(table, &lent).0, expected);

        let mut needed = [5_000, 4_000, 5_000, 54_003, 180_066];
        if is(3) {
            needed[rng.below(5)] -= 1;
        }
        let [after, tail, marks, events, output] = needed;
        let lent = Print {
            text: bytes.into(),
            after: rng.noise(after),
            tail: rng.noise(tail),
            marks: rng.noise(marks),
            events: rng.noise(events),
            output: vec![b'?'; output].into(),
            printed: 77,
        };
        assert_eq!(walk_text(table, &lent).0, expected);
    });
}
