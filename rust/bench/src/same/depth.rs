//! Depth-first search: recursive, by parent edges, and over the array form.

use super::judge;
use super::log::{mark_blanks, Events, Tally, ON_THE_BLANK};

struct Search<'a> {
    n: usize,
    after: &'a [u16],
    tail: &'a [u16],
    marks: &'a mut [u16],
    events: Events<'a>,
}

impl Search<'_> {
    fn search(&mut self, u: u16, tally: Tally) -> Tally {
        let mut tally = self.events.label(self.marks, u, tally);
        let mut edge = self.after[usize::from(u) - 1];
        while edge != 0 {
            tally = self.traverse(edge, u, tally);
            edge = self.after[usize::from(edge) - 1];
        }
        self.events.emit(6, 0, u, tally)
    }

    fn traverse(&mut self, edge: u16, u: u16, tally: Tally) -> Tally {
        let x = self.tail[usize::from(edge) - self.n - 1];
        if self.marks[usize::from(x) - 1] == 0 {
            let tally = self.events.emit(2, edge, u, tally);
            let tally = self.search(x, tally);
            self.events.emit(5, edge, u, tally)
        } else {
            let tally = self.events.emit(3, edge, u, tally);
            self.events.emit(4, edge, u, tally)
        }
    }
}

pub fn recursive(
    n: u16,
    m: u16,
    start: u16,
    after: &[u16],
    tail: &[u16],
    before: &[u16],
    marks: &mut [u16],
    events: &mut [u16],
    tally: &mut [u32; 7],
) -> u16 {
    let nodes = usize::from(n) + usize::from(m);
    let long = marks.len() >= nodes && events.len() >= 6 * nodes;
    let number = judge::walk(n, m, start, after, tail, before, long);
    if number != 0 {
        return number;
    }
    mark_blanks(&mut marks[..nodes], before);
    let mut walk = Search {
        n: usize::from(n),
        after: &after[..nodes],
        tail,
        marks,
        events: Events::new(events),
    };
    *tally = walk.search(start, [0; 7]);
    0
}

pub fn parent(
    n: u16,
    m: u16,
    start: u16,
    after: &[u16],
    tail: &[u16],
    before: &[u16],
    marks: &mut [u16],
    parents: &mut [u16],
    events: &mut [u16],
    tally: &mut [u32; 7],
) -> u16 {
    let vertices = usize::from(n);
    let nodes = vertices + usize::from(m);
    let long = marks.len() >= nodes && events.len() >= 6 * nodes && parents.len() >= vertices;
    let number = judge::walk(n, m, start, after, tail, before, long);
    if number != 0 {
        return number;
    }
    mark_blanks(&mut marks[..nodes], before);
    parents[..vertices].fill(0);
    let mut events = Events::new(events);
    let mut counts = events.label(marks, start, [0; 7]);
    // v is being scanned, e is the edge next to traverse, f the tree edge into v.
    let (mut v, mut e, mut f) = (start, after[usize::from(start) - 1], 0);
    loop {
        while e != 0 {
            let x = tail[usize::from(e) - vertices - 1];
            if marks[usize::from(x) - 1] == 0 {
                counts = events.emit(2, e, v, counts);
                counts = events.label(marks, x, counts);
                parents[usize::from(x) - 1] = f;
                f = e;
                v = x;
                e = after[usize::from(x) - 1];
            } else {
                counts = events.emit(3, e, v, counts);
                counts = events.emit(4, e, v, counts);
                e = after[usize::from(e) - 1];
            }
        }
        counts = events.emit(6, 0, v, counts);
        if f == 0 {
            *tally = counts;
            return 0;
        }
        let above = parents[usize::from(v) - 1];
        v = if above == 0 {
            start
        } else {
            tail[usize::from(above) - vertices - 1]
        };
        counts = events.emit(5, f, v, counts);
        e = after[usize::from(f) - 1];
        f = above;
    }
}

pub fn array(
    n: u16,
    m: u16,
    start: u16,
    firsts: &[u16],
    tails: &mut [u16],
    before: &[u16],
    marks: &mut [u16],
    increments: &mut [u16],
    events: &mut [u16],
    tally: &mut [u32; 7],
) -> u16 {
    let vertices = usize::from(n);
    let nodes = vertices + usize::from(m);
    let long = marks.len() >= nodes && events.len() >= 6 * nodes && increments.len() >= vertices;
    let number = judge::array_walk(n, m, start, firsts, tails, before, long);
    if number != 0 {
        return number;
    }
    mark_blanks(&mut marks[..nodes], before);
    increments[..vertices].fill(0);
    let mut events = Events::new(events);
    let mut counts = events.label(marks, start, [0; 7]);
    increments[usize::from(start) - 1] = 1;
    // v is being scanned, e is the position next to traverse, u the parent of v.
    let (mut v, mut e, mut u) = (start, firsts[usize::from(start) - 1], 0);
    loop {
        while e < firsts[usize::from(v)] {
            let x = tails[usize::from(e) - 1];
            if increments[usize::from(x) - 1] == 0 && marks[usize::from(x) - 1] != ON_THE_BLANK {
                counts = events.emit(2, n + e, v, counts);
                increments[usize::from(v) - 1] = e - firsts[usize::from(v) - 1] + 1;
                tails[usize::from(e) - 1] = u;
                counts = events.label(marks, x, counts);
                increments[usize::from(x) - 1] = 1;
                u = v;
                v = x;
                e = firsts[usize::from(x) - 1];
            } else {
                counts = events.emit(3, n + e, v, counts);
                counts = events.emit(4, n + e, v, counts);
                e += 1;
            }
        }
        counts = events.emit(6, 0, v, counts);
        if u == 0 {
            *tally = counts;
            return 0;
        }
        e = firsts[usize::from(u) - 1] + increments[usize::from(u) - 1] - 1;
        let above = std::mem::replace(&mut tails[usize::from(e) - 1], v);
        counts = events.emit(5, n + e, u, counts);
        v = u;
        e += 1;
        u = above;
    }
}
