//! The folded depth-first search: opened, and run up to a budget.

use super::judge::{self, is_link, is_vertex};
use super::log::{mark_blanks, ON_THE_BLANK};

#[derive(Clone, Copy)]
pub struct State {
    n: u16,
    m: u16,
    start: u16,
    v: u16,
    e: u16,
    f: u16,
    phase: u16,
    next: u16,
    circular: u16,
}

impl State {
    pub fn circular(&self) -> u16 {
        self.circular
    }

    fn is_node(&self, x: u16) -> bool {
        usize::from(x) <= usize::from(self.n) + usize::from(self.m)
    }

    fn is_link(&self, x: u16) -> bool {
        is_link(self.n, self.m, x)
    }

    fn tail_of(&self, edge: u16) -> usize {
        usize::from(edge) - usize::from(self.n) - 1
    }

    fn fields_in(&self) -> bool {
        is_vertex(self.n, self.v)
            && self.is_link(self.e)
            && self.is_node(self.f)
            && (1..=6).contains(&self.phase)
            && (2..=self.n + 1).contains(&self.next)
            && self.circular <= 1
    }
}

pub fn open(
    n: u16,
    m: u16,
    start: u16,
    after: &[u16],
    tail: &[u16],
    before: &[u16],
    marks: &mut [u16],
    events: &mut [u16],
) -> Result<State, u16> {
    let nodes = usize::from(n) + usize::from(m);
    let long = marks.len() >= nodes && events.len() >= 3;
    let number = judge::walk(n, m, start, after, tail, before, long);
    if number != 0 {
        return Err(number);
    }
    mark_blanks(&mut marks[..nodes], before);
    marks[usize::from(start) - 1] = 32769;
    events[..3].copy_from_slice(&[1, 0, start]);
    Ok(State {
        n,
        m,
        start,
        v: start,
        e: after[usize::from(start) - 1],
        f: 0,
        phase: 1,
        next: 2,
        circular: 0,
    })
}

struct Run<'a> {
    s: State,
    after: &'a mut [u16],
    tail: &'a mut [u16],
    marks: &'a mut [u16],
    events: &'a mut [u16],
    at: usize,
}

impl Run<'_> {
    fn emit(&mut self, kind: u16, r: u16, u: u16) {
        self.events[self.at..self.at + 3].copy_from_slice(&[kind, r, u]);
        self.at += 3;
    }

    /// Makes the step to come; false, and nothing stored, where a word that it reads is out of kind.
    fn step(&mut self) -> bool {
        if self.s.phase == 1 && self.s.e != 0 {
            self.forward()
        } else if self.s.f > self.s.n {
            self.relink()
        } else if self.s.f == 0 {
            self.leave_start()
        } else {
            self.leave()
        }
    }

    fn forward(&mut self) -> bool {
        let (v, e) = (self.s.v, self.s.e);
        let x = self.tail[self.s.tail_of(e)];
        if !is_vertex(self.s.n, x) {
            return false;
        }
        let mark = self.marks[usize::from(x) - 1];
        if mark != 0 {
            let next = self.after[usize::from(e) - 1];
            if !self.s.is_link(next) {
                return false;
            }
            self.after[usize::from(e) - 1] = self.s.f;
            self.emit(3, e, v);
            self.emit(4, e, v);
            self.s.e = next;
            self.s.f = e;
            if mark >= 32768 && mark != ON_THE_BLANK {
                self.s.circular = 1;
            }
            return true;
        }
        let first = if x == v {
            e
        } else {
            self.after[usize::from(x) - 1]
        };
        if self.s.next > self.s.n || !self.s.is_link(first) {
            return false;
        }
        self.after[usize::from(v) - 1] = e;
        self.tail[self.s.tail_of(e)] = self.s.f;
        self.marks[usize::from(x) - 1] = self.s.next + 32768;
        self.emit(2, e, v);
        self.emit(1, 0, x);
        self.s.next += 1;
        self.s.f = v;
        self.s.v = x;
        self.s.e = first;
        true
    }

    fn relink(&mut self) -> bool {
        let f = self.s.f;
        let back = self.after[usize::from(f) - 1];
        if !self.s.is_node(back) {
            return false;
        }
        self.after[usize::from(f) - 1] = self.s.e;
        self.s.e = f;
        self.s.f = back;
        if self.s.phase != 4 {
            self.s.phase = 2;
        }
        true
    }

    fn leave_start(&mut self) -> bool {
        let v = self.s.v;
        if v != self.s.start {
            return false;
        }
        self.after[usize::from(v) - 1] = self.s.e;
        if self.s.phase == 4 {
            for mark in &mut self.marks[..usize::from(self.s.n)] {
                *mark = if *mark == ON_THE_BLANK {
                    ON_THE_BLANK
                } else {
                    0
                };
            }
            self.s.phase = 5;
        } else {
            self.marks[usize::from(v) - 1] %= 32768;
            self.emit(6, 0, v);
            self.s.phase = 3;
        }
        true
    }

    fn leave(&mut self) -> bool {
        let (v, f) = (self.s.v, self.s.f);
        let r = if f == v {
            self.s.e
        } else {
            self.after[usize::from(f) - 1]
        };
        if r == 0 || !self.s.is_link(r) {
            return false;
        }
        let trailer = self.tail[self.s.tail_of(r)];
        if !self.s.is_node(trailer) {
            return false;
        }
        if self.s.phase == 4 {
            self.after[usize::from(v) - 1] = self.s.e;
            self.tail[self.s.tail_of(r)] = v;
            self.s.v = f;
            self.s.e = r;
            self.s.f = trailer;
            return true;
        }
        let next = self.after[usize::from(r) - 1];
        if !self.s.is_link(next) {
            return false;
        }
        self.after[usize::from(v) - 1] = self.s.e;
        self.tail[self.s.tail_of(r)] = v;
        self.after[usize::from(r) - 1] = trailer;
        self.marks[usize::from(v) - 1] %= 32768;
        self.emit(6, 0, v);
        self.emit(5, r, f);
        self.s.v = f;
        self.s.e = next;
        self.s.f = r;
        self.s.phase = 1;
        true
    }
}

/// The steps made, the number of events, and why it stopped: 1 ended, 2 spent, 3 stuck.
pub fn run(
    s: &mut State,
    budget: u32,
    after: &mut [u16],
    tail: &mut [u16],
    marks: &mut [u16],
    events: &mut [u16],
) -> Result<(u32, usize, u16), u16> {
    if s.n == 0 || s.n > 1000 {
        return Err(1);
    }
    if s.m > 4000 {
        return Err(2);
    }
    let (edges, nodes) = (usize::from(s.m), usize::from(s.n) + usize::from(s.m));
    if after.len() < nodes
        || tail.len() < edges
        || marks.len() < nodes
        || events.len() < 6 * budget as usize
    {
        return Err(3);
    }
    if !is_vertex(s.n, s.start) {
        return Err(4);
    }
    if !s.fields_in() {
        return Err(8);
    }
    let mut run = Run {
        s: *s,
        after,
        tail,
        marks,
        events,
        at: 0,
    };
    let mut steps = 0;
    let reason = loop {
        if matches!(run.s.phase, 3 | 5 | 6) {
            break 1;
        }
        if steps == budget {
            break 2;
        }
        if !run.step() {
            break 3;
        }
        steps += 1;
    };
    *s = run.s;
    Ok((steps, run.at / 3, reason))
}
