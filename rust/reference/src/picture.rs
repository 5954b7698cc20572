//! The folded walk of a sound profile as a path of elements, and what the bent links and the marks look like for such
//! a path. No word is bent here: each picture is drawn anew from the lists as loaded.

use crate::blank::mark;
use crate::image::{Profile, Reference};
use crate::search::Event;

/// An element on the path from the start to the element being scanned.
#[derive(Clone, Debug)]
struct OnPath {
    element: u16,
    /// How many references of its list are behind, linked in reverse order.
    behind: usize,
    /// The last tree reference that the walk advanced along from it.
    tree: Option<u16>,
}

/// A folded walk under way.
#[derive(Clone, Debug)]
pub struct Walk<'a> {
    profile: &'a Profile,
    start: u16,
    /// The elements already on the blank.
    blank: Vec<u16>,
    path: Vec<OnPath>,
    labels: Vec<u16>,
    /// The elements scanned, in order. Those that a winding leaves are not among them.
    scanned: Vec<u16>,
    next: u16,
    circular: bool,
    phase: u16,
}

/// The words that a walk leaves.
#[derive(Clone, Debug, PartialEq, Eq)]
pub struct Words {
    pub state: [u16; 9],
    pub after: Vec<u16>,
    pub tail: Vec<u16>,
    pub marks: Vec<u16>,
}

impl<'a> Walk<'a> {
    /// The walk as opened with a good list of elements already on the blank.
    pub fn open(profile: &'a Profile, start: u16, before: &[u16]) -> Walk<'a> {
        let mut walk = Walk {
            profile,
            start,
            blank: before.to_vec(),
            path: Vec::new(),
            labels: vec![0; profile.n + 1],
            scanned: Vec::new(),
            next: 1,
            circular: false,
            phase: 1,
        };
        walk.enter(start);
        walk
    }

    fn enter(&mut self, element: u16) {
        self.labels[usize::from(element)] = self.next;
        self.next += 1;
        self.path.push(OnPath {
            element,
            behind: 0,
            tree: None,
        });
    }

    /// Whether an element is on the path: before a winding order these are the elements labelled and not yet scanned.
    fn on_path(&self, element: u16) -> bool {
        self.path.iter().any(|on_path| on_path.element == element)
    }

    /// Phase 3 or 5.
    pub fn at_rest(&self) -> bool {
        self.path.is_empty()
    }

    /// The phase.
    pub fn phase(&self) -> u16 {
        self.phase
    }

    /// Takes a winding order, unless at rest.
    pub fn roll_back(&mut self) {
        if !self.at_rest() {
            self.phase = 4;
        }
    }

    /// Makes the move to come, unless at rest.
    pub fn step(&mut self) -> Vec<Event> {
        let profile = self.profile;
        let Some(top) = self.path.last_mut() else {
            return Vec::new();
        };
        let v = top.element;
        let list = profile.list(v);
        if let (1, Some(&Reference { number, to })) = (self.phase, list.get(top.behind)) {
            if self.labels[usize::from(to)] == 0 && !self.blank.contains(&to) {
                top.tree = Some(number);
                self.enter(to);
                return vec![[2, number, v], [1, 0, to]];
            }
            top.behind += 1;
            self.circular |= self.on_path(to);
            return vec![[3, number, v], [4, number, v]];
        }
        if top.behind > 0 {
            top.behind -= 1;
            if self.phase == 1 {
                self.phase = 2;
            }
            return Vec::new();
        }
        self.path.pop();
        let winding = self.phase == 4;
        if !winding {
            self.scanned.push(v);
        }
        match self.path.last_mut() {
            None if winding => {
                self.labels.fill(0);
                self.phase = 5;
                vec![]
            }
            None => {
                self.phase = 3;
                vec![[6, 0, v]]
            }
            Some(_) if winding => vec![],
            Some(parent) => {
                let u = parent.element;
                let tree = profile.list(u)[parent.behind].number;
                parent.behind += 1;
                self.phase = 1;
                vec![[6, 0, v], [5, tree, u]]
            }
        }
    }

    /// The n+m marks: the number of each element labelled, with 32,768 on top until it is scanned, and 65,535 for an
    /// element already on the blank.
    fn marks(&self) -> Vec<u16> {
        let mut marks = vec![0; self.profile.n + self.profile.m];
        for (mark, &label) in marks.iter_mut().zip(&self.labels[1..]) {
            if label != 0 {
                *mark = 32_768 + label;
            }
        }
        for &element in &self.scanned {
            marks[usize::from(element) - 1] = self.labels[usize::from(element)];
        }
        mark(&mut marks, &self.blank);
        marks
    }

    /// The words of the state, links and marks as they stand now.
    pub fn words(&self) -> Words {
        let Profile { n, m, .. } = *self.profile;
        let (mut after, mut tail) = self.profile.image();
        let mut parent = 0;
        for (depth, on_path) in self.path.iter().enumerate() {
            let list = self.profile.list(on_path.element);
            if let Some(tree) = on_path.tree {
                after[usize::from(on_path.element) - 1] = tree;
            }
            let mut trailer = parent;
            for reference in &list[..on_path.behind] {
                after[usize::from(reference.number) - 1] = trailer;
                trailer = reference.number;
            }
            if depth + 1 < self.path.len() {
                tail[usize::from(list[on_path.behind].number) - n - 1] = trailer;
            }
            parent = on_path.element;
        }

        let (v, behind) = match self.path.last() {
            Some(top) => (top.element, top.behind),
            None => (self.start, 0),
        };
        let list = self.profile.list(v);
        let parent = match self.path.len() {
            0 | 1 => 0,
            depth => self.path[depth - 2].element,
        };
        let e = list.get(behind).map_or(0, |reference| reference.number);
        let f = match behind {
            0 => parent,
            _ => list[behind - 1].number,
        };
        Words {
            state: [
                n as u16,
                m as u16,
                self.start,
                v,
                e,
                f,
                self.phase,
                self.next,
                u16::from(self.circular),
            ],
            after,
            tail,
            marks: self.marks(),
        }
    }
}
