//! A line controller that writes down every call with its exact answer.

use crate::profiles::Profile;
use profile_walker::areas;
use std::fmt::Write;

/// What stands in the event words that a call is lent. No answer shows it, since only events written are.
const UNTOUCHED: u16 = 9999;

pub struct Line<'a> {
    profile: &'a Profile,
    state: [u16; 9],
    after: Vec<u16>,
    tail: Vec<u16>,
    before: Vec<u16>,
    marks: Vec<u16>,
    figure: u32,
    text: String,
}

fn joined(words: &[u16]) -> String {
    words.iter().map(|w| format!(",{w}")).collect()
}

impl<'a> Line<'a> {
    /// A line with the profile loaded and a new panel.
    pub fn new(profile: &'a Profile) -> Self {
        let mut line = Line {
            profile,
            state: [0; 9],
            after: profile.after.clone(),
            tail: profile.tail.clone(),
            before: Vec::new(),
            marks: vec![0; profile.after.len()],
            figure: 0,
            text: String::new(),
        };
        line.write_links();
        line.lend(&profile.before);
        line
    }

    /// The list that openings are lent from here on: elements already on the blank.
    pub fn lend(&mut self, before: &[u16]) {
        self.before = before.to_vec();
        writeln!(self.text, "before{}", joined(before)).unwrap();
    }

    pub fn into_text(self) -> String {
        self.text
    }

    pub fn phase(&self) -> u16 {
        self.state[6]
    }

    /// The element being scanned.
    pub fn v(&self) -> Option<u16> {
        Some(self.state[3])
    }

    /// The element that the reference next to traverse leads to, where there is one.
    pub fn led_to(&self) -> Option<u16> {
        let reference = usize::from(self.state[4]).checked_sub(usize::from(self.profile.n) + 1)?;
        self.tail.get(reference).copied()
    }

    pub fn links_as_loaded(&self) -> bool {
        self.after == self.profile.after && self.tail == self.profile.tail
    }

    fn write_links(&mut self) {
        for (name, words) in [
            ("after", &self.after),
            ("tail", &self.tail),
            ("marks", &self.marks),
        ] {
            writeln!(self.text, "{name}{}", joined(words)).unwrap();
        }
    }

    /// The number, the events and the whole state of the line after a call.
    fn write_answer(
        &mut self,
        number: Result<(), profile_walker::Refusal>,
        counts: &str,
        events: &[u16],
    ) {
        writeln!(
            self.text,
            "number,{}{counts}",
            number.map_or_else(|k| k.0, |()| 0)
        )
        .unwrap();
        for event in events.chunks(3) {
            writeln!(self.text, "event{}", joined(event)).unwrap();
        }
        writeln!(self.text, "state{}", joined(&self.state)).unwrap();
        self.write_links();
    }

    pub fn open(&mut self, words: usize) {
        writeln!(
            self.text,
            "call,open,{},{},{},{words}",
            self.profile.n, self.profile.m, self.profile.start
        )
        .unwrap();
        let mut events = vec![UNTOUCHED; words];
        let number = areas::open(
            self.profile.n,
            self.profile.m,
            self.profile.start,
            &self.after,
            &self.tail,
            &self.before,
            &mut self.marks,
            &mut events,
            &mut self.state,
        );
        let made = if number.is_ok() { 3 } else { 0 };
        self.write_answer(number, "", &events[..made]);
    }

    pub fn step(&mut self, words: usize) {
        writeln!(self.text, "call,move,{words}").unwrap();
        self.advance(None, words);
    }

    pub fn run(&mut self, budget: u32, words: usize) {
        writeln!(self.text, "call,run,{budget},{words}").unwrap();
        self.advance(Some(budget), words);
    }

    fn advance(&mut self, budget: Option<u32>, words: usize) {
        let mut events = vec![UNTOUCHED; words];
        let (mut steps, mut made, mut reason) = (0, 0, 0);
        let (after, tail, marks) = (&mut self.after, &mut self.tail, &mut self.marks);
        let number = match budget {
            Some(budget) => areas::run(
                &mut self.state,
                budget,
                after,
                tail,
                marks,
                &mut events,
                &mut steps,
                &mut made,
                &mut reason,
            ),
            None => areas::step(
                &mut self.state,
                after,
                tail,
                marks,
                &mut events,
                &mut steps,
                &mut made,
                &mut reason,
            ),
        };
        let counts = if number.is_ok() {
            format!(",{steps},{made},{reason}")
        } else {
            String::new()
        };
        self.write_answer(number, &counts, &events[..3 * made]);
    }

    pub fn roll_back(&mut self) {
        writeln!(self.text, "call,wind back").unwrap();
        let number = areas::roll_back(&mut self.state);
        self.write_answer(number, "", &[]);
    }

    pub fn accept(&mut self) {
        writeln!(self.text, "call,accept").unwrap();
        let number = areas::accept(&mut self.state, &mut self.figure);
        self.write_answer(number, "", &[]);
        writeln!(self.text, "figure,{}", self.figure).unwrap();
    }

    pub fn shift_start(&mut self) {
        areas::shift_start(&mut self.figure);
        writeln!(self.text, "call,shift start\nfigure,{}", self.figure).unwrap();
    }

    /// Words that the next call is to find: a state, links or marks that no walk left.
    pub fn set(&mut self, name: &str, place: usize, word: u16) {
        writeln!(self.text, "set,{name},{place},{word}").unwrap();
        let words: &mut [u16] = match name {
            "state" => &mut self.state,
            "after" => &mut self.after,
            "tail" => &mut self.tail,
            "marks" => &mut self.marks,
            _ => panic!("no such words"),
        };
        words[place - 1] = word;
    }

    /// A figure that the next call is to find.
    pub fn set_figure(&mut self, figure: u32) {
        writeln!(self.text, "set,figure,1,{figure}").unwrap();
        self.figure = figure;
    }
}
