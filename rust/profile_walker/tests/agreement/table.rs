//! Counts how many inputs of each call got which number, and what was met on the way.

use std::collections::BTreeMap;
use std::fmt;

/// The calls and the numbers that each of them can return, 0 for a call taken.
pub const CALLS: [(&str, &[u16]); 16] = [
    ("check_image", &[0, 1, 2, 3, 5, 6, 7]),
    ("read_profile", &[0, 1, 2, 3, 4, 6, 12, 13]),
    ("to_array", &[0, 1, 2, 3, 5, 6, 7]),
    ("walk_text", &[0, 1, 2, 3, 4, 6, 12, 13]),
    ("refusal_line", &[0, 3]),
    ("dfs_recursive", &[0, 1, 2, 3, 4, 5, 6, 7, 17, 18]),
    ("dfs_parent", &[0, 1, 2, 3, 4, 5, 6, 7, 17, 18]),
    ("dfs_array", &[0, 1, 2, 3, 4, 5, 6, 17, 18]),
    ("bfs_queue", &[0, 1, 2, 3, 4, 5, 6, 7, 17, 18]),
    ("bfs_folded", &[0, 1, 2, 3, 4, 5, 6, 7, 17, 18]),
    ("open", &[0, 1, 2, 3, 4, 5, 6, 7, 17, 18]),
    ("step", &[0, 1, 2, 3, 4, 8, 9]),
    ("run", &[0, 1, 2, 3, 4, 8]),
    ("roll_back", &[0, 1, 2, 3, 4, 8, 9]),
    ("accept", &[0, 1, 2, 3, 4, 8, 9, 10, 11]),
    ("shift_start", &[0]),
];

/// Every number with which a call can be turned back.
const NUMBERS: [u16; 15] = [1, 2, 3, 4, 5, 6, 7, 8, 9, 10, 11, 12, 13, 17, 18];

/// The numbers that a call can return.
pub fn numbers_of(call: &str) -> &'static [u16] {
    let found = CALLS.iter().find(|(name, _)| *name == call);
    found.expect("a call of the header").1
}

/// Counts of one topic or of all.
#[derive(Default)]
pub struct Table {
    numbers: BTreeMap<(&'static str, u16), u64>,
    met: BTreeMap<(&'static str, String), u64>,
}

impl Table {
    pub const fn new() -> Table {
        Table {
            numbers: BTreeMap::new(),
            met: BTreeMap::new(),
        }
    }

    /// One more input of a call got this number.
    pub fn count(&mut self, call: &'static str, number: u16) {
        *self.numbers.entry((call, number)).or_default() += 1;
    }

    /// One more input met this.
    pub fn meet(&mut self, heading: &'static str, what: impl Into<String>) {
        *self.met.entry((heading, what.into())).or_default() += 1;
    }

    /// How many calls were compared.
    pub fn total(&self) -> u64 {
        self.numbers.values().sum()
    }

    /// How many inputs of a call got this number.
    pub fn got(&self, call: &'static str, number: u16) -> u64 {
        self.numbers.get(&(call, number)).copied().unwrap_or(0)
    }

    /// How many inputs met this.
    pub fn times(&self, heading: &'static str, what: &str) -> u64 {
        let key = (heading, what.to_string());
        self.met.get(&key).copied().unwrap_or(0)
    }

    /// Every number that the call can return was returned.
    pub fn assert_every_number(&self, call: &'static str) {
        for &number in numbers_of(call) {
            assert!(
                self.got(call, number) > 0,
                "no input of {call} got {number}"
            );
        }
    }

    /// Each of these was met.
    pub fn assert_met(&self, heading: &'static str, all: &[&str]) {
        for what in all {
            assert!(self.times(heading, what) > 0, "{heading}: {what} not met");
        }
    }

    /// Adds the counts of another table.
    pub fn add(&mut self, other: Table) {
        for (key, count) in other.numbers {
            *self.numbers.entry(key).or_default() += count;
        }
        for (key, count) in other.met {
            *self.met.entry(key).or_default() += count;
        }
    }
}

impl fmt::Display for Table {
    fn fmt(&self, to: &mut fmt::Formatter<'_>) -> fmt::Result {
        write!(to, "{:14}{:>9}", "call", "taken")?;
        for number in NUMBERS {
            write!(to, "{number:>8}")?;
        }
        writeln!(to)?;
        for (call, numbers) in CALLS {
            write!(to, "{call:14}{:>9}", self.got(call, 0))?;
            for number in NUMBERS {
                if numbers.contains(&number) {
                    write!(to, "{:>8}", self.got(call, number))?;
                } else {
                    write!(to, "{:>8}", "-")?;
                }
            }
            writeln!(to)?;
        }
        for ((heading, what), count) in &self.met {
            let row = format!("{heading}: {what}");
            writeln!(to, "{row:75}{count:>8}")?;
        }
        write!(to, "{} calls compared", self.total())
    }
}
