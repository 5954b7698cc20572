//! The state of a folded walk.

/// The phases of a folded walk.
pub mod phase {
    /// Traversing references.
    pub const WALKING: u16 = 1;
    /// Putting the links of an element's list back before it is scanned.
    pub const RESTORING: u16 = 2;
    /// Every link is as loaded; the card may be accepted.
    pub const ENDED: u16 = 3;
    /// Putting every link back after a winding order.
    pub const WINDING_BACK: u16 = 4;
    /// Wound back: every link is as loaded.
    pub const WITHDRAWN: u16 = 5;
    /// The card is accepted.
    pub const ACCEPTED: u16 = 6;
}

/// How many words a state has.
pub const STATE_WORDS: usize = 9;

/// The nine words of a folded walk's state. Any words may stand in it; a call turns back those out of kind.
#[derive(Clone, Copy, Debug, PartialEq, Eq, Hash)]
pub struct State([u16; STATE_WORDS]);

impl State {
    /// A state of any nine words: n, m, start, v, e, f, phase, next label, circular.
    pub const fn from_words(words: [u16; STATE_WORDS]) -> State {
        State(words)
    }

    /// The nine words.
    pub const fn words(&self) -> &[u16; STATE_WORDS] {
        &self.0
    }

    /// The nine words, to be written.
    pub fn words_mut(&mut self) -> &mut [u16; STATE_WORDS] {
        &mut self.0
    }

    /// The number of elements (vertices).
    pub const fn n(&self) -> u16 {
        self.0[0]
    }

    /// The number of references (edges).
    pub const fn m(&self) -> u16 {
        self.0[1]
    }

    /// The element that the walk starts from.
    pub const fn start(&self) -> u16 {
        self.0[2]
    }

    /// The element being scanned.
    pub const fn v(&self) -> u16 {
        self.0[3]
    }

    /// The reference next to traverse, or 0.
    pub const fn e(&self) -> u16 {
        self.0[4]
    }

    /// The trailer: the reference before e, or the parent of v, or 0.
    pub const fn f(&self) -> u16 {
        self.0[5]
    }

    /// The [`phase`].
    pub const fn phase(&self) -> u16 {
        self.0[6]
    }

    /// The next label number.
    pub const fn next_label(&self) -> u16 {
        self.0[7]
    }

    /// 1 where a reference was met that leads to an element labelled and not yet scanned, else 0. Once the walk has
    /// ended it is 1 exactly if some element reached has a path of one reference or more back to itself that keeps to
    /// elements not on the blank.
    pub const fn circular(&self) -> u16 {
        self.0[8]
    }
}

impl From<[u16; STATE_WORDS]> for State {
    fn from(words: [u16; STATE_WORDS]) -> State {
        State(words)
    }
}
