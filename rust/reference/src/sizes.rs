//! The limits of a profile, and which node numbers are elements and which are references.

/// The most elements.
pub const MAX_N: usize = 1_000;
/// The most references.
pub const MAX_M: usize = 4_000;

/// Turns the call back with this number where the condition is true.
pub fn refuse(number: u16, condition: bool) -> Result<(), u16> {
    if condition {
        Err(number)
    } else {
        Ok(())
    }
}

/// What a call returns: 0 where it was taken.
pub fn number_of(outcome: Result<(), u16>) -> u16 {
    match outcome {
        Ok(()) => 0,
        Err(number) => number,
    }
}

/// How many elements and references there are.
#[derive(Clone, Copy, Debug, PartialEq, Eq)]
pub struct Sizes {
    pub n: usize,
    pub m: usize,
}

impl Sizes {
    /// Numbers 1 and 2.
    pub fn judged(n: u16, m: u16) -> Result<Sizes, u16> {
        let (n, m) = (usize::from(n), usize::from(m));
        refuse(1, !(1..=MAX_N).contains(&n))?;
        refuse(2, m > MAX_M)?;
        Ok(Sizes { n, m })
    }

    /// How many nodes there are.
    pub fn nodes(self) -> usize {
        self.n + self.m
    }

    /// Nodes 1 to n.
    pub fn element(self, node: u16) -> bool {
        (1..=self.n).contains(&usize::from(node))
    }

    /// Nodes n+1 to n+m.
    pub fn reference(self, node: u16) -> bool {
        (self.n + 1..=self.nodes()).contains(&usize::from(node))
    }

    /// Null, an element or a reference.
    pub fn node_or_null(self, node: u16) -> bool {
        node == 0 || self.element(node) || self.reference(node)
    }

    /// Null or a reference.
    pub fn reference_or_null(self, node: u16) -> bool {
        node == 0 || self.reference(node)
    }
}
