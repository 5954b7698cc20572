//! The elements reached, the references met and the circles among them, by paths and not by a search. A path keeps to
//! elements that are not on the blank.

use crate::image::{Profile, Reference};

/// What can be reached from a start.
pub struct Reach {
    /// How many elements are reached, the start included.
    pub reached: usize,
    /// How many references stand on their lists.
    pub met: usize,
    within: Vec<bool>,
}

impl Reach {
    /// Takes in the ends of references that leave the set, but none already on the blank, until it no longer grows.
    pub fn from(profile: &Profile, start: u16, before: &[u16]) -> Reach {
        let mut within = vec![false; profile.n + 1];
        within[usize::from(start)] = true;
        loop {
            let size = within.iter().filter(|&&inside| inside).count();
            for from in (1..=profile.n).rev() {
                if within[from] {
                    for reference in &profile.lists[from] {
                        within[usize::from(reference.to)] |= !before.contains(&reference.to);
                    }
                }
            }
            let reached = within.iter().filter(|&&inside| inside).count();
            if reached == size {
                let lists = profile.lists.iter().zip(&within);
                let met = lists.map(|(list, &inside)| if inside { list.len() } else { 0 });
                return Reach {
                    reached,
                    met: met.sum(),
                    within,
                };
            }
        }
    }

    /// Whether an element is reached.
    pub fn contains(&self, element: u16) -> bool {
        self.within[usize::from(element)]
    }

    /// The references that lead from an element reached to an element reached.
    fn inner<'a>(&'a self, profile: &'a Profile, from: u16) -> impl Iterator<Item = &'a Reference> {
        let list = profile.list(from).iter();
        list.filter(|reference| self.contains(reference.to))
    }

    /// Whether some element reached has a path of one reference or more back to itself. Elements to which no element
    /// left refers are taken away until there is none of them; on a path back to itself every element is referred to,
    /// and where no such path is, the first element of a longest path among those left is referred to by none.
    pub fn circular(&self, profile: &Profile) -> bool {
        let mut referrers = vec![0_usize; profile.n + 1];
        let reached = (1..=profile.n as u16).filter(|&element| self.contains(element));
        for reference in reached.clone().flat_map(|from| self.inner(profile, from)) {
            referrers[usize::from(reference.to)] += 1;
        }
        let mut left = self.reached;
        let mut to_take: Vec<u16> = reached
            .filter(|&element| referrers[usize::from(element)] == 0)
            .collect();
        while let Some(element) = to_take.pop() {
            left -= 1;
            for reference in self.inner(profile, element) {
                let count = &mut referrers[usize::from(reference.to)];
                *count -= 1;
                if *count == 0 {
                    to_take.push(reference.to);
                }
            }
        }
        left > 0
    }

    /// The moves of a whole folded walk.
    pub fn moves(&self) -> usize {
        2 * self.met + self.reached
    }
}
