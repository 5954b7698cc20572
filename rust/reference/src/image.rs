//! Linked images: when they are sound, and the lists that they say.

use crate::sizes::{number_of, refuse, Sizes};

/// One reference of an element's list.
#[derive(Clone, Copy, Debug, PartialEq, Eq)]
pub struct Reference {
    /// Its number, n+1 to n+m.
    pub number: u16,
    /// The element it leads to.
    pub to: u16,
}

/// A sound profile: the list of each element. `lists[0]` is empty, so that an element's number finds its list.
#[derive(Clone, Debug, PartialEq, Eq)]
pub struct Profile {
    pub n: usize,
    pub m: usize,
    pub lists: Vec<Vec<Reference>>,
}

impl Profile {
    /// The list of an element.
    pub fn list(&self, element: u16) -> &[Reference] {
        &self.lists[usize::from(element)]
    }

    /// The after and tail words that say these lists.
    pub fn image(&self) -> (Vec<u16>, Vec<u16>) {
        let mut after = vec![0; self.n + self.m];
        let mut tail = vec![0; self.m];
        for (head, list) in self.lists.iter().enumerate() {
            let mut before = head;
            for reference in list {
                after[before - 1] = reference.number;
                before = usize::from(reference.number);
                tail[before - self.n - 1] = reference.to;
            }
        }
        (after, tail)
    }
}

/// Checks a linked image: 1, 2, 3, 5, 6, 7.
pub fn check_image(n: u16, m: u16, after: &[u16], tail: &[u16]) -> u16 {
    number_of(judged(n, m, after, tail))
}

fn judged(n: u16, m: u16, after: &[u16], tail: &[u16]) -> Result<(), u16> {
    let sizes = Sizes::judged(n, m)?;
    refuse(3, after.len() < sizes.nodes() || tail.len() < sizes.m)?;
    lists(sizes, after, tail).map(|_| ())
}

/// The lists of an image whose areas are long enough: 5, 6, 7.
pub fn lists(sizes: Sizes, after: &[u16], tail: &[u16]) -> Result<Profile, u16> {
    let after = &after[..sizes.nodes()];
    let tail = &tail[..sizes.m];
    refuse(5, !after.iter().all(|&word| sizes.reference_or_null(word)))?;
    refuse(6, !tail.iter().all(|&word| sizes.element(word)))?;
    let places = places(sizes, after).ok_or(7u16)?;

    // Each reference goes to its place in the list of the element that owns it.
    let mut sorted: Vec<(usize, usize, usize)> = places
        .iter()
        .enumerate()
        .map(|(index, &(owner, place))| (owner, place, index))
        .collect();
    sorted.sort_unstable();
    let mut lists = vec![Vec::new(); sizes.n + 1];
    for (owner, _, index) in sorted {
        lists[owner].push(Reference {
            number: (sizes.n + 1 + index) as u16,
            to: tail[index],
        });
    }
    Ok(Profile {
        n: sizes.n,
        m: sizes.m,
        lists,
    })
}

/// For each reference its owner and its place on that list, found by going backwards along the in-links. There is
/// none where a reference has no in-link, or several, or where the way back never comes to an element.
fn places(sizes: Sizes, after: &[u16]) -> Option<Vec<(usize, usize)>> {
    let mut in_links: Vec<Vec<usize>> = vec![Vec::new(); sizes.m];
    for (index, &word) in after.iter().enumerate() {
        if word != 0 {
            in_links[usize::from(word) - sizes.n - 1].push(index + 1);
        }
    }
    if in_links.iter().any(|nodes| nodes.len() != 1) {
        return None;
    }
    let mut places = Vec::with_capacity(sizes.m);
    for reference in 0..sizes.m {
        let mut node = in_links[reference][0];
        let mut place = 1;
        while node > sizes.n {
            // A way back longer than all references goes round.
            if place > sizes.m {
                return None;
            }
            node = in_links[node - sizes.n - 1][0];
            place += 1;
        }
        places.push((node, place));
    }
    Some(places)
}
