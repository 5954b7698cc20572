//! The five whole walks: their checks, and what they leave in the lent areas.

use crate::array::grouped;
use crate::blank;
use crate::image::{lists, Profile};
use crate::search::{breadth_first, depth_first, Search};
use crate::sizes::{number_of, refuse, Sizes};

/// What every whole walk is lent besides its links.
struct Lent<'a> {
    marks: &'a mut [u16],
    events: &'a mut [u16],
    tally: &'a mut [u32],
}

impl Lent<'_> {
    fn short(&self, sizes: Sizes) -> bool {
        self.marks.len() < sizes.nodes()
            || self.events.len() < 6 * sizes.nodes()
            || self.tally.len() < 7
    }

    fn leave(&mut self, sizes: Sizes, before: &[u16], search: &Search) {
        self.marks[..sizes.nodes()].fill(0);
        blank::mark(self.marks, before);
        for (label, &element) in (1..).zip(&search.order) {
            self.marks[usize::from(element) - 1] = label;
        }
        for (place, event) in search.events.iter().enumerate() {
            self.events[3 * place..3 * place + 3].copy_from_slice(event);
        }
        for kind in 1..=7u16 {
            let count = search
                .events
                .iter()
                .filter(|event| event[0] == kind)
                .count();
            self.tally[usize::from(kind) - 1] = count as u32;
        }
    }
}

/// The checks of a walk over a linked image, 1 to 7, 17 and 18. `more` is true where a further area is too short.
#[allow(clippy::too_many_arguments)]
fn image_walk(
    sizes: Sizes,
    start: u16,
    after: &[u16],
    tail: &[u16],
    before: &[u16],
    lent: &Lent<'_>,
    more: bool,
) -> Result<Profile, u16> {
    let short = after.len() < sizes.nodes() || tail.len() < sizes.m || lent.short(sizes) || more;
    refuse(3, short)?;
    refuse(4, !sizes.element(start))?;
    let profile = lists(sizes, after, tail)?;
    blank::judge(sizes, start, before)?;
    Ok(profile)
}

/// Depth-first by recursion.
#[allow(clippy::too_many_arguments)]
pub fn dfs_recursive(
    n: u16,
    m: u16,
    start: u16,
    after: &[u16],
    tail: &[u16],
    before: &[u16],
    marks: &mut [u16],
    events: &mut [u16],
    tally: &mut [u32],
) -> u16 {
    let mut lent = Lent {
        marks,
        events,
        tally,
    };
    number_of((|| {
        let sizes = Sizes::judged(n, m)?;
        let profile = image_walk(sizes, start, after, tail, before, &lent, false)?;
        lent.leave(sizes, before, &depth_first(&profile, start, before));
        Ok(())
    })())
}

/// Depth-first with parent words.
#[allow(clippy::too_many_arguments)]
pub fn dfs_parent(
    n: u16,
    m: u16,
    start: u16,
    after: &[u16],
    tail: &[u16],
    before: &[u16],
    marks: &mut [u16],
    parents: &mut [u16],
    events: &mut [u16],
    tally: &mut [u32],
) -> u16 {
    let mut lent = Lent {
        marks,
        events,
        tally,
    };
    number_of((|| {
        let sizes = Sizes::judged(n, m)?;
        let more = parents.len() < sizes.n;
        let profile = image_walk(sizes, start, after, tail, before, &lent, more)?;
        let search = depth_first(&profile, start, before);
        lent.leave(sizes, before, &search);
        // The tree reference into an element, 0 for the start and the unreached.
        let into = |element: u16| {
            let found = search.tree.iter().find(|tree| tree.reference.to == element);
            found.map_or(0, |tree| tree.reference.number)
        };
        parents[..sizes.n].fill(0);
        for tree in &search.tree {
            parents[usize::from(tree.reference.to) - 1] = into(tree.from);
        }
        Ok(())
    })())
}

/// Depth-first over the array form.
#[allow(clippy::too_many_arguments)]
pub fn dfs_array(
    n: u16,
    m: u16,
    start: u16,
    firsts: &[u16],
    tails: &mut [u16],
    before: &[u16],
    marks: &mut [u16],
    increments: &mut [u16],
    events: &mut [u16],
    tally: &mut [u32],
) -> u16 {
    let mut lent = Lent {
        marks,
        events,
        tally,
    };
    number_of((|| {
        let sizes = Sizes::judged(n, m)?;
        let short = firsts.len() < sizes.n + 1
            || tails.len() < sizes.m
            || increments.len() < sizes.n
            || lent.short(sizes);
        refuse(3, short)?;
        refuse(4, !sizes.element(start))?;
        let profile = grouped(sizes, firsts, tails)?;
        blank::judge(sizes, start, before)?;
        let search = depth_first(&profile, start, before);
        lent.leave(sizes, before, &search);
        for element in 1..=sizes.n as u16 {
            let reached = search.order.contains(&element);
            let own = search.tree.iter().filter(|tree| tree.from == element);
            let last = own.map(|tree| tree.place as u16).max();
            increments[usize::from(element) - 1] = last.unwrap_or(u16::from(reached));
        }
        Ok(())
    })())
}

/// Breadth-first with a queue.
#[allow(clippy::too_many_arguments)]
pub fn bfs_queue(
    n: u16,
    m: u16,
    start: u16,
    after: &[u16],
    tail: &[u16],
    before: &[u16],
    marks: &mut [u16],
    queue: &mut [u16],
    events: &mut [u16],
    tally: &mut [u32],
) -> u16 {
    let mut lent = Lent {
        marks,
        events,
        tally,
    };
    number_of((|| {
        let sizes = Sizes::judged(n, m)?;
        let more = queue.len() < sizes.n;
        let profile = image_walk(sizes, start, after, tail, before, &lent, more)?;
        let search = breadth_first(&profile, start, before);
        lent.leave(sizes, before, &search);
        queue[..sizes.n].fill(0);
        queue[..search.order.len()].copy_from_slice(&search.order);
        Ok(())
    })())
}

/// Breadth-first with the queue in the links, which come back as they were.
#[allow(clippy::too_many_arguments)]
pub fn bfs_folded(
    n: u16,
    m: u16,
    start: u16,
    after: &mut [u16],
    tail: &[u16],
    before: &[u16],
    marks: &mut [u16],
    events: &mut [u16],
    tally: &mut [u32],
) -> u16 {
    let mut lent = Lent {
        marks,
        events,
        tally,
    };
    number_of((|| {
        let sizes = Sizes::judged(n, m)?;
        let profile = image_walk(sizes, start, after, tail, before, &lent, false)?;
        lent.leave(sizes, before, &breadth_first(&profile, start, before));
        Ok(())
    })())
}
