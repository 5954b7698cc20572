//! The two searches of the paper over lists, by their definitions.

use crate::image::{Profile, Reference};

/// Kind, reference, element.
pub type Event = [u16; 3];

const LABEL: u16 = 1;
const ADVANCE_TREE: u16 = 2;
const ADVANCE_NONTREE: u16 = 3;
const RETREAT_NONTREE: u16 = 4;
const RETREAT_TREE: u16 = 5;
const SCAN: u16 = 6;
const TRAVERSE: u16 = 7;

/// A tree reference, as a search found it.
#[derive(Clone, Copy, Debug)]
pub struct TreeReference {
    /// The element it leaves.
    pub from: u16,
    /// Its place in that element's list, counted from 1.
    pub place: usize,
    pub reference: Reference,
}

/// What a search gives.
#[derive(Clone, Debug, Default)]
pub struct Search {
    pub events: Vec<Event>,
    /// The elements in order of labelling.
    pub order: Vec<u16>,
    /// The tree references in order of advancing.
    pub tree: Vec<TreeReference>,
    /// The elements already on the blank.
    blank: Vec<u16>,
}

impl Search {
    /// Nothing labelled but the elements already on the blank.
    fn of_blank(before: &[u16]) -> Search {
        Search {
            blank: before.to_vec(),
            ..Search::default()
        }
    }

    fn labelled(&self, element: u16) -> bool {
        self.blank.contains(&element) || self.order.contains(&element)
    }

    fn label(&mut self, element: u16) {
        self.events.push([LABEL, 0, element]);
        self.order.push(element);
    }
}

/// Depth-first search from the start, with a good list of elements already on the blank.
pub fn depth_first(profile: &Profile, start: u16, before: &[u16]) -> Search {
    let mut search = Search::of_blank(before);
    search_element(profile, start, &mut search);
    search
}

fn search_element(profile: &Profile, element: u16, search: &mut Search) {
    search.label(element);
    for (index, &reference) in profile.list(element).iter().enumerate() {
        let Reference { number, to } = reference;
        if search.labelled(to) {
            search.events.push([ADVANCE_NONTREE, number, element]);
            search.events.push([RETREAT_NONTREE, number, element]);
        } else {
            search.tree.push(TreeReference {
                from: element,
                place: index + 1,
                reference,
            });
            search.events.push([ADVANCE_TREE, number, element]);
            search_element(profile, to, search);
            search.events.push([RETREAT_TREE, number, element]);
        }
    }
    search.events.push([SCAN, 0, element]);
}

/// Breadth-first search from the start, with a good list of elements already on the blank. The elements at one distance
/// are scanned in the order of their labels, which labels those at the next distance.
pub fn breadth_first(profile: &Profile, start: u16, before: &[u16]) -> Search {
    let mut search = Search::of_blank(before);
    search.label(start);
    let mut level = vec![start];
    while !level.is_empty() {
        let labelled_before = search.order.len();
        for &element in &level {
            for (index, &reference) in profile.list(element).iter().enumerate() {
                search.events.push([TRAVERSE, reference.number, element]);
                if !search.labelled(reference.to) {
                    search.label(reference.to);
                    search.tree.push(TreeReference {
                        from: element,
                        place: index + 1,
                        reference,
                    });
                }
            }
            search.events.push([SCAN, 0, element]);
        }
        level = search.order[labelled_before..].to_vec();
    }
    search
}
