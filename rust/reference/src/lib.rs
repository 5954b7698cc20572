//! A second implementation of the profile walker, written from the documents alone, to compare the library with.
//!
//! It works on pictures of its own and not on the lent words: a linked image becomes one list of references for each
//! element, a text becomes lines, the folded walk moves on a copy of everything lent. A call decides first, then writes
//! what it found into the lent areas, so that a call turned back has nothing to undo. Speed does not matter here.
//!
//! Each call has the areas of the library's call of the same name, and returns 0 where it is taken, else the number
//! with which it is turned back.

#![forbid(unsafe_code)]

mod array;
mod blank;
mod folded;
mod image;
mod panel;
mod picture;
mod printed;
mod reach;
mod search;
mod sizes;
mod text;
mod walks;

pub use array::to_array;
pub use folded::{
    move_to_come, open, roll_back, run, step, Move, OutOfKind, ToCome, ENDED, SPENT, STUCK,
};
pub use image::{check_image, Profile, Reference};
pub use panel::{accept, shift_start};
pub use picture::{Walk, Words};
pub use printed::{refusal_line, walk_text};
pub use reach::Reach;
pub use search::{breadth_first, depth_first, Event, Search, TreeReference};
pub use text::read_profile;
pub use walks::{bfs_folded, bfs_queue, dfs_array, dfs_parent, dfs_recursive};
