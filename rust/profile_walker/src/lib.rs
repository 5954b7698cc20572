//! Safe calls of the proved profile walker library.
//!
//! A profile is n elements (vertices, nodes 1 to n) and m references (edges, nodes n+1 to n+m); 0 is null. A linked
//! image of it is two lent areas of words: `after` has n+m, for an element its first reference and for a reference
//! the next one on the same list, 0 at the end; `tail` has m, the element that each reference leads to.
//!
//! Every slice may have any length and hold any words. One that is longer than a call needs serves as well, and the
//! words past those needed are never written. A call gives a [`Refusal`] where it is turned back, and has then
//! changed nothing. No call panics, allocates or keeps anything.
//!
//! Walks and openings take a list of the elements already on the blank, which the chip maker has written; none here.
//!
//! ```
//! use profile_walker::{open, phase, read_profile, roll_back, run, step, Reason};
//!
//! let text = b"elements,references,start\n2,1,1\nfrom,to\n1,2\n";
//! let (mut after, mut tail, mut marks) = ([0; 3], [0; 1], [0; 3]);
//! let profile = read_profile(text, &mut after, &mut tail)?;
//! let mut events = [0; 3 + 6 * 4];
//! let mut state = open(profile.n, profile.m, profile.start, &after, &tail, &[], &mut marks, &mut events)?;
//!
//! // One move bends the links; a winding order and further moves put them back.
//! let loaded = (after, tail);
//! step(&mut state, &mut after, &mut tail, &mut marks, &mut events[3..])?;
//! assert_ne!((after, tail), loaded);
//! roll_back(&mut state)?;
//! let ran = run(&mut state, 4, &mut after, &mut tail, &mut marks, &mut events[3..])?;
//! assert_eq!(ran.reason, Reason::Ended);
//! assert_eq!(state.phase(), phase::WITHDRAWN);
//! assert_eq!((after, tail), loaded);
//! # Ok::<(), profile_walker::Refusal>(())
//! ```

#![deny(missing_docs)]
#![deny(unsafe_op_in_unsafe_fn)]

pub mod areas;
mod folded;
mod panel;
mod profiles;
mod raw;
mod refusal;
mod state;
mod walks;

pub use areas::{check_image, to_array, walk_text};
pub use folded::{open, roll_back, run, step, Ran, Reason, MAX_MOVES, MOVE_EVENTS, OPEN_EVENTS};
pub use panel::{accept, shift_start};
pub use profiles::{
    read_profile, refusal_line, text_areas, Profile, MAX_M, MAX_N, MAX_TEXT, REFUSAL_BYTES,
};
pub use refusal::Refusal;
pub use state::{phase, State, STATE_WORDS};
pub use walks::{
    bfs_folded, bfs_queue, dfs_array, dfs_parent, dfs_recursive, kind, Tally, TALLY_WORDS,
};
