//! The same algorithms in safe Rust: the same areas, the same order of refusals, the same events, word for word.

mod breadth;
mod depth;
mod folded;
mod judge;
mod log;

pub use breadth::{folded_queue, queue};
pub use depth::{array, parent, recursive};
pub use folded::{open, run};
pub use judge::check_image;
