//! Compares every call of the library with the second implementation, and the folded walk with demand 3 itself.
//!
//! Each test is a topic with inputs of its own. `cargo test --release -- --nocapture` prints how many calls each topic
//! compared, and at the end a table of how many inputs of each call got which number.

mod area;
mod blanks;
mod circles;
mod demand;
mod hostile;
mod images;
mod jams;
mod lent;
mod lists;
mod orders;
mod padding;
mod panel;
mod profiles;
mod rng;
mod table;
mod texts;
mod walks;

use std::sync::Mutex;
use std::time::Instant;

use table::{Table, CALLS};

/// The topics that have ended and the sum of their tables. The last one prints it.
static ENDED: Mutex<(usize, Table)> = Mutex::new((0, Table::new()));

const TOPICS: usize = 9;

/// Runs a topic. Every number that its calls can return must have been returned.
fn topic(name: &str, calls: &[&'static str], compare: fn(&mut Table)) {
    let begun = Instant::now();
    let mut table = Table::new();
    compare(&mut table);
    for call in calls {
        table.assert_every_number(call);
    }
    let seconds = begun.elapsed().as_secs_f32();
    println!("{name}: {} calls compared, {seconds:.1} s", table.total());

    let mut ended = ENDED
        .lock()
        .expect("no topic fails while it adds its table");
    ended.0 += 1;
    ended.1.add(table);
    if ended.0 == TOPICS {
        for (call, _) in CALLS {
            ended.1.assert_every_number(call);
        }
        println!("{}", ended.1);
    }
}

#[test]
fn images_agree() {
    topic("images", &["check_image", "to_array"], images::compare);
}

#[test]
fn texts_agree() {
    let calls = ["read_profile", "walk_text", "refusal_line"];
    topic("texts", &calls, texts::compare);
}

#[test]
fn whole_walks_agree() {
    let calls = [
        "dfs_recursive",
        "dfs_parent",
        "dfs_array",
        "bfs_queue",
        "bfs_folded",
        "open",
    ];
    topic("whole walks and openings", &calls, walks::compare);
}

#[test]
fn the_first_number_comes_first() {
    topic("which number comes first", &[], orders::compare);
}

#[test]
fn hostile_words_agree() {
    let calls = ["step", "run", "roll_back"];
    topic("hostile words", &calls, hostile::compare);
}

#[test]
fn jams_after_every_move_agree() {
    topic("jams after every move", &[], jams::compare);
}

#[test]
fn lists_of_calls_agree() {
    topic("lists of calls", &[], lists::compare);
}

#[test]
fn circles_agree() {
    topic("circles", &[], circles::compare);
}

#[test]
fn panels_agree() {
    topic("panels", &["accept", "shift_start"], panel::compare);
}
