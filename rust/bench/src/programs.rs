//! `walk` end to end, against a Rust program that prints the same.

use crate::shapes::Profile;
use std::io::Write;
use std::path::Path;
use std::process::{Command, Stdio};
use std::time::Instant;

/// How often the two programs take turns.
const ROUNDS: usize = 301;

/// Runs a program on a text, and gives what it prints and how long it takes, in microseconds.
fn run(program: &Path, text: &[u8]) -> (Vec<u8>, f64) {
    let began = Instant::now();
    let mut child = Command::new(program)
        .stdin(Stdio::piped())
        .stdout(Stdio::piped())
        .spawn()
        .unwrap_or_else(|error| panic!("{}: {error}", program.display()));
    child
        .stdin
        .take()
        .expect("piped")
        .write_all(text)
        .expect("the program reads its text");
    let printed = child.wait_with_output().expect("the program ends").stdout;
    (printed, began.elapsed().as_nanos() as f64 / 1000.0)
}

fn middle(mut times: Vec<f64>) -> f64 {
    times.sort_by(f64::total_cmp);
    times[times.len() / 2]
}

/// The middle one of the times of both programs, in microseconds, process start and end with them.
pub fn compare(proved: &Path, rust: &Path, profile: &Profile) -> (f64, f64) {
    assert_eq!(
        run(proved, &profile.text).0,
        run(rust, &profile.text).0,
        "{}: the two programs print otherwise",
        profile.shape
    );
    let (mut ours, mut theirs) = (Vec::new(), Vec::new());
    for _ in 0..ROUNDS {
        ours.push(run(proved, &profile.text).1);
        theirs.push(run(rust, &profile.text).1);
    }
    (middle(ours), middle(theirs))
}
