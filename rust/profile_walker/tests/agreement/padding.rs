//! Texts with zeros before their numbers.

use crate::rng::Rng;

/// The most digits of a number in its form.
const MOST: usize = 5;

/// The text with zeros before its numbers, whatever its bytes are: each number that has so many digits gets as many as
/// `digits` says. Digits that are no number in its form stay as they are.
pub fn padded(text: &[u8], mut digits: impl FnMut(usize) -> usize) -> Vec<u8> {
    let mut padded = Vec::with_capacity(3 * text.len());
    for run in text.chunk_by(|a, b| a.is_ascii_digit() && b.is_ascii_digit()) {
        if in_form(run) {
            padded.resize(padded.len() + digits(run.len()) - run.len(), b'0');
        }
        padded.extend_from_slice(run);
    }
    padded
}

/// Whether a run of digits, or another byte by itself, is a number in its form.
fn in_form(run: &[u8]) -> bool {
    let small = run.len() < MOST || run.len() == MOST && run <= b"65535";
    run[0].is_ascii_digit() && small
}

/// The text with every number in five digits.
pub fn in_full(text: &[u8]) -> Vec<u8> {
    padded(text, |_| MOST)
}

/// The text with zeros by chance before each of its numbers.
pub fn by_chance(rng: &mut Rng, text: &[u8]) -> Vec<u8> {
    padded(text, |length| rng.between(length, MOST))
}

/// The text with so many bytes, its first numbers in five digits and the others as they were.
pub fn to_bytes(text: &[u8], bytes: usize) -> Vec<u8> {
    let mut missing = bytes - text.len();
    let padded = padded(text, |length| {
        let zeros = missing.min(MOST - length);
        missing -= zeros;
        length + zeros
    });
    assert_eq!(padded.len(), bytes);
    padded
}
