//! The text of a profile, line by line.

use crate::image::{Profile, Reference};
use crate::sizes::{number_of, refuse, Sizes};

const MAX_TEXT: usize = 65_536;

/// What a text in its form says.
pub struct Written {
    n: u16,
    m: u16,
    start: u16,
    /// From and to of each reference, in line order.
    pairs: Vec<(u16, u16)>,
}

/// Reads a text: 13, 12.
pub fn written(text: &[u8]) -> Result<Written, u16> {
    refuse(13, text.len() > MAX_TEXT)?;
    form(text).ok_or(12)
}

fn form(text: &[u8]) -> Option<Written> {
    let text = std::str::from_utf8(text).ok()?;
    let lines: Vec<&str> = text.strip_suffix('\n')?.split('\n').collect();
    let [names, values, pair_names, pairs @ ..] = lines.as_slice() else {
        return None;
    };
    if *names != "elements,references,start" || *pair_names != "from,to" {
        return None;
    }
    let [n, m, start] = numbers(values)?;
    if pairs.len() != usize::from(m) {
        return None;
    }
    let pair = |line: &&str| numbers(line).map(|[from, to]| (from, to));
    Some(Written {
        n,
        m,
        start,
        pairs: pairs.iter().map(pair).collect::<Option<_>>()?,
    })
}

/// The numbers of one line, exactly as many as asked for.
fn numbers<const COUNT: usize>(line: &str) -> Option<[u16; COUNT]> {
    let values: Option<Vec<u16>> = line.split(',').map(number).collect();
    values?.try_into().ok()
}

/// A number is in its form where it is what its value would be written as in so many places, zeros in front filling
/// them; there are at most five.
fn number(word: &str) -> Option<u16> {
    let value: u16 = word.parse().ok()?;
    let places = word.len();
    (places <= 5 && format!("{value:0places$}") == word).then_some(value)
}

/// The profile and start of a text, `short` saying which sizes the lent areas are too short for: 13, 12, 1, 2, 3, 4, 6.
pub fn profile(text: &[u8], short: impl Fn(Sizes) -> bool) -> Result<(Profile, u16), u16> {
    let Written { n, m, start, pairs } = written(text)?;
    let sizes = Sizes::judged(n, m)?;
    refuse(3, short(sizes))?;
    refuse(4, !sizes.element(start))?;
    let ends = |&(from, to): &(u16, u16)| sizes.element(from) && sizes.element(to);
    refuse(6, !pairs.iter().all(ends))?;
    let mut lists = vec![Vec::new(); sizes.n + 1];
    for (number, (from, to)) in (n + 1..).zip(pairs) {
        lists[usize::from(from)].push(Reference { number, to });
    }
    let profile = Profile {
        n: sizes.n,
        m: sizes.m,
        lists,
    };
    Ok((profile, start))
}

/// Reads a profile's text into the areas of a linked image.
pub fn read_profile(
    text: &[u8],
    after: &mut [u16],
    tail: &mut [u16],
    n: &mut u16,
    m: &mut u16,
    start: &mut u16,
) -> u16 {
    number_of((|| {
        let short = |sizes: Sizes| after.len() < sizes.nodes() || tail.len() < sizes.m;
        let (profile, from) = profile(text, short)?;
        let (after_words, tail_words) = profile.image();
        after[..after_words.len()].copy_from_slice(&after_words);
        tail[..tail_words.len()].copy_from_slice(&tail_words);
        *n = profile.n as u16;
        *m = profile.m as u16;
        *start = from;
        Ok(())
    })())
}
