//! Sound profiles of many shapes, areas of many lengths, and damage.

use reference::{Profile, Reference};

use crate::area::Area;
use crate::blanks;
use crate::rng::Rng;

/// A sound profile, its lists and its links, and the elements already on the blank.
#[derive(Clone, Debug)]
pub struct Sound {
    pub profile: Profile,
    pub n: u16,
    pub m: u16,
    pub start: u16,
    pub after: Vec<u16>,
    pub tail: Vec<u16>,
    pub before: Vec<u16>,
}

impl Sound {
    /// The profile of these references, each from one element to another, and no element on the blank. With `mixed`
    /// their numbers are in any order, else they rise as the references come.
    pub fn of(rng: &mut Rng, n: usize, start: u16, pairs: &[(u16, u16)], mixed: bool) -> Sound {
        let m = pairs.len();
        let mut numbers: Vec<u16> = (n as u16 + 1..=(n + m) as u16).collect();
        if mixed {
            rng.shuffle(&mut numbers);
        }
        let mut lists = vec![Vec::new(); n + 1];
        for (&(from, to), &number) in pairs.iter().zip(&numbers) {
            lists[usize::from(from)].push(Reference { number, to });
        }
        let profile = Profile { n, m, lists };
        let (after, tail) = profile.image();
        Sound {
            profile,
            n: n as u16,
            m: m as u16,
            start,
            after,
            tail,
            before: Vec::new(),
        }
    }

    /// The same profile with these elements already on the blank.
    pub fn on_blank(mut self, before: &[u16]) -> Sound {
        self.before = before.to_vec();
        self
    }

    /// How many nodes it has.
    pub fn nodes(&self) -> usize {
        self.after.len()
    }

    /// The text of the profile, references in the order of their numbers.
    pub fn text(&self) -> Vec<u8> {
        let mut lines: Vec<(u16, u16, u16)> = Vec::new();
        for (from, list) in self.profile.lists.iter().enumerate() {
            lines.extend(list.iter().map(|r| (r.number, from as u16, r.to)));
        }
        lines.sort_unstable();
        let pairs: Vec<(u16, u16)> = lines.iter().map(|&(_, from, to)| (from, to)).collect();
        text(self.n, self.m, self.start, &pairs)
    }
}

/// The text of these values, whether they are good or not.
pub fn text(n: u16, m: u16, start: u16, pairs: &[(u16, u16)]) -> Vec<u8> {
    let mut text = format!("elements,references,start\n{n},{m},{start}\nfrom,to\n");
    for (from, to) in pairs {
        text += &format!("{from},{to}\n");
    }
    text.into_bytes()
}

/// Every list of so many references between n elements.
pub fn every_list(n: u16, references: u32) -> impl Iterator<Item = Vec<(u16, u16)>> {
    let choices = usize::from(n * n);
    (0..choices.pow(references)).map(move |code| {
        let pair = |place| (code / choices.pow(place) % choices) as u16;
        let ends = |pair: u16| (pair / n + 1, pair % n + 1);
        (0..references).map(|place| ends(pair(place))).collect()
    })
}

const SHAPES: usize = 13;

/// A profile of up to so many elements and references, in one of the shapes.
pub fn sound(rng: &mut Rng, most_n: usize, most_m: usize) -> Sound {
    let n = rng.between(1, most_n);
    let shape = rng.below(SHAPES);
    shaped(rng, shape, n, most_m)
}

/// A small profile.
pub fn small(rng: &mut Rng) -> Sound {
    sound(rng, 12, 40)
}

/// A profile of exactly so many elements in one shape, with at most so many references, some of its elements on the
/// blank.
pub fn shaped(rng: &mut Rng, shape: usize, n: usize, most_m: usize) -> Sound {
    let mut pairs: Vec<(usize, usize)> = Vec::new();
    let any = |rng: &mut Rng| (rng.between(1, n), rng.between(1, n));
    match shape % SHAPES {
        // No references at all.
        0 => {}
        // A chain.
        1 => pairs.extend((1..n).map(|u| (u, u + 1))),
        // A star, and the same star turned round.
        2 => pairs.extend((1..=n).map(|u| (1, u))),
        3 => pairs.extend((1..=n).map(|u| (u, 1))),
        // A ring.
        4 => pairs.extend((1..=n).map(|u| (u, u % n + 1))),
        // A tree, and a tree with references back and across.
        5 => pairs.extend((2..=n).map(|u| (rng.between(1, u - 1), u))),
        6 => {
            pairs.extend((2..=n).map(|u| (rng.between(1, u - 1), u)));
            for _ in 0..n {
                pairs.push(any(rng));
            }
        }
        // Many loops.
        7 => {
            for _ in 0..rng.between(1, 3 * n) {
                let (u, w) = any(rng);
                pairs.push(if rng.one_in(3) { (u, w) } else { (u, u) });
            }
        }
        // Repeated references.
        8 => {
            let few: Vec<(usize, usize)> = (0..rng.between(1, 3)).map(|_| any(rng)).collect();
            for _ in 0..rng.between(1, 3 * n) {
                pairs.push(rng.pick(&few));
            }
        }
        // Two halves without a reference between them.
        9 => {
            for _ in 0..rng.between(0, 3 * n) {
                let (u, w) = any(rng);
                if (u > n / 2) == (w > n / 2) {
                    pairs.push((u, w));
                }
            }
        }
        // Every element to every other.
        10 => pairs.extend((0..n * n).map(|k| (k / n + 1, k % n + 1))),
        // Sparse, and as many references as there may be.
        11 => {
            for _ in 0..rng.between(0, n + n / 2) {
                pairs.push(any(rng));
            }
        }
        _ => {
            for _ in 0..rng.between(most_m / 2, most_m) {
                pairs.push(any(rng));
            }
        }
    }
    if rng.one_in(2) {
        rng.shuffle(&mut pairs);
    }
    pairs.truncate(most_m);

    // The start is most often the element that the shape grows from, but any number may name it.
    let mut names: Vec<u16> = (1..=n as u16).collect();
    if rng.one_in(2) {
        rng.shuffle(&mut names);
    }
    let start = match rng.one_in(4) {
        true => rng.pick(&names),
        false => names[0],
    };
    let named: Vec<(u16, u16)> = pairs
        .iter()
        .map(|&(from, to)| (names[from - 1], names[to - 1]))
        .collect();
    let mixed = rng.one_in(2);
    let before = blanks::good(rng, n as u16, start);
    Sound::of(rng, n, start, &named, mixed).on_blank(&before)
}

/// The lengths of lent areas of which so many words are needed.
#[derive(Clone, Copy, Debug, PartialEq, Eq)]
pub enum Fit {
    /// As long as needed.
    Exact,
    /// A few words longer.
    Longer,
    /// The area with this index is one word short.
    Short(usize),
    /// The area with this index is empty.
    Empty(usize),
    /// Any lengths around those needed.
    Any,
}

/// Every way of lending so many areas.
pub fn fits(areas: usize) -> Vec<Fit> {
    let mut fits = vec![Fit::Exact, Fit::Longer, Fit::Any];
    fits.extend((0..areas).map(Fit::Short));
    fits.extend((0..areas).map(Fit::Empty));
    fits
}

/// The lengths that a fit gives the areas that need so many words each.
pub fn lengths<const AREAS: usize>(
    rng: &mut Rng,
    needed: [usize; AREAS],
    fit: Fit,
) -> [usize; AREAS] {
    let mut lengths = needed;
    for (area, length) in lengths.iter_mut().enumerate() {
        match fit {
            Fit::Exact => {}
            Fit::Longer => *length += rng.between(1, 4),
            Fit::Short(short) if short == area => *length = length.saturating_sub(1),
            Fit::Empty(empty) if empty == area => *length = 0,
            Fit::Short(_) | Fit::Empty(_) => *length += rng.below(3),
            Fit::Any => *length = (*length + rng.below(4)).saturating_sub(rng.below(3)),
        }
    }
    lengths
}

/// An area of this length: the words, cut off or followed by noise.
pub fn area(rng: &mut Rng, words: &[u16], length: usize) -> Area<u16> {
    let mut area = words.to_vec();
    area.truncate(length);
    let more = length - area.len();
    area.extend(rng.words(more));
    area.into()
}

/// An area of noise in 32-bit words.
pub fn tally_area(rng: &mut Rng, length: usize) -> Area<u32> {
    let word = |rng: &mut Rng| u32::from(rng.word()) << 16 | u32::from(rng.word());
    let words: Vec<u32> = (0..length).map(|_| word(rng)).collect();
    words.into()
}

/// Breaks one thing of an image, its start or its list: the number says which condition is then true. With no reference
/// there is nothing that 6 and 7 could break, and 5 breaks an element's word.
pub fn damage(rng: &mut Rng, sound: &mut Sound, number: u16) {
    let (n, m) = (sound.profile.n, sound.profile.m);
    let nodes = n + m;
    match number {
        1 => sound.n = rng.pick(&[0, 1_001, 5_000, u16::MAX]),
        2 => sound.m = rng.pick(&[4_001, 4_002, 65_000, u16::MAX]),
        4 => sound.start = rng.pick(&[0, n as u16 + 1, nodes as u16 + 1, u16::MAX]),
        17 => sound.before = blanks::bad(rng, n as u16, sound.start),
        18 => sound.before = blanks::with_start(rng, n as u16, sound.start),
        5 => {
            let at = rng.below(nodes);
            let element = rng.between(1, n) as u16;
            sound.after[at] = rng.pick(&[element, nodes as u16 + 1, u16::MAX]);
        }
        6 if m > 0 => {
            let at = rng.below(m);
            sound.tail[at] = rng.pick(&[0, n as u16 + 1, u16::MAX]);
        }
        7 if m > 0 => {
            let reference = rng.between(n + 1, nodes) as u16;
            match rng.below(4) {
                // On a second list, or twice on the same one.
                0 => {
                    let at = rng.below(nodes);
                    sound.after[at] = reference;
                }
                // On none: whatever led to it now leads past it or nowhere.
                1 => {
                    let next = sound.after[usize::from(reference) - 1];
                    let past = rng.pick(&[0, next]);
                    for word in &mut sound.after {
                        if *word == reference {
                            *word = past;
                        }
                    }
                }
                // A list that goes round.
                2 => sound.after[usize::from(reference) - 1] = reference,
                // A ring of references that no element leads to, each with one in-link.
                _ => {
                    let next = sound.after[usize::from(reference) - 1];
                    for word in &mut sound.after {
                        if *word == reference {
                            *word = next;
                        }
                    }
                    sound.after[usize::from(reference) - 1] = reference;
                }
            }
        }
        _ => {}
    }
}
