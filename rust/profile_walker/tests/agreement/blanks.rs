//! Lists of elements already on the blank: good ones, and those that are turned back.

use crate::rng::Rng;

/// The number that a list gets where nothing comes before it: 17, 18, else 0.
pub fn number(n: u16, start: u16, before: &[u16]) -> u16 {
    let leaves = before.iter().any(|&word| word == 0 || word > n);
    if leaves || before.windows(2).any(|pair| pair[0] >= pair[1]) {
        return 17;
    }
    match before.contains(&start) {
        true => 18,
        false => 0,
    }
}

/// Every good list for a start.
pub fn every(n: u16, start: u16) -> Vec<Vec<u16>> {
    let sets = 0..1u32 << n;
    let member = |set: u32, element: u16| set >> (element - 1) & 1 == 1;
    let lists = sets.map(|set| (1..=n).filter(|&element| member(set, element)).collect());
    lists
        .filter(|list: &Vec<u16>| !list.contains(&start))
        .collect()
}

/// Every list of up to so many words, none more than one past n.
pub fn every_list(n: u16, most_words: usize) -> Vec<Vec<u16>> {
    let mut lists = vec![Vec::new()];
    let mut begun = 0;
    for _ in 0..most_words {
        let shorter = lists[begun..].to_vec();
        begun = lists.len();
        for list in shorter {
            lists.extend((0..=n + 1).map(|word| [&list[..], &[word]].concat()));
        }
    }
    lists
}

/// A good list for a start: often empty, else one element, few, many, or all but the start.
pub fn good(rng: &mut Rng, n: u16, start: u16) -> Vec<u16> {
    let one = rng.between(1, usize::from(n)) as u16;
    let one_in = rng.pick(&[2, 5, 20]);
    let kind = rng.below(8);
    let mut listed = |element: u16| match kind {
        0..=2 => false,
        3 => element == one,
        4 => true,
        _ => rng.one_in(one_in),
    };
    let elements = 1..=n;
    elements
        .filter(|&element| listed(element) && element != start)
        .collect()
}

/// A good list, with the start in its place.
pub fn with_start(rng: &mut Rng, n: u16, start: u16) -> Vec<u16> {
    let mut before = good(rng, n, start);
    let place = before.partition_point(|&element| element < start);
    before.insert(place, start);
    before
}

/// A list that is not strictly rising or leaves 1 to n; the start may be on it.
pub fn bad(rng: &mut Rng, n: u16, start: u16) -> Vec<u16> {
    let mut before = match rng.one_in(2) {
        true => good(rng, n, start),
        false => with_start(rng, n, start),
    };
    let element = rng.between(1, usize::from(n)) as u16;
    let place = rng.below(before.len() + 1);
    match rng.below(6) {
        // A word that is no element, where the order has its place or anywhere.
        0 => before.insert(0, 0),
        1 => before.push(rng.pick(&[n + 1, n + 2, 1_001, u16::MAX])),
        2 => before.insert(place, rng.pick(&[0, n + 1, u16::MAX])),
        // An element twice.
        3 => drop(before.splice(place..place, [element, element])),
        // A word that falls.
        4 => drop(before.splice(place..place, [element, element - 1])),
        // More words than there are elements, by chance.
        _ => {
            let words = usize::from(n) + rng.between(1, 5);
            before = (0..words).map(|_| rng.node(usize::from(n))).collect();
        }
    }
    before
}
