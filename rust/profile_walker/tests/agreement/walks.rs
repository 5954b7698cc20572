//! The five whole walks, and openings.

use profile_walker::{
    bfs_folded, bfs_queue, dfs_array, dfs_parent, dfs_recursive, Refusal, State, Tally,
};
use reference::Reach;

use crate::blanks;
use crate::lent::{open, whole, Opening, Walker, Whole, WALKERS};
use crate::profiles::{area, damage, fits, lengths, shaped, small, sound, tally_area, Fit, Sound};
use crate::rng::Rng;
use crate::table::Table;

pub fn compare(table: &mut Table) {
    let mut rng = Rng::new(2);
    for _ in 0..12_000 {
        let sound = small(&mut rng);
        taken(table, &mut rng, &sound);
    }
    for _ in 0..60 {
        let sound = sound(&mut rng, 300, 1_000);
        taken(table, &mut rng, &sound);
    }
    for shape in 0..26 {
        let sound = shaped(&mut rng, shape, 1_000, 4_000);
        taken(table, &mut rng, &sound);
    }
    every_start(table, &mut rng);
    every_small_list(table, &mut rng);
    lists_by_chance(table, &mut rng);
    long_lists(table, &mut rng);
    for _ in 0..20 {
        list_within_links(&mut rng);
    }
    for _ in 0..300 {
        let sound = small(&mut rng);
        for fit in fits(6) {
            all(table, &mut rng, &sound, fit);
        }
    }
    for _ in 0..3_000 {
        damaged(table, &mut rng, small);
    }
    for _ in 0..10 {
        damaged(table, &mut rng, |rng| shaped(rng, 12, 1_000, 4_000));
    }
    for _ in 0..3_000 {
        damaged_array(table, &mut rng);
    }
}

/// What a walk over a linked image is lent.
fn linked(rng: &mut Rng, sound: &Sound, walker: Walker, fit: Fit) -> Whole {
    let (words, m) = (sound.nodes(), sound.tail.len());
    let own = if walker.has_own() { words - m } else { 0 };
    let [a, t, marks, own, events, tally] = lengths(rng, [words, m, words, own, 6 * words, 7], fit);
    Whole {
        n: sound.n,
        m: sound.m,
        start: sound.start,
        after: area(rng, &sound.after, a),
        tail: area(rng, &sound.tail, t),
        before: sound.before.clone().into(),
        marks: rng.noise(marks),
        own: rng.noise(own),
        events: rng.noise(events),
        tally: tally_area(rng, tally),
    }
}

/// First positions and tails of a profile.
fn array_form(sound: &Sound) -> (Vec<u16>, Vec<u16>) {
    let mut firsts = vec![1];
    for list in &sound.profile.lists[1..] {
        firsts.push(firsts[firsts.len() - 1] + list.len() as u16);
    }
    let references = sound.profile.lists.concat();
    (firsts, references.iter().map(|r| r.to).collect())
}

/// What the walk over the array form is lent.
fn array(rng: &mut Rng, sound: &Sound, fit: Fit) -> Whole {
    let (words, m) = (sound.nodes(), sound.tail.len());
    let n = words - m;
    let (firsts, tails) = array_form(sound);
    let [a, t, marks, own, events, tally] = lengths(rng, [n + 1, m, words, n, 6 * words, 7], fit);
    Whole {
        n: sound.n,
        m: sound.m,
        start: sound.start,
        after: area(rng, &firsts, a),
        tail: area(rng, &tails, t),
        before: sound.before.clone().into(),
        marks: rng.noise(marks),
        own: rng.noise(own),
        events: rng.noise(events),
        tally: tally_area(rng, tally),
    }
}

fn opening(rng: &mut Rng, sound: &Sound, fit: Fit) -> Opening {
    let (words, m) = (sound.nodes(), sound.tail.len());
    let [a, t, marks, events, state] = lengths(rng, [words, m, words, 3, 9], fit);
    Opening {
        n: sound.n,
        m: sound.m,
        start: sound.start,
        after: area(rng, &sound.after, a),
        tail: area(rng, &sound.tail, t),
        before: sound.before.clone().into(),
        marks: rng.noise(marks),
        events: rng.noise(events),
        state: rng.noise(state),
    }
}

/// All walks and an opening with areas of this fit; their numbers.
fn all(table: &mut Table, rng: &mut Rng, sound: &Sound, fit: Fit) -> [u16; 6] {
    let mut numbers = [0; 6];
    for (walker, number) in WALKERS.into_iter().zip(&mut numbers) {
        let lent = match walker {
            Walker::Array => array(rng, sound, fit),
            _ => linked(rng, sound, walker, fit),
        };
        *number = whole(table, walker, &lent).0;
    }
    let lent = opening(rng, sound, fit);
    numbers[5] = open(table, &lent).0;
    numbers
}

/// A sound profile is taken. Label numbers are on the elements that a path off the blank leads to, 65,535 on those already
/// on the blank, and 0 on every other.
fn taken(table: &mut Table, rng: &mut Rng, sound: &Sound) {
    let fit = rng.pick(&[Fit::Exact, Fit::Longer]);
    assert_eq!(all(table, rng, sound, fit), [0; 6]);
    let reach = Reach::from(&sound.profile, sound.start, &sound.before);
    for walker in WALKERS {
        let lent = match walker {
            Walker::Array => array(rng, sound, Fit::Exact),
            _ => linked(rng, sound, walker, Fit::Exact),
        };
        let (_, left) = whole(table, walker, &lent);
        for element in 1..=sound.n {
            let mark = left.marks[usize::from(element) - 1];
            let labelled = (1..=1_000).contains(&mark);
            assert_eq!(labelled, reach.contains(element), "{walker:?} {sound:?}");
            let on_blank = sound.before.contains(&element);
            assert_eq!(mark == 65_535, on_blank, "{walker:?} {sound:?}");
            assert!(labelled || on_blank || mark == 0, "{walker:?} {sound:?}");
        }
        as_unreached(walker, sound, &left);
        assert_eq!(left.tally[0], reach.reached as u32);
        assert_eq!(left.tally[5], reach.reached as u32);
        let traversed = left.tally[1] + left.tally[2] + left.tally[6];
        assert_eq!(traversed, reach.met as u32);
    }
}

/// The elements already on the blank are not in the queue, and their parent and increment words are 0. They have no
/// event, and none of their references has one.
fn as_unreached(walker: Walker, sound: &Sound, left: &Whole) {
    let events = 3 * left.tally.iter().sum::<u32>() as usize;
    let mut named = left.events[..events].chunks(3).map(|event| event[2]);
    assert!(
        named.all(|element| !sound.before.contains(&element)),
        "{walker:?} {sound:?}"
    );
    for &element in &sound.before {
        match walker {
            Walker::Queue => assert!(!left.own.contains(&element), "{sound:?}"),
            Walker::Parent | Walker::Array => {
                assert_eq!(
                    left.own[usize::from(element) - 1],
                    0,
                    "{walker:?} {sound:?}"
                );
            }
            Walker::Recursive | Walker::FoldedQueue => {}
        }
    }
}

/// Every start of some profiles, those just outside, and those already on the blank.
fn every_start(table: &mut Table, rng: &mut Rng) {
    for _ in 0..200 {
        let mut sound = small(rng);
        for start in 0..=sound.n + 1 {
            sound.start = start;
            let element = start != 0 && start <= sound.n;
            let number = match (element, sound.before.contains(&start)) {
                (false, _) => 4,
                (true, true) => 18,
                (true, false) => 0,
            };
            assert_eq!(all(table, rng, &sound, Fit::Longer), [number; 6]);
        }
    }
}

/// Every list of up to n+1 words up to n+1, from every start, of some profiles of up to three elements.
fn every_small_list(table: &mut Table, rng: &mut Rng) {
    for n in [1, 2, 2, 3, 3, 3] {
        let most_words = usize::from(n) + 1;
        for before in blanks::every_list(n, most_words) {
            let shape = rng.between(1, 12);
            let mut sound = shaped(rng, shape, usize::from(n), 9).on_blank(&before);
            for start in 1..=n {
                sound.start = start;
                judged(table, rng, &sound);
            }
        }
    }
}

/// The list of a profile that is sound but for it gets its number from every call.
fn judged(table: &mut Table, rng: &mut Rng, sound: &Sound) {
    let number = blanks::number(sound.n, sound.start, &sound.before);
    let got = all(table, rng, sound, Fit::Longer);
    assert_eq!(got, [number; 6], "{sound:?}");
}

/// Lists of words by chance, most of them elements.
fn lists_by_chance(table: &mut Table, rng: &mut Rng) {
    for _ in 0..4_000 {
        let sound = small(rng);
        let n = usize::from(sound.n);
        let words = rng.below(n + 4);
        let before: Vec<u16> = match rng.one_in(4) {
            true => rng.words(words),
            false => (0..words).map(|_| rng.node(n)).collect(),
        };
        judged(table, rng, &sound.on_blank(&before));
    }
}

/// Lists that are longer than any good one, also than 16 bits can count: one element all along, and rising ones.
fn long_lists(table: &mut Table, rng: &mut Rng) {
    for words in [1_001, 65_535, 65_536, 65_537, 131_074] {
        let element = rng.between(1, 12) as u16;
        let rising = (0..words).map(|place| (place % 65_536) as u16);
        for before in [vec![element; words], rising.collect()] {
            let sound = small(rng).on_blank(&before);
            judged(table, rng, &sound);
            let sound = shaped(rng, 6, 1_000, 4_000).on_blank(&before);
            judged(table, rng, &sound);
        }
    }
}

/// A list may lie anywhere that a call does not write: any part of the tail words, up to their end, does as its copy does.
fn list_within_links(rng: &mut Rng) {
    let sound = small(rng);
    let references = sound.tail.len();
    for first in 0..=references {
        for end in first..=(first + 4).min(references) {
            let within = &sound.tail[first..end];
            let copied = within.to_vec();
            for walker in WALKERS {
                let left = beside_links(walker, &sound, within);
                assert_eq!(left, beside_links(walker, &sound, &copied), "{sound:?}");
            }
            assert_eq!(
                opened_beside_links(&sound, within),
                opened_beside_links(&sound, &copied)
            );
        }
    }
}

/// What a walk returns and leaves, given the links of a profile and a list that may lie within them.
fn beside_links(
    walker: Walker,
    sound: &Sound,
    before: &[u16],
) -> (Result<Tally, Refusal>, [Vec<u16>; 3]) {
    let Sound {
        n,
        m,
        start,
        after,
        tail,
        ..
    } = sound;
    let (n, m, start) = (*n, *m, *start);
    let (mut marks, mut events) = (vec![9; sound.nodes()], vec![9; 6 * sound.nodes()]);
    let mut own = vec![9; usize::from(n)];
    let (k, v, o) = (&mut marks, &mut events, &mut own);
    let tally = match walker {
        Walker::Recursive => dfs_recursive(n, m, start, after, tail, before, k, v),
        Walker::Parent => dfs_parent(n, m, start, after, tail, before, k, o, v),
        Walker::Array => {
            let (firsts, mut tails) = array_form(sound);
            dfs_array(n, m, start, &firsts, &mut tails, before, k, o, v)
        }
        Walker::Queue => bfs_queue(n, m, start, after, tail, before, k, o, v),
        Walker::FoldedQueue => bfs_folded(n, m, start, &mut after.clone(), tail, before, k, v),
    };
    (tally, [marks, own, events])
}

/// The same for an opening.
fn opened_beside_links(sound: &Sound, before: &[u16]) -> (Result<State, Refusal>, [Vec<u16>; 2]) {
    let (mut marks, mut events) = (vec![9; sound.nodes()], vec![9; 3]);
    let Sound {
        n,
        m,
        start,
        after,
        tail,
        ..
    } = sound;
    let state = profile_walker::open(*n, *m, *start, after, tail, before, &mut marks, &mut events);
    (state, [marks, events])
}

/// A profile with one thing broken gets that number; with several, the first in the order of the table.
fn damaged(table: &mut Table, rng: &mut Rng, make: fn(&mut Rng) -> Sound) {
    let sound = make(rng);
    for number in [1, 2, 4, 5, 6, 7, 17, 18] {
        let mut broken = sound.clone();
        damage(rng, &mut broken, number);
        let fit = rng.pick(&[Fit::Exact, Fit::Longer]);
        let got = all(table, rng, &broken, fit);
        if matches!(number, 1 | 2 | 4 | 17 | 18) {
            assert_eq!(got, [number; 6], "{broken:?}");
        }
    }
    for _ in 0..3 {
        let mut broken = sound.clone();
        for number in [1, 2, 4, 5, 6, 7, 18, 17] {
            if rng.one_in(4) {
                damage(rng, &mut broken, number);
            }
        }
        let fit = rng.pick(&[Fit::Exact, Fit::Any]);
        all(table, rng, &broken, fit);
    }
}

/// First positions that break their rule, and tails that are no elements.
fn damaged_array(table: &mut Table, rng: &mut Rng) {
    let sound = small(rng);
    let n = usize::from(sound.n);
    for _ in 0..4 {
        let fit = rng.pick(&[Fit::Exact, Fit::Longer, Fit::Any]);
        let mut lent = array(rng, &sound, fit);
        match rng.below(6) {
            // The first is not 1, or the last not m+1.
            0 if !lent.after.is_empty() => lent.after[0] = rng.pick(&[0, 2, u16::MAX]),
            1 if lent.after.len() > n => lent.after[n] = rng.pick(&[0, sound.m, sound.m + 2]),
            // One falls, or rises past the end.
            2 if !lent.after.is_empty() => {
                let at = rng.below(lent.after.len());
                lent.after[at] = rng.pick(&[0, sound.m + 1, sound.m + 2, u16::MAX]);
            }
            3 if lent.after.len() > 1 => {
                let at = rng.below(lent.after.len() - 1);
                lent.after.swap(at, at + 1);
            }
            4 if !lent.tail.is_empty() => {
                let at = rng.below(lent.tail.len());
                lent.tail[at] = rng.pick(&[0, sound.n + 1, u16::MAX]);
            }
            _ => {
                for word in lent.after.iter_mut() {
                    *word = rng.below(usize::from(sound.m) + 3) as u16;
                }
            }
        }
        if rng.one_in(8) {
            lent.start = rng.pick(&[0, sound.n + 1]);
        }
        if rng.one_in(4) {
            lent.before = blanks::bad(rng, sound.n, sound.start).into();
        }
        whole(table, Walker::Array, &lent);
    }
}
