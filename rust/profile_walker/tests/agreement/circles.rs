//! Document 02, items 5 and 7: circular, and the marks that tell it. What is expected is written down here, or is the
//! closure of the references between elements that are not on the blank; the reference is not asked.

use crate::blanks;
use crate::lent::{open, roll_back, run, step, walk_text, Folded, Opening, Print};
use crate::profiles::{every_list, Sound};
use crate::rng::Rng;
use crate::table::Table;

/// The references of a profile, each from one element to another.
type Pairs = [(u16, u16)];

/// The heading of the walks that have ended.
const ENDED: &str = "walks run to their end and printed";

/// A file that two applets refer to, and the case that document 01 prints.
const SHARED_FILE: &Pairs = &[(1, 2), (1, 3), (2, 3)];
const PRINTED_CASE: &Pairs = &[(1, 2), (1, 3), (2, 3), (3, 1)];

pub fn compare(table: &mut Table) {
    let mut rng = Rng::new(9);
    let mut print = to_print(&mut rng);
    written_down(table, &mut rng, &mut print);
    every_small_profile(table, &mut rng, &mut print);
    drawn_profiles(table, &mut rng, &mut print);
    marks_of_every_move(table, &mut rng);
    marks_while_winding(table, &mut rng);
    nontree_moves(table, &mut rng);
    closes(table, &mut rng);
    closes_of_the_start(table, &mut rng);
    the_end_of_winding(table, &mut rng);
    marks_set_before_a_run(table, &mut rng);
    let kinds = [
        "circular 0, no element met again",
        "circular 0, an element met again",
        "circular 0, a circle out of reach",
        "circular 0, a circle cut by the blank",
        "circular 1",
        "circular 1, elements on the blank",
    ];
    table.assert_met(ENDED, &kinds);
}

/// Profiles from element 1, with the elements already on the blank and the figure of each.
fn written_down(table: &mut Table, rng: &mut Rng, print: &mut Print) {
    let rows: [(usize, &Pairs, &[u16], u16); 24] = [
        (1, &[], &[], 0),
        (3, SHARED_FILE, &[], 0),
        (3, SHARED_FILE, &[3], 0),
        (3, PRINTED_CASE, &[], 1),
        (3, PRINTED_CASE, &[2], 1),
        (3, PRINTED_CASE, &[3], 0),
        (3, PRINTED_CASE, &[2, 3], 0),
        (1, &[(1, 1)], &[], 1),
        (2, &[(1, 1)], &[2], 1),
        (2, &[(1, 2), (2, 2)], &[], 1),
        (2, &[(1, 2), (2, 2)], &[2], 0),
        (2, &[(2, 2)], &[], 0),
        (2, &[(1, 2), (1, 2)], &[], 0),
        (2, &[(1, 2), (1, 2)], &[2], 0),
        (2, &[(1, 2), (2, 1)], &[], 1),
        (2, &[(1, 2), (2, 1)], &[2], 0),
        (3, &[(2, 3), (3, 2)], &[], 0),
        (3, &[(1, 2), (2, 3), (3, 2)], &[], 1),
        (3, &[(1, 2), (2, 3), (3, 2)], &[2], 0),
        (3, &[(1, 2), (2, 3), (3, 2)], &[3], 0),
        (4, &[(1, 2), (1, 3), (2, 4), (3, 4)], &[], 0),
        (4, &[(1, 2), (1, 3), (2, 4), (3, 4), (4, 3)], &[], 1),
        (4, &[(1, 2), (1, 3), (2, 4), (3, 4), (4, 3)], &[2], 1),
        (4, &[(1, 2), (1, 3), (2, 4), (3, 4), (4, 3)], &[4], 0),
    ];
    for (n, pairs, before, figure) in rows {
        let sound = Sound::of(rng, n, 1, pairs, false).on_blank(before);
        figures(table, rng, print, &sound, figure);
    }
}

/// The figure that a run leaves, and the one printed where nothing is on the blank, are as expected.
fn figures(table: &mut Table, rng: &mut Rng, print: &mut Print, sound: &Sound, expected: u16) {
    assert_eq!(run_figure(table, rng, sound), expected, "{sound:?}");
    if sound.before.is_empty() {
        assert_eq!(printed_figure(table, print, sound), expected, "{sound:?}");
    }
}

/// Every profile of up to three elements and up to four references, from every start, with every list of elements
/// already on the blank.
fn every_small_profile(table: &mut Table, rng: &mut Rng, print: &mut Print) {
    for n in 1..=3 {
        for m in 0..=4 {
            for pairs in every_list(n, m) {
                for start in 1..=n {
                    for before in blanks::every(n, start) {
                        walk(table, rng, print, (n, start), &pairs, &before);
                    }
                }
            }
        }
    }
}

/// Profiles of up to seven elements by chance. In half of them every reference, or every one but the last, leads to an
/// element of a higher number.
fn drawn_profiles(table: &mut Table, rng: &mut Rng, print: &mut Print) {
    for _ in 0..16_000 {
        let n = rng.between(1, 7);
        let mut pairs = Vec::new();
        for _ in 0..rng.below(2 * n) {
            pairs.push((rng.between(1, n) as u16, rng.between(1, n) as u16));
        }
        if rng.one_in(2) {
            let last = pairs.pop().filter(|_| rng.one_in(2));
            pairs.retain(|(from, to)| from != to);
            for pair in &mut pairs {
                *pair = (pair.0.min(pair.1), pair.0.max(pair.1));
            }
            pairs.extend(last);
        }
        let start = rng.between(1, n.min(3)) as u16;
        let before = blanks::good(rng, n as u16, start);
        walk(table, rng, print, (n as u16, start), &pairs, &before);
    }
}

/// The figure of n elements from a start is that of the closure.
fn walk(
    table: &mut Table,
    rng: &mut Rng,
    print: &mut Print,
    (n, start): (u16, u16),
    pairs: &Pairs,
    before: &[u16],
) {
    let n = usize::from(n);
    let (figure, kind) = by_closure(n, usize::from(start), pairs, before);
    let mixed = rng.one_in(2);
    let sound = Sound::of(rng, n, start, pairs, mixed).on_blank(before);
    figures(table, rng, print, &sound, figure);
    table.meet(ENDED, kind);
}

/// For every two elements whether a path of one reference or more leads from the first to the second.
fn closure(n: usize, pairs: &Pairs) -> Vec<Vec<bool>> {
    let mut leads = vec![vec![false; n + 1]; n + 1];
    for &(from, to) in pairs {
        leads[usize::from(from)][usize::from(to)] = true;
    }
    for by in 1..=n {
        for from in 1..=n {
            for to in 1..=n {
                leads[from][to] |= leads[from][by] && leads[by][to];
            }
        }
    }
    leads
}

/// The references between elements that are not on the blank.
fn off_the_blank(pairs: &Pairs, before: &[u16]) -> Vec<(u16, u16)> {
    let mut off = pairs.to_vec();
    off.retain(|(from, to)| !before.contains(from) && !before.contains(to));
    off
}

/// 1 where an element reached leads back to itself, else 0, by paths off the blank; and what kind of profile it is.
fn by_closure(n: usize, start: usize, pairs: &Pairs, before: &[u16]) -> (u16, &'static str) {
    let leads = closure(n, &off_the_blank(pairs, before));
    let reached = |element: usize| element == start || leads[start][element];
    if (1..=n).any(|element| reached(element) && leads[element][element]) {
        return match before.is_empty() {
            true => (1, "circular 1"),
            false => (1, "circular 1, elements on the blank"),
        };
    }
    if !before.is_empty() && by_closure(n, start, pairs, &[]).0 == 1 {
        return (0, "circular 0, a circle cut by the blank");
    }
    if (1..=n).any(|element| leads[element][element]) {
        return (0, "circular 0, a circle out of reach");
    }
    let met = pairs.iter().filter(|(from, _)| reached(usize::from(*from)));
    if met.count() >= (1..=n).filter(|&element| reached(element)).count() {
        return (0, "circular 0, an element met again");
    }
    (0, "circular 0, no element met again")
}

/// A walk of a profile, opened.
fn opened(table: &mut Table, rng: &mut Rng, sound: &Sound) -> Folded {
    let lent = Opening {
        n: sound.n,
        m: sound.m,
        start: sound.start,
        after: sound.after.clone().into(),
        tail: sound.tail.clone().into(),
        before: sound.before.clone().into(),
        marks: rng.noise(sound.nodes()),
        events: rng.noise(3),
        state: rng.noise(9),
    };
    let (number, left) = open(table, &lent);
    assert_eq!(number, 0);
    Folded {
        state: left.state,
        after: left.after,
        tail: left.tail,
        marks: left.marks,
        events: left.events,
        steps: 0,
        made: 0,
        reason: 0,
    }
}

/// The walk after a run that ends it.
fn ended(table: &mut Table, rng: &mut Rng, lent: &Folded) -> Folded {
    let moves = 2 * usize::from(lent.state[1]) + usize::from(lent.state[0]);
    let mut lent = lent.clone();
    lent.events = rng.noise(6 * moves);
    let (number, left) = run(table, &lent, moves as u32);
    assert_eq!((number, left.state[6]), (0, 3), "{lent:?}");
    left
}

/// The walk after one move, made alone or by a run.
fn moved(table: &mut Table, rng: &mut Rng, lent: &Folded) -> Folded {
    let mut lent = lent.clone();
    lent.events = rng.noise(6);
    let (number, left) = match rng.one_in(2) {
        true => step(table, &lent),
        false => run(table, &lent, 1),
    };
    assert_eq!((number, left.steps), (0, 1), "{lent:?}");
    left
}

/// The figure of a walk that one run has ended.
fn run_figure(table: &mut Table, rng: &mut Rng, sound: &Sound) -> u16 {
    let lent = opened(table, rng, sound);
    let left = ended(table, rng, &lent);
    for (element, &mark) in (1..).zip(left.marks.iter()) {
        match sound.before.contains(&element) {
            true => assert_eq!(mark, 65_535, "{left:?}"),
            false => assert!(mark <= sound.n, "{left:?}"),
        }
    }
    left.state[8]
}

/// What walk_text is lent, whatever the text.
fn to_print(rng: &mut Rng) -> Print {
    Print {
        text: Vec::new().into(),
        after: rng.noise(5_000),
        tail: rng.noise(4_000),
        marks: rng.noise(5_000),
        events: rng.noise(54_003),
        output: vec![b'x'; 180_066].into(),
        printed: 0,
    }
}

/// The last number printed.
fn printed_figure(table: &mut Table, print: &mut Print, sound: &Sound) -> u16 {
    print.text = sound.text().into();
    let (number, left) = walk_text(table, print);
    assert_eq!(number, 0);
    let printed = String::from_utf8_lossy(&left.output[..left.printed]);
    let figure = printed.trim_end().rsplit(',').next();
    figure
        .and_then(|word| word.parse().ok())
        .expect("a number at the end")
}

/// The marks of elements 1, 2 and 3 and the figure, after the opening and after every move.
fn marks_of_every_move(table: &mut Table, rng: &mut Rng) {
    let shared_file = [
        ([32_769, 0, 0], 0),
        ([32_769, 32_770, 0], 0),
        ([32_769, 32_770, 32_771], 0),
        ([32_769, 32_770, 3], 0),
        ([32_769, 32_770, 3], 0),
        ([32_769, 2, 3], 0),
        ([32_769, 2, 3], 0),
        ([32_769, 2, 3], 0),
        ([32_769, 2, 3], 0),
        ([1, 2, 3], 0),
    ];
    every_move(table, rng, SHARED_FILE, &[], &shared_file);
    let printed_case = [
        ([32_769, 0, 0], 0),
        ([32_769, 32_770, 0], 0),
        ([32_769, 32_770, 32_771], 0),
        ([32_769, 32_770, 32_771], 1),
        ([32_769, 32_770, 32_771], 1),
        ([32_769, 32_770, 3], 1),
        ([32_769, 32_770, 3], 1),
        ([32_769, 2, 3], 1),
        ([32_769, 2, 3], 1),
        ([32_769, 2, 3], 1),
        ([32_769, 2, 3], 1),
        ([1, 2, 3], 1),
    ];
    every_move(table, rng, PRINTED_CASE, &[], &printed_case);
    // With 3 on the blank both are the same walk: the references to 3 are nontree, and that from 3 is not met.
    let third_on_blank = [
        ([32_769, 0, 65_535], 0),
        ([32_769, 32_770, 65_535], 0),
        ([32_769, 32_770, 65_535], 0),
        ([32_769, 32_770, 65_535], 0),
        ([32_769, 2, 65_535], 0),
        ([32_769, 2, 65_535], 0),
        ([32_769, 2, 65_535], 0),
        ([32_769, 2, 65_535], 0),
        ([1, 2, 65_535], 0),
    ];
    every_move(table, rng, SHARED_FILE, &[3], &third_on_blank);
    every_move(table, rng, PRINTED_CASE, &[3], &third_on_blank);
    let both_on_blank = [
        ([32_769, 65_535, 65_535], 0),
        ([32_769, 65_535, 65_535], 0),
        ([32_769, 65_535, 65_535], 0),
        ([32_769, 65_535, 65_535], 0),
        ([32_769, 65_535, 65_535], 0),
        ([1, 65_535, 65_535], 0),
    ];
    every_move(table, rng, PRINTED_CASE, &[2, 3], &both_on_blank);
    // With 2 on the blank the circle of 1 and 3 is met.
    let second_on_blank = [
        ([32_769, 65_535, 0], 0),
        ([32_769, 65_535, 0], 0),
        ([32_769, 65_535, 32_770], 0),
        ([32_769, 65_535, 32_770], 1),
        ([32_769, 65_535, 32_770], 1),
        ([32_769, 65_535, 2], 1),
        ([32_769, 65_535, 2], 1),
        ([32_769, 65_535, 2], 1),
        ([1, 65_535, 2], 1),
    ];
    every_move(table, rng, PRINTED_CASE, &[2], &second_on_blank);
}

/// The first row is of the opening, the last one of the end.
fn every_move(
    table: &mut Table,
    rng: &mut Rng,
    pairs: &Pairs,
    before: &[u16],
    rows: &[([u16; 3], u16)],
) {
    let sound = Sound::of(rng, 3, 1, pairs, false).on_blank(before);
    let mut lent = opened(table, rng, &sound);
    for (moves, (marks, figure)) in rows.iter().enumerate() {
        if moves > 0 {
            lent = moved(table, rng, &lent);
        }
        let left = (&lent.marks[..3], lent.state[8]);
        assert_eq!(left, (&marks[..], *figure), "{pairs:?}, {moves} moves");
        assert!(lent.marks[3..].iter().all(|&mark| mark == 0), "{lent:?}");
    }
    assert_eq!(lent.state[6], 3);
}

/// Winding back the shared file leaves marks alone, whether an element is scanned or not, until its last move.
fn marks_while_winding(table: &mut Table, rng: &mut Rng) {
    let rows = [
        (0, [32_769, 0, 0], 1),
        (1, [32_769, 32_770, 0], 2),
        (2, [32_769, 32_770, 32_771], 3),
        (3, [32_769, 32_770, 3], 3),
        (5, [32_769, 2, 3], 2),
        (6, [32_769, 2, 3], 3),
        (8, [32_769, 2, 3], 1),
    ];
    while_winding(table, rng, &[], &rows, [0, 0, 0]);
    let third_on_blank = [
        (0, [32_769, 0, 65_535], 1),
        (1, [32_769, 32_770, 65_535], 2),
        (2, [32_769, 32_770, 65_535], 3),
        (3, [32_769, 32_770, 65_535], 2),
        (4, [32_769, 2, 65_535], 2),
        (5, [32_769, 2, 65_535], 3),
        (6, [32_769, 2, 65_535], 2),
        (7, [32_769, 2, 65_535], 1),
    ];
    while_winding(table, rng, &[3], &third_on_blank, [0, 0, 65_535]);
    let both_on_blank = [
        (0, [32_769, 65_535, 65_535], 1),
        (1, [32_769, 65_535, 65_535], 2),
        (2, [32_769, 65_535, 65_535], 3),
        (3, [32_769, 65_535, 65_535], 2),
        (4, [32_769, 65_535, 65_535], 1),
    ];
    while_winding(table, rng, &[2, 3], &both_on_blank, [0, 65_535, 65_535]);
}

/// Each row: how many moves before the order, the marks of elements from then on, and the moves of the winding; at the
/// end the marks are those of the rest.
fn while_winding(
    table: &mut Table,
    rng: &mut Rng,
    before: &[u16],
    rows: &[(u16, [u16; 3], u16)],
    rest: [u16; 3],
) {
    for &(moves, marks, to_wind) in rows {
        let sound = Sound::of(rng, 3, 1, SHARED_FILE, false).on_blank(before);
        let mut lent = opened(table, rng, &sound);
        for _ in 0..moves {
            lent = moved(table, rng, &lent);
        }
        lent.state = roll_back(table, &lent.state).1;
        for wound in 0..to_wind {
            assert_eq!(lent.state[6], 4);
            assert_eq!(lent.marks[..3], marks, "{moves} moves, {wound} wound back");
            lent = moved(table, rng, &lent);
        }
        assert_eq!(lent.state[6], 5);
        assert_eq!(lent.marks[..], [&rest[..], &[0; 3]].concat());
    }
}

/// What a single move is lent on a profile of two elements and one reference.
fn hostile(rng: &mut Rng, state: [u16; 9], tail: u16, marks: [u16; 3]) -> Folded {
    Folded {
        state: state.to_vec().into(),
        after: vec![3, 0, 0].into(),
        tail: vec![tail].into(),
        marks: marks.to_vec().into(),
        events: rng.noise(6),
        steps: 0,
        made: 0,
        reason: 0,
    }
}

/// A nontree move leaves marks alone; it sets the figure to 1 where the mark of t(e) is from 32,768 to 65,534, else it
/// leaves it.
fn nontree_moves(table: &mut Table, rng: &mut Rng) {
    let rows = [
        (1, 0, 0),
        (1, 1, 1),
        (7, 0, 0),
        (32_766, 0, 0),
        (32_767, 0, 0),
        (32_767, 1, 1),
        (32_768, 0, 1),
        (32_768, 1, 1),
        (32_769, 0, 1),
        (65_534, 0, 1),
        (65_535, 0, 0),
        (65_535, 1, 1),
    ];
    for (mark, circular, figure) in rows {
        // From 1 to 2, and from 1 to itself; the other mark would tell otherwise.
        let not_yet_scanned = (32_768..=65_534).contains(&mark);
        let others: &[u16] = if not_yet_scanned {
            &[7, 65_535]
        } else {
            &[32_768, 65_534]
        };
        for &other in others {
            for (to, marks) in [(2, [other, mark, other]), (1, [mark, other, other])] {
                let lent = hostile(rng, [2, 1, 1, 1, 3, 0, 1, 2, circular], to, marks);
                let left = moved(table, rng, &lent);
                assert_eq!(left.state[..], [2, 1, 1, 1, 0, 3, 1, 2, figure], "{mark}");
                assert_eq!(left.marks[..], marks);
            }
        }
    }
}

/// Marks of an element, and what its scan leaves of each.
const SCANNED: [(u16, u16); 10] = [
    (0, 0),
    (1, 1),
    (7, 7),
    (32_766, 32_766),
    (32_767, 32_767),
    (32_768, 0),
    (32_769, 1),
    (32_775, 7),
    (65_534, 32_766),
    (65_535, 32_767),
];

/// The close of element 2 leaves the remainder of its mark, and the figure; winding, it leaves the mark too.
fn closes(table: &mut Table, rng: &mut Rng) {
    for (mark, scanned) in SCANNED {
        for circular in [0, 1] {
            let marks = [65_535, mark, 65_535];
            for phase in [1, 2] {
                let lent = hostile(rng, [2, 1, 1, 2, 0, 1, phase, 3, circular], 0, marks);
                let left = moved(table, rng, &lent);
                assert_eq!(left.state[..], [2, 1, 1, 1, 0, 3, 1, 3, circular]);
                assert_eq!(left.marks[..], [65_535, scanned, 65_535], "{mark}");
            }
            let lent = hostile(rng, [2, 1, 1, 2, 0, 1, 4, 3, circular], 0, marks);
            let left = moved(table, rng, &lent);
            assert_eq!(left.state[..], [2, 1, 1, 1, 3, 0, 4, 3, circular]);
            assert_eq!(left.marks[..], marks, "{mark}");
        }
    }
}

/// The close of the start does as that of any other element; winding, it clears the marks of elements but for 65,535.
fn closes_of_the_start(table: &mut Table, rng: &mut Rng) {
    for (mark, scanned) in SCANNED {
        for circular in [0, 1] {
            let marks = [mark, 65_535, 65_535];
            let lent = hostile(rng, [2, 1, 1, 1, 3, 0, 2, 3, circular], 2, marks);
            let left = moved(table, rng, &lent);
            assert_eq!(left.state[..], [2, 1, 1, 1, 3, 0, 3, 3, circular]);
            assert_eq!(left.marks[..], [scanned, 65_535, 65_535], "{mark}");

            let lent = hostile(rng, [2, 1, 1, 1, 3, 0, 4, 3, circular], 2, marks);
            let left = moved(table, rng, &lent);
            assert_eq!(left.state[..], [2, 1, 1, 1, 3, 0, 5, 3, circular]);
            assert_eq!(left.marks[..], [rest(mark), 65_535, 65_535], "{mark}");
        }
    }
}

/// What the last move of a winding back leaves of an element's mark.
fn rest(mark: u16) -> u16 {
    match mark {
        65_535 => 65_535,
        _ => 0,
    }
}

/// The last move of a winding back on every two marks of elements; the mark of the reference stays.
fn the_end_of_winding(table: &mut Table, rng: &mut Rng) {
    for (first, _) in SCANNED {
        for (second, _) in SCANNED {
            for of_reference in [0, 1, 32_768, 65_534, 65_535] {
                let marks = [first, second, of_reference];
                let lent = hostile(rng, [2, 1, 1, 1, 3, 0, 4, 3, 0], 2, marks);
                let left = moved(table, rng, &lent);
                assert_eq!(left.marks[..], [rest(first), rest(second), of_reference]);
            }
        }
    }
}

/// The shared file opened, with a mark set on element 3, or on the start, by another hand: the marks and the figure at
/// the end. Element 3 is then met as labelled, and never scanned; 65,535 on it is as if it were on the blank.
fn marks_set_before_a_run(table: &mut Table, rng: &mut Rng) {
    let rows = [
        (3, 7, [1, 2, 7], 0),
        (3, 32_767, [1, 2, 32_767], 0),
        (3, 32_768, [1, 2, 32_768], 1),
        (3, 65_534, [1, 2, 65_534], 1),
        (3, 65_535, [1, 2, 65_535], 0),
        (1, 7, [7, 2, 3], 0),
        (1, 32_767, [32_767, 2, 3], 0),
        (1, 32_768, [0, 2, 3], 0),
        (1, 65_535, [32_767, 2, 3], 0),
    ];
    for (element, mark, marks, figure) in rows {
        let sound = Sound::of(rng, 3, 1, SHARED_FILE, false);
        let mut lent = opened(table, rng, &sound);
        lent.marks[element - 1] = mark;
        let left = ended(table, rng, &lent);
        assert_eq!(left.marks[..3], marks, "{mark} on {element}");
        assert_eq!(left.state[8], figure, "{mark} on {element}");
    }
}
