//! A jam after every move: the walk goes on, or is wound back from there to the end.

use crate::blanks;
use crate::demand::{LineA, LineB};
use crate::profiles::{every_list, shaped, small, sound, Sound};
use crate::rng::Rng;
use crate::table::Table;

pub fn compare(table: &mut Table) {
    let mut rng = Rng::new(4);
    every_small_profile(table, &mut rng);
    for _ in 0..6_000 {
        let sound = small(&mut rng);
        jam(table, &mut rng, &sound, 1);
    }
    for _ in 0..60 {
        let sound = sound(&mut rng, 40, 80);
        jam(table, &mut rng, &sound, 1);
    }
    for _ in 0..12 {
        let sound = sound(&mut rng, 150, 300);
        jam(table, &mut rng, &sound, 40);
    }
    for shape in [1, 2, 4, 6, 10, 12] {
        let sound = shaped(&mut rng, shape, 1_000, 4_000);
        jam_large(table, &mut rng, &sound);
    }
}

/// Every profile of up to three elements and up to three references, from every start, with every list of elements
/// already on the blank.
fn every_small_profile(table: &mut Table, rng: &mut Rng) {
    for n in 1..=3u16 {
        for m in 0..=3u32 {
            for pairs in every_list(n, m) {
                for start in 1..=n {
                    every_blank(table, rng, n, start, &pairs);
                }
            }
        }
    }
}

/// Jams of one profile with every list of elements already on the blank.
fn every_blank(table: &mut Table, rng: &mut Rng, n: u16, start: u16, pairs: &[(u16, u16)]) {
    for before in blanks::every(n, start) {
        let sound = Sound::of(rng, usize::from(n), start, pairs, false).on_blank(&before);
        jam(table, rng, &sound, 1);
    }
}

/// Jams after every move, and winds back from every so many.
fn jam(table: &mut Table, rng: &mut Rng, sound: &Sound, every: usize) {
    let line_a = LineA::walk(table, rng, sound);
    let mut line_b = LineB::open(table, rng, sound, &line_a);
    loop {
        if line_b.moves.is_multiple_of(every) {
            let mut wound = line_b.clone();
            wind(table, rng, &mut wound);
        }
        if line_b.at_rest() {
            break;
        }
        match line_b.moves % 3 {
            0 => line_b.run(table, rng, 1, 6),
            _ => line_b.step(table, rng, 6),
        }
    }
    let kind = match sound.before.is_empty() {
        true => "nothing on the blank",
        false => "elements on the blank",
    };
    table.meet("walks jammed after every move", kind);
    at_rest(table, rng, &mut line_b);

    // The same walk in one run: with all its moves, one more and one less.
    let moves = line_a.reach.moves() as u32;
    for budget in [moves - 1, moves, moves + 1] {
        let mut line_b = LineB::open(table, rng, sound, &line_a);
        line_b.run(table, rng, budget, 6 * budget as usize);
        assert_eq!(line_b.at_rest(), budget >= moves);
    }
}

/// Winds a walk back to the end, in single moves or in runs.
fn wind(table: &mut Table, rng: &mut Rng, line: &mut LineB<'_>) {
    if line.at_rest() {
        at_rest(table, rng, line);
        return;
    }
    line.roll_back(table);
    let single = rng.one_in(2);
    while !line.at_rest() {
        if single {
            line.step(table, rng, 6);
        } else {
            let budget = rng.between(1, 8);
            let words = 6 * budget + rng.below(3);
            line.run(table, rng, budget as u32, words);
        }
        if rng.one_in(6) {
            line.roll_back(table);
        }
    }
    table.meet("walks wound back to the end", "from any move");
    at_rest(table, rng, line);
}

/// At rest, moves and winding orders are turned back and a run makes no move.
fn at_rest(table: &mut Table, rng: &mut Rng, line: &mut LineB<'_>) {
    let moves = line.moves;
    line.step(table, rng, 6);
    line.roll_back(table);
    line.run(table, rng, 3, 18);
    line.run(table, rng, 0, 0);
    assert_eq!(line.moves, moves);
}

/// A walk at the limits, halted now and then, and wound back from some of the halts.
fn jam_large(table: &mut Table, rng: &mut Rng, sound: &Sound) {
    let line_a = LineA::walk(table, rng, sound);
    let mut line_b = LineB::open(table, rng, sound, &line_a);
    while !line_b.at_rest() {
        let budget = rng.between(1, 400);
        line_b.run(table, rng, budget as u32, 6 * budget);
        line_b.step(table, rng, 6);
        if rng.one_in(6) {
            let mut wound = line_b.clone();
            wound.roll_back(table);
            wound.run(table, rng, 9_000, 54_000);
            assert!(wound.at_rest());
        }
    }
    at_rest(table, rng, &mut line_b);
}
