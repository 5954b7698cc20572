//! Any list of runs with any budgets and event areas, single moves and winding orders, refused ones included.

use crate::demand::{LineA, LineB};
use crate::profiles::{shaped, small, sound, Sound};
use crate::rng::Rng;
use crate::table::Table;

pub fn compare(table: &mut Table) {
    let mut rng = Rng::new(5);
    for _ in 0..25_000 {
        let sound = small(&mut rng);
        list(table, &mut rng, &sound, 12, 12);
    }
    for _ in 0..60 {
        let sound = sound(&mut rng, 300, 1_000);
        list(table, &mut rng, &sound, 40, 100);
    }
    for shape in 0..13 {
        let sound = shaped(&mut rng, shape, 1_000, 4_000);
        list(table, &mut rng, &sound, 20, 1_500);
    }
}

/// Makes a list of up to so many calls, each run with a budget up to so many moves; then lets the walk end.
fn list(table: &mut Table, rng: &mut Rng, sound: &Sound, most_calls: usize, most_budget: usize) {
    let line_a = LineA::walk(table, rng, sound);
    let mut line_b = LineB::open(table, rng, sound, &line_a);
    // A walk is wound back in about half of the lists.
    let winding = rng.one_in(2);
    for _ in 0..rng.between(1, most_calls) {
        match rng.below(8) {
            0 if winding => line_b.roll_back(table),
            0 | 1 => {
                let words = rng.pick(&[6, 6, 7, 12, 5, 0]);
                line_b.step(table, rng, words);
            }
            2 => {
                // Far more than the area has room for, or just too much.
                let words = rng.below(30);
                let budget = rng.pick(&[words as u32 / 6 + 1, 1 << 20, 0xaaaa_aaab, u32::MAX]);
                line_b.run(table, rng, budget, words);
            }
            _ => {
                let budget = rng.between(0, most_budget);
                let words = 6 * budget + rng.pick(&[0, 0, 1, 6]);
                line_b.run(table, rng, budget as u32, words);
            }
        }
    }
    let rest = line_a.reach.moves();
    line_b.run(table, rng, rest as u32, 6 * rest);
    assert!(line_b.at_rest());
    table.meet("lists of calls", "with runs, moves and orders");
}
