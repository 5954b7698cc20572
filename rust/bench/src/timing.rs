//! Times of several contenders that take turns, so that what else the machine does falls on all of them alike.

use std::hint::black_box;
use std::time::Instant;

/// How often the contenders take turns.
const ROUNDS: usize = 301;

/// About how long one turn lasts, in nanoseconds.
const TURN: f64 = 150_000.0;

/// The middle one of a contender's times for a call, in nanoseconds, for each contender.
pub fn times<const K: usize>(contenders: &mut [&mut dyn FnMut(); K]) -> [f64; K] {
    let calls = contenders.each_mut().map(|call| {
        let began = Instant::now();
        for _ in 0..20 {
            call();
        }
        let each = began.elapsed().as_nanos() as f64 / 20.0;
        ((TURN / each.max(1.0)) as usize).max(1)
    });
    let mut samples = vec![[0.0; K]; ROUNDS];
    for sample in &mut samples {
        for ((call, &calls), time) in contenders.iter_mut().zip(&calls).zip(sample) {
            let began = Instant::now();
            for _ in 0..calls {
                black_box(&mut *call)();
            }
            *time = began.elapsed().as_nanos() as f64 / calls as f64;
        }
    }
    std::array::from_fn(|k| {
        let mut all: Vec<f64> = samples.iter().map(|sample| sample[k]).collect();
        all.sort_by(f64::total_cmp);
        all[ROUNDS / 2]
    })
}
