//! accept and shift_start.

use crate::area::Area;
use crate::lent::{accept, shift_start, Panel};
use crate::rng::Rng;
use crate::table::Table;

/// The figures around which something changes.
const FIGURES: [u32; 8] = [
    0,
    1,
    999_997,
    999_998,
    999_999,
    1_000_000,
    u32::MAX - 1,
    u32::MAX,
];

pub fn compare(table: &mut Table) {
    let mut rng = Rng::new(7);
    for _ in 0..60_000 {
        let lent = Panel {
            state: state(&mut rng),
            figure: rng.pick(&FIGURES),
        };
        accept(table, &lent);
    }
    for phase in 0..=7 {
        for figure in FIGURES {
            for words in 0..=12 {
                let mut state = Area::from(vec![3, 4, 1, 1, 4, 0, phase, 4, 1, 7, 8, 9]);
                state.shorten(words);
                let (number, left) = accept(table, &Panel { state, figure });
                let taken = words >= 9 && phase == 3 && figure < 999_999;
                assert_eq!(number == 0, taken);
                assert_eq!(left.figure, figure + u32::from(taken));
            }
        }
    }
    for figure in FIGURES {
        assert_eq!(shift_start(table, figure), 0);
    }
    for _ in 0..3_000 {
        log(table, &mut rng, 0);
        let any = rng.pick(&FIGURES);
        log(table, &mut rng, any);
        let begun = shift_start(table, any);
        log(table, &mut rng, begun);
    }
    full_shift(table);
}

/// A state in kind, or with a field that is not, or too short.
fn state(rng: &mut Rng) -> Area<u16> {
    let n = rng.between(1, 1_000);
    let m = rng.below(4_001);
    let mut state = vec![
        n as u16,
        m as u16,
        rng.between(1, n) as u16,
        rng.between(1, n) as u16,
        if m == 0 || rng.one_in(3) {
            0
        } else {
            rng.between(n + 1, n + m) as u16
        },
        rng.below(n + m + 1) as u16,
        rng.pick(&[3, 3, 3, 3, 1, 2, 4, 5, 6]),
        rng.between(2, n + 1) as u16,
        rng.below(2) as u16,
    ];
    if rng.one_in(3) {
        let field = rng.below(9);
        state[field] = match rng.below(4) {
            0 => rng.word(),
            1 => rng.pick(&[0, 1, 2, 7, 1_000, 1_001, 4_000, 4_001, u16::MAX]),
            _ => rng.node(n + m),
        };
    }
    let more = rng.below(3);
    state.extend(rng.words(more));
    if rng.one_in(20) {
        state.truncate(rng.below(9));
    }
    state.into()
}

/// Any list of accepts and shift starts: from 0 or a shift start on, the figure is at every point the number of
/// accepts taken. An accepted state given again is turned back.
fn log(table: &mut Table, rng: &mut Rng, begun: u32) {
    let mut figure = begun;
    let mut cards = begun;
    for _ in 0..rng.between(1, 30) {
        if rng.one_in(10) {
            figure = shift_start(table, figure);
            cards = 0;
        } else {
            let lent = Panel {
                state: state(rng),
                figure,
            };
            let (number, left) = accept(table, &lent);
            figure = left.figure;
            if number == 0 {
                cards += 1;
                let again = accept(table, &left);
                assert_eq!(again, (9, left));
            }
        }
        assert_eq!(figure, cards);
    }
}

/// A shift that comes to the last figure the panel can show.
fn full_shift(table: &mut Table) {
    let ended = Area::from(vec![1, 0, 1, 1, 0, 0, 3, 2, 0]);
    let mut figure = 999_990;
    for _ in 0..20 {
        let lent = Panel {
            state: ended.clone(),
            figure,
        };
        let (number, left) = accept(table, &lent);
        assert_eq!(number, if figure < 999_999 { 0 } else { 11 });
        figure = left.figure;
    }
    assert_eq!(figure, 999_999);
    assert_eq!(shift_start(table, figure), 0);
}
