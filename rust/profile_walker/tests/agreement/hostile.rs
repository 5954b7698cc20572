//! step, run and roll_back on any words: states out of kind, links and marks of noise, walks with a word changed under
//! way, areas of any length.

use reference::{move_to_come, Move, ToCome};

use crate::lent::{open, roll_back, run, step, Folded, Opening};
use crate::profiles::{area, fits, lengths, small, Fit, Sound};
use crate::rng::Rng;
use crate::table::Table;

const STEP_MADE: &str = "step, move made";
const STEP_FAULT: &str = "step, out of kind";
const RUN_FAULT: &str = "run, stuck at";
const ALIAS: &str = "step, words met twice";
const LED_TO: &str = "nontree move made, mark of t(e)";
const CLOSED: &str = "close made, mark of v";
const RESTED: &str = "last winding close made, marks";

pub fn compare(table: &mut Table) {
    let mut rng = Rng::new(6);
    for _ in 0..300_000 {
        let lent = noise(&mut rng);
        calls(table, &mut rng, &lent);
    }
    for _ in 0..80_000 {
        let lent = aliased(&mut rng);
        calls(table, &mut rng, &lent);
    }
    for _ in 0..80_000 {
        let lent = marked(&mut rng);
        calls(table, &mut rng, &lent);
    }
    for _ in 0..40_000 {
        let lent = on_blank(&mut rng);
        calls(table, &mut rng, &lent);
    }
    for _ in 0..60_000 {
        let lent = changed_under_way(table, &mut rng);
        calls(table, &mut rng, &lent);
    }
    for round in 0..80 {
        let lent = match round % 2 {
            0 => noise(&mut rng),
            _ => {
                let sound = small(&mut rng);
                under_way(table, &mut rng, &sound)
            }
        };
        if lent.state.len() >= 9 {
            every_field(table, &mut rng, &lent);
        }
    }
    for _ in 0..600 {
        every_length(table, &mut rng);
    }
    assert_all_met(table);
}

/// Every move was made, and every word that a move reads was out of kind in each move that reads it.
fn assert_all_met(table: &Table) {
    let moves = [
        "Tree",
        "Nontree",
        "Turn",
        "Close",
        "LastClose",
        "WindingClose",
        "LastWindingClose",
    ];
    table.assert_met(STEP_MADE, &moves);
    let fields = [
        "FieldV",
        "FieldE",
        "FieldF",
        "FieldPhase",
        "FieldNextLabel",
        "FieldCircular",
    ];
    table.assert_met(STEP_FAULT, &fields);
    let words = [
        "Tail",
        "Tree, NextLabel",
        "Tree, TakenIntoE",
        "Nontree, TakenIntoE",
        "Turn, TakenIntoF",
        "Close, AfterOfF",
        "Close, TakenIntoF",
        "Close, TakenIntoE",
        "LastClose, NotTheStart",
        "WindingClose, AfterOfF",
        "WindingClose, TakenIntoF",
        "LastWindingClose, NotTheStart",
    ];
    table.assert_met(STEP_FAULT, &words);
    table.assert_met(RUN_FAULT, &words);
    let twice = [
        "tree move to v, taken",
        "close with f = v and e 0, turned back",
        "close with f = v and e a reference, taken",
        "close with f = v and e a reference, turned back",
    ];
    table.assert_met(ALIAS, &twice);
    table.assert_met("run, reason", &["ended", "spent", "stuck"]);
    assert_all_marks_met(table);
}

/// Nontree moves and closes were made on marks at, below and above every limit; nontree moves with either figure.
fn assert_all_marks_met(table: &Table) {
    let labelled = [1, 32_767, 32_768, 32_769, 65_534, 65_535].map(limit);
    for mark in labelled {
        for circular in [0, 1] {
            table.assert_met(LED_TO, &[&format!("{mark}, circular {circular}")]);
        }
    }
    let closes = [
        Move::Close,
        Move::LastClose,
        Move::WindingClose,
        Move::LastWindingClose,
    ];
    for which in closes {
        for mark in labelled.into_iter().chain([limit(0)]) {
            table.assert_met(CLOSED, &[&format!("{which:?}, {mark}")]);
        }
    }
    for node in ["an element but v", "a reference"] {
        for mark in labelled.into_iter().chain([limit(0)]) {
            table.assert_met(RESTED, &[&format!("{mark} on {node}")]);
        }
    }
    table.assert_met(RESTED, &["65,535 on every node"]);
}

/// Where a mark lies, seen from the limits.
fn limit(mark: u16) -> &'static str {
    match mark {
        0 => "0",
        1..=32_766 => "below 32,767",
        32_767 => "32,767",
        32_768 => "32,768",
        32_769..=65_533 => "above 32,768",
        65_534 => "65,534",
        65_535 => "65,535",
    }
}

/// A single move, a run and a winding order on the same words.
fn calls(table: &mut Table, rng: &mut Rng, lent: &Folded) {
    let coming = move_to_come(&lent.state, &lent.after, &lent.tail, &lent.marks);
    let (number, _) = step(table, lent);
    match (number, coming) {
        (0, Some(to_come)) => {
            table.meet(STEP_MADE, named(to_come));
            meet_mark(table, lent, to_come);
        }
        (8, Some(to_come)) => table.meet(STEP_FAULT, named(to_come)),
        _ => {}
    }
    if matches!(number, 0 | 8) {
        meet_alias(table, lent, number);
    }

    let budget = rng.pick(&[0, 1, 2, 3, 7, 20]);
    let mut words = 6 * budget + rng.pick(&[0, 0, 1, 5]);
    if rng.one_in(40) && budget > 0 {
        words = 6 * budget - 1;
    }
    let mut long = lent.clone();
    long.events = rng.noise(words);
    let (number, left) = run(table, &long, budget as u32);
    if number == 0 && left.reason == reference::STUCK {
        let coming = move_to_come(&left.state, &left.after, &left.tail, &left.marks);
        let coming = coming.expect("a stuck run has a move to come");
        assert!(coming.fault.is_some());
        table.meet(RUN_FAULT, named(coming));
    }

    let (number, wound) = roll_back(table, &lent.state);
    if number == 0 {
        // From the order on, a run may wind the hostile links.
        long.state = wound;
        run(table, &long, budget as u32);
    }
}

/// The move to come and what is out of kind for it, in words.
fn named(to_come: ToCome) -> String {
    match (to_come.which, to_come.fault) {
        (Some(which), Some(fault)) => format!("{which:?}, {fault:?}"),
        (Some(which), None) => format!("{which:?}"),
        (None, Some(fault)) => format!("{fault:?}"),
        (None, None) => String::from("none"),
    }
}

/// Counts the marks that stood, before a move was made, on the element that e leads to or on the one closed.
fn meet_mark(table: &mut Table, lent: &Folded, to_come: ToCome) {
    match to_come.which {
        None | Some(Move::Tree | Move::Turn) => {}
        Some(Move::Nontree) => {
            let at = led_to(lent).expect("a nontree move leads to an element");
            let (mark, circular) = (limit(lent.marks[at]), lent.state[8]);
            table.meet(LED_TO, format!("{mark}, circular {circular}"));
        }
        Some(which) => {
            let mark = limit(lent.marks[usize::from(lent.state[3]) - 1]);
            table.meet(CLOSED, format!("{which:?}, {mark}"));
            if which == Move::LastWindingClose {
                meet_rested(table, lent);
            }
        }
    }
}

/// Counts the marks that stood, before the last move of a winding back, on elements and references.
fn meet_rested(table: &mut Table, lent: &Folded) {
    let (n, m, v) = (lent.state[0], lent.state[1], lent.state[3]);
    let marks = &lent.marks[..usize::from(n + m)];
    for (node, &mark) in (1..).zip(marks).filter(|(node, _)| *node != v) {
        let kind = if node <= n {
            "an element but v"
        } else {
            "a reference"
        };
        table.meet(RESTED, format!("{} on {kind}", limit(mark)));
    }
    if marks.iter().all(|&mark| mark == 65_535) {
        table.meet(RESTED, "65,535 on every node");
    }
}

/// The place in the marks of the element that e leads to, where it leads to one.
fn led_to(lent: &Folded) -> Option<usize> {
    let [n, _, _, _, e, ..] = lent.state[..] else {
        return None;
    };
    let tail = usize::from(e.checked_sub(n)?).checked_sub(1)?;
    let to = *lent.tail.get(tail)?;
    (1..=n).contains(&to).then(|| usize::from(to) - 1)
}

/// Counts the moves that read a word they have just stored.
fn meet_alias(table: &mut Table, lent: &Folded, number: u16) {
    let [n, m, _, v, e, f, phase, ..] = lent.state[..] else {
        return;
    };
    if phase == 1 && e > n && e <= n + m {
        let to = lent.tail[usize::from(e - n) - 1];
        if to == v && v > 0 && v <= n && lent.marks[usize::from(v) - 1] == 0 {
            if number == 0 {
                table.meet(ALIAS, "tree move to v, taken");
            }
            return;
        }
    }
    let closes = matches!(phase, 2 | 4) || (phase == 1 && e == 0);
    if closes && f == v && v > 0 && v <= n {
        let taken = if number == 0 { "taken" } else { "turned back" };
        let what = if e == 0 { "e 0" } else { "e a reference" };
        table.meet(ALIAS, format!("close with f = v and {what}, {taken}"));
    }
}

/// A state whose fields are mostly in kind, on links and marks of noise.
fn noise(rng: &mut Rng) -> Folded {
    let n = rng.between(1, 4);
    let m = rng.below(7);
    let nodes = n + m;
    let extra = rng.below(3);
    let mut state: Vec<u16> = vec![
        n as u16,
        m as u16,
        rng.between(1, n) as u16,
        rng.between(1, n) as u16,
        if m == 0 || rng.one_in(3) {
            0
        } else {
            rng.between(n + 1, nodes) as u16
        },
        rng.below(nodes + 1) as u16,
        rng.pick(&[1, 1, 1, 2, 2, 4, 4, 4, 3, 5, 6]),
        rng.between(2, n + 1) as u16,
        rng.below(2) as u16,
    ];
    if rng.one_in(5) {
        let field = rng.below(9);
        state[field] = rng.node(nodes);
    }
    if rng.one_in(30) {
        state[6] = rng.below(8) as u16;
    }
    if rng.one_in(60) {
        state.truncate(rng.below(9));
    }
    let mut after: Vec<u16> = (0..nodes + extra).map(|_| rng.node(nodes)).collect();
    let mut tail: Vec<u16> = (0..m + extra).map(|_| rng.node(nodes)).collect();
    let mut marks: Vec<u16> = (0..nodes + extra).map(|_| rng.mark()).collect();
    let mut events = rng.pick(&[6, 6, 6, 7, 9, 12]);
    if rng.one_in(60) {
        match rng.below(4) {
            0 => after.truncate(nodes - 1),
            1 => tail.truncate(m.saturating_sub(1)),
            2 => marks.truncate(nodes - 1),
            _ => events = rng.below(6),
        }
    }
    Folded {
        state: state.into(),
        after: after.into(),
        tail: tail.into(),
        marks: marks.into(),
        events: rng.noise(events),
        steps: rng.word().into(),
        made: rng.word().into(),
        reason: rng.word(),
    }
}

/// Noise with a reference, in areas that have all words of its sizes, and with v and e in kind.
fn fitting_noise(rng: &mut Rng) -> Folded {
    loop {
        let lent = noise(rng);
        let [n, m, _, v, e, _, _, _, _] = lent.state[..] else {
            continue;
        };
        let (elements, references) = (usize::from(n), usize::from(m));
        let nodes = elements + references;
        if nodes > lent.after.len() || nodes > lent.marks.len() {
            continue;
        }
        if references > lent.tail.len() || references == 0 {
            continue;
        }
        if v == 0 || v > n || e > n + m || (e != 0 && e <= n) {
            continue;
        }
        return lent;
    }
}

/// Noise in which a move reads a word that it has just stored: a tree move to v itself, a close with f = v.
fn aliased(rng: &mut Rng) -> Folded {
    let mut lent = fitting_noise(rng);
    let [n, _, _, v, e, ..] = lent.state[..] else {
        return lent;
    };
    if rng.one_in(2) && e != 0 {
        lent.state[6] = 1;
        lent.tail[usize::from(e - n) - 1] = v;
        lent.marks[usize::from(v) - 1] = 0;
    } else {
        lent.state[5] = v;
        lent.state[6] = rng.pick(&[1, 2, 2, 4]);
        if rng.one_in(3) {
            lent.state[4] = 0;
        }
    }
    lent
}

/// Noise in which e leads to an element with a mark at a limit, or an element with such a mark is to be closed.
fn marked(rng: &mut Rng) -> Folded {
    let mut lent = fitting_noise(rng);
    let [n, m, _, v, ..] = lent.state[..] else {
        return lent;
    };
    let reference = rng.between(1, usize::from(m));
    let node = n + reference as u16;
    let link = rng.pick(&[0, node]);
    lent.after[usize::from(node) - 1] = link;
    let element = rng.between(1, usize::from(n));
    if rng.one_in(2) {
        lent.state[4] = node;
        lent.state[6] = 1;
        lent.tail[reference - 1] = element as u16;
        lent.marks[element - 1] = rng.mark();
    } else {
        // The start is closed with f 0, another element with f its parent.
        let parent = if lent.state[2] == v { 0 } else { element };
        if parent != 0 {
            lent.after[parent - 1] = node;
            lent.tail[reference - 1] = rng.below(usize::from(n) + 1) as u16;
        }
        lent.state[5] = parent as u16;
        lent.state[6] = rng.pick(&[2, 2, 4]);
        lent.marks[usize::from(v) - 1] = rng.mark();
    }
    lent
}

/// Noise in which every mark, or every one but some, is 65,535.
fn on_blank(rng: &mut Rng) -> Folded {
    let mut lent = match rng.one_in(2) {
        true => marked(rng),
        false => aliased(rng),
    };
    let others = rng.one_in(2);
    for mark in lent.marks.iter_mut() {
        if !others || !rng.one_in(4) {
            *mark = 65_535;
        }
    }
    lent
}

/// A sound walk after any number of moves, with or without a winding order, and with elements already on the blank.
fn under_way(table: &mut Table, rng: &mut Rng, sound: &Sound) -> Folded {
    let words = sound.nodes();
    let opening = Opening {
        n: sound.n,
        m: sound.m,
        start: sound.start,
        after: sound.after.clone().into(),
        tail: sound.tail.clone().into(),
        before: sound.before.clone().into(),
        marks: rng.noise(words),
        events: rng.noise(3),
        state: rng.noise(9),
    };
    let (number, opened) = open(table, &opening);
    assert_eq!(number, 0);
    let mut lent = Folded {
        state: opened.state,
        after: opened.after,
        tail: opened.tail,
        marks: opened.marks,
        events: rng.noise(6 * 40),
        steps: 0,
        made: 0,
        reason: 0,
    };
    lent = run(table, &lent, rng.below(40) as u32).1;
    if rng.one_in(2) {
        lent.state = roll_back(table, &lent.state).1;
        lent = run(table, &lent, rng.below(6) as u32).1;
    }
    lent
}

/// A sound walk in which one or two words were changed by another hand.
fn changed_under_way(table: &mut Table, rng: &mut Rng) -> Folded {
    let sound = small(rng);
    let nodes = sound.nodes();
    let mut lent = under_way(table, rng, &sound);
    for _ in 0..rng.between(1, 2) {
        let area = match rng.below(4) {
            0 => &mut lent.state,
            1 => &mut lent.after,
            2 => &mut lent.tail,
            _ => {
                change_mark(rng, &mut lent);
                continue;
            }
        };
        if !area.is_empty() {
            let at = rng.below(area.len());
            area[at] = rng.node(nodes);
        }
    }
    let (number, left) = run(table, &lent, 40);
    match number {
        0 => left,
        _ => lent,
    }
}

/// Another mark for the element that e leads to, for v, or for any.
fn change_mark(rng: &mut Rng, lent: &mut Folded) {
    let at = match rng.below(3) {
        0 => led_to(lent),
        1 => usize::from(lent.state[3]).checked_sub(1),
        _ => None,
    };
    let at = at.filter(|&at| at < lent.marks.len());
    let at = at.unwrap_or_else(|| rng.below(lent.marks.len()));
    lent.marks[at] = rng.mark();
}

/// Each field of a state with each value at a limit, in every phase.
fn every_field(table: &mut Table, rng: &mut Rng, lent: &Folded) {
    let (n, nodes) = (lent.state[0].min(1_000), lent.after.len() as u16);
    let values = [
        0,
        1,
        2,
        6,
        7,
        n,
        n + 1,
        n + 2,
        nodes,
        nodes + 1,
        999,
        1_000,
        1_001,
        4_000,
        4_001,
        32_768,
        65_535,
    ];
    for phase in 0..=7 {
        for field in 0..9 {
            for value in values {
                let mut other = lent.clone();
                other.state[6] = phase;
                other.state[field] = value;
                calls(table, rng, &other);
            }
        }
    }
}

/// Every way of lending the areas of a sound walk, the state area too.
fn every_length(table: &mut Table, rng: &mut Rng) {
    let sound = small(rng);
    let mut lent = under_way(table, rng, &sound);
    if rng.one_in(3) {
        // Which other number would come first or later.
        let field = rng.below(9);
        lent.state[field] = rng.node(sound.nodes());
    }
    let (words, m) = (sound.nodes(), sound.tail.len());
    for fit in fits(5) {
        let budget = rng.below(4);
        let [state, a, t, marks, events] =
            lengths(rng, [9, words, m, words, 6 * budget.max(1)], fit);
        let other = Folded {
            state: area(rng, &lent.state, state),
            after: area(rng, &lent.after, a),
            tail: area(rng, &lent.tail, t),
            marks: area(rng, &lent.marks, marks),
            events: rng.noise(events),
            ..lent.clone()
        };
        step(table, &other);
        run(table, &other, budget as u32);
        roll_back(table, &other.state);
        if fit == Fit::Longer {
            run(table, &other, u32::MAX);
        }
    }
}
