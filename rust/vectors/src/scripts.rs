//! Scripts of calls: each of them a list of calls on one line, with every answer.

use crate::line::Line;
use crate::profiles::Profile;

/// Words for the events of a run.
fn words(budget: u32) -> usize {
    6 * budget as usize
}

/// A jam after every move, and the card accepted.
pub fn move_by_move(profile: &Profile) -> String {
    let mut line = Line::new(profile);
    line.open(3);
    while line.phase() != 3 {
        line.step(6);
    }
    line.accept();
    line.into_text()
}

/// One run.
pub fn whole(profile: &Profile) -> String {
    let mut line = Line::new(profile);
    line.open(3);
    line.run(profile.most_moves(), words(profile.most_moves()));
    line.accept();
    line.into_text()
}

/// Wound back after every number of moves, and opened again each time.
pub fn wound_back(profile: &Profile) -> String {
    let mut line = Line::new(profile);
    for moves in 0.. {
        line.open(3);
        line.run(moves, words(moves));
        if line.phase() == 3 {
            break;
        }
        wind_back(&mut line);
    }
    line.accept();
    line.into_text()
}

/// Runs of growing budgets with calls between them that are turned back.
pub fn turned_back(profile: &Profile) -> String {
    let mut line = Line::new(profile);
    line.step(6); // no state yet: 1
    line.open(2); // 3
    bad_lists(&mut line, profile);
    line.open(3);
    line.accept(); // 10
    for budget in 0.. {
        line.step(5); // 3
        line.run(1, 5); // 3
        line.run(budget, words(budget));
        if line.phase() == 3 {
            break;
        }
    }
    line.step(6); // 9
    line.roll_back(); // 9
    line.run(4, words(4)); // taken: ended, no move
    line.accept();
    line.accept(); // 9
    line.roll_back(); // 9
    line.open(3);
    line.roll_back();
    line.roll_back(); // changes nothing
    line.accept(); // 10
    line.run(profile.most_moves(), words(profile.most_moves()));
    line.accept(); // 9
    line.into_text()
}

/// Lists of elements already on the blank that are turned back; then the profile's own is lent again.
fn bad_lists(line: &mut Line, profile: &Profile) {
    let (n, start) = (profile.n, profile.start);
    let too_long: Vec<_> = (1..=n).chain([n]).collect();
    let lists: [&[u16]; 7] = [
        &[0],
        &[n + 1],
        &[65_535],
        &[n, n],
        &[n + 1, start],
        &too_long,
        &[start], // 18
    ];
    for list in lists {
        line.lend(list);
        line.open(3); // 17 but for the last
    }
    line.lend(&[0]);
    line.open(2); // 3
    line.lend(&profile.before);
}

/// States, links and marks that no walk leaves: number 8, and runs that are stuck.
pub fn out_of_kind(profile: &Profile) -> String {
    let mut line = Line::new(profile);
    let nodes = profile.n + profile.m;
    let fields = [
        (1, 0),
        (1, 1001),
        (2, 4001),
        (3, 0),
        (3, profile.n + 1),
        (4, 0),
        (4, profile.n + 1),
        (5, 1),
        (5, nodes + 1),
        (6, nodes + 1),
        (7, 0),
        (7, 7),
        (8, 1),
        (8, profile.n + 2),
        (9, 2),
    ];
    for (place, word) in fields {
        line.open(3);
        line.set("state", place, word);
        line.step(6);
        line.run(1, 6);
        line.roll_back();
        line.accept();
    }
    if profile.m > 0 {
        line.open(3);
        line.set("tail", 1, 0);
        line.run(profile.most_moves(), words(profile.most_moves()));
        line.step(6);
        line.set("tail", 1, profile.tail[0]);
        line.run(profile.most_moves(), words(profile.most_moves()));
    }
    line.into_text()
}

/// Marks that no walk leaves, around those of elements not yet scanned: set on the element that the next reference
/// leads to, or on the one being scanned, after an opening and after one and two moves; before a winding order also on
/// the last node, which most often is a reference.
pub fn marks(profile: &Profile) -> String {
    let mut line = Line::new(profile);
    for moves in 0..=2 {
        for mark in [32_767, 32_768, 65_534, 65_535] {
            for place in [Line::led_to, Line::v] {
                open_with_mark(&mut line, moves, place, mark);
                go_on(&mut line, profile);
            }
            open_with_mark(&mut line, moves, Line::v, mark);
            line.set("marks", profile.after.len(), mark);
            if line.phase() != 3 {
                wind_back(&mut line);
            }
        }
    }
    line.into_text()
}

/// An opening, moves, and then a mark set on an element, where there is one.
fn open_with_mark<'a>(
    line: &mut Line<'a>,
    moves: u32,
    place: fn(&Line<'a>) -> Option<u16>,
    mark: u16,
) {
    assert!(line.links_as_loaded());
    line.open(3);
    line.run(moves, words(moves));
    if let Some(element) = place(line) {
        line.set("marks", usize::from(element), mark);
    }
}

/// Three moves and a run; wound back where the marks have kept the walk from its end.
fn go_on(line: &mut Line, profile: &Profile) {
    for _ in 0..3 {
        line.step(6);
    }
    line.run(profile.most_moves(), words(profile.most_moves()));
    if line.phase() != 3 {
        wind_back(line);
    }
}

/// A winding order, and moves to its end.
fn wind_back(line: &mut Line) {
    line.roll_back();
    while line.phase() != 5 {
        line.step(6);
    }
}

/// The panel at its limit, and over shifts.
pub fn panel(profile: &Profile) -> String {
    let mut line = Line::new(profile);
    for figure in [0, 999_998, 999_999] {
        line.set_figure(figure);
        line.open(3);
        line.run(profile.most_moves(), words(profile.most_moves()));
        line.accept();
    }
    line.shift_start();
    line.accept();
    line.into_text()
}
