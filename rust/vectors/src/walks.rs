//! What the whole walks of a profile leave.

use crate::profiles::Profile;
use profile_walker::{
    bfs_folded, bfs_queue, dfs_array, dfs_parent, dfs_recursive, open, run, text_areas, to_array,
    walk_text, Reason,
};
use std::fmt::Write;

/// The folded walk as the program `walk` prints it, with the elements already on the blank.
pub fn depth_first(profile: &Profile) -> String {
    let walked = folded(profile);
    if profile.before.is_empty() {
        assert_eq!(walked, printed(profile));
    }
    walked
}

/// The events of an opening and of a run that ends the walk; then the elements reached, the moves and circular.
fn folded(profile: &Profile) -> String {
    let p = profile;
    let (mut after, mut tail) = (p.after.clone(), p.tail.clone());
    let mut marks = vec![0; p.after.len()];
    let budget = p.most_moves();
    let mut events = vec![0; 3 + 6 * budget as usize];
    let mut state = open(
        p.n,
        p.m,
        p.start,
        &after,
        &tail,
        &p.before,
        &mut marks,
        &mut events,
    )
    .unwrap();
    let ran = run(
        &mut state,
        budget,
        &mut after,
        &mut tail,
        &mut marks,
        &mut events[3..],
    )
    .unwrap();
    assert_eq!(ran.reason, Reason::Ended);
    let mut text = rows(&events[..3 * (1 + ran.events)]);
    let elements = state.next_label() - 1;
    let (moves, circular) = (ran.steps, state.circular());
    write!(
        text,
        "elements,moves,circular\n{elements},{moves},{circular}\n"
    )
    .unwrap();
    text
}

/// What the program `walk` prints.
fn printed(profile: &Profile) -> String {
    let mut after = vec![0; text_areas::AFTER];
    let mut tail = vec![0; text_areas::TAIL];
    let mut marks = vec![0; text_areas::MARKS];
    let mut events = vec![0; text_areas::EVENTS];
    let mut output = vec![0; text_areas::OUTPUT];
    let mut printed = 0;
    let number = walk_text(
        profile.text.as_bytes(),
        &mut after,
        &mut tail,
        &mut marks,
        &mut events,
        &mut output,
        &mut printed,
    );
    assert_eq!(number, Ok(()));
    String::from_utf8(output[..printed].to_vec()).expect("digits and names")
}

fn rows(words: &[u16]) -> String {
    let mut text = String::from("event,reference,element\n");
    for event in words.chunks(3) {
        writeln!(text, "{},{},{}", event[0], event[1], event[2]).unwrap();
    }
    text
}

/// The events of the breadth-first search, and the areas of every walk at its end.
pub fn breadth_first_and_areas(profile: &Profile) -> (String, String) {
    let p = profile;
    let (n, nodes) = (usize::from(p.n), p.after.len());
    let (mut depth, mut breadth, mut marks) = (vec![0; nodes], vec![0; nodes], vec![0; nodes]);
    let (mut parents, mut queue, mut increments) = (vec![0; n], vec![0; n], vec![0; n]);
    let mut after = p.after.clone();
    let mut events = vec![0; 6 * nodes];
    let tally = dfs_recursive(
        p.n,
        p.m,
        p.start,
        &p.after,
        &p.tail,
        &p.before,
        &mut depth,
        &mut events,
    )
    .unwrap();
    let written = events[..3 * tally.events() as usize].to_vec();

    // The other depth-first walks leave the same events, marks and tally.
    let again = dfs_parent(
        p.n,
        p.m,
        p.start,
        &p.after,
        &p.tail,
        &p.before,
        &mut marks,
        &mut parents,
        &mut events,
    );
    assert_eq!((again, &marks), (Ok(tally), &depth));
    assert_eq!(events[..written.len()], written);
    let (mut firsts, mut tails, mut numbers) =
        (vec![0; n + 1], vec![0; nodes - n], vec![0; nodes - n]);
    to_array(
        p.n,
        p.m,
        &p.after,
        &p.tail,
        &mut firsts,
        &mut tails,
        &mut numbers,
    )
    .unwrap();
    let again = dfs_array(
        p.n,
        p.m,
        p.start,
        &firsts,
        &mut tails,
        &p.before,
        &mut marks,
        &mut increments,
        &mut events,
    );
    assert_eq!((again, &marks), (Ok(tally), &depth));

    let tally = bfs_queue(
        p.n,
        p.m,
        p.start,
        &p.after,
        &p.tail,
        &p.before,
        &mut breadth,
        &mut queue,
        &mut events,
    )
    .unwrap();
    let written = events[..3 * tally.events() as usize].to_vec();
    let again = bfs_folded(
        p.n,
        p.m,
        p.start,
        &mut after,
        &p.tail,
        &p.before,
        &mut marks,
        &mut events,
    );
    assert_eq!((again, &marks, &after), (Ok(tally), &breadth, &p.after));
    assert_eq!(events[..written.len()], written);

    let mut areas = String::from("element,depth mark,breadth mark,parent,increment,queue\n");
    for u in 0..n {
        let words = [depth[u], breadth[u], parents[u], increments[u], queue[u]];
        writeln!(
            areas,
            "{},{}",
            u + 1,
            words.map(|w| w.to_string()).join(",")
        )
        .unwrap();
    }
    (rows(&written), areas)
}

/// The array form: the first position of each element and the one past the last, then each position's tail and reference.
pub fn array_form(profile: &Profile) -> String {
    let p = profile;
    let (n, m) = (usize::from(p.n), usize::from(p.m));
    let (mut firsts, mut tails, mut numbers) = (vec![0; n + 1], vec![0; m], vec![0; m]);
    to_array(
        p.n,
        p.m,
        &p.after,
        &p.tail,
        &mut firsts,
        &mut tails,
        &mut numbers,
    )
    .unwrap();
    let mut text = String::from("element,first position\n");
    for (u, first) in firsts.iter().enumerate() {
        writeln!(text, "{},{first}", u + 1).unwrap();
    }
    text.push_str("position,tail,reference\n");
    for (k, (tail, number)) in tails.iter().zip(&numbers).enumerate() {
        writeln!(text, "{},{tail},{number}", k + 1).unwrap();
    }
    text
}
