//! Breadth-first search: by a queue, and folded into the links.

use super::judge;
use super::log::{mark_blanks, Events};

pub fn queue(
    n: u16,
    m: u16,
    start: u16,
    after: &[u16],
    tail: &[u16],
    before: &[u16],
    marks: &mut [u16],
    queue: &mut [u16],
    events: &mut [u16],
    tally: &mut [u32; 7],
) -> u16 {
    let vertices = usize::from(n);
    let nodes = vertices + usize::from(m);
    let long = marks.len() >= nodes && events.len() >= 6 * nodes && queue.len() >= vertices;
    let number = judge::walk(n, m, start, after, tail, before, long);
    if number != 0 {
        return number;
    }
    mark_blanks(&mut marks[..nodes], before);
    queue[..vertices].fill(0);
    let mut events = Events::new(events);
    let mut counts = events.label(marks, start, [0; 7]);
    queue[0] = start;
    let (mut at, mut last) = (0, 1);
    while at < last {
        let v = queue[at];
        let mut e = after[usize::from(v) - 1];
        while e != 0 {
            counts = events.emit(7, e, v, counts);
            let x = tail[usize::from(e) - vertices - 1];
            if marks[usize::from(x) - 1] == 0 {
                counts = events.label(marks, x, counts);
                queue[last] = x;
                last += 1;
            }
            e = after[usize::from(e) - 1];
        }
        counts = events.emit(6, 0, v, counts);
        at += 1;
    }
    *tally = counts;
    0
}

/// The last node of the list of x: its last edge, or x itself.
fn last_node(after: &[u16], x: u16) -> u16 {
    let mut last = x;
    let mut next = after[usize::from(x) - 1];
    while next != 0 {
        last = next;
        next = after[usize::from(last) - 1];
    }
    last
}

pub fn folded_queue(
    n: u16,
    m: u16,
    start: u16,
    after: &mut [u16],
    tail: &[u16],
    before: &[u16],
    marks: &mut [u16],
    events: &mut [u16],
    tally: &mut [u32; 7],
) -> u16 {
    let vertices = usize::from(n);
    let nodes = vertices + usize::from(m);
    let long = marks.len() >= nodes && events.len() >= 6 * nodes;
    let number = judge::walk(n, m, start, after, tail, before, long);
    if number != 0 {
        return number;
    }
    mark_blanks(&mut marks[..nodes], before);
    let mut events = Events::new(events);
    let mut counts = events.label(marks, start, [0; 7]);
    let (mut v, mut f) = (start, last_node(after, start));
    while v != 0 {
        let mut e = v;
        let mut next = after[usize::from(v) - 1];
        while next > n {
            e = next;
            counts = events.emit(7, e, v, counts);
            let x = tail[usize::from(e) - vertices - 1];
            if marks[usize::from(x) - 1] == 0 {
                counts = events.label(marks, x, counts);
                after[usize::from(f) - 1] = x;
                f = last_node(after, x);
            }
            next = after[usize::from(e) - 1];
        }
        counts = events.emit(6, 0, v, counts);
        v = std::mem::take(&mut after[usize::from(e) - 1]);
    }
    *tally = counts;
    0
}
