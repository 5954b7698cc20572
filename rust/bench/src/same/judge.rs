//! The numbers of refusals.

/// Null or one of the edges n+1 to n+m.
pub fn is_link(n: u16, m: u16, x: u16) -> bool {
    x == 0 || (x > n && x - n <= m)
}

pub fn is_vertex(n: u16, x: u16) -> bool {
    x != 0 && x <= n
}

fn sizes(n: u16, m: u16) -> u16 {
    if n == 0 || n > 1000 {
        1
    } else if m > 4000 {
        2
    } else {
        0
    }
}

/// Whether a word is out. Every word is tested, also behind one that is out: a loop without a way out is compiled to
/// take several words at a time.
fn any_out(words: &[u16], out: impl Fn(u16) -> bool) -> bool {
    words.iter().fold(false, |any, &x| any | out(x))
}

/// 5, 6 and 7 of an image whose sizes and areas are good.
fn words(n: u16, m: u16, after: &[u16], tail: &[u16]) -> u16 {
    if any_out(after, |x| !is_link(n, m, x)) {
        return 5;
    }
    if any_out(tail, |x| !is_vertex(n, x)) {
        return 6;
    }
    let mut flags = [false; 4000];
    let mut met = 0;
    for &first in &after[..usize::from(n)] {
        let mut edge = first;
        while edge != 0 {
            let flag = &mut flags[usize::from(edge) - usize::from(n) - 1];
            if *flag {
                return 7;
            }
            *flag = true;
            met += 1;
            edge = after[usize::from(edge) - 1];
        }
    }
    if met == m {
        0
    } else {
        7
    }
}

pub fn check_image(n: u16, m: u16, after: &[u16], tail: &[u16]) -> u16 {
    let number = sizes(n, m);
    if number != 0 {
        return number;
    }
    let (edges, nodes) = (usize::from(m), usize::from(n) + usize::from(m));
    if after.len() < nodes || tail.len() < edges {
        return 3;
    }
    words(n, m, &after[..nodes], &tail[..edges])
}

/// 17 and 18 of the list of elements already on the blank.
fn list(n: u16, start: u16, before: &[u16]) -> u16 {
    let mut last = 0;
    for &x in before {
        if x <= last || x > n {
            return 17;
        }
        last = x;
    }
    if before.contains(&start) {
        18
    } else {
        0
    }
}

/// The number of a walk or an opening; `long` where its other areas are as long as stated.
pub fn walk(
    n: u16,
    m: u16,
    start: u16,
    after: &[u16],
    tail: &[u16],
    before: &[u16],
    long: bool,
) -> u16 {
    let number = sizes(n, m);
    if number != 0 {
        return number;
    }
    let (edges, nodes) = (usize::from(m), usize::from(n) + usize::from(m));
    if after.len() < nodes || tail.len() < edges || !long {
        return 3;
    }
    if !is_vertex(n, start) {
        return 4;
    }
    let number = words(n, m, &after[..nodes], &tail[..edges]);
    if number != 0 {
        return number;
    }
    list(n, start, before)
}

/// The number of a walk of an array form.
pub fn array_walk(
    n: u16,
    m: u16,
    start: u16,
    firsts: &[u16],
    tails: &[u16],
    before: &[u16],
    long: bool,
) -> u16 {
    let number = sizes(n, m);
    if number != 0 {
        return number;
    }
    let (vertices, edges) = (usize::from(n), usize::from(m));
    if firsts.len() < vertices + 1 || tails.len() < edges || !long {
        return 3;
    }
    if !is_vertex(n, start) {
        return 4;
    }
    let firsts = &firsts[..=vertices];
    if firsts[0] != 1 || firsts[vertices] != m + 1 || firsts.windows(2).any(|p| p[1] < p[0]) {
        return 5;
    }
    if any_out(&tails[..edges], |x| !is_vertex(n, x)) {
        return 6;
    }
    list(n, start, before)
}
