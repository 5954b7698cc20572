//! Prints what the proved program `walk` prints, as an ordinary Rust program would: the text is split into fields, the
//! references of each element stand one after the other in an array, and the search has a stack of its own.

use std::io::{Read, Write};

const NAMES: &[u8] = b"elements,references,start\n";
const LINES: &[u8] = b"from,to\n";

/// The bytes of a text that are still to be read.
struct Text<'a>(&'a [u8]);

impl Text<'_> {
    fn names(&mut self, names: &[u8]) -> Option<()> {
        self.0 = self.0.strip_prefix(names)?;
        Some(())
    }

    /// A number of one to five digits, at most 65,535, and the byte behind it.
    fn number(&mut self, stop: u8) -> Option<u16> {
        let digits = self.0.iter().take_while(|b| b.is_ascii_digit()).count();
        let (number, rest) = self.0.split_at(digits);
        if digits == 0 || digits > 5 {
            return None;
        }
        self.0 = rest.strip_prefix(&[stop])?;
        let value = number.iter().fold(0, |x, &b| 10 * x + u32::from(b - b'0'));
        u16::try_from(value).ok()
    }
}

struct Listing {
    n: u16,
    start: u16,
    lines: Vec<(u16, u16)>,
}

fn read(bytes: &[u8]) -> Option<Listing> {
    let mut text = Text(bytes);
    text.names(NAMES)?;
    let (n, m, start) = (text.number(b',')?, text.number(b',')?, text.number(b'\n')?);
    text.names(LINES)?;
    let mut lines = Vec::with_capacity(usize::from(m));
    for _ in 0..m {
        lines.push((text.number(b',')?, text.number(b'\n')?));
    }
    text.0.is_empty().then_some(Listing { n, start, lines })
}

/// The profile that a text says, or the number with which it is refused.
fn judge(bytes: &[u8]) -> Result<Listing, u16> {
    if bytes.len() > 65_536 {
        return Err(13);
    }
    let listing = read(bytes).ok_or(12_u16)?;
    let vertices = 1..=listing.n;
    if !(1..=1000).contains(&listing.n) {
        Err(1)
    } else if listing.lines.len() > 4000 {
        Err(2)
    } else if !vertices.contains(&listing.start) {
        Err(4)
    } else if !listing
        .lines
        .iter()
        .all(|(u, x)| vertices.contains(u) && vertices.contains(x))
    {
        Err(6)
    } else {
        Ok(listing)
    }
}

struct Output(Vec<u8>);

impl Output {
    fn number(&mut self, mut x: u16, stop: u8) {
        let mut digits = [0; 6];
        let mut at = 5;
        digits[at] = stop;
        loop {
            at -= 1;
            digits[at] = b'0' + (x % 10) as u8;
            x /= 10;
            if x == 0 {
                break;
            }
        }
        self.0.extend_from_slice(&digits[at..]);
    }

    fn row(&mut self, a: u16, b: u16, c: u16) {
        self.number(a, b',');
        self.number(b, b',');
        self.number(c, b'\n');
    }
}

/// What the search has done with an element.
#[derive(Clone, Copy, PartialEq)]
enum Seen {
    Never,
    Labelled,
    Scanned,
}

fn print(listing: &Listing) -> Vec<u8> {
    let (n, m) = (usize::from(listing.n), listing.lines.len());
    let mut firsts = vec![0; n + 2];
    for &(from, _) in &listing.lines {
        firsts[usize::from(from) + 1] += 1;
    }
    for u in 1..n + 2 {
        firsts[u] += firsts[u - 1];
    }
    let mut next = firsts.clone();
    let mut edges = vec![(0, 0); m];
    for (k, &(from, to)) in listing.lines.iter().enumerate() {
        let place = &mut next[usize::from(from)];
        edges[*place] = ((n + k + 1) as u16, to);
        *place += 1;
    }
    let mut output = Output(Vec::with_capacity(36 * (n + m) + 66));
    output.0.extend_from_slice(b"event,reference,element\n");
    let mut seen = vec![Seen::Never; n + 1];
    let mut stack: Vec<(u16, u16, usize)> = Vec::with_capacity(n);
    let (mut elements, mut met, mut circular) = (1, 0, 0);
    let (mut v, mut entered) = (listing.start, 0);
    let mut at = firsts[usize::from(v)];
    seen[usize::from(v)] = Seen::Labelled;
    output.row(1, 0, v);
    loop {
        while at < firsts[usize::from(v) + 1] {
            let (edge, x) = edges[at];
            at += 1;
            met += 1;
            if seen[usize::from(x)] != Seen::Never {
                if seen[usize::from(x)] == Seen::Labelled {
                    circular = 1;
                }
                output.row(3, edge, v);
                output.row(4, edge, v);
            } else {
                output.row(2, edge, v);
                stack.push((v, entered, at));
                v = x;
                entered = edge;
                at = firsts[usize::from(v)];
                seen[usize::from(v)] = Seen::Labelled;
                elements += 1;
                output.row(1, 0, v);
            }
        }
        seen[usize::from(v)] = Seen::Scanned;
        output.row(6, 0, v);
        let Some((u, above, place)) = stack.pop() else {
            break;
        };
        output.row(5, entered, u);
        (v, entered, at) = (u, above, place);
    }
    output.0.extend_from_slice(b"elements,moves,circular\n");
    output.row(elements, 2 * met + elements, circular);
    output.0
}

fn main() -> std::io::Result<()> {
    let mut bytes = Vec::with_capacity(65_537);
    std::io::stdin()
        .lock()
        .take(65_537)
        .read_to_end(&mut bytes)?;
    let printed = match judge(&bytes) {
        Ok(listing) => print(&listing),
        Err(number) => format!("refused,{number}\n").into_bytes(),
    };
    std::io::stdout().lock().write_all(&printed)
}
