//! The profiles of the vectors.

use profile_walker::read_profile;

pub struct Profile {
    pub name: &'static str,
    pub n: u16,
    pub m: u16,
    pub start: u16,
    pub after: Vec<u16>,
    pub tail: Vec<u16>,
    /// The elements already on the blank.
    pub before: Vec<u16>,
    pub text: String,
}

impl Profile {
    fn new(name: &'static str, n: u16, start: u16, lines: &[(u16, u16)]) -> Self {
        Profile::padded(name, n, start, lines, &[1])
    }

    /// A profile whose text has zeros before its numbers, for at least so many digits. The widths take turns.
    fn padded(
        name: &'static str,
        n: u16,
        start: u16,
        lines: &[(u16, u16)],
        widths: &[usize],
    ) -> Self {
        let mut widths = widths.iter().cycle();
        let mut row = |values: &[u16]| {
            let numbers = values.iter().zip(&mut widths);
            let words: Vec<_> = numbers.map(|(x, &width)| format!("{x:0width$}")).collect();
            words.join(",") + "\n"
        };
        let mut text = String::from("elements,references,start\n");
        text += &row(&[n, lines.len() as u16, start]);
        text += "from,to\n";
        for &(from, to) in lines {
            text += &row(&[from, to]);
        }
        let mut after = vec![0; usize::from(n) + lines.len()];
        let mut tail = vec![0; lines.len()];
        let read = read_profile(text.as_bytes(), &mut after, &mut tail).expect("a sound profile");
        Profile {
            name,
            n: read.n,
            m: read.m,
            start: read.start,
            after,
            tail,
            before: Vec::new(),
            text,
        }
    }

    /// The same profile with these elements already on the blank.
    fn on_blank(self, before: &[u16]) -> Self {
        Profile {
            before: before.to_vec(),
            ..self
        }
    }

    /// The elements already on the blank, one to a line.
    pub fn blank(&self) -> String {
        let lines = self.before.iter().map(|element| format!("{element}\n"));
        String::from("element\n") + &lines.collect::<String>()
    }

    /// As many moves as the longest walk of a profile of this size makes.
    pub fn most_moves(&self) -> u32 {
        2 * u32::from(self.m) + u32::from(self.n)
    }
}

/// References by chance; every element is reached from element 1.
fn drawn(n: u16, m: u16) -> Vec<(u16, u16)> {
    let mut x = 0x9e37_79b9_7f4a_7c15_u64;
    let mut below = |bound: u16| {
        x ^= x << 13;
        x ^= x >> 7;
        x ^= x << 17;
        (x % u64::from(bound)) as u16
    };
    let mut lines: Vec<_> = (1..n).map(|u| (below(u) + 1, u + 1)).collect();
    while lines.len() < usize::from(m) {
        lines.push((below(n) + 1, below(n) + 1));
    }
    for k in (1..lines.len()).rev() {
        lines.swap(k, usize::from(below(k as u16 + 1)));
    }
    lines
}

/// The profiles: small ones, which are walked in every way, and the largest; then some with elements already on the blank.
pub fn all() -> Vec<Profile> {
    let chain: Vec<_> = (1..10).map(|u| (u, u + 1)).collect();
    let star: Vec<_> = (2..=10).chain(2..=10).map(|x| (1, x)).collect();
    let dense: Vec<_> = (1..=6).flat_map(|u| (1..=6).map(move |x| (u, x))).collect();
    let printed = [(1, 2), (1, 3), (2, 3), (3, 1)];
    let start = [(4, 2), (3, 4), (1, 3), (2, 3), (3, 2), (4, 4)];
    let file = [(1, 2), (1, 3), (2, 3)];
    let circle = [(1, 2), (2, 3), (3, 4), (4, 1)];
    let some: Vec<_> = (2..=20).step_by(3).collect();
    vec![
        Profile::new("printed", 3, 1, &printed),
        Profile::padded("padded", 3, 1, &printed, &[5]),
        Profile::new("one", 1, 1, &[]),
        Profile::new("loop", 1, 1, &[(1, 1)]),
        Profile::new("unreached", 2, 1, &[(1, 1)]),
        Profile::new("twice", 2, 1, &[(1, 2), (1, 2)]),
        Profile::new(
            "shared",
            5,
            1,
            &[(1, 2), (1, 3), (2, 4), (3, 4), (3, 5), (4, 5)],
        ),
        Profile::new("file", 3, 1, &file),
        Profile::new("circle", 4, 1, &circle),
        Profile::new("behind", 4, 1, &[(1, 2), (1, 3), (2, 3), (3, 4), (4, 3)]),
        Profile::new("apart", 4, 1, &[(1, 2), (3, 2), (3, 4), (4, 3), (1, 2)]),
        Profile::new("start", 4, 3, &start),
        Profile::padded("mixed", 4, 3, &start, &[1, 2, 3, 4, 5]),
        Profile::new("chain", 10, 1, &chain),
        Profile::new("star", 10, 1, &star),
        Profile::new("dense", 6, 1, &dense),
        Profile::new("drawn", 20, 1, &drawn(20, 50)),
        Profile::new("largest", 1000, 1, &drawn(1000, 4000)),
        Profile::new("printed_with_2", 3, 1, &printed).on_blank(&[2]),
        Profile::new("printed_with_3", 3, 1, &printed).on_blank(&[3]),
        Profile::new("printed_with_2_and_3", 3, 1, &printed).on_blank(&[2, 3]),
        Profile::new("file_on_blank", 3, 1, &file).on_blank(&[3]),
        Profile::new("circle_cut", 4, 1, &circle).on_blank(&[3]),
        Profile::new("all_but_start", 4, 3, &start).on_blank(&[1, 2, 4]),
        Profile::new("drawn_with_some", 20, 1, &drawn(20, 50)).on_blank(&some),
    ]
}
