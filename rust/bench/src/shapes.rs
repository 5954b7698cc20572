//! Profiles to measure on, in every form that a contender wants.

/// A profile whose start, element 1, reaches every element, so that n elements are reached and m references met.
pub struct Profile {
    pub shape: &'static str,
    pub n: u16,
    pub m: u16,
    pub after: Vec<u16>,
    pub tail: Vec<u16>,
    pub firsts: Vec<u16>,
    pub tails: Vec<u16>,
    pub text: Vec<u8>,
}

impl Profile {
    fn new(shape: &'static str, n: u16, lines: &[(u16, u16)]) -> Self {
        let (size, m) = (usize::from(n), lines.len());
        let mut lists = vec![Vec::new(); size];
        let mut text = format!("elements,references,start\n{n},{m},1\nfrom,to\n");
        for (k, &(from, to)) in lines.iter().enumerate() {
            lists[usize::from(from) - 1].push((size + k + 1) as u16);
            text.push_str(&format!("{from},{to}\n"));
        }
        let mut after = vec![0; size + m];
        let (mut firsts, mut tails) = (vec![1], Vec::with_capacity(m));
        for (u, list) in lists.iter().enumerate() {
            let mut node = u;
            for &edge in list {
                after[node] = edge;
                node = usize::from(edge) - 1;
                tails.push(lines[node - size].1);
            }
            firsts.push(tails.len() as u16 + 1);
        }
        Profile {
            shape,
            n,
            m: m as u16,
            after,
            tail: lines.iter().map(|line| line.1).collect(),
            firsts,
            tails,
            text: text.into_bytes(),
        }
    }
}

/// Numbers by xorshift, the same in every run.
struct Chance(u64);

impl Chance {
    fn below(&mut self, bound: usize) -> usize {
        self.0 ^= self.0 << 13;
        self.0 ^= self.0 >> 7;
        self.0 ^= self.0 << 17;
        (self.0 % bound as u64) as usize
    }

    fn element(&mut self, n: usize) -> u16 {
        (self.below(n) + 1) as u16
    }
}

/// A tree by chance, and references by chance; another profile for each seed.
fn sparse_by(n: usize, m: usize, seed: u64) -> Profile {
    let mut chance = Chance(0x9e37_79b9_7f4a_7c15 ^ seed);
    let mut lines: Vec<_> = (1..n)
        .map(|u| (chance.element(u), (u + 1) as u16))
        .collect();
    while lines.len() < m {
        lines.push((chance.element(n), chance.element(n)));
    }
    for k in (1..lines.len()).rev() {
        lines.swap(k, chance.below(k + 1));
    }
    Profile::new("sparse", n as u16, &lines)
}

/// Elements and references of all profiles by chance that take turns, whatever the size of each.
const IN_TURN: usize = 80_000;

/// Profiles by chance: sixteen at the limits, more where they are smaller. A call meets them in turn, so that no processor
/// learns them by heart, and small ones no sooner than large ones.
pub fn sparse(n: usize, m: usize) -> Vec<Profile> {
    (0..IN_TURN / (n + m))
        .map(|seed| sparse_by(n, m, seed as u64))
        .collect()
}

/// A core whose elements all refer to each other; the others hang on it.
pub fn dense(n: usize, m: usize) -> Vec<Profile> {
    let mut core = 1;
    while (core + 1) * (core + 1) + n <= m && core < n {
        core += 1;
    }
    let mut lines = Vec::new();
    for from in 1..=core {
        for to in 1..=core {
            lines.push((from as u16, to as u16));
        }
    }
    for u in core + 1..=n {
        lines.push(((u % core + 1) as u16, u as u16));
    }
    while lines.len() < m {
        let k = lines.len();
        lines.push(((k % core + 1) as u16, (k / core % core + 1) as u16));
    }
    vec![Profile::new("dense", n as u16, &lines[..m])]
}

/// Each element refers to the next; the other references lead back.
pub fn chain(n: usize, m: usize) -> Vec<Profile> {
    let mut chance = Chance(0x2545_f491_4f6c_dd1d);
    let mut lines: Vec<_> = (1..n).map(|u| (u as u16, (u + 1) as u16)).collect();
    while lines.len() < m {
        let from = lines.len() % n + 1;
        lines.push((from as u16, chance.element(from)));
    }
    vec![Profile::new("chain", n as u16, &lines)]
}

/// The start refers to every other element, over and over.
pub fn star(n: usize, m: usize) -> Vec<Profile> {
    let others = (n - 1).max(1);
    let lines: Vec<_> = (0..m)
        .map(|k| (1, ((k % others + 1) % n + 1) as u16))
        .collect();
    vec![Profile::new("star", n as u16, &lines)]
}
