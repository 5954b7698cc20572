//! Each call on profiles of one shape: the proved one, the same algorithm in safe Rust, and the fastest plain search on arrays.

use crate::plain::Plain;
use crate::same;
use crate::shapes::Profile;
use crate::timing::times;
use profile_walker as proved;

/// Areas of one contender: the links of each profile, the elements already on the blank, and the areas that its calls
/// write. They are lent again as the call before left them; nothing clears them in between.
struct Areas {
    links: Vec<Links>,
    at: usize,
    before: Vec<u16>,
    marks: Vec<u16>,
    own: Vec<u16>,
    events: Vec<u16>,
    tally: [u32; 7],
    moves: u32,
    circular: u16,
}

struct Links {
    after: Vec<u16>,
    tail: Vec<u16>,
    firsts: Vec<u16>,
    tails: Vec<u16>,
}

impl Areas {
    fn new(profiles: &[Profile]) -> Self {
        let (n, m) = (usize::from(profiles[0].n), usize::from(profiles[0].m));
        let links = profiles.iter().map(|profile| Links {
            after: profile.after.clone(),
            tail: profile.tail.clone(),
            firsts: profile.firsts.clone(),
            tails: profile.tails.clone(),
        });
        Areas {
            links: links.collect(),
            at: 0,
            before: Vec::new(),
            marks: vec![0; n + m],
            own: vec![0; n],
            events: vec![0; (6 * (n + m)).max(3 + 6 * (2 * m + n))],
            tally: [0; 7],
            moves: 0,
            circular: 0,
        }
    }

    /// The next profile's turn.
    fn turn(&mut self) {
        self.at = (self.at + 1) % self.links.len();
    }

    /// All that a call may have written.
    fn left(&self) -> ([&[u16]; 6], &[u32; 7], u32, u16) {
        let links = &self.links[self.at];
        let words = [
            &links.after,
            &links.tail,
            &links.tails,
            &self.marks,
            &self.own,
            &self.events,
        ];
        let words = words.map(Vec::as_slice);
        (words, &self.tally, self.moves, self.circular)
    }
}

/// Which plain search a call is held against.
#[derive(Clone, Copy)]
enum Search {
    None,
    Depth,
    Breadth,
}

/// Nanoseconds for a call: the proved one, the same in safe Rust, and the plain search where there is one.
pub struct Row {
    pub call: &'static str,
    pub proved: f64,
    pub same: f64,
    pub plain: Option<f64>,
}

/// A call on the profile whose turn it is, by its sizes.
type Call = fn(u16, u16, &mut Areas);

fn measure(
    profiles: &[Profile],
    call: &'static str,
    search: Search,
    proved: Call,
    same: Call,
) -> Row {
    let (n, m) = (profiles[0].n, profiles[0].m);
    let (mut ours, mut theirs) = (Areas::new(profiles), Areas::new(profiles));
    same_agrees(profiles, call, proved, same);
    let mut plain: Vec<Plain> = profiles.iter().map(Plain::new).collect();
    let mut at = 0;
    let mut first = || {
        ours.turn();
        proved(n, m, &mut ours);
    };
    let mut second = || {
        theirs.turn();
        same(n, m, &mut theirs);
    };
    let mut third = || {
        at = (at + 1) % plain.len();
        match search {
            Search::None => {}
            Search::Depth => assert_eq!(plain[at].depth_first(), u32::from(n)),
            Search::Breadth => assert_eq!(plain[at].breadth_first(), u32::from(n)),
        }
    };
    let [proved, same, plain] = times(&mut [&mut first, &mut second, &mut third]);
    Row {
        call,
        proved,
        same,
        plain: (!matches!(search, Search::None)).then_some(plain),
    }
}

/// The same in safe Rust leaves what the proved call leaves, also with elements already on the blank. What is measured is
/// a call with nothing on it.
fn same_agrees(profiles: &[Profile], call: &'static str, proved: Call, same: Call) {
    let (n, m, shape) = (profiles[0].n, profiles[0].m, profiles[0].shape);
    let (mut ours, mut theirs) = (Areas::new(profiles), Areas::new(profiles));
    for before in [Vec::new(), (2..=n).step_by(7).collect()] {
        ours.before.clone_from(&before);
        theirs.before = before;
        for _ in profiles {
            proved(n, m, &mut ours);
            same(n, m, &mut theirs);
            assert!(
                ours.left() == theirs.left(),
                "{call}, {shape}: the two differ"
            );
            ours.turn();
            theirs.turn();
        }
    }
}

/// The plain searches label as the proved ones do.
fn plain_agrees(profiles: &[Profile]) {
    let (n, m, mut a) = (profiles[0].n, profiles[0].m, Areas::new(profiles));
    for profile in profiles {
        a.turn();
        let mut plain = Plain::new(&profiles[a.at]);
        let agrees = |labels: &[u32], marks: &[u16]| {
            labels.iter().zip(marks).all(|(&x, &y)| x == u32::from(y))
        };
        let links = &a.links[a.at];
        let walked = proved::dfs_recursive(
            n,
            m,
            1,
            &links.after,
            &links.tail,
            &[],
            &mut a.marks,
            &mut a.events,
        );
        plain.depth_first();
        assert!(
            walked.is_ok() && agrees(plain.labels(), &a.marks),
            "{}",
            profile.shape
        );
        let walked = proved::bfs_queue(
            n,
            m,
            1,
            &links.after,
            &links.tail,
            &[],
            &mut a.marks,
            &mut a.own,
            &mut a.events,
        );
        plain.breadth_first();
        assert!(
            walked.is_ok() && agrees(plain.labels(), &a.marks),
            "{}",
            profile.shape
        );
    }
}

/// The proved whole walks, and the same in safe Rust.
fn dfs_recursive(n: u16, m: u16, a: &mut Areas) {
    let l = &a.links[a.at];
    let walked = proved::dfs_recursive(
        n,
        m,
        1,
        &l.after,
        &l.tail,
        &a.before,
        &mut a.marks,
        &mut a.events,
    );
    a.tally = walked.unwrap().0;
}

fn same_recursive(n: u16, m: u16, a: &mut Areas) {
    let l = &a.links[a.at];
    let (marks, events) = (&mut a.marks, &mut a.events);
    let number = same::recursive(
        n,
        m,
        1,
        &l.after,
        &l.tail,
        &a.before,
        marks,
        events,
        &mut a.tally,
    );
    assert_eq!(number, 0);
}

fn dfs_parent(n: u16, m: u16, a: &mut Areas) {
    let l = &a.links[a.at];
    let (marks, own, events) = (&mut a.marks, &mut a.own, &mut a.events);
    let walked = proved::dfs_parent(n, m, 1, &l.after, &l.tail, &a.before, marks, own, events);
    a.tally = walked.unwrap().0;
}

fn same_parent(n: u16, m: u16, a: &mut Areas) {
    let l = &a.links[a.at];
    let (marks, own, events) = (&mut a.marks, &mut a.own, &mut a.events);
    let number = same::parent(
        n,
        m,
        1,
        &l.after,
        &l.tail,
        &a.before,
        marks,
        own,
        events,
        &mut a.tally,
    );
    assert_eq!(number, 0);
}

fn dfs_array(n: u16, m: u16, a: &mut Areas) {
    let l = &mut a.links[a.at];
    let (marks, own, events) = (&mut a.marks, &mut a.own, &mut a.events);
    let walked = proved::dfs_array(
        n,
        m,
        1,
        &l.firsts,
        &mut l.tails,
        &a.before,
        marks,
        own,
        events,
    );
    a.tally = walked.unwrap().0;
}

fn same_array(n: u16, m: u16, a: &mut Areas) {
    let l = &mut a.links[a.at];
    let (marks, own, events) = (&mut a.marks, &mut a.own, &mut a.events);
    let tally = &mut a.tally;
    let number = same::array(
        n,
        m,
        1,
        &l.firsts,
        &mut l.tails,
        &a.before,
        marks,
        own,
        events,
        tally,
    );
    assert_eq!(number, 0);
}

fn bfs_queue(n: u16, m: u16, a: &mut Areas) {
    let l = &a.links[a.at];
    let (marks, own, events) = (&mut a.marks, &mut a.own, &mut a.events);
    let walked = proved::bfs_queue(n, m, 1, &l.after, &l.tail, &a.before, marks, own, events);
    a.tally = walked.unwrap().0;
}

fn same_queue(n: u16, m: u16, a: &mut Areas) {
    let l = &a.links[a.at];
    let (marks, own, events) = (&mut a.marks, &mut a.own, &mut a.events);
    let number = same::queue(
        n,
        m,
        1,
        &l.after,
        &l.tail,
        &a.before,
        marks,
        own,
        events,
        &mut a.tally,
    );
    assert_eq!(number, 0);
}

fn bfs_folded(n: u16, m: u16, a: &mut Areas) {
    let l = &mut a.links[a.at];
    let (marks, events) = (&mut a.marks, &mut a.events);
    let walked = proved::bfs_folded(n, m, 1, &mut l.after, &l.tail, &a.before, marks, events);
    a.tally = walked.unwrap().0;
}

fn same_folded_queue(n: u16, m: u16, a: &mut Areas) {
    let l = &mut a.links[a.at];
    let (marks, events) = (&mut a.marks, &mut a.events);
    let number = same::folded_queue(
        n,
        m,
        1,
        &mut l.after,
        &l.tail,
        &a.before,
        marks,
        events,
        &mut a.tally,
    );
    assert_eq!(number, 0);
}

/// The folded depth-first walk: an opening, and one run that ends it.
fn open_and_run(n: u16, m: u16, a: &mut Areas) {
    let l = &mut a.links[a.at];
    let (marks, events) = (&mut a.marks, &mut a.events);
    let mut state = proved::open(n, m, 1, &l.after, &l.tail, &a.before, marks, events).unwrap();
    let budget = 2 * u32::from(m) + u32::from(n);
    let (after, tail) = (&mut l.after, &mut l.tail);
    let ran = proved::run(&mut state, budget, after, tail, marks, &mut events[3..]).unwrap();
    assert_eq!(ran.reason, proved::Reason::Ended);
    (a.moves, a.circular) = (ran.steps, state.circular());
}

fn same_open_and_run(n: u16, m: u16, a: &mut Areas) {
    let l = &mut a.links[a.at];
    let (marks, events) = (&mut a.marks, &mut a.events);
    let Ok(mut state) = same::open(n, m, 1, &l.after, &l.tail, &a.before, marks, events) else {
        panic!("refused");
    };
    let budget = 2 * u32::from(m) + u32::from(n);
    let (after, tail) = (&mut l.after, &mut l.tail);
    let ran = same::run(&mut state, budget, after, tail, marks, &mut events[3..]);
    let Ok((moves, _, 1)) = ran else {
        panic!("not ended");
    };
    (a.moves, a.circular) = (moves, state.circular());
}

/// The checker of images.
fn check_image(n: u16, m: u16, a: &mut Areas) {
    let l = &a.links[a.at];
    assert_eq!(proved::check_image(n, m, &l.after, &l.tail), Ok(()));
}

fn same_check_image(n: u16, m: u16, a: &mut Areas) {
    let l = &a.links[a.at];
    assert_eq!(same::check_image(n, m, &l.after, &l.tail), 0);
}

const CALLS: [(&str, Search, Call, Call); 7] = [
    ("check_image", Search::None, check_image, same_check_image),
    (
        "dfs_recursive",
        Search::Depth,
        dfs_recursive,
        same_recursive,
    ),
    ("dfs_parent", Search::Depth, dfs_parent, same_parent),
    ("dfs_array", Search::Depth, dfs_array, same_array),
    ("bfs_queue", Search::Breadth, bfs_queue, same_queue),
    ("bfs_folded", Search::Breadth, bfs_folded, same_folded_queue),
    ("open + run", Search::Depth, open_and_run, same_open_and_run),
];

/// Every call on profiles of one shape and size.
pub fn rows(profiles: &[Profile]) -> Vec<Row> {
    plain_agrees(profiles);
    CALLS
        .map(|(call, search, proved, same)| measure(profiles, call, search, proved, same))
        .into()
}
