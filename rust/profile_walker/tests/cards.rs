//! The cards, examples and limits that the scope document prints, with its own figures.

use profile_walker::{
    accept, areas, bfs_folded, bfs_queue, check_image, dfs_array, dfs_parent, dfs_recursive, kind,
    open, phase, read_profile, refusal_line, roll_back, run, shift_start, step, text_areas,
    to_array, walk_text, Ran, Reason, Refusal, State, MAX_MOVES, REFUSAL_BYTES,
};

const TEXT: &[u8] = b"elements,references,start\n3,4,1\nfrom,to\n1,2\n1,3\n2,3\n3,1\n";

const PRINTED: &str = "event,reference,element
1,0,1
2,4,1
1,0,2
2,6,2
1,0,3
3,7,3
4,7,3
6,0,3
5,6,2
6,0,2
5,4,1
3,5,1
4,5,1
6,0,1
elements,moves,circular
3,11,1
";

/// The links of the printed example.
const AFTER: [u16; 7] = [4, 6, 7, 5, 0, 0, 0];
const TAIL: [u16; 4] = [2, 3, 3, 1];

/// The event words of the printed lines.
fn printed_events() -> Vec<u16> {
    let lines = PRINTED.lines().skip(1).take(14);
    let words = lines.flat_map(|line| line.split(','));
    words.map(|word| word.parse().expect("a number")).collect()
}

/// The printed example, opened.
fn opened() -> (State, [u16; 7], [u16; 4], [u16; 7]) {
    let mut marks = [9; 7];
    let mut events = [9; 3];
    let state =
        open(3, 4, 1, &AFTER, &TAIL, &[], &mut marks, &mut events).expect("a sound profile");
    assert_eq!(events, [1, 0, 1]);
    assert_eq!(*state.words(), [3, 4, 1, 1, 4, 0, 1, 2, 0]);
    assert_eq!(marks, [32_769, 0, 0, 0, 0, 0, 0]);
    (state, AFTER, TAIL, marks)
}

/// A walk of a profile in one run, with elements already on the blank: its events, its moves, its marks and circular.
fn walked_on(
    n: u16,
    after: &[u16],
    tail: &[u16],
    before: &[u16],
) -> (Vec<u16>, u32, Vec<u16>, u16) {
    let m = tail.len() as u16;
    let mut marks = vec![9; after.len()];
    let mut events = vec![9; 3 + 6 * 40];
    let opened = open(n, m, 1, after, tail, before, &mut marks, &mut events);
    let mut state = opened.expect("a sound profile");
    let (mut bent_after, mut bent_tail) = (after.to_vec(), tail.to_vec());
    let ran = run(
        &mut state,
        40,
        &mut bent_after,
        &mut bent_tail,
        &mut marks,
        &mut events[3..],
    )
    .expect("a state in kind");
    assert_eq!(ran.reason, Reason::Ended);
    assert_eq!(state.phase(), phase::ENDED);
    assert_eq!((&bent_after[..], &bent_tail[..]), (after, tail));
    events.truncate(3 * (1 + ran.events));
    (events, ran.steps, marks, state.circular())
}

/// A walk with nothing on the blank: its events, its moves and its marks.
fn walked(n: u16, after: &[u16], tail: &[u16]) -> (Vec<u16>, u32, Vec<u16>) {
    let (events, moves, marks, _) = walked_on(n, after, tail, &[]);
    (events, moves, marks)
}

#[test]
fn the_text_is_read() {
    let (mut after, mut tail) = ([9; 8], [9; 5]);
    let profile = read_profile(TEXT, &mut after, &mut tail).expect("a text in its form");
    assert_eq!((profile.n, profile.m, profile.start), (3, 4, 1));
    assert_eq!(after, [4, 6, 7, 5, 0, 0, 0, 9]);
    assert_eq!(tail, [2, 3, 3, 1, 9]);
}

#[test]
fn the_walk_is_printed() {
    let mut after = vec![0; text_areas::AFTER];
    let mut tail = vec![0; text_areas::TAIL];
    let mut marks = vec![0; text_areas::MARKS];
    let mut events = vec![0; text_areas::EVENTS];
    let mut output = vec![0; text_areas::OUTPUT];
    let mut printed = 0;
    let outcome = walk_text(
        TEXT,
        &mut after,
        &mut tail,
        &mut marks,
        &mut events,
        &mut output,
        &mut printed,
    );
    assert_eq!(outcome, Ok(()));
    assert_eq!(&output[..printed], PRINTED.as_bytes());

    let text = b"elements,references,start\n2,1,1\nfrom,to\n1,3\n";
    let left = (printed, output.clone());
    let outcome = walk_text(
        text,
        &mut after,
        &mut tail,
        &mut marks,
        &mut events,
        &mut output,
        &mut printed,
    );
    assert_eq!(outcome, Err(Refusal(6)));
    assert_eq!((printed, output), left);
    let mut line = [b'?'; REFUSAL_BYTES];
    assert_eq!(refusal_line(Refusal(6), &mut line), Ok(10));
    assert_eq!(&line, b"refused,6\n????");
    assert_eq!(refusal_line(Refusal(13), &mut line[..10]), Err(Refusal(3)));
    assert_eq!(&line, b"refused,6\n????");
    assert_eq!(refusal_line(Refusal(65_535), &mut line), Ok(REFUSAL_BYTES));
    assert_eq!(&line, b"refused,65535\n");
    assert_eq!(Refusal(6).to_string(), "refused,6");
}

#[test]
fn card_1_and_2_events_and_moves() {
    let (events, moves, marks) = walked(3, &AFTER, &TAIL);
    assert_eq!(events, printed_events());
    assert_eq!(moves, 11);
    assert_eq!(marks, [1, 2, 3, 0, 0, 0, 0]);

    let (mut marks, mut events) = ([9; 7], [9; 42]);
    let tally = dfs_recursive(3, 4, 1, &AFTER, &TAIL, &[], &mut marks, &mut events);
    assert_eq!(tally.expect("a sound profile").0, [3, 2, 2, 2, 2, 3, 0]);
    assert_eq!(events.to_vec(), printed_events());
}

#[test]
fn card_3_after_two_moves() {
    let (mut state, mut after, mut tail, mut marks) = opened();
    for _ in 0..2 {
        step(&mut state, &mut after, &mut tail, &mut marks, &mut [0; 6]).expect("a move");
    }
    assert_eq!(tail, [0, 3, 1, 1]);
    assert_eq!(state.v(), 3);
    assert_eq!(state.next_label(), 4);
}

#[test]
fn card_4_winding_after_three_moves() {
    let (mut state, mut after, mut tail, mut marks) = opened();
    for _ in 0..3 {
        step(&mut state, &mut after, &mut tail, &mut marks, &mut [0; 6]).expect("a move");
    }
    roll_back(&mut state).expect("a walk under way");
    assert_eq!(state.phase(), phase::WINDING_BACK);
    let ran = run(
        &mut state,
        MAX_MOVES,
        &mut after,
        &mut tail,
        &mut marks,
        &mut vec![0; 54_000],
    );
    let wound = Ran {
        steps: 4,
        events: 0,
        reason: Reason::Ended,
    };
    assert_eq!(ran, Ok(wound));
    assert_eq!(state.phase(), phase::WITHDRAWN);
    assert_eq!((after, tail, marks), (AFTER, TAIL, [0; 7]));
}

#[test]
fn card_5_breadth_first() {
    let (mut marks, mut queue, mut events) = ([9; 7], [9; 3], [9; 42]);
    let tally = bfs_queue(
        3,
        4,
        1,
        &AFTER,
        &TAIL,
        &[],
        &mut marks,
        &mut queue,
        &mut events,
    );
    assert_eq!(tally.expect("a sound profile").events(), 10);
    let scans: Vec<u16> = events[..30]
        .chunks(3)
        .filter(|event| event[0] == kind::SCAN)
        .map(|event| event[2])
        .collect();
    assert_eq!(scans, [1, 2, 3]);
    assert_eq!(queue, [1, 2, 3]);
}

#[test]
fn card_6_7_8_small_profiles() {
    let (events, moves, _) = walked(1, &[0], &[]);
    assert_eq!((events, moves), (vec![1, 0, 1, 6, 0, 1], 1));
    let (_, moves, _) = walked(1, &[2, 0], &[1]);
    assert_eq!(moves, 3);
    let (_, _, marks) = walked(2, &[3, 0, 0], &[1]);
    assert_eq!(marks, [1, 0, 0]);
}

#[test]
fn card_9_and_the_table_of_refusals() {
    let refused = |number: u16| Err(Refusal(number));
    assert_eq!(check_image(2, 1, &[3, 3, 0], &[1]), refused(7));
    assert_eq!(check_image(0, 0, &[], &[]), refused(1));
    assert_eq!(check_image(1, 4_001, &[], &[]), refused(2));
    assert_eq!(check_image(2, 1, &[0; 2], &[1]), refused(3));
    let (mut marks, mut events) = ([0; 2], [0; 12]);
    let walk = dfs_recursive(2, 0, 3, &[0, 0], &[], &[], &mut marks, &mut events);
    assert_eq!(walk.map(|_| ()), refused(4));
    assert_eq!(check_image(1, 1, &[1, 0], &[1]), refused(5));
    assert_eq!(check_image(1, 1, &[2, 0], &[0]), refused(6));
    let mut state = State::from([2, 0, 1, 3, 0, 0, 1, 2, 0]);
    assert_eq!(roll_back(&mut state), refused(8));

    let mut ended = State::from([1, 0, 1, 1, 0, 0, 3, 2, 0]);
    let ran = step(&mut ended, &mut [0], &mut [], &mut [0], &mut [0; 6]);
    assert_eq!(ran.map(|_| ()), refused(9));
    let mut walking = State::from([1, 0, 1, 1, 0, 0, 1, 2, 0]);
    assert_eq!(accept(&mut walking, &mut 0), refused(10));
    assert_eq!(accept(&mut ended, &mut 999_999), refused(11));

    let (mut after, mut tail) = ([0; 5], [0; 5]);
    let semicolon = b"elements,references,start\n1,0,1\nfrom;to\n";
    let read = read_profile(semicolon, &mut after, &mut tail);
    assert_eq!(read.map(|_| ()), refused(12));
    let read = read_profile(&[b'1'; 65_537], &mut after, &mut tail);
    assert_eq!(read.map(|_| ()), refused(13));
    assert_eq!(areas::roll_back(&mut [1; 8]), refused(3));
}

#[test]
fn the_two_corrections() {
    // Two references from 1 to 2: the second one does not search 2 again, and its increment is 1.
    let (mut firsts, mut tails, mut numbers) = ([0; 3], [0; 2], [0; 2]);
    let (after, tail) = ([3, 0, 4, 0], [2, 2]);
    let converted = to_array(2, 2, &after, &tail, &mut firsts, &mut tails, &mut numbers);
    assert_eq!(converted, Ok(()));
    assert_eq!((firsts, tails, numbers), ([1, 3, 3], [2, 2], [3, 4]));
    let (mut marks, mut increments, mut events) = ([0; 4], [0; 2], [0; 24]);
    let tally = dfs_array(
        2,
        2,
        1,
        &firsts,
        &mut tails,
        &[],
        &mut marks,
        &mut increments,
        &mut events,
    );
    assert_eq!(tally.expect("an array form").0, [2, 1, 1, 1, 1, 2, 0]);
    assert_eq!(increments, [1, 1]);
    assert_eq!(tails, [2, 2]);

    // A chain 1, 2, 3: the parent word of 3 is the reference into 2, that of 2 is 0.
    let (mut marks, mut parents, mut events) = ([0; 5], [9; 3], [0; 30]);
    let (after, tail) = ([4, 5, 0, 0, 0], [2, 3]);
    let tally = dfs_parent(
        3,
        2,
        1,
        &after,
        &tail,
        &[],
        &mut marks,
        &mut parents,
        &mut events,
    );
    assert!(tally.is_ok());
    assert_eq!(parents, [0, 0, 4]);
}

#[test]
fn the_printed_example_with_elements_on_the_blank() {
    // With 3 on the blank, the references to it are nontree, the one from it is not met, and there is no circle.
    let (events, moves, marks, circular) = walked_on(3, &AFTER, &TAIL, &[3]);
    let expected = [
        [1, 0, 1],
        [2, 4, 1],
        [1, 0, 2],
        [3, 6, 2],
        [4, 6, 2],
        [6, 0, 2],
        [5, 4, 1],
        [3, 5, 1],
        [4, 5, 1],
        [6, 0, 1],
    ];
    assert_eq!(events, expected.concat());
    assert_eq!((moves, circular), (8, 0));
    assert_eq!(marks, [1, 2, 65_535, 0, 0, 0, 0]);

    let (events, moves, marks, circular) = walked_on(3, &AFTER, &TAIL, &[2, 3]);
    let expected = [
        [1, 0, 1],
        [3, 4, 1],
        [4, 4, 1],
        [3, 5, 1],
        [4, 5, 1],
        [6, 0, 1],
    ];
    assert_eq!(events, expected.concat());
    assert_eq!((moves, circular), (5, 0));
    assert_eq!(marks, [1, 65_535, 65_535, 0, 0, 0, 0]);

    // With 2 on the blank, 1 and 3 are still on a circle.
    let (_, moves, marks, circular) = walked_on(3, &AFTER, &TAIL, &[2]);
    assert_eq!((moves, circular), (8, 1));
    assert_eq!(marks, [1, 65_535, 2, 0, 0, 0, 0]);
}

#[test]
fn wound_back_with_an_element_on_the_blank() {
    for moves in 0..8 {
        let (mut after, mut tail, mut marks) = (AFTER, TAIL, [9; 7]);
        let opened = open(3, 4, 1, &AFTER, &TAIL, &[3], &mut marks, &mut [0; 3]);
        let mut state = opened.expect("a sound profile");
        assert_eq!(marks, [32_769, 0, 65_535, 0, 0, 0, 0]);
        for _ in 0..moves {
            step(&mut state, &mut after, &mut tail, &mut marks, &mut [0; 6]).expect("a move");
        }
        roll_back(&mut state).expect("a walk under way");
        while state.phase() != phase::WITHDRAWN {
            step(&mut state, &mut after, &mut tail, &mut marks, &mut [0; 6]).expect("a move");
        }
        assert_eq!((after, tail), (AFTER, TAIL));
        assert_eq!(marks, [0, 0, 65_535, 0, 0, 0, 0]);
    }
}

#[test]
fn breadth_first_with_an_element_on_the_blank() {
    let (mut marks, mut queue, mut events) = ([9; 7], [9; 3], [9; 42]);
    let tally = bfs_queue(
        3,
        4,
        1,
        &AFTER,
        &TAIL,
        &[3],
        &mut marks,
        &mut queue,
        &mut events,
    );
    assert_eq!(tally.expect("a sound profile").0, [2, 0, 0, 0, 0, 2, 3]);
    let expected = [
        [1, 0, 1],
        [7, 4, 1],
        [1, 0, 2],
        [7, 5, 1],
        [6, 0, 1],
        [7, 6, 2],
        [6, 0, 2],
    ];
    assert_eq!(events[..21], expected.concat());
    assert_eq!(queue, [1, 2, 0]);
    assert_eq!(marks, [1, 2, 65_535, 0, 0, 0, 0]);

    let (mut marks, mut folded_events, mut after) = ([9; 7], [9; 42], AFTER);
    let folded = bfs_folded(
        3,
        4,
        1,
        &mut after,
        &TAIL,
        &[3],
        &mut marks,
        &mut folded_events,
    );
    assert_eq!(folded, tally);
    assert_eq!((after, folded_events), (AFTER, events));
    assert_eq!(marks, [1, 2, 65_535, 0, 0, 0, 0]);
}

#[test]
fn parents_and_increments_with_an_element_on_the_blank() {
    // 1 refers to 3 and 2, 2 to 3 and 4; 3, on the blank, has neither parent nor increment.
    let (after, tail) = ([5, 7, 0, 0, 6, 0, 8, 0], [3, 2, 3, 4]);
    let (mut marks, mut parents, mut events) = ([9; 8], [9; 4], [9; 48]);
    let tally = dfs_parent(
        4,
        4,
        1,
        &after,
        &tail,
        &[3],
        &mut marks,
        &mut parents,
        &mut events,
    );
    assert_eq!(tally.expect("a sound profile").0, [3, 2, 2, 2, 2, 3, 0]);
    assert_eq!(parents, [0, 0, 0, 6]);
    assert_eq!(marks, [1, 2, 65_535, 3, 0, 0, 0, 0]);

    let (firsts, mut tails) = ([1, 3, 5, 5, 5], tail);
    let (mut marks, mut increments) = ([9; 8], [9; 4]);
    let walked = dfs_array(
        4,
        4,
        1,
        &firsts,
        &mut tails,
        &[3],
        &mut marks,
        &mut increments,
        &mut events,
    );
    assert_eq!(walked, tally);
    assert_eq!(increments, [2, 2, 0, 1]);
    assert_eq!(marks, [1, 2, 65_535, 3, 0, 0, 0, 0]);
    assert_eq!(tails, tail);
}

/// The number with which an opening of the printed example is turned back; it has changed nothing.
fn opening_number(start: u16, after: &[u16], before: &[u16]) -> u16 {
    let (mut marks, mut events) = ([9; 7], [9; 3]);
    let opened = open(3, 4, start, after, &TAIL, before, &mut marks, &mut events);
    assert_eq!((marks, events), ([9; 7], [9; 3]));
    opened.expect_err("turned back").0
}

#[test]
fn the_numbers_of_lists() {
    for before in [
        &[0][..],
        &[2, 2],
        &[4],
        &[3, 2],
        &[2, 3, 3, 3],
        &[0, 0, 0, 0, 0],
        &[65_535],
    ] {
        assert_eq!(opening_number(1, &AFTER, before), 17, "{before:?}");
    }
    // The whole list is judged before the start is looked for on it.
    for before in [&[2, 1][..], &[1, 1], &[1, 4], &[0, 1], &[1, 2, 3, 1]] {
        assert_eq!(opening_number(1, &AFTER, before), 17, "{before:?}");
    }
    for before in [&[1][..], &[1, 2], &[1, 3], &[1, 2, 3]] {
        assert_eq!(opening_number(1, &AFTER, before), 18, "{before:?}");
    }
    assert_eq!(opening_number(3, &AFTER, &[1, 2, 3]), 18);
    // The image comes before the list, and the start before both.
    let twice = [4, 6, 7, 5, 0, 6, 0];
    assert_eq!(opening_number(1, &twice, &[0]), 7);
    assert_eq!(opening_number(1, &twice, &[1]), 7);
    assert_eq!(opening_number(4, &AFTER, &[4]), 4);
    assert_eq!(opening_number(4, &twice, &[4]), 4);

    let one = open(1, 0, 1, &[0], &[], &[1], &mut [0], &mut [0; 3]);
    assert_eq!(one.map(|_| ()), Err(Refusal(18)));
}

#[test]
fn the_limits() {
    assert_eq!(check_image(1_000, 0, &[0; 1_000], &[]), Ok(()));
    assert_eq!(check_image(1_001, 0, &[0; 1_001], &[]), Err(Refusal(1)));
    let mut after: Vec<u16> = (2..=4_001).collect();
    after.push(0);
    assert_eq!(check_image(1, 4_000, &after, &[1; 4_000]), Ok(()));
    after.push(0);
    assert_eq!(check_image(1, 4_001, &after, &[1; 4_001]), Err(Refusal(2)));

    let ended = State::from([1, 0, 1, 1, 0, 0, 3, 2, 0]);
    let mut figure = 999_998;
    let mut card = ended;
    assert_eq!(accept(&mut card, &mut figure), Ok(()));
    assert_eq!((figure, card.phase()), (999_999, phase::ACCEPTED));
    let mut card = ended;
    assert_eq!(accept(&mut card, &mut figure), Err(Refusal(11)));
    assert_eq!((figure, card), (999_999, ended));
    shift_start(&mut figure);
    assert_eq!(figure, 0);
}
