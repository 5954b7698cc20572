//! Texts, images, array forms, and lists of elements already on the blank that are turned back; the lines of refusals.

use profile_walker::{
    areas, bfs_folded, bfs_queue, check_image, dfs_array, dfs_parent, dfs_recursive, open,
    read_profile, to_array,
};
use std::fmt::Write;

/// A name for each text that is turned back, with the text.
pub fn texts() -> Vec<(&'static str, String)> {
    let head = "elements,references,start\n";
    let lines = |n: u32, m: u32, start: u32, lines: &str| {
        format!("{head}{n},{m},{start}\nfrom,to\n{lines}")
    };
    // Too many references, with numbers of three digits and more: 65,536 bytes for an n of four digits.
    let in_three = |n: &str| {
        let lines = "001,001\n".repeat(8186);
        format!("{head}{n},8186,001\nfrom,to\n{lines}")
    };
    vec![
        ("no_element", lines(0, 0, 0, "")),
        ("elements_1001", lines(1001, 0, 1, "")),
        ("references_4001", lines(1, 4001, 1, &"1,1\n".repeat(4001))),
        ("start_past_n", lines(2, 0, 3, "")),
        ("start_0", lines(2, 0, 0, "")),
        ("from_past_n", lines(2, 1, 1, "3,1\n")),
        ("to_0", lines(2, 1, 1, "1,0\n")),
        ("line_missing", lines(2, 2, 1, "1,2\n")),
        ("line_too_many", lines(2, 1, 1, "1,2\n2,1\n")),
        ("six_digits", lines(2, 1, 1, "000001,2\n")),
        ("number_65536", lines(2, 1, 1, "65536,2\n")),
        ("five_digits_99999", lines(2, 1, 1, "99999,2\n")),
        ("semicolon", lines(2, 1, 1, "1;2\n")),
        ("no_last_line_feed", lines(2, 1, 1, "1,2")),
        ("names_of_lines", format!("{head}2,1,1\nfrom;to\n1,2\n")),
        ("empty", String::new()),
        ("bytes_65537", lines(1, 0, 1, &" ".repeat(65_537 - 40))),
        ("padded_65536", in_three("1000")),
        ("padded_65537", in_three("10000")),
    ]
}

/// The number of each of these texts.
pub fn text_numbers() -> String {
    let mut rows = String::from("text,number\n");
    for (name, text) in texts() {
        let (mut after, mut tail) = (vec![0; 5000], vec![0; 4000]);
        let refusal =
            read_profile(text.as_bytes(), &mut after, &mut tail).expect_err("turned back");
        writeln!(rows, "{name},{}", refusal.0).unwrap();
    }
    rows
}

/// Images with the number of each: n, m, the after words, the tail words, the number.
pub fn images() -> String {
    let cases: [(u16, u16, &[u16], &[u16]); 16] = [
        (0, 0, &[], &[]),
        (1001, 0, &[], &[]),
        (1, 4001, &[], &[]),
        (2, 1, &[0, 0], &[1]),
        (2, 1, &[0, 0, 0], &[]),
        (1, 1, &[1, 0], &[1]),
        (1, 1, &[3, 0], &[1]),
        (2, 1, &[3, 0, 2], &[1]),
        (1, 1, &[2, 0], &[0]),
        (1, 1, &[2, 0], &[2]),
        (2, 1, &[3, 3, 0], &[1]),
        (1, 1, &[0, 0], &[1]),
        (1, 1, &[2, 2], &[1]),
        (1, 2, &[2, 3, 2], &[1, 1]),
        (1, 1, &[2, 0], &[1]),
        (3, 4, &[4, 6, 7, 5, 0, 0, 0], &[2, 3, 3, 1]),
    ];
    let mut rows = String::from("n,m,after,tail,number\n");
    for (n, m, after, tail) in cases {
        let number = check_image(n, m, after, tail).map_or_else(|k| k.0, |()| 0);
        writeln!(rows, "{n},{m},{},{},{number}", spaced(after), spaced(tail)).unwrap();
    }
    rows
}

/// The words with a space between them.
fn spaced(words: &[u16]) -> String {
    let words: Vec<_> = words.iter().map(u16::to_string).collect();
    words.join(" ")
}

/// An image with a start, whose after and tail words are as many as stated.
struct Image<'a> {
    n: u16,
    m: u16,
    start: u16,
    after: &'a [u16],
    tail: &'a [u16],
}

/// Images, starts and lists of elements already on the blank.
fn list_cases() -> [(Image<'static>, &'static [u16]); 24] {
    let printed = |start: u16| Image {
        n: 3,
        m: 4,
        start,
        after: &[4, 6, 7, 5, 0, 0, 0],
        tail: &[2, 3, 3, 1],
    };
    let one = || Image {
        n: 1,
        m: 0,
        start: 1,
        after: &[0],
        tail: &[],
    };
    let on_two_lists = Image {
        after: &[4, 6, 7, 5, 0, 6, 0],
        ..printed(1)
    };
    let to_no_element = Image {
        tail: &[2, 3, 4, 1],
        ..printed(1)
    };
    [
        (printed(1), &[]),
        (printed(1), &[3]),
        (printed(1), &[2, 3]),
        (printed(1), &[0]),
        (printed(1), &[4]),
        (printed(1), &[65_535]),
        (printed(1), &[2, 2]),
        (printed(1), &[3, 2]),
        (printed(1), &[2, 3, 4]),
        (printed(1), &[2, 3, 3, 3]),
        (printed(1), &[0, 1, 2, 3]),
        (printed(1), &[2, 1]),
        (printed(1), &[1, 1]),
        (printed(1), &[1, 4]),
        (printed(1), &[1]),
        (printed(1), &[1, 2, 3]),
        (printed(3), &[1, 2]),
        (printed(3), &[1, 2, 3]),
        (printed(4), &[4]),
        (printed(4), &[0]),
        (on_two_lists, &[0]),
        (to_no_element, &[1]),
        (one(), &[]),
        (one(), &[1]),
    ]
}

/// Lists with the number of each: n, m, start, the after words, the tail words, the list, the number.
pub fn lists() -> String {
    let mut rows = String::from("n,m,start,after,tail,before,number\n");
    for (image, before) in list_cases() {
        let Image {
            n,
            m,
            start,
            after,
            tail,
        } = image;
        let number = list_number(&image, before);
        let [after, tail, before] = [after, tail, before].map(spaced);
        writeln!(rows, "{n},{m},{start},{after},{tail},{before},{number}").unwrap();
    }
    rows
}

/// The number of an opening, which every walk returns too. The array form is walked where the image can be converted.
fn list_number(image: &Image, before: &[u16]) -> u16 {
    let &Image {
        n,
        m,
        start,
        after,
        tail,
    } = image;
    let (mut marks, mut own) = (vec![0; after.len()], vec![0; usize::from(n)]);
    let mut events = vec![0; 6 * after.len()];
    let (k, v, o) = (&mut marks, &mut events, &mut own);
    let number = open(n, m, start, after, tail, before, k, v).map_or_else(|k| k.0, |_| 0);
    let mut walks = vec![
        dfs_recursive(n, m, start, after, tail, before, k, v),
        dfs_parent(n, m, start, after, tail, before, k, o, v),
        bfs_queue(n, m, start, after, tail, before, k, o, v),
        bfs_folded(n, m, start, &mut after.to_vec(), tail, before, k, v),
    ];
    let mut firsts = vec![0; usize::from(n) + 1];
    let (mut tails, mut numbers) = (tail.to_vec(), tail.to_vec());
    if to_array(n, m, after, tail, &mut firsts, &mut tails, &mut numbers).is_ok() {
        walks.push(dfs_array(n, m, start, &firsts, &mut tails, before, k, o, v));
    }
    for walk in walks {
        assert_eq!(walk.map_or_else(|k| k.0, |_| 0), number);
    }
    number
}

/// A start, first positions, tails and a list.
type ArrayCase = (u16, [u16; 4], [u16; 4], &'static [u16]);

/// Array forms of three elements and four references with a list and the number of each: n, m, start, the first
/// positions, the tails, the list, the number.
pub fn arrays() -> String {
    let (firsts, tails) = ([1, 3, 4, 5], [2, 3, 3, 1]);
    let cases: [ArrayCase; 13] = [
        (1, firsts, tails, &[]),
        (1, firsts, tails, &[3]),
        (1, firsts, tails, &[0]),
        (1, firsts, tails, &[2, 1]),
        (1, firsts, tails, &[1]),
        (1, [0, 3, 4, 5], tails, &[]),
        (1, [1, 3, 2, 5], tails, &[0]),
        (1, [1, 3, 4, 6], tails, &[1]),
        (1, firsts, [2, 3, 4, 1], &[]),
        (1, firsts, [2, 3, 0, 1], &[0]),
        (1, firsts, [2, 3, 4, 1], &[1]),
        (4, firsts, tails, &[4]),
        (0, [0, 3, 4, 5], tails, &[0]),
    ];
    let mut rows = String::from("n,m,start,firsts,tails,before,number\n");
    for (start, firsts, mut tails, before) in cases {
        let (mut marks, mut increments, mut events) = ([0; 7], [0; 3], [0; 42]);
        let (k, i, v) = (&mut marks, &mut increments, &mut events);
        let walked = dfs_array(3, 4, start, &firsts, &mut tails, before, k, i, v);
        let number = walked.map_or_else(|k| k.0, |_| 0);
        let [firsts, tails, before] = [&firsts, &tails, before].map(spaced);
        writeln!(rows, "3,4,{start},{firsts},{tails},{before},{number}").unwrap();
    }
    rows
}

/// Refusals with what is printed of each: the number, the bytes lent, which are dots, and the word for the bytes
/// printed; then what the call returns, that word, and the bytes as it leaves them.
pub fn lines() -> String {
    let mut rows = String::from("refusal,bytes,word,number,printed,output\n");
    let exact = [
        0, 1, 6, 9, 10, 12, 13, 99, 100, 999, 1000, 9999, 10_000, 65_535,
    ]
    .map(|refusal: u16| (refusal, format!("refused,{refusal}\n").len()));
    let others = [
        (6, 0),
        (6, 9),
        (6, 11),
        (6, 14),
        (12, 10),
        (65_535, 13),
        (65_535, 20),
    ];
    for (refusal, bytes) in exact.into_iter().chain(others) {
        let mut output = vec![b'.'; bytes];
        let mut printed = 77;
        let refused = areas::refusal_line(refusal, &mut output, &mut printed);
        let number = refused.map_or_else(|k| k.0, |()| 0);
        let output: Vec<_> = output.into_iter().map(u16::from).collect();
        let output = spaced(&output);
        writeln!(rows, "{refusal},{bytes},77,{number},{printed},{output}").unwrap();
    }
    rows
}
