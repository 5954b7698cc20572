//! read_profile, walk_text and refusal_line.

use crate::lent::{read_profile, refusal_line, walk_text, Line, Print, Text};
use crate::padding::{by_chance, in_full, padded, to_bytes};
use crate::profiles::{fits, lengths, shaped, small, sound, text, Fit};
use crate::rng::Rng;
use crate::table::Table;

/// The example that the scope document prints.
const EXAMPLE: &[u8] = b"elements,references,start\n3,4,1\nfrom,to\n1,2\n1,3\n2,3\n3,1\n";

/// What walk_text needs, whatever the text.
const NEEDED: [usize; 5] = [5_000, 4_000, 5_000, 54_003, 180_066];

/// The heading of the texts that were compared with their padded ones.
const ALIKE: &str = "text and padded text alike";

/// The heading of the padded texts that were compared, and have more bytes than a text may have.
const TOO_LONG: &str = "text too long by padding alone";

pub fn compare(table: &mut Table) {
    let mut rng = Rng::new(3);
    every_change_of_one_byte(table, &mut rng, EXAMPLE);
    for _ in 0..6_000 {
        let sound = small(&mut rng);
        let text = sound.text();
        assert_eq!(read(table, &mut rng, &text, Fit::Longer), 0);
        for _ in 0..6 {
            let damaged = damaged(&mut rng, &text);
            read(table, &mut rng, &damaged, Fit::Exact);
        }
        for fit in fits(2) {
            read(table, &mut rng, &text, fit);
        }
    }
    for round in 0..1_500 {
        let sound = small(&mut rng);
        let text = sound.text();
        assert_eq!(print(table, &mut rng, &text, Fit::Exact), 0);
        let damaged = damaged(&mut rng, &text);
        print(table, &mut rng, &damaged, Fit::Longer);
        if round % 20 == 0 {
            for fit in fits(5) {
                print(table, &mut rng, &text, fit);
                print(table, &mut rng, &damaged, fit);
            }
        }
    }
    for shape in 0..26 {
        let sound = shaped(&mut rng, shape, 1_000, 4_000);
        let text = sound.text();
        assert_eq!(read(table, &mut rng, &text, Fit::Exact), 0);
        assert_eq!(print(table, &mut rng, &text, Fit::Longer), 0);
        let damaged = damaged(&mut rng, &text);
        read(table, &mut rng, &damaged, Fit::Longer);
        print(table, &mut rng, &damaged, Fit::Exact);
    }
    for _ in 0..60 {
        let sound = sound(&mut rng, 300, 1_000);
        let text = sound.text();
        assert_eq!(read(table, &mut rng, &text, Fit::Exact), 0);
        assert_eq!(print(table, &mut rng, &text, Fit::Exact), 0);
    }
    for _ in 0..60 {
        // More references than there may be, all in good form, and then not.
        let references = rng.between(4_001, 8_000);
        let text = text(
            rng.pick(&[1, 2, 0]),
            references as u16,
            1,
            &vec![(1, 2); references],
        );
        read(table, &mut rng, &text, Fit::Longer);
        let damaged = damaged(&mut rng, &text);
        read(table, &mut rng, &damaged, Fit::Longer);
    }
    values(table, &mut rng);
    long_texts(table, &mut rng);
    short_outputs(table, &mut rng);
    refusals(table, &mut rng);
    every_change_of_one_byte(table, &mut rng, &in_full(EXAMPLE));
    every_number(table, &mut rng);
    paddings(table, &mut rng);
}

/// The sizes that a text says, as far as its second line has two numbers.
fn sizes(text: &[u8]) -> Option<(usize, usize)> {
    let line = text.split(|&byte| byte == b'\n').nth(1)?;
    let line = std::str::from_utf8(line).ok()?;
    let mut values = line.split(',').map(|word| word.parse::<usize>());
    let n = values.next()?.ok()?;
    let m = values.next()?.ok()?;
    (n <= 1_000 && m <= 4_000).then_some((n, m))
}

/// What read_profile is lent for a text: areas of this fit.
fn to_read(rng: &mut Rng, text: &[u8], fit: Fit) -> Text {
    let (n, m) = sizes(text).unwrap_or((3, 4));
    let [a, t] = lengths(rng, [n + m, m], fit);
    Text {
        text: text.to_vec().into(),
        after: rng.noise(a),
        tail: rng.noise(t),
        n: rng.word(),
        m: rng.word(),
        start: rng.word(),
    }
}

/// Reads a text into areas of this fit; the number.
fn read(table: &mut Table, rng: &mut Rng, text: &[u8], fit: Fit) -> u16 {
    read_profile(table, &to_read(rng, text, fit)).0
}

/// What walk_text is lent for a text: areas of these lengths.
fn to_print(rng: &mut Rng, text: &[u8], lengths: [usize; 5]) -> Print {
    let [a, t, marks, events, output] = lengths;
    // One word of noise repeated serves areas as long as these.
    let noise = rng.word();
    Print {
        text: text.to_vec().into(),
        after: vec![noise; a].into(),
        tail: vec![noise; t].into(),
        marks: vec![noise; marks].into(),
        events: vec![noise; events].into(),
        output: vec![noise as u8; output].into(),
        printed: usize::from(rng.word()),
    }
}

/// Prints the walk of a text with areas of this fit; the number.
fn print(table: &mut Table, rng: &mut Rng, text: &[u8], fit: Fit) -> u16 {
    let lengths = lengths(rng, NEEDED, fit);
    walk_text(table, &to_print(rng, text, lengths)).0
}

/// Reads and prints a text and the same text padded, both into areas of this fit with equal noise: they get one number
/// and leave every area alike. The number of the two that are printed.
fn alike(table: &mut Table, rng: &mut Rng, text: &[u8], padded: &[u8], fit: Fit) -> u16 {
    let lent = to_read(rng, text, fit);
    let (number, left) = read_profile(table, &lent);
    let lent = Text {
        text: padded.to_vec().into(),
        ..lent
    };
    let (padded_number, padded_left) = read_profile(table, &lent);
    let same = Text {
        text: left.text.clone(),
        ..padded_left
    };
    assert!(
        padded_number == number && same == left,
        "read_profile: {number}, padded {padded_number} on {}",
        String::from_utf8_lossy(padded)
    );
    table.meet(ALIKE, format!("read, {number}"));

    let lengths = lengths(rng, NEEDED, fit);
    let lent = to_print(rng, text, lengths);
    let (number, left) = walk_text(table, &lent);
    let lent = Print {
        text: padded.to_vec().into(),
        ..lent
    };
    let (padded_number, padded_left) = walk_text(table, &lent);
    let same = Print {
        text: left.text.clone(),
        ..padded_left
    };
    assert!(
        padded_number == number && same == left,
        "walk_text: {number}, padded {padded_number} on {}",
        String::from_utf8_lossy(padded)
    );
    table.meet(ALIKE, format!("printed, {number}"));
    number
}

/// A text in its form with each byte left out, and with each of the 256 bytes put in its place or before it.
fn every_change_of_one_byte(table: &mut Table, rng: &mut Rng, text: &[u8]) {
    assert_eq!(read(table, rng, text, Fit::Exact), 0);
    assert_eq!(print(table, rng, text, Fit::Exact), 0);
    for at in 0..=text.len() {
        for byte in 0..=u8::MAX {
            let mut inserted = text.to_vec();
            inserted.insert(at, byte);
            read(table, rng, &inserted, Fit::Longer);
            if at < text.len() {
                let mut replaced = text.to_vec();
                replaced[at] = byte;
                read(table, rng, &replaced, Fit::Longer);
            }
        }
        let mut cut = text.to_vec();
        cut.truncate(at);
        read(table, rng, &cut, Fit::Longer);
        if at < text.len() {
            let mut without = text.to_vec();
            without.remove(at);
            read(table, rng, &without, Fit::Longer);
        }
    }
}

/// A text with one thing changed: its form, or a value.
fn damaged(rng: &mut Rng, text: &[u8]) -> Vec<u8> {
    let mut lines: Vec<Vec<u8>> = text.split(|&b| b == b'\n').map(<[u8]>::to_vec).collect();
    // What follows the last line feed.
    let end = lines.pop().unwrap_or_default();
    let at = rng.below(lines.len());
    match rng.below(12) {
        0 => {
            lines.remove(at);
        }
        1 => lines.insert(at, lines[rng.below(lines.len())].clone()),
        2 => lines.insert(at, Vec::new()),
        3 => lines.swap(0, at),
        4 => lines[at].push(rng.pick(b",\r 0;x")),
        5 => lines[at].insert(0, rng.pick(b",+- 0x")),
        6 => {
            let missing = [&lines.join(&b'\n')[..], &end[..]].concat();
            return missing;
        }
        7 => {
            let more: &[u8] = rng.pick(&[b"\n" as &[u8], b"x", b"1,1", b"1,1\n", b"\0", b" "]);
            return [text, more].concat();
        }
        _ => {
            // Another number in a line of values.
            let at = if lines.len() > 3 && rng.one_in(2) {
                rng.between(3, lines.len() - 1)
            } else {
                1
            };
            let line = String::from_utf8_lossy(&lines[at]).into_owned();
            let mut words: Vec<&str> = line.split(',').collect();
            let place = rng.below(words.len());
            words[place] = rng.pick(&[
                "0",
                "1",
                "2",
                "3",
                "12",
                "13",
                "999",
                "1000",
                "1001",
                "4000",
                "4001",
                "5000",
                "65535",
                "65536",
                "99999",
                "100000",
                "655350",
                "01",
                "00",
                "00001",
                "00000",
                "00012",
                "000001",
                "065535",
                "00000000000012",
                "",
                "-1",
                "+1",
                "1 ",
                " 1",
                "1.0",
                "x",
                "0x1",
                "18446744073709551617",
                "\u{661}",
            ]);
            lines[at] = words.join(",").into_bytes();
        }
    }
    let mut text = lines.join(&b'\n');
    text.push(b'\n');
    [text, end].concat()
}

/// Values in a good form: each number of the table, and which of them comes first.
fn values(table: &mut Table, rng: &mut Rng) {
    let lines = |count: usize, pair: (u16, u16)| vec![pair; count];
    let good = (1, 1);
    let cases = [
        (0, text(1, 0, 1, &[])),
        (0, text(1_000, 4_000, 1_000, &lines(4_000, (1_000, 1_000)))),
        (1, text(0, 0, 1, &[])),
        (1, text(1_001, 0, 1, &[])),
        (1, text(65_535, 0, 1, &[])),
        (2, text(1, 4_001, 1, &lines(4_001, good))),
        (2, text(1_000, 5_000, 1, &lines(5_000, good))),
        (12, text(1, 4_001, 1, &lines(4_000, good))),
        (12, text(1, 4_001, 1, &lines(4_002, good))),
        (12, text(1, 65_535, 1, &lines(4_000, good))),
        (1, text(0, 4_001, 0, &lines(4_001, (0, 0)))),
        (2, text(1, 4_001, 0, &lines(4_001, (0, 0)))),
        (4, text(2, 1, 0, &[(0, 3)])),
        (4, text(2, 1, 3, &[(1, 1)])),
        (4, text(2, 1, 65_535, &[(1, 1)])),
        (6, text(2, 1, 2, &[(0, 1)])),
        (6, text(2, 1, 2, &[(1, 0)])),
        (6, text(2, 1, 2, &[(3, 1)])),
        (6, text(2, 2, 2, &[(1, 1), (1, 65_535)])),
        (12, [&text(2, 2, 2, &[(3, 1)])[..], b"x\n"].concat()),
        (12, Vec::new()),
        (12, b"\n".to_vec()),
        (12, b"elements,references,start\n1,0,1\nfrom;to\n".to_vec()),
        (12, b"elements,references,start\n1,0,1\nfrom,to".to_vec()),
        (12, b"elements,references,start\n1,0\nfrom,to\n".to_vec()),
        (
            12,
            b"elements,references,start\n1,0,1,1\nfrom,to\n".to_vec(),
        ),
        (
            12,
            b"elements,references,start\n1,0,65536\nfrom,to\n".to_vec(),
        ),
        (
            12,
            b"elements,references,start\r\n1,0,1\r\nfrom,to\r\n".to_vec(),
        ),
    ];
    for (number, text) in &cases {
        assert_eq!(read(table, rng, text, Fit::Longer), *number);
        assert_eq!(print(table, rng, text, Fit::Exact), *number);
        let padded = in_full(text);
        assert_eq!(alike(table, rng, text, &padded, Fit::Exact), *number);
    }
    // The line of values with and without zeros before them.
    let padded = [
        (0, "01,0,1"),
        (0, "00001,00000,00001"),
        (0, "12,00,00012"),
        (0, "0012,0,012"),
        (1, "00000,00000,00001"),
        (1, "01001,0,1"),
        (1, "65535,0,1"),
        (4, "00012,00000,00013"),
        (4, "1,0,00000"),
        (4, "1,0,065"),
        (12, "000001,0,1"),
        (12, "1,000000,1"),
        (12, "1,0,000001"),
        (12, "000012,0,12"),
        (12, "065535,0,1"),
        (12, "65536,0,1"),
        (12, "1,0,99999"),
        (12, "1,0,00000000000012"),
        (12, "01,00001,1"),
        (12, "+0001,0,1"),
    ];
    for (number, values) in padded {
        let text = format!("elements,references,start\n{values}\nfrom,to\n").into_bytes();
        assert_eq!(read(table, rng, &text, Fit::Longer), number);
        assert_eq!(print(table, rng, &text, Fit::Exact), number);
    }
    // A short area comes after the form and the sizes, and before start, from and to.
    let bad_start = text(2, 1, 0, &[(0, 3)]);
    for fit in [Fit::Short(0), Fit::Short(1), Fit::Empty(0), Fit::Empty(1)] {
        assert_eq!(read(table, rng, &bad_start, fit), 3);
        assert_eq!(print(table, rng, &bad_start, fit), 3);
        let bad_n = text(0, 1, 0, &[(0, 3)]);
        assert_eq!(read(table, rng, &bad_n, fit), 1);
        assert_eq!(print(table, rng, &bad_n, fit), 1);
    }
}

/// A good form of exactly so many bytes, which needs more than 4,000 references.
fn form_of(bytes: usize, n: u16, references: usize) -> Vec<u8> {
    let mut pairs: Vec<(u16, u16)> = vec![(1, 1); references];
    let mut made = text(n, references as u16, 1, &pairs);
    let mut missing = bytes - made.len();
    for pair in &mut pairs {
        let digits = missing.min(4);
        pair.0 = [1, 10, 100, 1_000, 10_000][digits];
        missing -= digits;
    }
    made = text(n, references as u16, 1, &pairs);
    assert_eq!(made.len(), bytes);
    made
}

/// Texts around 65,536 bytes.
fn long_texts(table: &mut Table, rng: &mut Rng) {
    let cases = [
        (2, form_of(65_535, 1, 10_000)),
        (2, form_of(65_536, 1, 10_000)),
        (1, form_of(65_536, 0, 10_000)),
        (13, form_of(65_537, 1, 10_000)),
        (13, form_of(65_537, 0, 10_000)),
        (12, vec![b'1'; 65_536]),
        (13, vec![b'1'; 65_537]),
        (13, vec![b'\n'; 200_000]),
        (12, [EXAMPLE, &vec![b'\n'; 65_536 - EXAMPLE.len()]].concat()),
        (13, [EXAMPLE, &vec![b'\n'; 65_537 - EXAMPLE.len()]].concat()),
    ];
    for (number, text) in &cases {
        for fit in [Fit::Longer, Fit::Empty(0)] {
            assert_eq!(read(table, rng, text, fit), *number);
            assert_eq!(print(table, rng, text, fit), *number);
        }
    }
    // The bytes of a text count with all zeros before its numbers.
    let ones = |n: u16, references: u16| text(n, references, 1, &vec![(1, 1); references.into()]);
    let in_three = |text: &[u8]| padded(text, |length| length.max(3));
    let cases = [
        (2, 65_536, in_full(&ones(1, 5_457))),
        (13, 65_548, in_full(&ones(1, 5_458))),
        (2, 65_536, in_three(&ones(1_000, 8_186))),
        (13, 65_537, in_three(&ones(10_000, 8_186))),
        (1, 32_791, ones(10_000, 8_186)),
        (2, 65_535, to_bytes(&ones(1, 6_000), 65_535)),
        (2, 65_536, to_bytes(&ones(1, 6_000), 65_536)),
        (1, 65_536, to_bytes(&ones(0, 6_000), 65_536)),
        (13, 65_537, to_bytes(&ones(1, 6_000), 65_537)),
        (13, 65_537, to_bytes(&ones(0, 6_000), 65_537)),
    ];
    for (number, bytes, text) in &cases {
        assert_eq!(text.len(), *bytes);
        for fit in [Fit::Longer, Fit::Empty(0)] {
            assert_eq!(read(table, rng, text, fit), *number);
            assert_eq!(print(table, rng, text, fit), *number);
        }
    }
    // The largest profile stays far below, however it is padded.
    let largest = in_full(&text(1_000, 4_000, 1_000, &[(1_000, 1_000); 4_000]));
    assert_eq!(largest.len(), 48_052);
    assert_eq!(read(table, rng, &largest, Fit::Exact), 0);
    assert_eq!(print(table, rng, &largest, Fit::Exact), 0);
}

/// The line of every number: into exactly the bytes that it has, and into none, fewer and more.
fn refusals(table: &mut Table, rng: &mut Rng) {
    for number in 0..=u16::MAX {
        let length = format!("refused,{number}\n").len();
        for bytes in [length, length - 1, length + 1, rng.below(20)] {
            let lent = Line {
                number,
                printed: usize::from(rng.word()),
                output: vec![rng.word() as u8; bytes].into(),
            };
            let (got, left) = refusal_line(table, &lent);
            assert_eq!(got, if bytes < length { 3 } else { 0 });
            assert!(got != 0 || left.printed == length);
        }
    }
}

/// An output as short as the line of a refusal, which is not printed.
fn short_outputs(table: &mut Table, rng: &mut Rng) {
    let [a, t, marks, events, needed] = NEEDED;
    let texts = [
        EXAMPLE.to_vec(),
        text(2, 1, 3, &[(1, 1)]),
        text(0, 1, 3, &[(1, 1)]),
        b"x".to_vec(),
        vec![0; 65_537],
    ];
    for text in &texts {
        for output in (0..16).chain([needed - 1, needed, needed + 1]) {
            let lent = to_print(rng, text, [a, t, marks, events, output]);
            walk_text(table, &lent);
        }
    }
}

/// Every number of one to five digits, and of six with a zero in front, as the start of a profile.
fn every_number(table: &mut Table, rng: &mut Rng) {
    for digits in 1..=6 {
        for value in 0..10_u32.pow(digits.min(5)) {
            let width = digits as usize;
            let text = format!("elements,references,start\n1000,0,{value:0width$}\nfrom,to\n");
            let number = match value {
                _ if digits == 6 => 12,
                1..=1_000 => 0,
                0 | 1_001..=65_535 => 4,
                _ => 12,
            };
            assert_eq!(read(table, rng, text.as_bytes(), Fit::Exact), number);
        }
    }
}

/// Texts with zeros by chance before each of their numbers, sound and damaged, against the texts without.
fn paddings(table: &mut Table, rng: &mut Rng) {
    for round in 0..4_000 {
        let text = small(rng).text();
        let padded = by_chance(rng, &text);
        assert_eq!(alike(table, rng, &text, &padded, Fit::Exact), 0);
        let broken = damaged(rng, &text);
        let padded_broken = by_chance(rng, &broken);
        alike(table, rng, &broken, &padded_broken, Fit::Longer);
        // Damage that comes after the zeros.
        for _ in 0..6 {
            let broken = damaged(rng, &padded);
            read(table, rng, &broken, Fit::Exact);
        }
        let broken = damaged(rng, &padded);
        print(table, rng, &broken, Fit::Longer);
        if round % 20 == 0 {
            for fit in fits(5) {
                alike(table, rng, &text, &padded, fit);
                alike(table, rng, &broken, &in_full(&broken), fit);
            }
        }
    }
    for shape in 0..26 {
        let text = shaped(rng, shape, 1_000, 4_000).text();
        let padded = by_chance(rng, &text);
        assert_eq!(alike(table, rng, &text, &padded, Fit::Longer), 0);
        assert_eq!(alike(table, rng, &text, &in_full(&text), Fit::Exact), 0);
        let broken = damaged(rng, &text);
        let padded_broken = by_chance(rng, &broken);
        alike(table, rng, &broken, &padded_broken, Fit::Exact);
    }
    for _ in 0..60 {
        // More references than there may be: padding alone can make such a text too long.
        let references = rng.between(4_001, 9_000);
        let pairs = vec![(1, 2); references];
        let text = text(rng.pick(&[1, 2, 0]), references as u16, 1, &pairs);
        let broken = damaged(rng, &text);
        for text in [text, broken] {
            let padded = by_chance(rng, &text);
            if padded.len() <= 65_536 {
                alike(table, rng, &text, &padded, Fit::Longer);
            } else {
                assert_eq!(read(table, rng, &padded, Fit::Longer), 13);
                assert_eq!(print(table, rng, &padded, Fit::Longer), 13);
                table.meet(TOO_LONG, "read and printed, 13");
            }
        }
    }
    for call in ["read", "printed"] {
        for number in [0, 1, 2, 3, 4, 6, 12] {
            table.assert_met(ALIKE, &[&format!("{call}, {number}")]);
        }
    }
    table.assert_met(TOO_LONG, &["read and printed, 13"]);
}
