//! What the program prints.

use crate::reach::Reach;
use crate::search::depth_first;
use crate::text::profile;

/// Prints the folded walk of a text's profile, which gives the events of the depth-first search, in twice as many
/// moves as references met and one for each element reached; it is circular where an element reached has a path back
/// to itself. The lent links are then those of the text, the marks those of the search, and the event area holds the
/// events.
pub fn walk_text(
    text: &[u8],
    after: &mut [u16],
    tail: &mut [u16],
    marks: &mut [u16],
    events: &mut [u16],
    output: &mut [u8],
    printed: &mut usize,
) -> u16 {
    let short = after.len() < 5_000
        || tail.len() < 4_000
        || marks.len() < 5_000
        || events.len() < 54_003
        || output.len() < 180_066;
    let (profile, start) = match profile(text, |_| short) {
        Ok(read) => read,
        Err(number) => return number,
    };

    let search = depth_first(&profile, start, &[]);
    let reach = Reach::from(&profile, start, &[]);
    let circular = u16::from(reach.circular(&profile));

    let mut lines = String::from("event,reference,element\n");
    for [kind, reference, element] in &search.events {
        lines += &format!("{kind},{reference},{element}\n");
    }
    lines += "elements,moves,circular\n";
    lines += &format!("{},{},{}\n", reach.reached, reach.moves(), circular);
    *printed = put(output, &lines);

    let (after_words, tail_words) = profile.image();
    after[..after_words.len()].copy_from_slice(&after_words);
    tail[..tail_words.len()].copy_from_slice(&tail_words);
    marks[..profile.n + profile.m].fill(0);
    for (label, &element) in (1..).zip(&search.order) {
        marks[usize::from(element) - 1] = label;
    }
    let words = search.events.concat();
    events[..words.len()].copy_from_slice(&words);
    0
}

/// Prints the line of a refusal.
pub fn refusal_line(number: u16, output: &mut [u8], printed: &mut usize) -> u16 {
    let line = format!("refused,{number}\n");
    if output.len() < line.len() {
        return 3;
    }
    *printed = put(output, &line);
    0
}

/// Puts lines at the beginning of the output, and says how many bytes they have.
fn put(output: &mut [u8], lines: &str) -> usize {
    output[..lines.len()].copy_from_slice(lines.as_bytes());
    lines.len()
}
