//! check_image and to_array.

use crate::lent::{check_image, to_array, Image, ToArray};
use crate::profiles::{area, damage, fits, lengths, shaped, small, sound, Fit, Sound};
use crate::rng::Rng;
use crate::table::Table;

pub fn compare(table: &mut Table) {
    every_small_image(table);
    let mut rng = Rng::new(1);
    for _ in 0..12_000 {
        let sound = small(&mut rng);
        taken(table, &mut rng, &sound);
    }
    for _ in 0..60 {
        let sound = sound(&mut rng, 300, 1_000);
        taken(table, &mut rng, &sound);
    }
    for shape in 0..26 {
        let sound = shaped(&mut rng, shape, 1_000, 4_000);
        taken(table, &mut rng, &sound);
    }
    for _ in 0..400 {
        let sound = small(&mut rng);
        for fit in fits(5) {
            both(table, &mut rng, &sound, fit);
        }
    }
    for _ in 0..4_000 {
        damaged(table, &mut rng, small);
    }
    for _ in 0..30 {
        damaged(table, &mut rng, |rng| shaped(rng, 12, 1_000, 4_000));
    }
}

/// Both calls on the image of a profile with areas of this fit; their numbers.
fn both(table: &mut Table, rng: &mut Rng, sound: &Sound, fit: Fit) -> [u16; 2] {
    let (words, references) = (sound.nodes(), sound.tail.len());
    let n = words - references;
    let needed = [words, references, n + 1, references, references];
    let [a, t, first, tails, numbers] = lengths(rng, needed, fit);
    let image = Image {
        n: sound.n,
        m: sound.m,
        after: area(rng, &sound.after, a),
        tail: area(rng, &sound.tail, t),
    };
    let array = ToArray {
        n: sound.n,
        m: sound.m,
        after: image.after.clone(),
        tail: image.tail.clone(),
        firsts: rng.noise(first),
        tails: rng.noise(tails),
        numbers: rng.noise(numbers),
    };
    [check_image(table, &image), to_array(table, &array).0]
}

/// A sound image is taken.
fn taken(table: &mut Table, rng: &mut Rng, sound: &Sound) {
    let fit = rng.pick(&[Fit::Exact, Fit::Longer]);
    assert_eq!(both(table, rng, sound, fit), [0, 0]);
}

/// An image with one thing broken gets that number; with several, the first in the order of the table.
fn damaged(table: &mut Table, rng: &mut Rng, make: fn(&mut Rng) -> Sound) {
    let sound = make(rng);
    for number in [1, 2, 5, 6, 7] {
        let mut broken = sound.clone();
        damage(rng, &mut broken, number);
        let fit = rng.pick(&[Fit::Exact, Fit::Longer]);
        let got = both(table, rng, &broken, fit);
        // A reference put where it stood already is no damage.
        let broken_for_sure = matches!(number, 1 | 2 | 5) || (number == 6 && sound.m > 0);
        if broken_for_sure {
            assert_eq!(got, [number; 2], "{broken:?}");
        }
    }
    // Several at once, and areas of any length.
    for _ in 0..4 {
        let mut broken = sound.clone();
        for number in [1, 2, 5, 6, 7] {
            if rng.one_in(3) {
                damage(rng, &mut broken, number);
            }
        }
        let fit = rng.pick(&[Fit::Exact, Fit::Any]);
        both(table, rng, &broken, fit);
    }
    // Sizes that are good but not those of the image.
    let mut other = sound.clone();
    other.n = (other.n + rng.below(3) as u16).saturating_sub(1);
    other.m = (other.m + rng.below(3) as u16).saturating_sub(1);
    both(table, rng, &other, Fit::Longer);
}

/// Every image of these sizes whose words are at most one past the nodes.
fn every_small_image(table: &mut Table) {
    for (n, m) in [(1, 0), (1, 1), (2, 1), (1, 2), (2, 2), (1, 3)] {
        let mut limits = vec![n + m + 2; n + m];
        limits.extend(vec![n + 2; m]);
        let mut words = vec![0u16; limits.len()];
        loop {
            let image = Image {
                n: n as u16,
                m: m as u16,
                after: words[..n + m].to_vec().into(),
                tail: words[n + m..].to_vec().into(),
            };
            check_image(table, &image);
            if !count_up(&mut words, &limits) {
                break;
            }
        }
    }
}

/// The next combination of words below their limits, if there is one.
fn count_up(words: &mut [u16], limits: &[usize]) -> bool {
    for (word, &limit) in words.iter_mut().zip(limits) {
        *word += 1;
        if usize::from(*word) < limit {
            return true;
        }
        *word = 0;
    }
    false
}
