//! The timed inputs: trays of 200 slips and 2,000 letters, and texts of 2,000 letters.
use plain::made::full::{different, many_inside, mixed_lengths};
use plain::made::{slips, Chance, Shape, Slips};
use plain::SIGNS;

/// How many letters a text has.
const LETTERS: usize = 2_000;

/// The capitals.
const CAPITALS: &[u8] = SIGNS.split_at(1).1;

pub struct Family {
    pub name: &'static str,
    /// A tray and a text.
    pub make: fn(&mut Chance) -> (Slips, Vec<u8>),
}

pub const FAMILIES: [Family; 9] = [
    Family {
        name: "random, 26 letters",
        make: |chance| with_random_text(chance, CAPITALS),
    },
    Family {
        name: "random, 26 letters; text of slips",
        make: |chance| {
            let all = different(chance, Shape::Random, CAPITALS);
            with_text_of_slips(chance, all)
        },
    },
    Family {
        name: "random, 2 letters",
        make: |chance| with_random_text(chance, b"AB"),
    },
    Family {
        name: "2 letters, lengths 4 to 16",
        make: |chance| (mixed_lengths(chance, b"AB"), chance.word(b"AB", LETTERS)),
    },
    Family {
        name: "windows of the text",
        make: windows_of_the_text,
    },
    Family {
        name: "shared long beginnings; text of beginnings",
        make: |chance| {
            let all = different(chance, Shape::Beginnings, CAPITALS);
            let text = text_of_beginnings(chance, &all);
            (all, text)
        },
    },
    Family {
        name: "lengths 4 to 16; text of slips",
        make: |chance| {
            let all = mixed_lengths(chance, CAPITALS);
            with_text_of_slips(chance, all)
        },
    },
    Family {
        name: "many inside others; text of slips",
        make: |chance| {
            let all = many_inside(chance);
            with_text_of_slips(chance, all)
        },
    },
    Family {
        name: "many equal; text of slips",
        make: |chance| {
            let all = slips(Shape::Inside, chance, 200, 10, 10, CAPITALS);
            with_text_of_slips(chance, all)
        },
    },
];

fn with_random_text(chance: &mut Chance, signs: &[u8]) -> (Slips, Vec<u8>) {
    (different(chance, Shape::Random, signs), chance.word(signs, LETTERS))
}

/// The text is the slips, one after another in an order by chance.
fn with_text_of_slips(chance: &mut Chance, all: Slips) -> (Slips, Vec<u8>) {
    let mut shuffled = all.clone();
    chance.shuffle(&mut shuffled);
    (all, shuffled.concat())
}

/// Slips of 10 letters at 200 different places of the text.
fn windows_of_the_text(chance: &mut Chance) -> (Slips, Vec<u8>) {
    let text = chance.word(CAPITALS, LETTERS);
    let mut starts: Vec<usize> = (0..=LETTERS - 10).collect();
    chance.shuffle(&mut starts);
    let all = starts[..200]
        .iter()
        .map(|&start| text[start..start + 10].to_vec())
        .collect();
    (all, text)
}

/// Of each slip that comes by chance the first 3 to 10 letters.
fn text_of_beginnings(chance: &mut Chance, all: &[Vec<u8>]) -> Vec<u8> {
    let mut text = Vec::new();
    while text.len() < LETTERS {
        let n = chance.between(3, 10);
        text.extend_from_slice(&all[chance.below(all.len())][..n]);
    }
    text.truncate(LETTERS);
    text
}
