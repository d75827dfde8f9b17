//! The edge trays, worked out by hand: rows `NAME: LEFT RIGHT LETTERS END END ..`, where 12A among the letters is twelve
//! times A, and 12x3 among the ends is the twelve ends 3, 6, .. 36. A row without a colon is a heading.
//!
//! Every number is written out, those of the longest slip too: 32 letters are accepted, 33 are refused by 3.
use crate::tray::Tray;

/// The rows. Nobody generates them, nor what is expected.
pub fn rows() -> Vec<&'static str> {
    include_str!("../../fixtures/edges.in").lines().collect()
}

/// What is expected of each row: the name, then the refusal of the tray; of slip LEFT, and its letters; of the pair, and its
/// overlap. At the end the bytes that are accepted as the one letter of a tray.
pub fn expected() -> Vec<&'static str> {
    include_str!("../../fixtures/edges.out").lines().collect()
}

/// What a row asks.
pub struct Asked {
    /// Its name.
    pub name: String,
    /// The left slip.
    pub left: usize,
    /// The right slip.
    pub right: usize,
    /// The tray.
    pub tray: Tray,
}

fn number(digits: &str) -> usize {
    digits.parse().expect("a number")
}

fn letters(field: &str) -> Vec<u8> {
    let mut all = Vec::new();
    let mut count = String::new();
    for c in field.chars() {
        if c.is_ascii_digit() {
            count.push(c);
            continue;
        }
        let times = if count.is_empty() { 1 } else { number(&count) };
        all.extend(std::iter::repeat_n(c as u8, times));
        count.clear();
    }
    all
}

fn ends(entry: &str) -> Vec<u16> {
    match entry.split_once('x') {
        Some((times, step)) => (1..=number(times)).map(|i| (i * number(step)) as u16).collect(),
        None => vec![number(entry) as u16],
    }
}

/// The row, unless it is a heading.
pub fn asked(row: &str) -> Option<Asked> {
    let (name, rest) = row.split_once(": ")?;
    let fields: Vec<&str> = rest.split(' ').collect();
    let listed = fields[3..].iter().filter(|x| !x.is_empty());
    let tray = Tray::all_blank(letters(fields[2]), listed.flat_map(|x| ends(x)).collect());
    Some(Asked {
        name: name.to_string(),
        left: number(fields[0]),
        right: number(fields[1]),
        tray,
    })
}
