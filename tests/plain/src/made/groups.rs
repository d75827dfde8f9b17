//! Small die groups: trays of few kept slips, in which many pairs overlap and many orders are as short.
use super::{slips, Chance, Shape, Slips};
use crate::compose::kept_slips;
use crate::tray::Tray;
use crate::BLANK;

/// Few letters.
pub const FEW: &[&[u8]] = &[b"AB", b"ABC", b"ABCD", b"ABCDEFGH"];

/// Few letters and the stop.
pub const FEW_AND_STOP: &[&[u8]] = &[b".A", b".AB", b"..AB", b".ABC"];

/// Shapes of which most slips are kept.
const KEPT_SHAPES: [Shape; 4] = [Shape::Random, Shape::Windows, Shape::Beginnings, Shape::Chain];

/// A tray of 2 to `most` slips, mostly more than half as many, over one of these sets of signs.
pub fn die_group(chance: &mut Chance, sets: &[&[u8]], most: usize) -> Slips {
    let shape = chance.one(&KEPT_SHAPES);
    let signs = chance.one(sets);
    let fewest = chance.one(&[2, most / 2 + 1, most / 2 + 1]);
    let count = chance.between(fewest, most);
    let high = chance.between(3, 7);
    let low = chance.between(2, high);
    slips(shape, chance, count, low, high, signs)
}

/// These slips and up to `more` others, each of which stands in one of them or equals one, shuffled.
pub fn with_aside(chance: &mut Chance, mut all: Slips, more: usize) -> Slips {
    let whole = all.clone();
    for _ in 0..chance.between(1, more) {
        let slip = &whole[chance.below(whole.len())];
        let start = chance.below(slip.len());
        let end = chance.between(start + 1, slip.len());
        all.push(slip[start..end].to_vec());
    }
    chance.shuffle(&mut all);
    all
}

/// A tray of which just this many slips are kept, over one of these sets of signs.
pub fn just_kept(chance: &mut Chance, sets: &[&[u8]], kept: usize) -> Slips {
    let signs = chance.one(sets);
    let mut all = Slips::new();
    // One slip more keeps at most one more.
    while kept_slips(&Tray::of(&all), BLANK).len() < kept {
        let letters = chance.between(3, 6);
        all.push(chance.word(signs, letters));
    }
    all
}

/// A text over these signs, and this many stretches of it: it holds them all.
pub fn stretches(chance: &mut Chance, signs: &[u8], count: usize) -> (Vec<u8>, Slips) {
    let letters = chance.between(7, 16);
    let text = chance.word(signs, letters);
    let mut stretch = |_| {
        let length = chance.between(2, 7);
        let start = chance.below(letters - length + 1);
        text[start..start + length].to_vec()
    };
    let all = (0..count).map(&mut stretch).collect();
    (text, all)
}
