//! Texts to look for slips in.
use super::damage::BAD_BYTES;
use super::Chance;
use crate::{MAX_TEXT, SIGNS};

/// A text of `n` letters for these slips: letters of the tray by chance, any signs, slips, or stretches of slips.
pub fn text(chance: &mut Chance, slips: &[Vec<u8>], n: usize) -> Vec<u8> {
    let letters: Vec<u8> = slips.concat();
    let kind = chance.below(4);
    match kind {
        0 => return chance.word(&letters, n),
        1 => return chance.word(SIGNS, n),
        _ => {}
    }
    let mut made = Vec::new();
    while made.len() < n {
        let slip = &slips[chance.below(slips.len())];
        let start = if kind == 2 { 0 } else { chance.below(slip.len()) };
        let end = if kind == 2 {
            slip.len()
        } else {
            chance.between(start, slip.len())
        };
        made.extend_from_slice(&slip[start..end]);
        if chance.below(6) == 0 {
            made.extend(chance.word(SIGNS, 1));
        }
    }
    made.truncate(n);
    made
}

/// A text with up to three bytes that are no signs; of a long kind, its length is near the limit.
pub fn damaged_text(chance: &mut Chance, slips: &[Vec<u8>], long: bool, bad: usize) -> Vec<u8> {
    let letters = match long {
        true => chance.between(MAX_TEXT - 5, MAX_TEXT + 10),
        false => chance.between(1, 60),
    };
    let mut made = text(chance, slips, letters);
    for _ in 0..bad {
        let place = chance.below(letters);
        made[place] = chance.one(BAD_BYTES);
    }
    made
}
