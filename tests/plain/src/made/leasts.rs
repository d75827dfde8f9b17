//! Least overlaps, and trays in which slips share few letters and many.
use super::{within_limit, Chance, Slips};
use crate::{MAX_LEAST, MAX_SLIP, SIGNS};

/// Least overlaps: one letter, few letters, the most that may be asked for, and on either hand what is refused.
pub const LEASTS: [usize; 6] = [1, 2, 5, MAX_LEAST, 0, MAX_LEAST + 1];

/// A least overlap, mostly of few letters.
pub fn any_least(chance: &mut Chance) -> usize {
    match chance.below(3) {
        0 => chance.one(&[1, MAX_LEAST - 1, MAX_LEAST, 0, MAX_LEAST + 1]),
        _ => chance.one(&[2, 2, 3, 4, 5, 5, 8]),
    }
}

/// Few signs or all, with stops and without.
const SETS: [&[u8]; 5] = [b"AB", b"ABCD", b".AB", b"..ABCD", SIGNS];

/// A valid tray of 2 to `most` slips of one length, up to `longest` letters: stretches of one text, shuffled. Each begins up
/// to a whole slip after the one before, and so shares with it anything from no letter to all but one.
pub fn many_lengths(chance: &mut Chance, most: usize, longest: usize) -> Slips {
    let signs = chance.one(&SETS);
    let (count, length) = (chance.between(2, most), chance.between(2, longest));
    let mut start = 0;
    let mut step = |_| {
        start += chance.between(1, length);
        start
    };
    let starts: Vec<usize> = (0..count).map(&mut step).collect();
    let text = chance.word(signs, start + length);
    let mut all: Slips = starts.iter().map(|&from| text[from..from + length].to_vec()).collect();
    chance.shuffle(&mut all);
    within_limit(all)
}

/// Two slips: the first ends and the second begins with about `least` letters. Before and after these may stand others, up
/// to the longest slip; without any, both slips are equal.
pub fn about_least(chance: &mut Chance, least: usize) -> Slips {
    let signs = chance.one(&SETS);
    let fewer = least.saturating_sub(1);
    let letters = chance.one(&[fewer, fewer, least, least + 1]).clamp(1, MAX_SLIP);
    let shared = chance.word(signs, letters);
    let mut run = |letter: u8| vec![letter; chance.below(MAX_SLIP - letters + 1)];
    let (before, after) = (run(b'X'), run(b'Y'));
    vec![[before, shared.clone()].concat(), [shared, after].concat()]
}
