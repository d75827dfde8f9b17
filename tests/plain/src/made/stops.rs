//! Trays with many full stops, in which many slips share stops alone.
use super::{slips, within_limit, Chance, Slips, SHAPES};
use crate::compose::kept_slips;
use crate::tray::{longest_shared, overlap, Tray};
use crate::{BLANK, ONE_LETTER};

/// Few signs, every second or third of them a stop.
const FEW_SIGNS: [&[u8]; 4] = [b".A", b".AB", b"..AB", b"..ABCD"];

/// A valid tray of 2 to `most` slips of up to `longest` letters, of any shape. Up to three letters at the beginning and at
/// the end of every other slip are made stops.
pub fn many_stops(chance: &mut Chance, most: usize, longest: usize) -> Slips {
    let shape = chance.one(&SHAPES);
    let signs = chance.one(&FEW_SIGNS);
    let count = chance.between(2, most);
    let high = chance.between(1, longest);
    let low = chance.between(1, high);
    let mut all = slips(shape, chance, count, low, high, signs);
    for slip in all.iter_mut().step_by(2) {
        let length = slip.len();
        slip[..chance.below(4).min(length)].fill(b'.');
        slip[length.saturating_sub(chance.below(4))..].fill(b'.');
    }
    within_limit(all)
}

/// Whether one kept slip of the blank side of a valid tray ends with what another begins with, and it is stops alone: an overlap
/// but for the rule of stops.
pub fn share_stops_alone(tray: &Tray) -> bool {
    let slips = tray.slips();
    // No two kept slips are equal.
    let kept: Vec<&[u8]> = kept_slips(tray, BLANK).iter().map(|&i| slips[i - 1]).collect();
    let stops_alone = |a: &[u8], b: &[u8]| a != b && !longest_shared(a, b).is_empty() && overlap(a, b, ONE_LETTER) == 0;
    kept.iter().any(|a| kept.iter().any(|b| stops_alone(a, b)))
}
