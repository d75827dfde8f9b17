//! Two trays of one hoard, to be merged: slips in common, equals in either tray, and slips that nearly equal others.
use super::leasts::many_lengths;
use super::stops::many_stops;
use super::{valid, within_limit, Chance, Slips};
use crate::compose::stands_in;
use crate::merge::merged_slips;
use crate::tray::{Slip, Tray};
use crate::{MAX_LETTERS, MAX_SLIP, MAX_SLIPS, SIGNS};

/// How a slip goes with one that is there already.
#[derive(Clone, Copy, Debug)]
pub enum Kin {
    /// It equals it.
    Equal,
    /// One letter is another, or there is one more or one less at an end.
    Near,
    /// It is a stretch of it, perhaps the whole.
    Part,
    /// It is a word by chance, of the same letters.
    Any,
}

/// Of which kinds a second tray is.
pub const MIXES: [&[Kin]; 6] = [
    &[Kin::Equal],
    &[Kin::Equal, Kin::Equal, Kin::Any],
    &[Kin::Near, Kin::Equal],
    &[Kin::Part, Kin::Part, Kin::Equal],
    &[Kin::Equal, Kin::Near, Kin::Part, Kin::Any],
    &[Kin::Any],
];

/// A slip with one letter changed, added or taken away; if it cannot be, the slip itself.
fn nearly(chance: &mut Chance, slip: &[u8], signs: &[u8]) -> Vec<u8> {
    let (mut made, letter) = (slip.to_vec(), chance.one(signs));
    let (last, any) = (made.len() - 1, chance.below(made.len()));
    match chance.below(5) {
        0 if last > 0 => made.truncate(last),
        1 if last > 0 => made = made.split_off(1),
        2 if made.len() < MAX_SLIP => made.push(letter),
        3 if made.len() < MAX_SLIP => made.insert(0, letter),
        _ => made[chance.one(&[0, last, any])] = letter,
    }
    made
}

/// A stretch of a slip.
fn stretch(chance: &mut Chance, slip: &[u8]) -> Vec<u8> {
    let start = chance.below(slip.len());
    let end = chance.between(start + 1, slip.len());
    slip[start..end].to_vec()
}

/// A slip of such a kind beside one of those that are there.
fn beside(chance: &mut Chance, kin: Kin, there: &[&Vec<u8>], signs: &[u8]) -> Vec<u8> {
    if there.is_empty() {
        let letters = chance.between(1, 6);
        return chance.word(signs, letters);
    }
    let slip = there[chance.below(there.len())];
    match kin {
        Kin::Equal => slip.clone(),
        Kin::Near => nearly(chance, slip, signs),
        Kin::Part => stretch(chance, slip),
        Kin::Any => chance.word(signs, slip.len()),
    }
}

/// A valid second tray of up to `most` slips, perhaps none, of such kinds: each beside a slip of the first tray or one of the
/// second before it.
pub fn second_tray(chance: &mut Chance, first: &Slips, mix: &[Kin], most: usize) -> Slips {
    let letters = first.concat();
    let signs = if letters.is_empty() { SIGNS } else { &letters };
    let mut made = Slips::new();
    for _ in 0..chance.below(most + 1) {
        let there: Vec<&Vec<u8>> = first.iter().chain(&made).collect();
        let kin = chance.one(mix);
        made.push(beside(chance, kin, &there, signs));
    }
    within_limit(made)
}

/// Two valid trays of up to `most` slips of up to `longest` letters; a tenth of the first ones are empty.
pub fn two_trays(chance: &mut Chance, mix: &[Kin], most: usize, longest: usize) -> [Slips; 2] {
    let first = match chance.below(10) {
        0 => Slips::new(),
        _ => valid(chance, most, longest),
    };
    let second = second_tray(chance, &first, mix, most);
    [first, second]
}

/// One hoard in two campaigns: each slip comes in the first, in the second, in both, or in one of them twice.
pub fn two_campaigns(chance: &mut Chance, hoard: &Slips) -> [Slips; 2] {
    let mut trays = [Slips::new(), Slips::new()];
    for slip in hoard {
        for &tray in chance.one(&[&[0][..], &[0], &[1], &[1], &[0, 1], &[0, 0], &[1, 1]]) {
            trays[tray].push(slip.clone());
        }
    }
    chance.shuffle(&mut trays[1]);
    trays.map(within_limit)
}

/// Puts up to this many more slips into the second tray, each an equal of one in either, and shuffles it. It stays valid.
fn add_equals(chance: &mut Chance, first: &Slips, mut second: Slips, most: usize) -> Slips {
    let own = second.clone();
    let mut letters = second.concat().len();
    for _ in 0..chance.below(most + 1) {
        let there: Vec<&Vec<u8>> = first.iter().chain(&own).collect();
        let slip = there[chance.below(there.len())];
        letters += slip.len();
        if letters > MAX_LETTERS || second.len() == MAX_SLIPS {
            break;
        }
        second.push(slip.clone());
    }
    chance.shuffle(&mut second);
    second
}

/// A word whose first two letters tell its number, and this many more letters, all of them the same.
fn numbered(number: usize, more: usize) -> Vec<u8> {
    let letter = |n: usize| b'A' + (n % 26) as u8;
    let begins = [letter(number / 26), letter(number)];
    [&begins[..], &vec![letter(number / 7); more]].concat()
}

/// Two valid trays, which write 198 to 202 slips together: short ones, or of 10 letters, which make 1,980 to 2,020. In half
/// of the pairs the first tray has equals.
pub fn about_200_slips(chance: &mut Chance) -> [Slips; 2] {
    let written = chance.between(MAX_SLIPS - 2, MAX_SLIPS + 2);
    let short = chance.below(2) == 0;
    let mut all: Slips = (0..written)
        .map(|n| numbered(n, if short { n % 3 } else { 8 }))
        .collect();
    chance.shuffle(&mut all);
    let in_first = chance.one(&[2, 100, 150, 195, MAX_SLIPS - 1, MAX_SLIPS]);
    let second = all.split_off(in_first.min(written));
    if chance.below(2) == 0 {
        let slip = all[chance.below(all.len())].clone();
        let at = chance.below(all.len());
        all[at] = slip;
    }
    let second = add_equals(chance, &all, second, 40);
    [all, second]
}

/// Two valid trays, which write about 2,000 letters together. Every fourth pair has letters by chance.
pub fn about_2000_letters(chance: &mut Chance) -> [Slips; 2] {
    let longest = chance.between(12, MAX_SLIP);
    let by_chance = chance.below(4) == 0;
    let mut left = chance.between(MAX_LETTERS - 2, MAX_LETTERS + 2);
    let mut all = Slips::new();
    while left > longest {
        let letters = chance.between(10, longest).min(left - 2);
        let slip = match by_chance {
            true => chance.word(SIGNS, letters),
            false => numbered(all.len(), letters - 2),
        };
        left -= letters;
        all.push(slip);
    }
    all.push(numbered(all.len(), left - 2));
    let in_first = chance.between(all.len() / 2, all.len() - 1);
    let second = all.split_off(in_first);
    let second = add_equals(chance, &all, second, 40);
    [all, second]
}

/// Two valid trays, the n-th of many kinds.
pub fn any_two(chance: &mut Chance, n: usize) -> [Tray; 2] {
    let (kind, turn) = (n % 8, n / 8);
    let mix = MIXES[turn % MIXES.len()];
    let both = match kind {
        0 => two_trays(chance, mix, 12, MAX_SLIP),
        1 => two_trays(chance, mix, [30, MAX_SLIPS][turn % 2], 6),
        2 => {
            let first = many_stops(chance, 12, 8);
            let second = second_tray(chance, &first, mix, 12);
            [first, second]
        }
        3 | 4 => {
            let (most, longest) = [(12, 10), (60, MAX_SLIP)][kind - 3];
            let hoard = many_lengths(chance, most, longest);
            two_campaigns(chance, &hoard)
        }
        5 => two_trays(chance, mix, 6, 4),
        6 => about_200_slips(chance),
        _ => about_2000_letters(chance),
    };
    both.map(|all| Tray::of(&all))
}

/// What two accepted trays may show.
const SHOWN: [&str; 6] = [
    "nothing of the second tray written",
    "a part of it written",
    "all of it written",
    "equals in the second tray alone",
    "equals in the first tray",
    "a slip written that stands in another",
];

/// How often each of these was met.
#[derive(Default)]
pub struct Met([usize; SHOWN.len()]);

impl Met {
    /// Counts what two accepted trays show.
    pub fn count(&mut self, first: &Tray, second: &Tray) {
        let (first, second) = (first.sided_slips(), second.sided_slips());
        let outcome = merged_slips(&first, &second);
        let written = &outcome[first.len()..];
        let again = |slips: &[Slip], slip: &Slip| slips.iter().filter(|x| *x == slip).count() > 1;
        let longer = |x: &Slip, slip: &Slip| x.side == slip.side && x.letters.len() > slip.letters.len();
        let stands = |slip: &Slip| {
            outcome
                .iter()
                .any(|x| longer(x, slip) && stands_in(slip.letters, x.letters))
        };
        let shown = [
            written.is_empty() && !second.is_empty(),
            !written.is_empty() && written.len() < second.len(),
            !written.is_empty() && written.len() == second.len(),
            written.iter().any(|x| again(&second, x)),
            first.iter().any(|x| again(&first, x)),
            written.iter().any(stands),
        ];
        let all = self.0.iter_mut().zip(shown);
        all.for_each(|(count, met)| *count += usize::from(met));
    }

    /// Each was met this often.
    pub fn assert_all_from(&self, least: usize) {
        for (name, count) in SHOWN.iter().zip(self.0) {
            assert!(count >= least, "{name}: {count}");
        }
    }
}
