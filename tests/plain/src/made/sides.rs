//! Sides of made-up slips: by chance, one of them alone, slips that come back on another side, and lists that are refused.
use super::{Chance, Slips};
use crate::tray::Tray;
use crate::{BLANK, OBVERSE, REVERSE, SIDES};

/// How the sides lie among the slips of a tray.
#[derive(Clone, Copy, Debug)]
pub enum Spread {
    /// All three by chance.
    Thirds,
    /// Two of them by chance.
    Halves,
    /// One of them alone.
    Alone,
    /// One slip of the reverse; all others are of another side.
    OneReverse,
}

/// All ways in which sides lie.
pub const SPREADS: [Spread; 4] = [Spread::Thirds, Spread::Halves, Spread::Alone, Spread::OneReverse];

/// A side for each of this many slips.
pub fn spread_sides(chance: &mut Chance, spread: Spread, slips: usize) -> Vec<u8> {
    let (first, other) = chance.one(&[(BLANK, OBVERSE), (BLANK, REVERSE), (OBVERSE, REVERSE)]);
    match spread {
        Spread::Thirds => chance.word(&SIDES, slips),
        Spread::Halves => chance.word(&[first, other], slips),
        Spread::Alone => vec![chance.one(&SIDES); slips],
        Spread::OneReverse => {
            let mut sides = vec![chance.one(&[BLANK, OBVERSE]); slips];
            if slips > 0 {
                sides[chance.below(slips)] = REVERSE;
            }
            sides
        }
    }
}

/// The tray of these slips, with sides that lie so.
pub fn spread(chance: &mut Chance, spread: Spread, slips: &Slips) -> Tray {
    Tray {
        sides: spread_sides(chance, spread, slips.len()),
        ..Tray::of(slips)
    }
}

/// The tray of these slips, with sides that lie in any way, mostly all three by chance.
pub fn any_sides(chance: &mut Chance, slips: &Slips) -> Tray {
    let many = [Spread::Thirds, Spread::Thirds, Spread::Thirds, Spread::Halves];
    let all = [&many[..], &[Spread::Alone, Spread::OneReverse]].concat();
    let chosen = chance.one(&all);
    spread(chance, chosen, slips)
}

/// How a slip comes back on another side.
#[derive(Clone, Copy, Debug)]
pub enum Echo {
    /// With the same letters.
    Equal,
    /// As a part of itself, shorter unless it has one letter.
    Part,
}

/// The tray of these slips and of up to `more` others, shuffled. The others are slips of the first ones that come back so, each
/// on another side than the slip that it comes from.
pub fn echoed(chance: &mut Chance, echo: Echo, slips: &Slips, more: usize) -> Tray {
    let mut all: Vec<(u8, Vec<u8>)> = slips.iter().map(|slip| (chance.one(&SIDES), slip.clone())).collect();
    for _ in 0..chance.between(1, more) {
        let (side, slip) = all[chance.below(slips.len())].clone();
        let letters = match echo {
            Echo::Equal => slip,
            Echo::Part => {
                let length = chance.between(1, (slip.len() - 1).max(1));
                let start = chance.below(slip.len() - length + 1);
                slip[start..start + length].to_vec()
            }
        };
        let others: Vec<u8> = SIDES.into_iter().filter(|&other| other != side).collect();
        all.push((chance.one(&others), letters));
    }
    chance.shuffle(&mut all);
    Tray::sided(&all)
}

/// Bytes that are no side: 0, the small letters, the bytes beside the three sides, and others.
pub const NO_SIDES: &[u8] = b"\0or\x1f!NPQS.0_\xff";

/// What is wrong with a list of sides.
#[derive(Clone, Copy, Debug)]
pub enum Mistake {
    /// A byte that is no side: in the first place, in the last, or anywhere.
    NoSide,
    /// A side is missing.
    Short,
    /// A side too many.
    Long,
    /// All sides are missing, or all but one.
    Few,
}

/// All that may be wrong with a list of sides.
pub const MISTAKES: [Mistake; 4] = [Mistake::NoSide, Mistake::Short, Mistake::Long, Mistake::Few];

/// The tray with such a mistake in its list of sides. The list of one slip may stay as it is, where all sides but one would be
/// missing.
pub fn mistaken(chance: &mut Chance, mistake: Mistake, tray: Tray) -> Tray {
    let mut sides = tray.sides.clone();
    let (slips, side) = (sides.len(), chance.one(&SIDES));
    let any = chance.below(slips.max(1));
    let place = chance.one(&[0, slips.saturating_sub(1), any]);
    let bad = chance.one(NO_SIDES);
    match mistake {
        Mistake::NoSide if slips > 0 => sides[place] = bad,
        Mistake::Short if slips > 0 => sides.truncate(slips - 1),
        Mistake::Few if slips > 0 => sides.truncate(chance.below(2)),
        // A list for no slip can only be too long.
        _ => sides.push(side),
    }
    Tray { sides, ..tray }
}

/// Two trays of which each slip has any side, so that a third of equal slips are of equal side; or, in every other pair, sides
/// that lie in any way.
pub fn both_sided(chance: &mut Chance, both: [Tray; 2]) -> [Tray; 2] {
    let any = chance.below(2) == 0;
    both.map(|tray| {
        let lie = if any { chance.one(&SPREADS) } else { Spread::Thirds };
        Tray {
            sides: spread_sides(chance, lie, tray.ends.len()),
            ..tray
        }
    })
}
