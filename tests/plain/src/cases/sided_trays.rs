//! How the n-th case of a made-up kind with sides is made: pairs, two trays merged, and tray files.
use super::sided::{bad_letters, bad_list, damaged_tray, few};
use super::{tray_room, Case, FILE_ROOM, MERGE_ROOM};
use crate::made::campaigns::{about_2000_letters, about_200_slips, two_trays, MIXES};
use crate::made::files::{blotted, sided_file, BLOTS};
use crate::made::leasts::{any_least, many_lengths};
use crate::made::sides::{any_sides, both_sided, echoed, spread, spread_sides, Echo, Spread, NO_SIDES};
use crate::made::typed::{many_forms, typed_slips};
use crate::made::{valid, Chance};
use crate::tray::Tray;
use crate::{FILE_ENDS, MAX_FILE, MAX_LETTERS, MAX_SLIPS};

/// Two slips of a small tray with sides, most of them neighbours of one side or of two.
pub fn pair(chance: &mut Chance, n: usize) -> Case {
    let tray = match n % 3 {
        0 => {
            let all = many_lengths(chance, 4, 8);
            spread(chance, Spread::Halves, &all)
        }
        1 => {
            let all = few(chance, n / 3);
            spread(chance, Spread::Thirds, &all)
        }
        _ => {
            let all = valid(chance, 3, 6);
            echoed(chance, Echo::Equal, &all, 3)
        }
    };
    let slips = tray.ends.len();
    let least = match n % 4 {
        0 => any_least(chance),
        _ => 1,
    };
    let (left, right) = (chance.below(slips + 2), chance.below(slips + 2));
    Case::Ask(tray, least, left, right)
}

/// Two slips, perhaps one of them twice or one that is not there, of a tray that is refused by 22 or a row before it.
pub fn refused_pair(chance: &mut Chance, n: usize) -> Case {
    let make = [damaged_tray, bad_letters, bad_list, bad_list][n % 4];
    let (tray, settings) = make(chance, n / 4);
    let (left, right) = chance.one(&[(1, 2), (0, 1), (1, 1), (1, 300)]);
    Case::Ask(tray, settings.least, left, right)
}

/// Two small trays with sides: equal letters are of equal side, or of another.
pub fn merged(chance: &mut Chance, n: usize) -> Case {
    let (most, longest) = [(4, 4), (6, 6), (12, 4)][n / MIXES.len() % 3];
    let both = two_trays(chance, MIXES[n % MIXES.len()], most, longest).map(|all| Tray::of(&all));
    let [first, second] = both_sided(chance, both);
    Case::Merge(first, second, MERGE_ROOM)
}

/// About as many slips or letters together as a tray may have, with sides.
pub fn about_full(chance: &mut Chance, n: usize) -> Case {
    let both = [about_200_slips, about_2000_letters][n % 2](chance).map(|all| Tray::of(&all));
    let mut sides = |tray: Tray| {
        // Few of the other sides, so that many equal slips are of equal side.
        let sides = spread_sides(chance, Spread::OneReverse, tray.ends.len());
        Tray { sides, ..tray }
    };
    let [first, second] = both.map(&mut sides);
    Case::Merge(first, second, MERGE_ROOM)
}

/// Two trays of which the first, the second or both are refused, by 22 or by a row before it.
pub fn refused_merge(chance: &mut Chance, n: usize) -> Case {
    let mut bad = |k: usize| {
        let make = [damaged_tray, bad_letters, bad_list][k % 3];
        make(chance, k / 3).0
    };
    let (one, other) = (bad(n / 3), bad(n / 3 + n / 9));
    let all = valid(chance, 5, 8);
    let good = any_sides(chance, &all);
    let (first, second) = match n % 3 {
        0 => (one, good),
        1 => (good, one),
        _ => (one, other),
    };
    Case::Merge(first, second, MERGE_ROOM)
}

/// A side less lent than needed, or some more, or far less; every third pair has a tray that is refused.
pub fn any_room(chance: &mut Chance, n: usize) -> Case {
    let both = two_trays(chance, MIXES[4], 5, 6).map(|all| Tray::of(&all));
    let [first, second] = both_sided(chance, both);
    let first = match n % 3 {
        0 => bad_list(chance, n / 3).0,
        _ => first,
    };
    let few = chance.below(MAX_SLIPS);
    let sides = chance.one(&[200, 199, 199, 201, 240, few]);
    let ends = chance.one(&[MAX_SLIPS, MAX_SLIPS, MAX_SLIPS, MAX_SLIPS - 1]);
    Case::Merge(first, second, tray_room(MAX_LETTERS, ends, sides))
}

/// The file of a small tray with sides, as readers type it.
fn typed_file(chance: &mut Chance) -> Vec<(u8, Vec<u8>)> {
    let die = many_forms(chance, 8, 10);
    let all = typed_slips(chance, &die);
    let sides = any_sides(chance, &all).sides;
    sides.into_iter().zip(all).collect()
}

/// Tray files with sides; every fourth where a side too few is lent, or some more.
pub fn file(chance: &mut Chance, n: usize) -> Case {
    let file = sided_file(&typed_file(chance));
    let sides = chance.one(&[FILE_ENDS - 1, FILE_ENDS + 9]);
    let room = match n % 4 {
        0 => tray_room(MAX_FILE, FILE_ENDS, sides),
        _ => FILE_ROOM,
    };
    Case::Read(file, room)
}

/// Tray files with a byte in column 9 that is no side, or damaged anywhere.
pub fn damaged_file(chance: &mut Chance, n: usize) -> Case {
    let mut lines = typed_file(chance);
    let file = match n % 3 {
        0 => blotted(chance, &sided_file(&lines), BLOTS[n / 3 % BLOTS.len()]),
        _ => {
            let at = chance.below(lines.len());
            lines[at].0 = chance.one(&[NO_SIDES, b"oorrAZaz"].concat());
            sided_file(&lines)
        }
    };
    Case::Read(file, FILE_ROOM)
}
