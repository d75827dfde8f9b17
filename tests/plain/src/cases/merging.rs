//! Cases of two trays merged: those worked out by hand, and made-up ones.
use super::specimens::named;
use super::{tray_room, Case, MERGE_ROOM};
use crate::by_hand::merging;
use crate::made::campaigns::{about_2000_letters, about_200_slips, second_tray, two_campaigns, two_trays, Kin, MIXES};
use crate::made::damage::{damaged, DAMAGES};
use crate::made::leasts::many_lengths;
use crate::made::stops::many_stops;
use crate::made::{Chance, Slips};
use crate::tray::Tray;
use crate::{MAX_LETTERS, MAX_SLIP, MAX_SLIPS};

/// What was worked out by hand.
pub fn specimens() -> Vec<Case> {
    let mut cases = vec![Case::Heading("Two trays merged".to_string())];
    for case in merging::all() {
        let [letters, ends] = case.lent;
        let room = tray_room(letters, ends, MAX_SLIPS);
        cases.extend(named(&case.name, Case::Merge(case.first, case.second, room)));
    }
    cases
}

/// Two trays where just enough is lent.
fn lent(first: Tray, second: Tray) -> Case {
    Case::Merge(first, second, MERGE_ROOM)
}

/// Two valid trays.
fn whole([first, second]: [Slips; 2]) -> Case {
    lent(Tray::of(&first), Tray::of(&second))
}

/// Few slips of few letters, of each kind in turn.
pub fn small(chance: &mut Chance, n: usize) -> Case {
    let (most, longest) = [(4, 4), (6, 10), (12, 6)][n / MIXES.len() % 3];
    whole(two_trays(chance, MIXES[n % MIXES.len()], most, longest))
}

/// Slips that nearly equal others, or stand in them.
pub fn nearly_equal(chance: &mut Chance, n: usize) -> Case {
    let mix = [&[Kin::Near][..], &[Kin::Part], &[Kin::Near, Kin::Part, Kin::Equal]][n % 3];
    whole(two_trays(chance, mix, 8, [6, 12, MAX_SLIP][n / 3 % 3]))
}

/// A hoard of which many slips overlap, in two campaigns.
pub fn one_hoard(chance: &mut Chance, n: usize) -> Case {
    let (most, longest) = [(6, 6), (12, 8), (8, 16)][n % 3];
    let hoard = many_lengths(chance, most, longest);
    whole(two_campaigns(chance, &hoard))
}

/// Many stops in both trays.
pub fn with_stops(chance: &mut Chance, n: usize) -> Case {
    let first = many_stops(chance, 8, 8);
    let second = second_tray(chance, &first, MIXES[n % MIXES.len()], 8);
    whole([first, second])
}

/// Trays of any size, which may have too many slips or letters together.
pub fn any_size(chance: &mut Chance, n: usize) -> Case {
    whole(two_trays(
        chance,
        MIXES[n % MIXES.len()],
        MAX_SLIPS,
        [4, 10, MAX_SLIP][n % 3],
    ))
}

/// About as many slips or letters together as a tray may have.
pub fn about_full(chance: &mut Chance, n: usize) -> Case {
    whole([about_200_slips, about_2000_letters][n % 2](chance))
}

/// The first tray is damaged, the second, or both; where both are, each in its own way.
pub fn damaged_trays(chance: &mut Chance, n: usize) -> Case {
    let most = 6;
    let [first, second] = two_trays(chance, MIXES[4], most, 12);
    let damage = |n: usize| DAMAGES[n % DAMAGES.len()];
    let (one, other) = (damage(n / 3), damage(n / 3 + n / 30));
    match n % 3 {
        0 => lent(damaged(chance, one, most), Tray::of(&second)),
        1 => lent(Tray::of(&first), damaged(chance, one, most)),
        _ => lent(damaged(chance, one, most), damaged(chance, other, most)),
    }
}

/// More lent than needed, or a letter or an end less, or far less; in every third pair a tray is damaged.
pub fn any_room(chance: &mut Chance, n: usize) -> Case {
    let [first, second] = two_trays(chance, MIXES[4], 6, 8).map(|all| Tray::of(&all));
    let bad = damaged(chance, DAMAGES[n / 6 % DAMAGES.len()], 6);
    let (first, second) = match n % 6 {
        0 => (bad, second),
        1 => (first, bad),
        _ => (first, second),
    };
    let near = |chance: &mut Chance, need: usize| chance.one(&[need, need, need, need - 1, need + 1, need + 40]);
    let (letters, ends) = (near(chance, MAX_LETTERS), near(chance, MAX_SLIPS));
    let few = (chance.below(MAX_LETTERS), chance.below(MAX_SLIPS));
    let (letters, ends) = chance.one(&[(letters, ends), (letters, ends), (letters, ends), few]);
    Case::Merge(first, second, tray_room(letters, ends, MAX_SLIPS))
}
