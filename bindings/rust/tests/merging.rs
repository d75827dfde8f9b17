//! Two trays merged: what was worked out by hand, and made-up trays against the plain program.
mod lent;
mod owned;
mod tally;
mod told;

use kotsghane::{
    compose_tray, merge_trays, Refusal, Settings, Side, TrayRef, Written, MAX_LEAST, MAX_LETTERS, MAX_SLIPS,
};
use lent::Lent;
use owned::ours;
use plain::by_hand::{merging, sides_written};
use plain::made::campaigns::{any_two, Met};
use plain::made::damage::{damaged, DAMAGES};
use plain::made::sides::{both_sided, mistaken, MISTAKES};
use plain::made::Chance;
use plain::merge::{self, long_tray};
use plain::tray;
use tally::Tally;
use told::{plainly, refused};

/// The tray as it is lent, with any sides.
fn lend(tray: &tray::Tray) -> TrayRef<'_> {
    TrayRef::new(&tray.letters, &tray.ends, &tray.sides)
}

/// One trial in the given buffers: what is told and the buffers, to the last element, are what the plain program says.
fn trial(first: &tray::Tray, second: &tray::Tray, before: &Lent) -> Result<Written, Refusal> {
    let mut after = before.clone();
    let (letters, ends, sides) = (&mut after.letters, &mut after.ends, &mut after.sides);
    let told = merge_trays(lend(first), lend(second), letters, ends, sides);
    let rooms = [before.letters.len(), before.ends.len(), before.sides.len()];
    let plain = merge::merge_trays(first, second, rooms[0], rooms[1], rooms[2]);
    before.assert_after(told, &after, &plain);
    told
}

/// One trial in buffers that hold anything and are just large enough, or larger.
fn ample(chance: &mut Chance, [first, second]: &[tray::Tray; 2]) -> Result<Written, Refusal> {
    let more = chance.one(&[[0, 0, 0], [1, 1, 1], [500, 37, 0], [0, 0, 37]]);
    let before = Lent::of(chance, MAX_LETTERS + more[0], MAX_SLIPS + more[1], MAX_SLIPS + more[2]);
    trial(first, second, &before)
}

#[test]
fn trays_by_hand() {
    let mut chance = Chance::new(72);
    for case in merging::all() {
        let (name, [letters, ends]) = (&case.name, case.lent);
        let told = trial(
            &case.first,
            &case.second,
            &Lent::of(&mut chance, letters, ends, MAX_SLIPS),
        );
        let (number, detail) = refused(&told);
        let expected = case.told.map(|tray| ours(&tray));
        let by_hand = expected.clone().err().unwrap_or_default();
        assert_eq!((number as usize, detail as usize), by_hand, "{name}");
        if letters < MAX_LETTERS || ends < MAX_SLIPS {
            continue;
        }
        let owned = ours(&case.first).merge(&ours(&case.second));
        let owned = owned.map_err(|x| (x.number() as usize, x.detail()));
        assert_eq!(owned, expected, "{name}");
    }
}

#[test]
fn valid_trays_agree() {
    let (mut chance, mut tally, mut met) = (Chance::new(73), Tally::default(), Met::default());
    for n in 0..8_000 {
        let both = any_two(&mut chance, n);
        met.count(&both[0], &both[1]);
        tally.count(&ample(&mut chance, &both));
    }
    tally.assert_all_from(&[0], 5_000);
    tally.assert_all_from(&[1, 4], 300);
    met.assert_all_from(400);
}

/// The first tray is damaged, the second, or both.
#[test]
fn damaged_trays_agree() {
    let (mut chance, mut tally) = (Chance::new(74), Tally::default());
    for n in 0..6_000 {
        let [first, second] = any_two(&mut chance, n / 3 % 6);
        let mut bad = |n: usize| damaged(&mut chance, DAMAGES[n % DAMAGES.len()], 30);
        let both = match n % 3 {
            0 => [bad(n / 3), second],
            1 => [first, bad(n / 3)],
            _ => [bad(n / 3), bad(n / 30)],
        };
        tally.count(&ample(&mut chance, &both));
    }
    tally.assert_all_from(&[1, 2, 3, 4, 5, 6], 300);
}

/// Any letters and ends lent, valid trays and damaged ones: 15 comes first.
#[test]
fn any_rooms_agree() {
    let (mut chance, mut tally) = (Chance::new(75), Tally::default());
    for n in 0..4_000 {
        let mut both = any_two(&mut chance, n);
        if n % 4 < 2 {
            both[n % 4] = damaged(&mut chance, DAMAGES[n / 4 % DAMAGES.len()], 12);
        }
        let near = |chance: &mut Chance, need: usize| chance.one(&[need, need - 1, need + 1, need + 60, need / 2, 0]);
        let (letters, ends) = (near(&mut chance, MAX_LETTERS), near(&mut chance, MAX_SLIPS));
        let sides = [MAX_SLIPS, MAX_SLIPS, MAX_SLIPS + 7, near(&mut chance, MAX_SLIPS)][n / 4 % 4];
        let told = trial(&both[0], &both[1], &Lent::of(&mut chance, letters, ends, sides));
        let few = letters < MAX_LETTERS || ends < MAX_SLIPS || sides < MAX_SLIPS;
        assert_eq!(refused(&told) == (15, 0), few);
        tally.count(&told);
    }
    tally.assert_all_from(&[15], 2_000);
    tally.assert_all_from(&[0], 300);
}

/// One tray lent twice gives that tray.
#[test]
fn a_tray_with_itself() {
    let mut chance = Chance::new(76);
    for n in 0..1_000 {
        let [first, _] = any_two(&mut chance, n);
        let mine = ours(&first);
        assert_eq!(mine.merge(&mine), Ok(mine.clone()));
    }
}

/// Where the long tray is accepted, its legend is that of the outcome, by any settings; and where the settings are refused,
/// both are. The comfortable form has the same outcome.
#[test]
fn legend_of_the_long_tray() {
    let (mut chance, mut met) = (Chance::new(77), Met::default());
    let (mut accepted, mut shorter, mut joined) = (0, 0, 0);
    for n in 0..6_000 {
        let both = any_two(&mut chance, n);
        let [first, second] = &both;
        let outcome = ours(first).merge(&ours(second));
        let plain = merge::merge_trays(first, second, MAX_LETTERS, MAX_SLIPS, MAX_SLIPS);
        assert_eq!(outcome.clone().map_err(plainly), plain.map(|x| ours(&x)));
        let long = long_tray(first, second);
        if long.fault().is_some() {
            shorter += usize::from(outcome.is_ok());
            continue;
        }
        let (outcome, long) = (outcome.expect("the long tray is accepted"), ours(&long));
        accepted += 1;
        met.count(&both[0], &both[1]);
        let any = chance.between(1, MAX_LEAST);
        for least in [1, 2, 3, 5, MAX_LEAST, any, 0, MAX_LEAST + 1] {
            let legend = |tray| compose_tray(tray, Settings::least(least)).map(|made| made.text);
            assert_eq!(legend(&outcome), legend(&long), "at {least}");
        }
        let made = compose_tray(&outcome, Settings::least(5)).expect("an accepted tray");
        joined += usize::from(!made.joins.is_empty());
    }
    assert!(accepted > 4_000, "accepted long trays: {accepted}");
    assert!(shorter > 800, "accepted, though the long tray is not: {shorter}");
    assert!(joined > 1_000, "with joins at 5: {joined}");
    met.assert_all_from(300);
}

/// Two valid trays with sides, the n-th of many kinds.
fn sided_two(chance: &mut Chance, n: usize) -> [tray::Tray; 2] {
    let both = any_two(chance, n);
    both_sided(chance, both)
}

#[test]
fn sides_by_hand() {
    let mut chance = Chance::new(78);
    for case in sides_written::all_merged() {
        let (name, [letters, ends, sides]) = (&case.name, case.lent);
        let told = trial(&case.first, &case.second, &Lent::of(&mut chance, letters, ends, sides));
        let (number, detail) = refused(&told);
        let by_hand = case.told.clone().err().unwrap_or_default();
        assert_eq!((number as usize, detail as usize), by_hand, "{name}");
        if let Ok(outcome) = case.told {
            let owned = ours(&case.first).merge(&ours(&case.second));
            assert_eq!(owned, Ok(ours(&outcome)), "{name}");
        }
    }
    let (first, second, legends) = sides_written::LEGENDS;
    let (first, second) = (tray::Tray::sided(first), tray::Tray::sided(second));
    let outcome = ours(&first).merge(&ours(&second)).expect("two accepted trays");
    for tray in [outcome, ours(&long_tray(&first, &second))] {
        for (byte, legend) in legends {
            let side = Side::from_byte(byte).expect("a side");
            let made = compose_tray(&tray, Settings::default().with_side(side));
            assert_eq!(made.expect("an accepted tray").text, legend, "{side:?}");
        }
    }
}

#[test]
fn trays_with_sides_agree() {
    let (mut chance, mut tally, mut met, mut two_sides) = (Chance::new(79), Tally::default(), Met::default(), 0);
    for n in 0..8_000 {
        let both = sided_two(&mut chance, n);
        met.count(&both[0], &both[1]);
        let told = ample(&mut chance, &both);
        let blank = both.map(|x| tray::Tray::all_blank(x.letters, x.ends));
        let all_blank = ample(&mut chance, &blank);
        two_sides += usize::from(told.is_ok() && told != all_blank);
        tally.count(&told);
    }
    tally.assert_all_from(&[0], 4_000);
    tally.assert_all_from(&[1, 4], 300);
    met.assert_all_from(300);
    assert!(two_sides > 1_000, "equal letters on two sides: {two_sides}");
}

/// Rows 1 to 6 and 22 of the first tray, then of the second, then of the outcome. Nothing that is lent is touched.
#[test]
fn mistaken_sides_agree() {
    let (mut chance, mut tally) = (Chance::new(101), Tally::default());
    for n in 0..6_000 {
        let [first, second] = sided_two(&mut chance, n / 3);
        let (mistake, damage) = (MISTAKES[n / 3 % MISTAKES.len()], DAMAGES[n / 12 % DAMAGES.len()]);
        let mut bad = |tray: tray::Tray| mistaken(&mut chance, mistake, tray);
        let both = match n % 3 {
            0 => [bad(first), second],
            1 => [first, bad(second)],
            _ => [bad(first), damaged(&mut chance, damage, 30)],
        };
        let both = if n % 6 < 3 {
            both
        } else {
            both.map(|tray| mistaken(&mut chance, mistake, tray))
        };
        tally.count(&ample(&mut chance, &both));
    }
    tally.assert_all_from(&[22], 4_000);
    // Where both trays are at fault, the rows of the first are told.
    let mut chance = Chance::new(102);
    for n in 0..3_000 {
        let [first, second] = sided_two(&mut chance, n % 6);
        let damaged = damaged(&mut chance, DAMAGES[n / 2 % DAMAGES.len()], 30);
        let both = match n % 2 {
            0 => [
                damaged,
                mistaken(&mut chance, MISTAKES[n / 20 % MISTAKES.len()], second),
            ],
            _ => [first, mistaken(&mut chance, MISTAKES[n / 20 % MISTAKES.len()], damaged)],
        };
        tally.count(&ample(&mut chance, &both));
    }
    tally.assert_all_from(&[1, 2, 3, 4, 5, 6], 100);
}

/// Where the long tray is accepted, each of its sides has the legend of that side of the outcome, by any settings.
#[test]
fn legends_of_each_side_of_the_long_tray() {
    let (mut chance, mut accepted, mut joined) = (Chance::new(103), 0, [0; 3]);
    for n in 0..5_000 {
        let [first, second] = sided_two(&mut chance, n);
        let outcome = ours(&first).merge(&ours(&second));
        let plain = merge::merge_trays(&first, &second, MAX_LETTERS, MAX_SLIPS, MAX_SLIPS);
        assert_eq!(outcome.clone().map_err(plainly), plain.map(|x| ours(&x)));
        let long = long_tray(&first, &second);
        if long.fault().is_some() {
            continue;
        }
        let (outcome, long) = (outcome.expect("the long tray is accepted"), ours(&long));
        accepted += 1;
        let any = chance.between(1, MAX_LEAST);
        for (k, side) in Side::ALL.into_iter().enumerate() {
            for least in [1, 2, 5, any, 0] {
                let settings = Settings::least(least).with_side(side);
                let legend = |tray| compose_tray(tray, settings).map(|made| made.text);
                assert_eq!(legend(&outcome), legend(&long), "{side:?} at {least}");
            }
            let made = compose_tray(&outcome, Settings::default().with_side(side)).expect("an accepted tray");
            joined[k] += usize::from(!made.joins.is_empty());
        }
        assert_eq!(long.merge(&long), Ok(long.clone()));
    }
    assert!(accepted > 3_000, "accepted long trays: {accepted}");
    assert!(
        joined.iter().all(|&count| count > 1_000),
        "sides with joins: {joined:?}"
    );
}
