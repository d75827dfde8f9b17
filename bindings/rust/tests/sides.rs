//! Sides: made-up trays with sides, valid and damaged, in buffers of many lengths, against the plain program. Each side of a
//! tray composes exactly as a tray that holds that side only.
mod buffers;
mod lending;
mod owned;
mod sought;
mod tally;
mod told;

use buffers::{trial, Buffers, AMPLE};
use kotsghane::{
    compose_tray, find_slips, shortest_legend, Join, Place, Refusal, Settings, ShortestLegend, Side, Tray,
};
use kotsghane::{MAX_LEAST, MAX_SLIP};
use owned::ours;
use plain::compose::{kept_slips, Rooms};
use plain::made::damage::{damaged, DAMAGES};
use plain::made::groups::{die_group, with_aside, FEW, FEW_AND_STOP};
use plain::made::leasts::{many_lengths, LEASTS};
use plain::made::sides::{any_sides, echoed, mistaken, spread, spread_sides, Echo, MISTAKES, SPREADS};
use plain::made::stops::many_stops;
use plain::made::texts::text;
use plain::made::{near, slips, valid, Chance, Slips, SHAPES};
use plain::tray;
use sought::Lent;
use tally::Tally;
use told::{plainly, refused};

/// The n-th of many valid trays with sides.
fn sided(chance: &mut Chance, n: usize) -> tray::Tray {
    let all = match n % 6 {
        0 | 1 => valid(chance, 12, 10),
        2 => many_stops(chance, 12, MAX_SLIP),
        3 => many_lengths(chance, [12, 200][n / 6 % 2], 12),
        4 => valid(chance, 12, MAX_SLIP),
        _ => valid(chance, 200, MAX_SLIP),
    };
    match n % 6 {
        0 => echoed(chance, Echo::Equal, &all, 6),
        1 => echoed(chance, Echo::Part, &all, 6),
        _ => any_sides(chance, &all),
    }
}

/// How many slips are of this side.
fn count(tray: &tray::Tray, side: Side) -> usize {
    tray.sides.iter().filter(|&&byte| byte == side.byte()).count()
}

/// Cells, letters of the legend, joins and places.
fn rooms([work, legend, joins, places]: [usize; 4]) -> Rooms {
    Rooms {
        work,
        legend,
        joins,
        places,
    }
}

/// One side in ample buffers, then in buffers of about the length that the outcome needs: the places those of the side.
fn try_side(chance: &mut Chance, tray: &tray::Tray, settings: Settings, tally: &mut Tally) -> usize {
    let (told, _) = trial(tray, settings, &Buffers::of(AMPLE, chance));
    tally.count(&told);
    let ample = told.unwrap_or_default();
    assert_eq!(ample.slips, told.map_or(0, |_| count(tray, settings.side)));
    let rooms = Rooms {
        work: chance.one(&[32_000, 32_000, 32_007, 31_999]),
        legend: near(chance, ample.legend),
        joins: near(chance, ample.joins),
        places: near(chance, ample.slips),
    };
    let (told, _) = trial(tray, settings, &Buffers::of(rooms, chance));
    tally.count(&told);
    ample.joins
}

/// Each side of each tray with many least overlaps, those that are refused too.
#[test]
fn each_side_agrees() {
    let (mut chance, mut tally, mut joined) = (Chance::new(115), Tally::default(), [0; 3]);
    for n in 0..2_000 {
        let tray = sided(&mut chance, n);
        let least = chance.one(&LEASTS);
        for (k, side) in Side::ALL.into_iter().enumerate() {
            for least in [1, least] {
                let settings = Settings::least(least).with_side(side);
                joined[k] += usize::from(try_side(&mut chance, &tray, settings, &mut tally) > 0);
            }
        }
    }
    tally.assert_all_from(&[0, 7, 8, 9, 21], 1_000);
    assert!(joined.iter().all(|&count| count > 500), "sides with joins: {joined:?}");
}

/// 200 slips and 2,000 letters, with sides that lie in each way.
#[test]
fn full_trays_with_sides_agree() {
    let (mut chance, mut tally) = (Chance::new(116), Tally::default());
    for n in 0..80 {
        let signs = chance.signs([2, 3, 5, 26][n / 5 % 4]);
        let all = slips(SHAPES[n % 5], &mut chance, 200, 10, 10, &signs);
        let tray = spread(&mut chance, SPREADS[n % SPREADS.len()], &all);
        for side in Side::ALL {
            let settings = Settings::least([1, 1, 2, 5][n % 4]).with_side(side);
            try_side(&mut chance, &tray, settings, &mut tally);
        }
    }
    tally.assert_all_from(&[0], 240);
    tally.assert_all_from(&[8, 9], 20);
}

/// Each buffer just long enough for the side, then one short of it. Of a side without slips nothing is asked but the cells.
#[test]
fn each_buffer_one_short() {
    let (mut chance, mut met) = (Chance::new(123), [0; 4]);
    for n in 0..500 {
        let (tray, side) = (sided(&mut chance, n), chance.one(&Side::ALL));
        let settings = Settings::default().with_side(side);
        let (told, _) = trial(&tray, settings, &Buffers::of(AMPLE, &mut chance));
        let composed = told.expect("an accepted tray");
        let exact = [32_000, composed.legend, composed.joins, count(&tray, side)];
        let (told, _) = trial(&tray, settings, &Buffers::of(rooms(exact), &mut chance));
        assert_eq!(refused(&told), (0, 0), "{exact:?}");
        let refusals = [(7, 0), (8, composed.legend), (9, composed.joins), (9, composed.joins)];
        for k in (0..4).filter(|&k| exact[k] > 0) {
            let (mut short, (number, detail)) = (exact, refusals[k]);
            short[k] -= 1;
            let (told, _) = trial(&tray, settings, &Buffers::of(rooms(short), &mut chance));
            assert_eq!(refused(&told), (number, detail as u32), "{short:?}");
            met[k] += 1;
        }
    }
    assert!(met.iter().all(|&count| count > 100), "{met:?}");
    assert!(met[3] < 450, "sides with slips: {met:?}");
}

/// The numbers of the slips of a side, and the tray that holds these only, all blank.
fn alone(tray: &Tray, side: Side) -> (Vec<usize>, Tray) {
    let there = (1..).zip(tray.sided_slips()).filter(|(_, slip)| slip.0 == side);
    let (numbers, letters): (Vec<usize>, Vec<&[u8]>) = there.map(|(number, (_, slip))| (number, slip)).unzip();
    (numbers, Tray::of(&letters))
}

/// Each side composes as the tray that holds that side only, but for the numbers of the slips and the side of the records. Slips
/// of one side overlap as they do there, and slips of different sides do not.
#[test]
fn each_side_as_a_tray_of_that_side_only() {
    let (mut chance, mut joined, mut aside, mut apart) = (Chance::new(117), 0, 0, 0);
    for n in 0..3_000 {
        let tray = ours(&sided(&mut chance, n));
        let settings = Settings::least(chance.one(&[1, 1, 2, 3, MAX_LEAST]));
        for side in Side::ALL {
            let (numbers, only) = alone(&tray, side);
            let made = compose_tray(&tray, settings.with_side(side)).expect("an accepted tray");
            let mut expected = compose_tray(&only, settings).expect("an accepted tray");
            let number = |slip: usize| numbers[slip - 1];
            let named = |x: &Join| Join::new(number(x.left()), number(x.right()), x.overlap());
            expected.joins = expected.joins.iter().map(named).collect();
            let of_side = |x: &Place| Place::new(number(x.slip()), x.place(), x.is_kept(), x.compared(), side);
            expected.places = expected.places.iter().map(of_side).collect();
            assert_eq!(made, expected);
            joined += usize::from(!made.joins.is_empty() && numbers.len() < tray.len());
            aside += usize::from(made.kept < numbers.len() && numbers.len() < tray.len());
        }
        let (i, j) = (chance.between(1, tray.len()), chance.between(1, tray.len()));
        let letters = Tray::from_parts(tray.letters().to_vec(), tray.ends().to_vec());
        let expected = match tray.side(i) == tray.side(j) || i == j {
            true => letters.overlap(i, j, settings),
            false => Ok(0),
        };
        assert_eq!(tray.overlap(i, j, settings), expected);
        apart += usize::from(tray.overlap(i, j, settings) != letters.overlap(i, j, settings));
    }
    assert!(joined > 1_500, "sides with joins, beside others: {joined}");
    assert!(aside > 1_000, "sides with slips set aside, beside others: {aside}");
    assert!(apart > 150, "pairs that would overlap but for their sides: {apart}");
}

/// The shortest legend of the tray that holds a side only, told by the numbers of the whole tray.
fn sought_alone(tray: &Tray, settings: Settings) -> Result<ShortestLegend, Refusal> {
    let (numbers, only) = alone(tray, settings.side);
    let mut made = shortest_legend(&only, Settings::least(settings.least))?;
    made.order.iter_mut().for_each(|slip| *slip = numbers[*slip - 1]);
    Ok(made)
}

/// Trays of few slips of each side. Of those with 8 to 10 kept ones of a side the plain program would seek long.
#[test]
fn shortest_legends_agree() {
    let (mut chance, mut tally, mut several, mut long) = (Chance::new(118), Tally::default(), 0, 0);
    for n in 0..2_500 {
        let sets = [FEW, FEW_AND_STOP][n % 2];
        let all = match n % 5 {
            0 => valid(&mut chance, 60, 6),
            1 => with_aside_of(&mut chance, sets),
            _ => die_group(&mut chance, sets, [6, 12, 18][n % 3]),
        };
        let tray = any_sides(&mut chance, &all);
        let kept = Side::ALL.map(|side| kept_slips(&tray, side.byte()).len());
        for side in (0..3).filter(|&k| !(8..=10).contains(&kept[k])).map(|k| Side::ALL[k]) {
            let settings = Settings::least(chance.one(&[1, 1, 2, 5, 0])).with_side(side);
            let told = sought::trial(&tray, settings, &Lent::of(32_000, 2_000, &mut chance));
            tally.count(&told);
            let ample = told.unwrap_or_default();
            let cells = chance.one(&[32_000, 32_000, 32_007, 31_999]);
            let room = near(&mut chance, ample.legend);
            let told = sought::trial(&tray, settings, &Lent::of(cells, room, &mut chance));
            tally.count(&told);
            assert_eq!(
                shortest_legend(&ours(&tray), settings),
                sought_alone(&ours(&tray), settings)
            );
            several += usize::from(ample.count > 1 && count(&tray, side) < tray.ends.len());
            long += usize::from(ample.count > 0 && kept.iter().sum::<usize>() > 10);
        }
    }
    tally.assert_all_from(&[0, 7, 8, 20, 21], 150);
    assert!(
        several > 1_500,
        "shortest legends of several slips, beside others: {several}"
    );
    assert!(long > 300, "with over ten kept slips of all sides: {long}");
}

/// A small group, and slips that stand in its slips.
fn with_aside_of(chance: &mut Chance, sets: &[&[u8]]) -> Slips {
    let all = die_group(chance, sets, 6);
    with_aside(chance, all, 40)
}

/// Lists that are too short or too long, or hold another byte: 22, and every lent buffer holds what it held. Where the tray is at
/// fault too, its rows are told.
#[test]
fn mistaken_lists_agree() {
    let (mut chance, mut tally) = (Chance::new(119), Tally::default());
    for n in 0..4_000 {
        let mut tray = match n % 4 {
            0 => damaged(&mut chance, DAMAGES[n / 16 % DAMAGES.len()], 30),
            _ => sided(&mut chance, n / 4),
        };
        let listed = tray.ends.len();
        tray.sides = spread_sides(&mut chance, SPREADS[n % SPREADS.len()], listed);
        let tray = mistaken(&mut chance, MISTAKES[n / 4 % MISTAKES.len()], tray);
        let settings = Settings::least(chance.one(&[1, 1, 2, 5])).with_side(chance.one(&Side::ALL));
        let work = chance.one(&[32_000, 31_999, 0]);
        let before = Buffers::of(Rooms { work, ..AMPLE }, &mut chance);
        let (told, after) = trial(&tray, settings, &before);
        tally.count(&told);
        let lent = Lent::of(work, 2_000, &mut chance);
        let (sought, legend) = sought::call(&tray, settings, &lent);
        if let Err(refusal) = told {
            assert!(
                after == before && legend == lent,
                "a lent buffer differs after {refusal}"
            );
            assert_eq!(sought.err(), Some(refusal));
        }
    }
    tally.assert_all_from(&[22], 2_500);
    tally.assert_all_from(&[1, 2, 3, 4, 5, 6], 50);
}

/// All pairs of small trays, with 0 and a number above the count, where the lists may be too short or too long.
#[test]
fn pairs_agree() {
    let (mut chance, mut tally, mut apart) = (Chance::new(120), Tally::default(), 0);
    for n in 0..3_000 {
        let all = valid(&mut chance, 6, 8);
        let mut tray = match n % 5 {
            0 => damaged(&mut chance, DAMAGES[n / 5 % DAMAGES.len()], 5),
            1 => echoed(&mut chance, Echo::Equal, &all, 3),
            _ => any_sides(&mut chance, &all),
        };
        if n % 7 == 0 {
            let fewer = tray.sides.len() - 1;
            tray.sides.resize([fewer, fewer + 2][n % 2], b'O');
        }
        let (mine, least) = (ours(&tray), chance.one(&[1, 1, 2, 3, 0]));
        let above = tray.ends.len().min(9) + 1;
        for (i, j) in (0..=above).flat_map(|i| (0..=above).map(move |j| (i, j))) {
            let told = mine.overlap(i, j, Settings::least(least).with_side(chance.one(&Side::ALL)));
            assert_eq!(told.map_err(plainly), tray.pair(i, j, least), "{i} and {j} at {least}");
            tally.count(&told);
            let differ = mine.side(i) != mine.side(j);
            apart += usize::from(told == Ok(0) && differ);
        }
    }
    tally.assert_all_from(&[0, 10, 11, 21, 22], 3_000);
    assert!(apart > 10_000, "pairs of different sides: {apart}");
}

/// The comfortable forms have the same outcome as the lent buffers.
#[test]
fn owned_trays_agree() {
    let mut chance = Chance::new(121);
    for n in 0..1_000 {
        let tray = sided(&mut chance, n);
        let mine = ours(&tray);
        assert_eq!(mine.check(), Ok(()));
        let settings = Settings::least(chance.one(&[1, 2, 0])).with_side(chance.one(&Side::ALL));
        let (told, after) = trial(&tray, settings, &Buffers::of(AMPLE, &mut chance));
        match compose_tray(&mine, settings) {
            Err(refusal) => assert_eq!(told, Err(refusal)),
            Ok(legend) => {
                let composed = told.expect("the comfortable form accepts it");
                assert_eq!(legend.text.as_bytes(), &after.legend[..composed.legend]);
                assert_eq!(legend.joins, after.joins[..composed.joins]);
                assert_eq!(legend.places, after.places[..composed.slips]);
                assert_eq!((legend.kept, legend.saved), (composed.kept, composed.saved));
                assert_eq!(legend.kept_letters, composed.kept_letters);
            }
        }
    }
}

/// Finding, and one slip, take no sides: what they tell does not depend on them, nor on how many there are.
#[test]
fn no_sides_are_asked_for() {
    let (mut chance, mut met) = (Chance::new(122), 0);
    for n in 0..1_000 {
        let mut tray = sided(&mut chance, n);
        let blank = Tray::from_parts(tray.letters.clone(), tray.ends.clone());
        if n % 3 == 0 {
            tray.sides.truncate(chance.below(tray.ends.len()));
        }
        let (mine, letters) = (ours(&tray), chance.below(100));
        let all: Slips = blank.slips().map(<[u8]>::to_vec).collect();
        let text = text(&mut chance, &all, letters);
        let finding = find_slips(&mine, &text);
        assert_eq!(finding, find_slips(&blank, &text));
        met += finding.expect("an accepted tray").found.len();
        let slip = chance.below(mine.len() + 2);
        assert_eq!(mine.slip(slip), blank.slip(slip));
    }
    assert!(met > 5_000, "occurrences: {met}");
}
