//! The least overlap: what was worked out by hand, what is refused, and made-up trays against the plain program.
mod buffers;
mod lending;
mod owned;
mod sought;
mod tally;
mod told;

use buffers::{trial, Buffers, AMPLE};
use kotsghane::{compose_tray, shortest_legend, Join, Settings, Tray, MAX_LEAST, MAX_SLIP};
use owned::ours;
use plain::by_hand::least::{long, refused_first, DIE_GROUPS, JOINED, REFUSED, SHORT_ROOMS, WIDE};
use plain::by_hand::pairs::PAIRS;
use plain::by_hand::shortest::longest;
use plain::by_hand::COMPOSE;
use plain::compose::Rooms;
use plain::made::damage::{damaged, DAMAGES};
use plain::made::groups::{die_group, with_aside, FEW, FEW_AND_STOP};
use plain::made::leasts::{about_least, any_least, many_lengths, LEASTS};
use plain::made::stops::many_stops;
use plain::made::{near, valid, Chance};
use plain::tray;
use sought::Lent;
use tally::Tally;
use told::{plainly, refused};

fn numbers(join: &Join) -> (usize, usize, usize) {
    (join.left(), join.right(), join.overlap())
}

#[test]
fn trays_by_hand() {
    let mut chance = Chance::new(81);
    for case in JOINED {
        let name = case.name;
        let settings = Settings::least(case.least);
        let made = compose_tray(&Tray::of(case.slips), settings).expect(name);
        assert_eq!(made.text, case.legend, "{name}");
        let joins: Vec<_> = made.joins.iter().map(numbers).collect();
        assert_eq!(joins, case.joins, "{name}");
        assert_eq!(made.places.len(), case.places.len(), "{name}");
        for (i, (place, &at)) in made.places.iter().zip(case.places).enumerate() {
            let aside = case.aside.iter().find(|&&(slip, _)| slip == i + 1);
            let told = (place.place(), place.is_kept(), place.compared());
            assert_eq!(told, (at, aside.is_none(), aside.map_or(0, |x| x.1)), "{name}");
        }
        let before = Buffers::of(AMPLE, &mut chance);
        let (told, _) = trial(&tray::Tray::of(case.slips), settings, &before);
        assert_eq!(refused(&told), (0, 0), "{name}");
    }
}

#[test]
fn die_groups_by_hand() {
    let mut chance = Chance::new(82);
    for (least, case) in DIE_GROUPS {
        let (name, settings) = (case.name, Settings::least(*least));
        let made = shortest_legend(&Tray::of(case.slips), settings).expect(name);
        assert_eq!(
            (made.text.as_str(), &made.order[..]),
            (case.legend, case.order),
            "{name}"
        );
        let before = Lent::of(32_000, case.legend.len(), &mut chance);
        let told = sought::trial(&tray::Tray::of(case.slips), settings, &before);
        assert_eq!(refused(&told), (0, 0), "{name}");
    }
}

#[test]
fn pairs_by_hand() {
    for case in PAIRS {
        let (left, right) = case.numbers;
        let told = Tray::of(case.slips).overlap(left, right, Settings::least(case.least));
        let told = told.map_err(|refusal| (refusal.number() as usize, refusal.detail()));
        assert_eq!(told, case.told, "{:?} {:?} at {}", case.slips, case.numbers, case.least);
    }
}

/// Slips that share all letters but one are joined with this many as the least overlap, and not with one more. The slips of a
/// pair may be equal, and then share all.
#[test]
fn long_slips() {
    let (case, ten) = (long(), longest());
    let (tray, n) = (Tray::of(&case.slips), case.letters);
    let [fewer, all] = [n - 1, n].map(Settings::least);
    let text = |settings| compose_tray(&tray, settings).expect("two slips").text;
    assert_eq!(text(fewer).as_bytes(), case.text);
    assert_eq!(text(all).as_bytes(), case.slips.concat());
    assert_eq!(tray.overlap(1, 2, fewer), Ok(n - 1));
    assert_eq!(tray.overlap(1, 2, all), Ok(0));
    let equal = Tray::of(&[&case.slips[0], &case.slips[0]]);
    assert_eq!(equal.overlap(1, 2, all), Ok(n));
    let made = shortest_legend(&Tray::of(&ten.slips), fewer).expect("ten slips");
    assert_eq!(made.text.as_bytes(), ten.legend);
    let made = shortest_legend(&Tray::of(&ten.slips), all).expect("ten slips");
    assert_eq!(made.text.as_bytes(), ten.slips.concat());
    assert_eq!(made.order, [1, 2, 3, 4, 5, 6, 7, 8, 9, 10]);
}

/// Row 21 is the first, whatever the tray and the rooms are, and every lent buffer holds what it held.
#[test]
fn refused_by_21() {
    let mut chance = Chance::new(83);
    for case in refused_first() {
        let (name, mine) = (case.name, ours(&case.tray));
        let [joins, places] = [chance.below(3), chance.below(3)];
        let rooms = Rooms {
            work: case.work,
            legend: case.room,
            joins,
            places,
        };
        for least in REFUSED.into_iter().chain(WIDE) {
            let settings = Settings::least(least);
            let before = Buffers::of(rooms, &mut chance);
            let (told, after) = trial(&case.tray, settings, &before);
            assert_eq!(refused(&told), (21, 0), "{name}");
            assert!(after == before, "{name}: a lent buffer differs");
            let before = Lent::of(case.work, case.room, &mut chance);
            let (told, after) = sought::call(&case.tray, settings, &before);
            assert_eq!(refused(&told), (21, 0), "{name}");
            assert!(after == before, "{name}: a lent buffer differs");
            assert_eq!(refused(&compose_tray(&mine, settings)), (21, 0), "{name}");
            assert_eq!(refused(&shortest_legend(&mine, settings)), (21, 0), "{name}");
            for (left, right) in [(1, 2), (0, 0), (1, 1), (1, 300)] {
                let told = mine.overlap(left, right, settings);
                assert_eq!(refused(&told), (21, 0), "{name}");
            }
        }
    }
}

/// The letters needed depend on the least overlap.
#[test]
fn refused_by_8() {
    let mut chance = Chance::new(84);
    let tray = tray::Tray::of(COMPOSE.slips);
    for &(least, room, need) in SHORT_ROOMS {
        let rooms = Rooms { legend: room, ..AMPLE };
        let settings = Settings::least(least);
        let (told, _) = trial(&tray, settings, &Buffers::of(rooms, &mut chance));
        assert_eq!(refused(&told), (8, need as u32), "{least}");
        let told = sought::trial(&tray, settings, &Lent::of(32_000, room, &mut chance));
        assert_eq!(refused(&told), (8, need as u32), "{least}");
    }
}

/// One tray in ample buffers, then in buffers of about the length that the outcome needs.
fn try_tray(chance: &mut Chance, tray: &tray::Tray, least: usize, tally: &mut Tally) -> usize {
    let settings = Settings::least(least);
    let (told, _) = trial(tray, settings, &Buffers::of(AMPLE, chance));
    tally.count(&told);
    let ample = told.unwrap_or_default();
    let rooms = Rooms {
        work: chance.one(&[32_000, 32_000, 32_007, 31_999]),
        legend: near(chance, ample.legend),
        joins: near(chance, ample.joins),
        places: near(chance, tray.ends.len()),
    };
    let (told, _) = trial(tray, settings, &Buffers::of(rooms, chance));
    tally.count(&told);
    ample.joins
}

/// Each tray with every least overlap. Where it may be asked for, more letters never make more joins.
#[test]
fn trays_agree() {
    let (mut chance, mut tally, mut fewer) = (Chance::new(85), Tally::default(), 0);
    for n in 0..2_000 {
        let all = match n % 5 {
            0 => valid(&mut chance, 12, MAX_SLIP),
            1 => many_stops(&mut chance, 12, MAX_SLIP),
            2 => many_lengths(&mut chance, [12, 200][n / 5 % 2], 12),
            3 => many_lengths(&mut chance, 12, MAX_SLIP),
            _ => valid(&mut chance, 60, 12),
        };
        let tray = tray::Tray::of(&all);
        let joins = LEASTS.map(|least| try_tray(&mut chance, &tray, least, &mut tally));
        assert!(joins[..4].is_sorted_by(|a, b| a >= b), "{joins:?}");
        assert_eq!(joins[4..], [0, 0]);
        fewer += usize::from(joins[0] > joins[1] && joins[1] > joins[2] && joins[2] > 0);
    }
    tally.assert_all_from(&[0, 7, 8, 9, 21], 1_000);
    assert!(fewer > 150, "trays with fewer joins at 2, and fewer yet at 5: {fewer}");
}

#[test]
fn damaged_trays_agree() {
    let (mut chance, mut tally) = (Chance::new(86), Tally::default());
    for n in 0..1_500 {
        let tray = damaged(&mut chance, DAMAGES[n % DAMAGES.len()], 30);
        for least in LEASTS {
            try_tray(&mut chance, &tray, least, &mut tally);
        }
    }
    tally.assert_all_from(&[1, 2, 3, 4, 5, 6], 500);
    tally.assert_all_from(&[21], 6_000);
}

#[test]
fn small_groups_agree() {
    let (mut chance, mut tally, mut turned) = (Chance::new(87), Tally::default(), 0);
    for n in 0..1_500 {
        let all = match n % 4 {
            0 => many_lengths(&mut chance, 6, MAX_SLIP),
            1 => die_group(&mut chance, FEW_AND_STOP, 6),
            _ => die_group(&mut chance, FEW, 6),
        };
        let all = match n % 3 {
            0 => with_aside(&mut chance, all, [6, 40][n / 3 % 2]),
            _ => all,
        };
        let tray = match n % 10 {
            9 => damaged(&mut chance, DAMAGES[n / 10 % DAMAGES.len()], 6),
            _ => tray::Tray::of(&all),
        };
        let orders = LEASTS.map(|least| {
            let settings = Settings::least(least);
            let told = sought::trial(&tray, settings, &Lent::of(32_000, 2_000, &mut chance));
            tally.count(&told);
            let ample = told.unwrap_or_default();
            let cells = chance.one(&[32_000, 32_000, 32_007, 31_999]);
            let room = near(&mut chance, ample.legend);
            let told = sought::trial(&tray, settings, &Lent::of(cells, room, &mut chance));
            tally.count(&told);
            ample.order
        });
        turned += usize::from(orders[0] != orders[1]);
    }
    tally.assert_all_from(&[0, 7, 8, 21], 500);
    assert!(turned > 250, "groups in another order at 2 than at 1: {turned}");
}

/// All pairs of a tray, with 0 and a number above the count.
#[test]
fn pairs_agree() {
    let (mut chance, mut tally, mut short) = (Chance::new(88), Tally::default(), 0);
    for n in 0..3_000 {
        let any = any_least(&mut chance);
        let tray = match n % 5 {
            0 => damaged(&mut chance, DAMAGES[n / 5 % DAMAGES.len()], 5),
            1 => tray::Tray::of(&many_stops(&mut chance, 5, MAX_SLIP)),
            2 => tray::Tray::of(&many_lengths(&mut chance, 5, MAX_SLIP)),
            _ => tray::Tray::of(&about_least(&mut chance, any)),
        };
        let mine = ours(&tray);
        let above = tray.ends.len().min(5) + 1;
        for least in LEASTS.into_iter().chain([any]) {
            for (i, j) in (0..=above).flat_map(|i| (0..=above).map(move |j| (i, j))) {
                let told = mine.overlap(i, j, Settings::least(least));
                assert_eq!(told.map_err(plainly), tray.pair(i, j, least), "{i} and {j} at {least}");
                tally.count(&told);
                short += usize::from(told == Ok(0) && mine.overlap(i, j, Settings::default()) != Ok(0));
            }
        }
    }
    tally.assert_all_from(&[0, 2, 3, 5, 6, 10, 11, 21], 1_000);
    assert!(short > 3_000, "pairs that share too few letters: {short}");
}

/// The settings by default are one letter, and the calls take them as that.
#[test]
fn one_letter_by_default() {
    assert_eq!(Settings::default(), Settings::least(1));
    let mut chance = Chance::new(89);
    for n in 0..600 {
        let tray = match n % 3 {
            0 => ours(&damaged(&mut chance, DAMAGES[n / 3 % DAMAGES.len()], 9)),
            1 => Tray::of(&valid(&mut chance, 9, MAX_SLIP)),
            _ => Tray::of(&many_lengths(&mut chance, 9, 12)),
        };
        let (usual, one) = (Settings::default(), Settings::least(1));
        assert_eq!(compose_tray(&tray, usual), compose_tray(&tray, one));
        assert_eq!(shortest_legend(&tray, usual), shortest_legend(&tray, one));
        assert_eq!(tray.overlap(1, 2, usual), tray.overlap(1, 2, one));
    }
}

/// Arcs are taken by longer overlap, so the joins are those of 1 that have enough letters, in the same order. What is kept
/// does not depend on the least overlap.
#[test]
fn joins_of_one_letter_that_are_long_enough() {
    let (mut chance, mut some) = (Chance::new(90), 0);
    for n in 0..3_000 {
        let longest = [8, 12, MAX_SLIP][n % 3];
        let tray = Tray::of(&many_lengths(&mut chance, [6, 30, 200][n / 3 % 3], longest));
        let at_one = compose_tray(&tray, Settings::default()).expect("a valid tray");
        let least = chance.between(2, MAX_LEAST.min(longest));
        let made = compose_tray(&tray, Settings::least(least)).expect("a valid tray");
        let long = at_one.joins.iter().filter(|x| x.overlap() >= least);
        let enough: Vec<Join> = long.copied().collect();
        assert_eq!(made.joins, enough);
        let kept = |places: &[kotsghane::Place]| places.iter().map(|x| x.is_kept()).collect::<Vec<bool>>();
        assert_eq!(kept(&made.places), kept(&at_one.places));
        assert_eq!(made.kept_letters, made.saved + made.text.len());
        some += usize::from(!enough.is_empty() && enough.len() < at_one.joins.len());
    }
    assert!(some > 1_000, "trays with fewer joins, but some: {some}");
}
