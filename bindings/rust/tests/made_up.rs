//! Thousands of made-up trays, long and short, valid and damaged, in buffers of many lengths, against the plain program.
mod buffers;
mod lending;
mod tally;
mod told;

use buffers::{trial, Buffers, AMPLE};
use kotsghane::{compose_tray, Settings, Tray, MAX_SLIP};
use plain::compose::Rooms;
use plain::made::damage::{damaged, stored, DAMAGES};
use plain::made::stops::{many_stops, share_stops_alone};
use plain::made::{near, slips, valid, Chance, SHAPES};
use plain::tray;
use tally::Tally;
use told::refused;

/// No overlap is too short.
const DEFAULT: Settings = Settings::least(1);

/// One tray, first in ample buffers, then in buffers of about the length that the outcome needs.
fn try_tray(chance: &mut Chance, tray: &tray::Tray, tally: &mut Tally) {
    let ample = Buffers::of(AMPLE, chance);
    let (told, _) = trial(tray, DEFAULT, &ample);
    tally.count(&told);
    let counts = told.unwrap_or_default();
    let rooms = Rooms {
        work: [32_000, 32_000, 32_007, 31_999][chance.below(4)],
        legend: near(chance, counts.legend),
        joins: near(chance, counts.joins),
        places: near(chance, tray.ends.len()),
    };
    let before = Buffers::of(rooms, chance);
    let (told, _) = trial(tray, DEFAULT, &before);
    tally.count(&told);
}

#[test]
fn short_trays_agree() {
    let (mut chance, mut tally) = (Chance::new(1), Tally::default());
    for _ in 0..6_000 {
        let tray = tray::Tray::of(&valid(&mut chance, 8, MAX_SLIP));
        try_tray(&mut chance, &tray, &mut tally);
    }
    tally.assert_all_from(&[0, 7, 8, 9], 500);
}

#[test]
fn long_trays_agree() {
    let (mut chance, mut tally) = (Chance::new(2), Tally::default());
    for _ in 0..1_000 {
        let tray = tray::Tray::of(&valid(&mut chance, 200, MAX_SLIP));
        try_tray(&mut chance, &tray, &mut tally);
    }
    tally.assert_all_from(&[0, 7, 8, 9], 100);
}

#[test]
fn full_trays_agree() {
    let (mut chance, mut tally) = (Chance::new(3), Tally::default());
    for n in 0..150 {
        let signs = chance.signs([2, 3, 5, 26, 27][n / 5 % 5]);
        let all = slips(SHAPES[n % 5], &mut chance, 200, 10, 10, &signs);
        let tray = tray::Tray::of(&all);
        assert_eq!((tray.letters.len(), tray.ends.len()), (2_000, 200));
        try_tray(&mut chance, &tray, &mut tally);
    }
    tally.assert_all_from(&[0], 150);
}

/// Trays in which slips share stops alone, and would overlap if these counted.
#[test]
fn trays_with_many_stops_agree() {
    let (mut chance, mut tally, mut met) = (Chance::new(10), Tally::default(), 0);
    for n in 0..3_000 {
        let tray = tray::Tray::of(&many_stops(&mut chance, [8, 30, 200][n % 3], MAX_SLIP));
        met += usize::from(share_stops_alone(&tray));
        try_tray(&mut chance, &tray, &mut tally);
    }
    tally.assert_all_from(&[0, 7, 8, 9], 300);
    assert!(met > 1_000, "trays in which slips share stops alone: {met}");
}

#[test]
fn damaged_trays_agree() {
    let (mut chance, mut tally) = (Chance::new(4), Tally::default());
    for n in 0..5_000 {
        let tray = damaged(&mut chance, DAMAGES[n % DAMAGES.len()], 60);
        try_tray(&mut chance, &tray, &mut tally);
    }
    tally.assert_all_from(&[1, 2, 3, 4, 5, 6], 400);
}

/// Trays stored where a slip could have more letters: the lowest slip over the limit is named, and without one all is as ever.
#[test]
fn stored_trays_agree() {
    let (mut chance, mut tally) = (Chance::new(11), Tally::default());
    for n in 0..2_000 {
        let all = stored(&mut chance, [4, 12, 200][n % 3]);
        let (told, _) = trial(&tray::Tray::of(&all), DEFAULT, &Buffers::of(AMPLE, &mut chance));
        let too_long = all.iter().position(|slip| slip.len() > MAX_SLIP);
        let expected = too_long.map_or((0, 0), |i| (3, i as u32 + 1));
        assert_eq!(refused(&told), expected);
        tally.count(&told);
    }
    tally.assert_all_from(&[0, 3], 700);
}

/// Each buffer just long enough, then one short of it, all else ample.
#[test]
fn each_buffer_one_short() {
    let (mut chance, mut met) = (Chance::new(5), 0);
    for _ in 0..400 {
        let tray = tray::Tray::of(&valid(&mut chance, 30, MAX_SLIP));
        let slips = tray.ends.len();
        let before = Buffers::of(AMPLE, &mut chance);
        let (told, _) = trial(&tray, DEFAULT, &before);
        let composed = told.expect("an accepted tray");
        let (legend, joins) = (composed.legend, composed.joins);
        let exact = Rooms {
            work: 32_000,
            legend,
            joins,
            places: slips,
        };
        let short = |work, legend, joins, places| Rooms {
            work,
            legend,
            joins,
            places,
        };
        let mut cases = vec![
            (exact, 0, 0),
            (short(31_999, legend, joins, slips), 7, 0),
            (short(32_000, legend - 1, joins, slips), 8, legend),
            (short(32_000, legend, joins, slips - 1), 9, joins),
        ];
        if joins > 0 {
            cases.push((short(32_000, legend, joins - 1, slips), 9, joins));
            met += 1;
        }
        for (rooms, number, detail) in cases {
            let before = Buffers::of(rooms, &mut chance);
            let (told, _) = trial(&tray, DEFAULT, &before);
            assert_eq!(refused(&told), (number, detail as u32), "{rooms:?}");
        }
    }
    assert!(met > 200, "trays with a join: {met}");
}

/// The comfortable form has the same outcome as the lent buffers.
#[test]
fn owned_trays_agree() {
    let mut chance = Chance::new(6);
    for n in 0..1_000 {
        let tray = match n % 2 {
            0 => tray::Tray::of(&valid(&mut chance, 40, MAX_SLIP)),
            _ => damaged(&mut chance, DAMAGES[n / 2 % DAMAGES.len()], 60),
        };
        let slips = tray.ends.len();
        let before = Buffers::of(AMPLE, &mut chance);
        let (told, after) = trial(&tray, DEFAULT, &before);
        match compose_tray(&Tray::from_parts(tray.letters, tray.ends), DEFAULT) {
            Err(refusal) => assert_eq!(told, Err(refusal)),
            Ok(legend) => {
                let composed = told.expect("the comfortable form accepts it");
                assert_eq!(legend.text.as_bytes(), &after.legend[..composed.legend]);
                assert_eq!(legend.joins, after.joins[..composed.joins]);
                assert_eq!(legend.places, after.places[..slips]);
                assert_eq!(legend.kept, composed.kept);
                assert_eq!(legend.kept_letters, composed.kept_letters);
                assert_eq!(legend.saved, composed.saved);
            }
        }
    }
}

/// Slips of which the ends would not fit 16 bits are refused by the row that they meet.
#[test]
fn slips_beyond_sixteen_bits() {
    let long = "A".repeat(70_000);
    let cases: [(&str, Vec<&str>, u32, u32); 4] = [
        ("one long slip", vec!["AB", &long], 3, 2),
        ("slips after it", vec!["AB", &long, "CD", &long], 3, 2),
        ("an empty slip after it", vec!["AB", &long, ""], 2, 3),
        ("too many long slips", vec![&long; 2_000], 1, 0),
    ];
    for (name, slips, number, detail) in cases {
        let tray = Tray::of(&slips);
        assert_eq!(refused(&compose_tray(&tray, DEFAULT)), (number, detail), "{name}");
        assert_eq!(refused(&tray.check()), (number, detail), "{name}");
    }
}
