//! The specimen trays of the rules, as tables of named cases.
mod buffers;
mod lending;
mod told;

use buffers::{trial, Buffers, AMPLE};
use kotsghane::{compose_tray, Join, Place, Settings, Side, Tray};
use plain::by_hand::{COMPOSE, SPECIMENS};
use plain::compose::Rooms;
use plain::made::Chance;
use plain::tray;
use told::refused;

/// No overlap is too short.
const DEFAULT: Settings = Settings::least(1);

fn record(&(left, right, overlap): &(usize, usize, usize)) -> Join {
    Join::new(left, right, overlap)
}

/// The place of a blank slip.
fn standing(slip: usize, &(at, mark, compared): &(usize, char, usize)) -> Place {
    Place::new(slip, at, mark == 'K', compared, Side::Blank)
}

#[test]
fn specimen_trays() {
    let mut chance = Chance::new(7);
    for case in SPECIMENS {
        let name = case.name;
        let legend = compose_tray(&Tray::of(case.slips), DEFAULT).expect(name);
        let joins: Vec<Join> = case.joins.iter().map(record).collect();
        let places: Vec<Place> = (1..).zip(case.places).map(|(i, place)| standing(i, place)).collect();
        assert_eq!(legend.text, case.legend, "{name}");
        assert_eq!(legend.joins, joins, "{name}");
        assert_eq!(legend.places, places, "{name}");
        assert_eq!(legend.kept, places.iter().filter(|p| p.is_kept()).count(), "{name}");
        assert_eq!(legend.kept_letters, legend.saved + case.legend.len(), "{name}");
        let (told, _) = trial(&tray::Tray::of(case.slips), DEFAULT, &Buffers::of(AMPLE, &mut chance));
        assert_eq!(refused(&told), (0, 0), "{name}");
    }
}

#[test]
fn counts_of_the_compose_tray() {
    let legend = compose_tray(&Tray::of(COMPOSE.slips), DEFAULT).unwrap();
    assert_eq!((legend.places.len(), legend.kept), (5, 4));
    assert_eq!((legend.kept_letters, legend.saved, legend.text.len()), (24, 9, 15));
    assert_eq!(legend.to_string(), COMPOSE.legend);
}

/// The lengths of the four buffers for the compose tray, and number and detail of the refusal.
struct Lending {
    name: &'static str,
    rooms: [usize; 4],
    number: u32,
    detail: u32,
}

const fn lending(name: &'static str, rooms: [usize; 4], number: u32, detail: u32) -> Lending {
    Lending {
        name,
        rooms,
        number,
        detail,
    }
}

const LENDINGS: &[Lending] = &[
    lending("all exact", [32_000, 15, 3, 5], 0, 0),
    lending("all longer", [32_100, 40, 10, 12], 0, 0),
    lending("legend of 14", [32_000, 14, 3, 5], 8, 15),
    lending("no legend", [32_000, 0, 3, 5], 8, 15),
    lending("2 joins", [32_000, 15, 2, 5], 9, 3),
    lending("no joins", [32_000, 15, 0, 5], 9, 3),
    lending("4 places", [32_000, 15, 3, 4], 9, 3),
    lending("no places", [32_000, 15, 3, 0], 9, 3),
    lending("8 before 9", [32_000, 14, 2, 4], 8, 15),
    lending("work area of 31,999", [31_999, 15, 3, 5], 7, 0),
    lending("no work area", [0, 15, 3, 5], 7, 0),
    lending("7 before 8 and 9", [31_999, 14, 2, 4], 7, 0),
];

#[test]
fn buffers_of_the_compose_tray() {
    let mut chance = Chance::new(8);
    let tray = tray::Tray::of(COMPOSE.slips);
    for case in LENDINGS {
        let name = case.name;
        let [work, legend, joins, places] = case.rooms;
        let rooms = Rooms {
            work,
            legend,
            joins,
            places,
        };
        let before = Buffers::of(rooms, &mut chance);
        let (told, after) = trial(&tray, DEFAULT, &before);
        assert_eq!(refused(&told), (case.number, case.detail), "{name}");
        let mut expected = before.clone();
        if case.number == 0 {
            expected.legend[..15].copy_from_slice(COMPOSE.legend.as_bytes());
            expected.joins[..3].copy_from_slice(&[1, 2, 3].map(|i| record(&COMPOSE.joins[i - 1])));
            expected.places[..5].copy_from_slice(&[1, 2, 3, 4, 5].map(|i| standing(i, &COMPOSE.places[i - 1])));
        }
        assert_eq!(after.legend, expected.legend, "{name}");
        assert_eq!(after.joins, expected.joins, "{name}");
        assert_eq!(after.places, expected.places, "{name}");
        assert!(after.work == before.work || case.number != 7, "{name}");
    }
}

/// Letters and ends, and number and detail of the refusal.
struct Edge {
    name: &'static str,
    tray: tray::Tray,
    number: u32,
    detail: u32,
}

fn edge(name: &'static str, letters: impl AsRef<[u8]>, ends: impl Into<Vec<u16>>, number: u32, detail: u32) -> Edge {
    Edge {
        name,
        tray: tray::Tray::all_blank(letters.as_ref().to_vec(), ends.into()),
        number,
        detail,
    }
}

fn tens(n: u16) -> Vec<u16> {
    (1..=n).map(|i| 10 * i).collect()
}

/// 62 slips of 32 letters, and one more that ends there.
fn longest(last: u16) -> Vec<u16> {
    (1..=62).map(|i| 32 * i).chain([last]).collect()
}

/// Rows 1 to 4, at the limit and past it.
fn counted() -> Vec<Edge> {
    let many = "ABCDEFGHI.".repeat(201);
    let ones: Vec<u16> = (1..=201).collect();
    vec![
        edge("200 slips", &many[..200], &ones[..200], 0, 0),
        edge("201 slips", &many[..201], &ones[..], 1, 0),
        edge("201 slips with equal ends", &many[..1], [1; 201], 1, 0),
        edge("200 slips and 2,000 letters", &many[..2_000], tens(200), 0, 0),
        edge("2,000 letters in slips of 32", &many[..2_000], longest(2_000), 0, 0),
        edge("the first end is 0", "AB", [0, 2], 2, 1),
        edge("an end equals the one before", "AB", [1, 1, 2], 2, 2),
        edge("an end falls", "ABCD", [3, 2, 4], 2, 2),
        edge("2 before 3", &many[..60], [50, 50, 60], 2, 2),
        edge("a slip of 32 letters", &many[..32], [32], 0, 0),
        edge("a slip of 33 letters", &many[..33], [33], 3, 1),
        edge("32 letters in the second slip", &many[..34], [2, 34], 0, 0),
        edge("33 letters in the second slip", &many[..35], [2, 35], 3, 2),
        edge("3 before 4", &many[..2_001], [2_001], 3, 1),
        edge(
            "2,001 letters",
            &many[..2_001],
            [&tens(199)[..], &[2_001]].concat(),
            4,
            0,
        ),
        edge("2,001 letters in slips of 32", &many[..2_001], longest(2_001), 4, 0),
        edge("4 before 5", &many[..2_001], tens(200), 4, 0),
    ]
}

/// Rows 5 and 6.
fn spelled() -> Vec<Edge> {
    vec![
        edge("letters and no slip", "A", [], 5, 0),
        edge("an end and no letters", "", [1], 5, 0),
        edge("the last end is low", "ABC", [1, 2], 5, 0),
        edge("the last end is high", "ABC", [1, 4], 5, 0),
        edge("5 before 6", "ab", [1], 5, 0),
        edge("a small letter", "AVGaVG", [3, 6], 6, 2),
        edge("two bad slips", "A1B2", [2, 4], 6, 1),
        edge("a blank", "AVG PIVS", [8], 6, 1),
        edge("the sign below A", "AB@", [1, 2, 3], 6, 3),
        edge("the sign above Z", "[AB", [1, 2, 3], 6, 1),
        edge("the sign below the full stop", "A-", [2], 6, 1),
        edge("the sign above the full stop", "A/", [2], 6, 1),
        edge("a full stop", "A.V.G.", [2, 4, 6], 0, 0),
        edge("every sign", plain::SIGNS, [27], 0, 0),
    ]
}

#[test]
fn edge_trays() {
    let mut chance = Chance::new(9);
    for case in counted().into_iter().chain(spelled()) {
        let name = case.name;
        let before = Buffers::of(AMPLE, &mut chance);
        let (told, _) = trial(&case.tray, DEFAULT, &before);
        assert_eq!(refused(&told), (case.number, case.detail), "{name}");
        let mine = Tray::from_parts(case.tray.letters.clone(), case.tray.ends.clone());
        assert_eq!(refused(&mine.check()), (case.number, case.detail), "{name}");
        let short = Buffers::of(Rooms { work: 31_999, ..AMPLE }, &mut chance);
        let (told, after) = trial(&case.tray, DEFAULT, &short);
        let expected = if case.number == 0 { 7 } else { case.number };
        assert_eq!(refused(&told).0, expected, "{name}, work area of 31,999");
        assert!(after == short, "{name}, work area of 31,999: a lent buffer differs");
    }
}
