//! Finding: the specimen of the rules and its edges, as tables of named cases.
mod searches;
mod told;

use kotsghane::{find_slips, Found, Tray};
use plain::by_hand::{FIND, SEARCHES};
use plain::made::Chance;
use plain::tray;
use searches::{trial, Lent};
use told::refused;

#[test]
fn specimen_texts() {
    let mut chance = Chance::new(21);
    for case in SEARCHES {
        let name = case.name;
        let found: Vec<Found> = case.found.iter().map(|&(end, slip)| Found::new(end, slip)).collect();
        let finding = find_slips(&Tray::of(case.slips), case.text).expect(name);
        assert_eq!((&finding.found, finding.moves), (&found, case.moves), "{name}");
        let tray = tray::Tray::of(case.slips);
        for room in [found.len(), found.len() + 9] {
            let before = Lent::of(32_000, room, &mut chance);
            let (told, after) = trial(&tray, case.text.as_bytes(), &before);
            assert_eq!(told.map(|search| search.moves), Ok(case.moves), "{name}");
            assert_eq!(after.found[..found.len()], found, "{name}");
        }
    }
}

/// Text, cells and records lent with the tray of the specimen, and number and detail of the refusal.
struct Edge {
    name: &'static str,
    text: Vec<u8>,
    cells: usize,
    records: usize,
    number: u32,
    detail: u32,
}

fn edge(name: &'static str, text: impl AsRef<[u8]>, lent: [usize; 2], number: u32, detail: u32) -> Edge {
    Edge {
        name,
        text: text.as_ref().to_vec(),
        cells: lent[0],
        records: lent[1],
        number,
        detail,
    }
}

fn edges() -> Vec<Edge> {
    let long = "IMPCAESAVG".repeat(7_000);
    let bad_end = [&long.as_bytes()[..1_999], b"\n"].concat();
    let bad_long = [&long.as_bytes()[..2_000], b"\n"].concat();
    let (full, over) = (&long[..2_000], &long[..2_001]);
    vec![
        edge("all exact", FIND.text, [32_000, 3], 0, 0),
        edge("all longer", FIND.text, [32_100, 12], 0, 0),
        edge("2,000 letters", full, [32_000, 600], 0, 0),
        edge("2,001 letters", over, [32_000, 700], 12, 0),
        edge("70,000 letters", long.as_bytes(), [32_000, 700], 12, 0),
        edge("12 before 13", bad_long, [32_000, 700], 12, 0),
        edge("12 before 7 and 14", over, [31_999, 0], 12, 0),
        edge("a bad first byte", "iMPCAESAVG", [32_000, 3], 13, 1),
        edge("a blank at place 4", "IMP CAESAVG", [32_000, 3], 13, 4),
        edge("two bad bytes", "IMPCA3S4VG", [32_000, 3], 13, 6),
        edge("a bad last byte", "IMPCAESAVG\0", [32_000, 3], 13, 11),
        edge("a byte over 127", b"IM\xc1", [32_000, 3], 13, 3),
        edge("the sign below A", "IMP@", [32_000, 3], 13, 4),
        edge("the sign above Z", "IMP[", [32_000, 3], 13, 4),
        edge("the sign below the full stop", "IM-", [32_000, 3], 13, 3),
        edge("the sign above the full stop", "IM/", [32_000, 3], 13, 3),
        edge("a bad byte at place 2,000", bad_end, [32_000, 700], 13, 2_000),
        edge("13 before 7 and 14", "IMPCAESAVG-", [31_999, 0], 13, 11),
        edge("work area of 31,999", FIND.text, [31_999, 3], 7, 0),
        edge("no work area", FIND.text, [0, 3], 7, 0),
        edge("7 before 14", FIND.text, [31_999, 2], 7, 0),
        edge("7 with an empty text", "", [31_999, 0], 7, 0),
        edge("a list of 2", FIND.text, [32_000, 2], 14, 3),
        edge("no list", FIND.text, [32_000, 0], 14, 3),
        edge("a list of 599", full, [32_000, 599], 14, 600),
        edge("no list and no occurrence", "AVG", [32_000, 0], 0, 0),
    ]
}

#[test]
fn edge_texts() {
    let mut chance = Chance::new(22);
    let tray = tray::Tray::of(FIND.slips);
    for case in edges() {
        let name = case.name;
        let before = Lent::of(case.cells, case.records, &mut chance);
        let (told, after) = trial(&tray, &case.text, &before);
        assert_eq!(refused(&told), (case.number, case.detail), "{name}");
        if case.number != 0 {
            assert!(after.found == before.found, "{name}");
        }
    }
}

/// A name, letters and ends, and number and detail of the refusal.
type Turned<'a> = (&'a str, &'a [u8], Vec<u16>, u32, u32);

/// A tray that is turned back is so before text, work area and list are looked at.
#[test]
fn the_tray_is_judged_first() {
    let (mut chance, bad) = (Chance::new(23), b"bad text".repeat(300));
    let ones = [b'A'; 201];
    let cases: [Turned; 6] = [
        ("201 slips", &ones, (1..=201).collect(), 1, 0),
        ("an end equals the one before", b"AB", vec![1, 1, 2], 2, 2),
        ("a slip of 33 letters", &ones[..33], vec![33], 3, 1),
        (
            "2,001 letters",
            &[b'A'; 2_001],
            (1..=87).map(|i| 23 * i).collect(),
            4,
            0,
        ),
        ("the last end is low", b"ABC", vec![1, 2], 5, 0),
        ("a small letter", b"AVGaVG", vec![3, 6], 6, 2),
    ];
    for (name, letters, ends, number, detail) in cases {
        let tray = tray::Tray::all_blank(letters.to_vec(), ends);
        for text in [&b""[..], b"AVG", b"avg", &bad] {
            for (cells, records) in [(32_000, 5), (31_999, 0)] {
                let before = Lent::of(cells, records, &mut chance);
                let (told, after) = trial(&tray, text, &before);
                assert_eq!(refused(&told), (number, detail), "{name}");
                assert!(after == before, "{name}: a lent buffer differs");
            }
            let told = find_slips(&Tray::from_parts(tray.letters.clone(), tray.ends.clone()), text);
            assert_eq!(refused(&told), (number, detail), "{name}");
        }
    }
}

/// 200 equal slips in a text of their letter: more occurrences than 16 bits count.
#[test]
fn four_hundred_thousand_occurrences() {
    let (mut chance, text) = (Chance::new(24), [b'A'; 2_000]);
    let tray = tray::Tray::of(&["A"; 200]);
    for (room, number, detail) in [(400_000, 0, 0), (400_003, 0, 0), (399_999, 14, 400_000)] {
        let before = Lent::of(32_000, room, &mut chance);
        let (told, _) = trial(&tray, &text, &before);
        assert_eq!(refused(&told), (number, detail));
    }
    let finding = find_slips(&Tray::of(&["A"; 200]), text).unwrap();
    assert_eq!((finding.found.len(), finding.moves), (400_000, 3_999));
    assert_eq!(finding.found[399_999], Found::new(2_000, 200));
}

/// The longest slips, of 32 letters, which differ in the last letter, met and just missed.
#[test]
fn the_longest_slips() {
    let slip = |last: &str| "AB".repeat(16)[..31].to_string() + last;
    let (x, y) = (slip("C"), slip("D"));
    let text = x.clone() + &slip("B") + &slip("A") + &y;
    let finding = find_slips(&Tray::of(&[&x, &y]), &text).unwrap();
    assert_eq!(finding.found, [Found::new(32, 1), Found::new(128, 2)]);
}
