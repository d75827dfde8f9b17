//! Sides and lists of sides that are refused, and how much must be lent for a side. The sides stand here as bytes.
use super::merging::run;
use super::sides::{eleven_and_one, B, O, R, THREE};
use crate::tray::Tray;
use crate::Settings;

/// One side of a tray composed with this much lent, records of joins and of places.
pub struct Lent {
    /// What it shows.
    pub name: &'static str,
    /// The tray.
    pub tray: Tray,
    /// The side named.
    pub side: u8,
    /// Cells, letters of the legend, records of joins and of places.
    pub rooms: [usize; 4],
    /// Number and detail of the refusal, 0 and 0 if it is composed.
    pub told: (usize, usize),
}

/// Rows 7, 8, 9 of a side: 9 asks for one record of places for each slip of the side, and no more.
pub fn lent() -> Vec<Lent> {
    let case = |name, tray: &Tray, side, rooms, told| Lent {
        name,
        tray: tray.clone(),
        side,
        rooms,
        told,
    };
    let three = Tray::sided(THREE);
    let mut last = run(0..200, 10);
    last.sides[199] = R;
    let none = run(0..200, 10);
    vec![
        case("just enough for O", &three, O, [32_000, 4, 1, 2], (0, 0)),
        case("a letter too few", &three, O, [32_000, 3, 1, 2], (8, 4)),
        case("a join too few", &three, O, [32_000, 4, 0, 2], (9, 1)),
        case("a place too few", &three, O, [32_000, 4, 1, 1], (9, 1)),
        case("8 before 9", &three, O, [32_000, 3, 0, 1], (8, 4)),
        case("a cell too few", &three, O, [31_999, 4, 1, 2], (7, 0)),
        case("just enough for R", &three, R, [32_000, 3, 0, 1], (0, 0)),
        case("no place for R", &three, R, [32_000, 3, 0, 0], (9, 0)),
        case("one slip of 200", &last, R, [32_000, 10, 0, 1], (0, 0)),
        case("one slip of 200, and no place", &last, R, [32_000, 10, 0, 0], (9, 0)),
        case("a side without slips of 200", &none, O, [32_000, 0, 0, 0], (0, 0)),
        case("7 where a side has no slips", &none, O, [31_999, 0, 0, 0], (7, 0)),
    ]
}

/// A tray with sides of any kind, the settings and the cells lent, and number and detail of the refusal. Composing and the
/// shortest legend refuse alike; the pair query names no side.
pub struct Refused {
    /// What it shows.
    pub name: String,
    /// The tray.
    pub tray: Tray,
    /// The settings.
    pub settings: Settings,
    /// The cells lent.
    pub work: usize,
    /// Number and detail.
    pub told: (usize, usize),
    /// Whether a pair of slips is refused likewise, whatever two are named: what is wrong is not the side named.
    pub pair: bool,
}

/// Letters, ends and sides.
fn parts(letters: &str, ends: &[u16], sides: &[u8]) -> Tray {
    Tray {
        letters: letters.into(),
        ends: ends.to_vec(),
        sides: sides.to_vec(),
    }
}

/// Bytes that are no side: 0, the small letters, the bytes beside the sides, and others. The small o is 111.
pub const NO_SIDES: [u8; 12] = [0, 111, b'r', 31, 33, b'N', b'P', b'Q', b'S', b'0', b'_', 255];

/// A tray refused by 22, with just enough cells and the blank side named.
fn bad_list(name: &str, tray: Tray) -> Refused {
    Refused {
        name: name.to_string(),
        tray,
        settings: Settings { least: 1, side: B },
        work: 32_000,
        told: (22, 0),
        pair: true,
    }
}

/// Row 22 of the list.
fn bad_lists() -> Vec<Refused> {
    let two = |sides: &[u8]| parts("ABBC", &[2, 4], sides);
    let mut all = vec![
        bad_list("no sides", two(b"")),
        bad_list("a side too few", two(b"O")),
        bad_list("a side too many", two(b"OOO")),
        bad_list("a side for the empty tray", parts("", &[], b" ")),
        bad_list("a bad side and one too few", two(b"o")),
        bad_list("ends for sides", two(&[2, 4])),
    ];
    for bad in NO_SIDES {
        all.push(bad_list(&format!("the first side {bad}"), two(&[bad, O])));
        all.push(bad_list(&format!("the last side {bad}"), two(&[O, bad])));
        all.push(bad_list(
            &format!("the side {bad} of one slip"),
            parts("AB", &[2], &[bad]),
        ));
    }
    all
}

/// Row 22 of the side named, which no pair has.
fn bad_names() -> Vec<Refused> {
    let trays = [
        ("three slips", parts("ABBCCD", &[2, 4, 6], b" OR")),
        ("the empty tray", Tray::default()),
    ];
    let named = |side: u8, (name, tray): (&str, Tray)| Refused {
        settings: Settings { least: 1, side },
        pair: false,
        ..bad_list(&format!("the side {side} named: {name}"), tray)
    };
    let of_both = |side: u8| trays.clone().map(|tray| named(side, tray));
    NO_SIDES.into_iter().flat_map(of_both).collect()
}

/// One slip with a small o for its side.
fn small_o() -> Tray {
    parts("AB", &[2], b"o")
}

/// Rows that come before 22.
fn rows_before() -> Vec<Refused> {
    let tray = |told, tray| Refused {
        told,
        ..bad_list(&format!("{} before 22", told.0), tray)
    };
    let least = |least: usize| Refused {
        settings: Settings { least, side: b'o' },
        told: (21, 0),
        ..bad_list(&format!("21 before 22, at {least}"), small_o())
    };
    let all_as = |letters: usize, ends: &[u16], sides: usize| parts(&"A".repeat(letters), ends, &vec![b'o'; sides]);
    let (many, full): (Vec<u16>, Vec<u16>) = ((1..=201).collect(), (1..=87).map(|i| 23 * i).collect());
    vec![
        least(0),
        least(33),
        tray((1, 0), all_as(201, &many, 201)),
        tray((2, 2), parts("AB", &[2, 2], b"O")),
        tray((3, 1), all_as(33, &[33], 1)),
        tray((4, 0), all_as(2_001, &full, 1)),
        tray((5, 0), parts("ABC", &[2], b"")),
        tray((6, 1), parts("ab", &[2], b"o")),
    ]
}

/// Rows that come after 22: 7 and 20. Those of a pair, 10 and 11, are asked for with all of these.
fn rows_after() -> Vec<Refused> {
    let short = |work: usize, case: Refused| Refused { work, ..case };
    let named = |side: u8, case: Refused| Refused {
        settings: Settings { least: 1, side },
        ..case
    };
    let mut eleven = eleven_and_one();
    eleven.sides[0] = b'o';
    let good = parts("AB", &[2], b"O");
    let named_none = Refused {
        pair: false,
        ..bad_list("22 of the side named before 7", good)
    };
    vec![
        short(31_999, bad_list("22 before 7", small_o())),
        short(0, bad_list("22 before 7, no cells", small_o())),
        short(
            31_999,
            bad_list("a side too few before 7", parts("ABBC", &[2, 4], b"O")),
        ),
        short(31_999, named(b'o', named_none)),
        named(0, bad_list("a bad list and a bad side named", small_o())),
        bad_list("22 before 20", eleven),
    ]
}

/// What is refused.
pub fn refused() -> Vec<Refused> {
    let all = [bad_lists(), bad_names(), rows_before(), rows_after()];
    all.into_iter().flatten().collect()
}
