//! Two trays merged: the tray that is written, and what is refused.
use super::COMPOSE;
use crate::tray::Tray;
use std::ops::Range;

/// Two small trays, and the letters and ends of the outcome.
struct Small {
    name: &'static str,
    first: &'static [&'static str],
    second: &'static [&'static str],
    letters: &'static str,
    ends: &'static [u16],
}

const fn small(
    name: &'static str,
    first: &'static [&'static str],
    second: &'static [&'static str],
    letters: &'static str,
    ends: &'static [u16],
) -> Small {
    Small {
        name,
        first,
        second,
        letters,
        ends,
    }
}

const SMALL: &[Small] = &[
    small("two empty trays", &[], &[], "", &[]),
    small("an empty second tray", &["AB", "C", "AB"], &[], "ABCAB", &[2, 3, 5]),
    small("an empty first tray", &[], &["AB", "C"], "ABC", &[2, 3]),
    small(
        "nothing in common",
        &["AB", "CDE"],
        &["F", "GH"],
        "ABCDEFGH",
        &[2, 5, 6, 8],
    ),
    small("equals in the first tray", &["AB", "AB"], &["AB"], "ABAB", &[2, 4]),
    small("equals in the second tray", &[], &["CD", "CD"], "CD", &[2]),
    small("three equals", &["CD"], &["CD", "CD"], "CD", &[2]),
    small(
        "an equal and two new equals",
        &["CD"],
        &["CD", "AB", "AB"],
        "CDAB",
        &[2, 4],
    ),
    small(
        "ends behind those of the first tray",
        &["AB", "CDE"],
        &["AB", "F"],
        "ABCDEF",
        &[2, 5, 6],
    ),
    small(
        "two slips in common",
        &["AB", "BC"],
        &["BC", "CD", "AB"],
        "ABBCCD",
        &[2, 4, 6],
    ),
    small(
        "a new slip between equals",
        &["CD"],
        &["CD", "AB", "CD"],
        "CDAB",
        &[2, 4],
    ),
    small(
        "equals apart in the second tray",
        &["AB"],
        &["CD", "E", "CD", "F", "E"],
        "ABCDEF",
        &[2, 4, 5, 6],
    ),
    small(
        "a second tray of equals alone",
        &["AB", "C"],
        &["C", "AB", "C"],
        "ABC",
        &[2, 3],
    ),
    small("equal trays", &["B", "A", "B"], &["B", "A", "B"], "BAB", &[1, 2, 3]),
    small(
        "the order of the second tray",
        &["B"],
        &["C", "A", "B"],
        "BCA",
        &[1, 2, 3],
    ),
    // What only stands in another slip is no equal.
    small("a beginning", &["ABC"], &["AB"], "ABCAB", &[3, 5]),
    small("an ending", &["ABC"], &["BC"], "ABCBC", &[3, 5]),
    small("a slip inside", &["ABC"], &["B"], "ABCB", &[3, 4]),
    small("a longer slip", &["AB"], &["ABC", "XAB"], "ABABCXAB", &[2, 5, 8]),
    small("across two slips", &["AB", "CD"], &["BC"], "ABCDBC", &[2, 4, 6]),
    small("cut otherwise", &["ABC", "D"], &["AB", "CD"], "ABCDABCD", &[3, 4, 6, 8]),
    // One letter differs: the first, the last, one between.
    small(
        "another first letter",
        &["ABCD"],
        &["BBCD", "ABCD"],
        "ABCDBBCD",
        &[4, 8],
    ),
    small("another last letter", &["ABCD"], &["ABCE", "ABCD"], "ABCDABCE", &[4, 8]),
    small(
        "another letter between",
        &["ABCD"],
        &["ABBD", "ABCD"],
        "ABCDABBD",
        &[4, 8],
    ),
    small("the same letters turned", &["AB"], &["BA", "AB"], "ABBA", &[2, 4]),
    // A stop is a letter like the rest.
    small("stops", &[".", ".."], &["..", "...", "."], "......", &[1, 3, 6]),
    small("stops at either end", &["A"], &["A.", ".A", "A"], "AA..A", &[1, 3, 5]),
    small(
        "the compose tray in two campaigns",
        &["IMPCAES", "AES", "CAESAVG"],
        &["AES", "VGPIVS", "IMPCAES", "SIMP"],
        "IMPCAESAESCAESAVGVGPIVSSIMP",
        &[7, 10, 17, 23, 27],
    ),
];

/// Two trays, how many letters and ends are lent, and what is told: the tray written, or number and detail.
pub struct Merged {
    /// What it shows.
    pub name: String,
    /// The first tray.
    pub first: Tray,
    /// The second.
    pub second: Tray,
    /// The letters and the ends lent.
    pub lent: [usize; 2],
    /// The tray written, or number and detail of the refusal.
    pub told: Result<Tray, (usize, usize)>,
}

/// Just enough is lent.
const EXACT: [usize; 2] = [2_000, 200];

/// Too little is lent: a letter, an end, one of each, all.
const SHORT: [[usize; 2]; 4] = [[1_999, 200], [2_000, 199], [1_999, 199], [0, 0]];

/// What is told of two trays where just enough is lent.
fn merged(name: &str, first: &Tray, second: &Tray, told: Result<Tray, (usize, usize)>) -> Merged {
    Merged {
        name: name.to_string(),
        first: first.clone(),
        second: second.clone(),
        lent: EXACT,
        told,
    }
}

/// A run of numbered slips of this many letters, 2 or more: the first two tell the number, the others are Z.
fn numbered(numbers: Range<u8>, letters: usize) -> Vec<String> {
    let slip = |n: u8| {
        let begins = [b'A' + n / 20, b'A' + n % 20].map(char::from);
        begins.iter().collect::<String>() + &"Z".repeat(letters - 2)
    };
    numbers.map(slip).collect()
}

/// The tray of these numbered slips.
pub(super) fn run(numbers: Range<u8>, letters: usize) -> Tray {
    Tray::of(&numbered(numbers, letters))
}

/// Over 200 slips written, or just as many.
fn many_slips() -> Vec<Merged> {
    let one = |letter: &str| Tray::of(&[letter]);
    let (short, full, equal) = (run(0..200, 2), run(0..200, 10), Tray::of(&["A"; 200]));
    let mut turned = numbered(0..200, 10);
    turned.reverse();
    let turned = Tray::of(&turned);
    let (begun, rest, more) = (run(0..150, 2), run(50..200, 2), run(51..201, 2));
    vec![
        merged("150 and 150 slips, 100 equal", &begun, &rest, Ok(short.clone())),
        merged("150 and 150 slips, 99 equal", &begun, &more, Err((1, 0))),
        merged("a full tray with itself", &full, &full, Ok(full.clone())),
        merged("a full tray with itself, turned", &full, &turned, Ok(full.clone())),
        merged("a full tray turned, with itself", &turned, &full, Ok(turned.clone())),
        merged("150 slips and 200", &begun, &short, Ok(short.clone())),
        merged("200 slips and a new one", &short, &one("A"), Err((1, 0))),
        merged("200 equals and one more", &equal, &one("A"), Ok(equal.clone())),
        merged("200 equals and a new slip", &equal, &one("B"), Err((1, 0))),
        merged("a slip and 200 equals", &one("B"), &equal, Ok(Tray::of(&["B", "A"]))),
        merged("1 before 4", &full, &one("A"), Err((1, 0))),
        merged("200 slips and 200 others", &full, &short, Err((1, 0))),
    ]
}

/// Over 2,000 letters written, or just as many.
fn many_letters() -> Vec<Merged> {
    // 99 slips of 20 letters and one of 19.
    let almost = [numbered(0..99, 20), numbered(99..100, 19)].concat();
    let filled = Tray::of(&[almost.clone(), vec!["A".to_string()]].concat());
    let (almost, full) = (Tray::of(&almost), run(0..100, 20));
    let (half, other) = (run(0..50, 20), run(50..100, 20));
    let (one, two) = (Tray::of(&["A"]), Tray::of(&["AB"]));
    vec![
        merged("2,000 letters and a new one", &full, &one, Err((4, 0))),
        merged("1,999 letters and a new one", &almost, &one, Ok(filled)),
        merged("1,999 letters and two new ones", &almost, &two, Err((4, 0))),
        merged("1,000 letters and 1,000 others", &half, &other, Ok(full.clone())),
        merged(
            "1,000 letters and 2,000, half of them new",
            &half,
            &full,
            Ok(full.clone()),
        ),
    ]
}

/// Trays of few slips, but for two, each refused by one of the rows 1 to 6: what it is, the tray, number and detail. Those
/// of rows 1 and 4 would write a single slip as second trays, since their slips are equal.
fn faulty() -> [(&'static str, Tray, (usize, usize)); 6] {
    let three = Tray::of(&["AB", "CD", "EF"]);
    let mut equal_ends = three.clone();
    equal_ends.ends[2] = equal_ends.ends[1];
    let mut letter_behind = three.clone();
    letter_behind.letters.push(b'G');
    let (long, too_long) = ("A".repeat(32), "A".repeat(33));
    [
        ("201 slips", Tray::of(&["A"; 201]), (1, 0)),
        ("an end equals the one before", equal_ends, (2, 3)),
        ("a slip one letter too long", Tray::of(&["AB", &too_long]), (3, 2)),
        ("over 2,000 letters", Tray::of(&vec![long; 63]), (4, 0)),
        ("a letter behind the last end", letter_behind, (5, 0)),
        ("a small letter", Tray::of(&["AB", "CD", "Ef"]), (6, 3)),
    ]
}

/// Rows 1 to 6: of the first tray, of the second, of the first before the second, and of the second before the outcome.
fn refused_trays() -> Vec<Merged> {
    let (four, full) = (Tray::of(&["G", "H", "I", "J"]), run(0..200, 10));
    let mut all = Vec::new();
    for (name, tray, fault) in faulty() {
        all.push(merged(&format!("the first tray: {name}"), &tray, &four, Err(fault)));
        all.push(merged(&format!("the second tray: {name}"), &four, &tray, Err(fault)));
        for (second, other, _) in faulty() {
            let name = format!("the first tray: {name}; the second: {second}");
            all.push(merged(&name, &tray, &other, Err(fault)));
        }
        let name = format!("a full first tray; the second: {name}");
        all.push(merged(&name, &full, &tray, Err(fault)));
    }
    all
}

/// Row 15 comes before all others.
fn too_little_lent() -> Vec<Merged> {
    let (sample, empty) = (Tray::of(COMPOSE.slips), Tray::default());
    let mut pairs = vec![
        ("two accepted trays", sample.clone(), sample.clone()),
        ("two empty trays", empty.clone(), empty),
        ("200 slips and a new one", run(0..200, 2), Tray::of(&["A"])),
    ];
    for (name, tray, _) in faulty() {
        pairs.push((name, tray.clone(), sample.clone()));
        pairs.push((name, sample.clone(), tray));
    }
    let mut all = Vec::new();
    for (name, first, second) in pairs {
        for lent in SHORT {
            let name = format!("{} letters and {} ends lent: {name}", lent[0], lent[1]);
            let told = Err((15, 0));
            all.push(Merged {
                lent,
                ..merged(&name, &first, &second, told)
            });
        }
    }
    all
}

/// Two trays each, and what is told.
pub fn all() -> Vec<Merged> {
    let outcome = |case: &Small| Tray::all_blank(case.letters.into(), case.ends.to_vec());
    let small = |case: &Small| {
        let (first, second) = (Tray::of(case.first), Tray::of(case.second));
        merged(case.name, &first, &second, Ok(outcome(case)))
    };
    let more_lent = |case: Merged| Merged {
        name: format!("{}, and more lent", case.name),
        lent: [2_040, 230],
        ..case
    };
    let mut all: Vec<Merged> = SMALL.iter().map(small).collect();
    all.extend(SMALL.iter().map(small).map(more_lent));
    for more in [many_slips(), many_letters(), refused_trays(), too_little_lent()] {
        all.extend(more);
    }
    all
}
