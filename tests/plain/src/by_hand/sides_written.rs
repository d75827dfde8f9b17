//! Trays with sides that are written: two merged, a file read; and the sheets of files with sides.
use super::merging::run;
use super::sides::{SidedSlips, B, O, R, THREE};
use crate::tray::Tray;

/// Two trays, how much is lent, and what is told: the tray written, or number and detail.
pub struct Merged {
    /// What it shows.
    pub name: String,
    /// The first tray.
    pub first: Tray,
    /// The second.
    pub second: Tray,
    /// The letters, the ends and the sides lent.
    pub lent: [usize; 3],
    /// The tray written, or number and detail of the refusal.
    pub told: Result<Tray, (usize, usize)>,
}

/// Just enough is lent.
const EXACT: [usize; 3] = [2_000, 200, 200];

fn merged(name: &str, first: &Tray, second: &Tray, told: Result<Tray, (usize, usize)>) -> Merged {
    Merged {
        name: name.to_string(),
        first: first.clone(),
        second: second.clone(),
        lent: EXACT,
        told,
    }
}

/// The slips of two small trays, and those of the outcome.
const SMALL: &[(&str, [SidedSlips; 3])] = &[
    (
        "equal letters on two sides",
        [&[(B, "AVG")], &[(O, "AVG")], &[(B, "AVG"), (O, "AVG")]],
    ),
    (
        "equal letters on two sides, and an equal slip",
        [&[(B, "AVG")], &[(O, "AVG"), (B, "AVG")], &[(B, "AVG"), (O, "AVG")]],
    ),
    ("equal slips of the reverse", [&[(R, "A")], &[(R, "A")], &[(R, "A")]]),
    (
        "the one side that is missing",
        [
            &[(O, "AB"), (R, "AB")],
            &[(R, "AB"), (B, "AB"), (O, "AB")],
            &[(O, "AB"), (R, "AB"), (B, "AB")],
        ],
    ),
    (
        "equals in the second tray",
        [
            &[],
            &[(O, "CD"), (R, "CD"), (O, "CD"), (R, "CD")],
            &[(O, "CD"), (R, "CD")],
        ],
    ),
    (
        "equals in the first tray",
        [
            &[(O, "AB"), (O, "AB")],
            &[(O, "AB"), (R, "AB")],
            &[(O, "AB"), (O, "AB"), (R, "AB")],
        ],
    ),
    (
        "sides after those of the first tray",
        [
            &[(O, "AB"), (R, "CDE")],
            &[(O, "AB"), (B, "F")],
            &[(O, "AB"), (R, "CDE"), (B, "F")],
        ],
    ),
    (
        "a first tray alone",
        [THREE, &[], &[(B, "AB"), (O, "ABC"), (R, "AVG"), (O, "BA")]],
    ),
    (
        "a second tray alone",
        [&[], THREE, &[(B, "AB"), (O, "ABC"), (R, "AVG"), (O, "BA")]],
    ),
    (
        "a part is no equal",
        [&[(O, "ABC")], &[(O, "AB")], &[(O, "ABC"), (O, "AB")]],
    ),
];

/// Two trays with a new slip of each side between equals, and for each side the legend: that of the outcome and that of the two
/// trays written one after the other. Nothing is claimed of sides together.
pub const LEGENDS: (SidedSlips, SidedSlips, [(u8, &str); 3]) = (
    &[(O, "AB"), (R, "AB"), (B, "X")],
    &[(O, "BC"), (R, "AB"), (O, "AB"), (R, "XA"), (B, "AB")],
    [(B, "XAB"), (O, "ABC"), (R, "XAB")],
);

/// 200 slips and one that equals the first but for its side; 2,000 letters and one that equals the first but for its side.
fn many() -> Vec<Merged> {
    let (slips, letters) = (run(0..200, 2), run(0..100, 20));
    let again = |tray: &Tray, side: u8| Tray::sided(&[(side, tray.slips()[0])]);
    let case = |name, tray: &Tray, side, told| merged(name, tray, &again(tray, side), told);
    vec![
        case("200 slips and an equal one", &slips, B, Ok(slips.clone())),
        case("200 slips and one of another side", &slips, O, Err((1, 0))),
        case("2,000 letters and an equal slip", &letters, B, Ok(letters.clone())),
        case("2,000 letters and a slip of another side", &letters, R, Err((4, 0))),
    ]
}

/// A tray with this list of sides.
fn listed(slips: &[&str], sides: &[u8]) -> Tray {
    Tray {
        sides: sides.to_vec(),
        ..Tray::of(slips)
    }
}

/// Rows 22 and 6 of two trays, each in its place: all rows of the first tray, then all of the second, then the outcome.
fn refused() -> Vec<Merged> {
    let good = Tray::sided(&[(O, "AB"), (R, "CD")]);
    let small = listed(&["AB", "cd"], b"OR");
    let (bad, short, long) = (listed(&["AB"], b"o"), listed(&["AB"], b""), listed(&["AB"], b"OO"));
    let both = listed(&["ab"], b"o");
    let full = run(0..200, 10);
    let mut all = Vec::new();
    for (name, tray) in [("a small o", &bad), ("no side", &short), ("a side too many", &long)] {
        all.push(merged(&format!("the first tray: {name}"), tray, &good, Err((22, 0))));
        all.push(merged(&format!("the second tray: {name}"), &good, tray, Err((22, 0))));
        let name_of = |rest: &str| format!("{name}: {rest}");
        let first = name_of("22 of the first tray before 6 of the second");
        all.push(merged(&first, tray, &small, Err((22, 0))));
        let second = name_of("6 of the first tray before 22 of the second");
        all.push(merged(&second, &small, tray, Err((6, 2))));
        let outcome = name_of("22 of the second tray before 1 of the outcome");
        all.push(merged(&outcome, &full, tray, Err((22, 0))));
    }
    all.push(merged("6 before 22 of the first tray", &both, &good, Err((6, 1))));
    all.push(merged("6 before 22 of the second tray", &good, &both, Err((6, 1))));
    all.push(merged("1 of the outcome", &full, &good, Err((1, 0))));
    all
}

/// Row 15 comes before all others; with more sides lent than needed the outcome is the same.
fn lent() -> Vec<Merged> {
    let good = Tray::sided(THREE);
    let (bad, small) = (listed(&["AB"], b"o"), listed(&["ab"], b"O"));
    let mut all = Vec::new();
    for lent in [[2_000, 200, 199], [2_000, 200, 0], [1_999, 199, 199]] {
        for (name, tray) in [("accepted trays", &good), ("22", &bad), ("6", &small)] {
            let name = format!("{} sides lent: {name}", lent[2]);
            all.push(Merged {
                lent,
                ..merged(&name, tray, tray, Err((15, 0)))
            });
        }
    }
    all.push(Merged {
        lent: [2_000, 200, 230],
        ..merged("230 sides lent", &good, &good, Ok(good.clone()))
    });
    all
}

/// Two trays with sides each, and what is told.
pub fn all_merged() -> Vec<Merged> {
    let small = SMALL.iter().map(|&(name, trays)| {
        let [first, second, outcome] = trays.map(Tray::sided);
        merged(name, &first, &second, Ok(outcome))
    });
    small.chain(many()).chain(refused()).chain(lent()).collect()
}

/// A tray file, and its slips or the refusal of place A.
pub struct Read {
    /// What it shows.
    pub name: &'static str,
    /// The file.
    pub file: &'static str,
    /// The slips, each with its side, or number and detail.
    pub told: Result<SidedSlips, (usize, usize)>,
}

/// Tray files with sides in column 9, which is never folded. The letters after it are.
pub const FILES: &[Read] = &[
    Read {
        name: "three sides",
        file: "   1   2 AB\n   2   3OABC\n   3   3RAVG\n   4   2OBA\n",
        told: Ok(THREE),
    },
    Read {
        name: "the reverse alone",
        file: "   1   3RAVG\n",
        told: Ok(&[(R, "AVG")]),
    },
    Read {
        name: "a side and letters that are folded",
        file: "   1   3Oaug\n   2   3Ro.r\n",
        told: Ok(&[(O, "AVG"), (R, "O.R")]),
    },
    Read {
        name: "a side and no letters",
        file: "   1   0O\n",
        told: Ok(&[(O, "")]),
    },
    Read {
        name: "sides among the letters",
        file: "   1   2OOR\n   2   2 OR\n",
        told: Ok(&[(O, "OR"), (B, "OR")]),
    },
    Read {
        name: "a small o in column 9",
        file: "   1   3oAVG\n",
        told: Err((17, 1)),
    },
    Read {
        name: "a small r in column 9",
        file: "   1   3RAVG\n   2   3rAVG\n",
        told: Err((17, 2)),
    },
    Read {
        name: "another capital in column 9",
        file: "   1   3 AVG\n   2   3OAVG\n   3   3XAVG\n",
        told: Err((17, 3)),
    },
    Read {
        name: "a full stop in column 9",
        file: "   1   3.AVG\n",
        told: Err((17, 1)),
    },
    Read {
        name: "no column 9",
        file: "   1   0\n",
        told: Err((17, 1)),
    },
    Read {
        name: "17 of column 9 before 18 and 19",
        file: "   2   4oAVG\n",
        told: Err((17, 1)),
    },
    Read {
        name: "18 of a line with a side",
        file: "   2   4OAVG\n",
        told: Err((18, 1)),
    },
    Read {
        name: "19 of a line with a side",
        file: "   1   4RAVG\n",
        told: Err((19, 1)),
    },
];

/// Tray files with sides, and what `compose` prints: a sheet for each side that has slips, blank, O, R; or one line that says what
/// is refused, and no sheet before it.
pub const SHEETS: &[(&str, &str)] = &[
    (
        "   1   2 AB\n   2   3OABC\n   3   3RAVG\n   4   2OBA\n",
        "TRAY   1   1    2    0    2
   1   2    1 K
AB
TRAY   2   2    5    1    4 O
   2   3    2 K
   4   2    1 K
   4   2   1
BABC
TRAY   1   1    3    0    3 R
   3   3    1 K
AVG
",
    ),
    (
        "   1   2 AB\n   2   3OABC\n",
        "TRAY   1   1    2    0    2
   1   2    1 K
AB
TRAY   1   1    3    0    3 O
   2   3    1 K
ABC
",
    ),
    // The order of the sheets is not that of the slips.
    (
        "   1   1RA\n   2   1OB\n   3   1 C\n",
        "TRAY   1   1    1    0    1
   3   1    1 K
C
TRAY   1   1    1    0    1 O
   2   1    1 K
B
TRAY   1   1    1    0    1 R
   1   1    1 K
A
",
    ),
    (
        "   1   3Oavg\n   2   3OAUG\n   3   3RAVG\n",
        "TRAY   2   1    3    0    3 O
   1   3    1 K
   2   3    1 S
AVG
TRAY   1   1    3    0    3 R
   3   3    1 K
AVG
",
    ),
    (
        "   1   3RAVG\n",
        "TRAY   1   1    3    0    3 R\n   1   3    1 K\nAVG\n",
    ),
    ("", "TRAY   0   0    0    0    0\n\n"),
    ("   1   3oAVG\n", "REFUSED  17     1\n"),
    ("   1   2 AB\n   2   2OA1\n", "REFUSED   6     2\n"),
    ("   1   2 AB\n   2   0R\n", "REFUSED   2     2\n"),
];

/// A tray file with sides, a text, and what `find` prints: all slips are looked for.
pub const FOUND: (&str, &str, &str) = (
    "   1   2 AB\n   2   3OABC\n   3   3RAVG\n   4   2OBA\n",
    "ABC",
    "FIND   3   3     2\n   2   1\n   3   2\n",
);
