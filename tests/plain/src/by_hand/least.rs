//! Trays with several least overlaps: what is joined, the shortest legends, and what is refused.
use super::shortest::{all_turned, group, turned, DieGroup, Turned, FALLING};
use super::COMPOSE;
use crate::tray::Tray;

/// Least overlaps that are refused, whatever the tray and whatever is lent.
pub const REFUSED: [usize; 3] = [0, 33, 4_294_967_295];

/// Refused too: as numbers of 8 or 16 bits they would be 1.
pub const WIDE: [usize; 2] = [257, 65_537];

/// A tray with a least overlap, and its outcome.
pub struct Joined {
    /// The least overlap.
    pub least: usize,
    /// What it shows.
    pub name: &'static str,
    /// The slips.
    pub slips: &'static [&'static str],
    /// The legend.
    pub legend: &'static str,
    /// The joins in the order made: left slip, right slip, overlap.
    pub joins: &'static [(usize, usize, usize)],
    /// For each slip its place.
    pub places: &'static [usize],
    /// The slips that are set aside, each with the letters compared to find its place. All others are kept.
    pub aside: &'static [(usize, usize)],
}

/// A tray of which all slips are kept.
const fn joined(
    least: usize,
    name: &'static str,
    slips: &'static [&'static str],
    legend: &'static str,
    joins: &'static [(usize, usize, usize)],
    places: &'static [usize],
) -> Joined {
    Joined {
        least,
        name,
        slips,
        legend,
        joins,
        places,
        aside: &[],
    }
}

/// The compose tray, of which slip 2 is set aside.
const fn compose(
    least: usize,
    name: &'static str,
    legend: &'static str,
    joins: &'static [(usize, usize, usize)],
    places: &'static [usize; 5],
    compared: &'static [(usize, usize); 1],
) -> Joined {
    Joined {
        aside: compared,
        ..joined(least, name, COMPOSE.slips, legend, joins, places)
    }
}

/// Two slips that end and begin with each other, one overlap longer; and a slip that shares a letter with the second.
const RING_AND_ONE: &[&str] = &["XYA", "AXY", "YZ"];

/// The same with a slip on either hand.
const RING_AND_TWO: &[&str] = &["XYA", "AXY", "QX", "YR"];

/// The tray of document 003.
const AKI: &[&str] = &["AKI", "ELE", "KIKI", "KIRA", "LEA"];

/// Slip 4 is set aside, and stands across slips 1 and 2 where these are not joined.
const SEAM: &[&str] = &["AB", "BC", "XBBY", "BB"];

/// Trays with a least overlap, and their outcome.
pub const JOINED: &[Joined] = &[
    joined(1, "a letter, at 1", &["AB", "BC"], "ABC", &[(1, 2, 1)], &[1, 2]),
    joined(2, "a letter, at 2", &["AB", "BC"], "ABBC", &[], &[1, 3]),
    joined(2, "two letters, at 2", &["ABC", "BCD"], "ABCD", &[(1, 2, 2)], &[1, 2]),
    joined(3, "two letters, at 3", &["ABC", "BCD"], "ABCBCD", &[], &[1, 4]),
    joined(2, "a ring of two, at 2", &["AB", "BA"], "ABBA", &[], &[1, 3]),
    joined(1, "the second first, at 1", &["AB", "XA"], "XAB", &[(2, 1, 1)], &[2, 1]),
    joined(2, "the second first, at 2", &["AB", "XA"], "ABXA", &[], &[1, 3]),
    joined(
        2,
        "a stop and a letter, at 2",
        &["X.A", ".AB"],
        "X.AB",
        &[(1, 2, 2)],
        &[1, 2],
    ),
    joined(3, "a stop and a letter, at 3", &["X.A", ".AB"], "X.A.AB", &[], &[1, 4]),
    joined(
        2,
        "a letter and a stop, at 2",
        &["XA.", "A.Y"],
        "XA.Y",
        &[(1, 2, 2)],
        &[1, 2],
    ),
    joined(1, "two stops, at 1", &["X..", "..Y"], "X....Y", &[], &[1, 4]),
    joined(2, "two stops, at 2", &["X..", "..Y"], "X....Y", &[], &[1, 4]),
    // The overlap is the longest string, not the shortest that is long enough.
    joined(
        2,
        "four letters, at 2",
        &["XABAB", "ABABY"],
        "XABABY",
        &[(1, 2, 4)],
        &[1, 2],
    ),
    joined(5, "four letters, at 5", &["XABAB", "ABABY"], "XABABABABY", &[], &[1, 6]),
    joined(
        5,
        "five and two letters, at 5",
        &["XABCDE", "ABCDEY", "EYQ"],
        "XABCDEYEYQ",
        &[(1, 2, 5)],
        &[1, 2, 8],
    ),
    joined(
        6,
        "five and two letters, at 6",
        &["XABCDE", "ABCDEY", "EYQ"],
        "XABCDEABCDEYEYQ",
        &[],
        &[1, 7, 13],
    ),
    // The longer overlap is joined first at 1 too, and leaves no room for the shorter ones.
    joined(
        1,
        "a longer overlap, at 1",
        RING_AND_TWO,
        "AXYAQXYR",
        &[(2, 1, 2)],
        &[2, 1, 5, 7],
    ),
    joined(
        2,
        "a longer overlap, at 2",
        RING_AND_TWO,
        "AXYAQXYR",
        &[(2, 1, 2)],
        &[2, 1, 5, 7],
    ),
    joined(
        3,
        "a longer overlap, at 3",
        RING_AND_TWO,
        "XYAAXYQXYR",
        &[],
        &[1, 4, 7, 9],
    ),
    joined(
        2,
        "the tray of document 003, at 2",
        AKI,
        "AKIKIRAELEA",
        &[(1, 3, 2), (3, 4, 2), (2, 5, 2)],
        &[1, 8, 2, 4, 9],
    ),
    joined(
        3,
        "the tray of document 003, at 3",
        AKI,
        "AKIELEKIKIKIRALEA",
        &[],
        &[1, 4, 7, 11, 15],
    ),
    compose(
        2,
        "the compose tray, at 2",
        COMPOSE.legend,
        COMPOSE.joins,
        &[2, 6, 5, 10, 1],
        &[(2, 8)],
    ),
    // Chains stand by their first slips: 4 by itself comes before the chain of 5.
    compose(
        3,
        "the compose tray, at 3",
        "VGPIVSSIMPCAESAVG",
        &[(1, 3, 4), (5, 1, 3)],
        &[8, 12, 11, 1, 7],
        &[(2, 16)],
    ),
    compose(
        4,
        "the compose tray, at 4",
        "IMPCAESAVGVGPIVSSIMP",
        &[(1, 3, 4)],
        &[1, 5, 4, 11, 17],
        &[(2, 7)],
    ),
    compose(
        5,
        "the compose tray, at 5",
        "IMPCAESCAESAVGVGPIVSSIMP",
        &[],
        &[1, 5, 8, 15, 21],
        &[(2, 7)],
    ),
    compose(
        32,
        "the compose tray, at the most",
        "IMPCAESCAESAVGVGPIVSSIMP",
        &[],
        &[1, 5, 8, 15, 21],
        &[(2, 7)],
    ),
    Joined {
        aside: &[(4, 8)],
        ..joined(
            1,
            "a slip set aside, at 1",
            SEAM,
            "ABCXBBY",
            &[(1, 2, 1)],
            &[1, 2, 4, 5],
        )
    },
    Joined {
        aside: &[(4, 4)],
        ..joined(2, "a slip set aside, at 2", SEAM, "ABBCXBBY", &[], &[1, 3, 5, 2])
    },
    // Set aside is what it is at 1: a slip of one letter, and equal slips.
    Joined {
        aside: &[(1, 1), (3, 2)],
        ..joined(
            32,
            "slips set aside, at the most",
            &["A", "AB", "AB"],
            "AB",
            &[],
            &[1, 1, 1],
        )
    },
    joined(32, "the empty tray, at the most", &[], "", &[], &[]),
    joined(32, "one slip, at the most", &["AVG"], "AVG", &[], &[1]),
];

/// Least overlaps, small die groups and their shortest legends.
pub const DIE_GROUPS: &[(usize, DieGroup)] = &[
    (1, group("a letter, at 1", &["AB", "BC"], &[1, 2], "ABC")),
    (2, group("a letter, at 2", &["AB", "BC"], &[1, 2], "ABBC")),
    (2, group("two orders as short, at 2", &["AB", "BA"], &[1, 2], "ABBA")),
    (1, group("the second first, at 1", &["AB", "XA"], &[2, 1], "XAB")),
    (2, group("the second first, at 2", &["AB", "XA"], &[1, 2], "ABXA")),
    (
        2,
        group(
            "not shorter than composed, at 2",
            &["CA", "AB", "ADA"],
            &[1, 2, 3],
            "CAABADA",
        ),
    ),
    // At 1 two letters are saved either way, and the order 1, 2, 3 is the smallest.
    (1, group("one overlap or two, at 1", RING_AND_ONE, &[1, 2, 3], "XYAXYZ")),
    (2, group("one overlap or two, at 2", RING_AND_ONE, &[2, 1, 3], "AXYAYZ")),
    (
        3,
        group("one overlap or two, at 3", RING_AND_ONE, &[1, 2, 3], "XYAAXYYZ"),
    ),
    // At 1 three overlaps of a letter save more than the one of two, which leaves no room for any of them.
    (
        1,
        group("one overlap or three, at 1", RING_AND_TWO, &[3, 1, 2, 4], "QXYAXYR"),
    ),
    (
        2,
        group("one overlap or three, at 2", RING_AND_TWO, &[2, 1, 3, 4], "AXYAQXYR"),
    ),
    (
        3,
        group("one overlap or three, at 3", RING_AND_TWO, &[1, 2, 3, 4], "XYAAXYQXYR"),
    ),
    (2, group("a stop and a letter, at 2", &[".AB", "X.A"], &[2, 1], "X.AB")),
    (
        3,
        group("a stop and a letter, at 3", &[".AB", "X.A"], &[1, 2], ".ABX.A"),
    ),
    (2, group("two stops, at 2", &["X..", "..Y"], &[1, 2], "X....Y")),
    (
        2,
        group("the tray of document 003, at 2", AKI, &[1, 3, 4, 2, 5], "AKIKIRAELEA"),
    ),
    (
        2,
        group("the compose tray, at 2", COMPOSE.slips, &[5, 1, 3, 4], COMPOSE.legend),
    ),
    (
        3,
        group(
            "the compose tray, at 3",
            COMPOSE.slips,
            &[4, 5, 1, 3],
            "VGPIVSSIMPCAESAVG",
        ),
    ),
    (
        4,
        group(
            "the compose tray, at 4",
            COMPOSE.slips,
            &[1, 3, 4, 5],
            "IMPCAESAVGVGPIVSSIMP",
        ),
    ),
    (
        32,
        group(
            "the compose tray, at the most",
            COMPOSE.slips,
            &[1, 3, 4, 5],
            "IMPCAESCAESAVGVGPIVSSIMP",
        ),
    ),
    (
        2,
        group(
            "ten kept slips, at 2",
            FALLING.split_at(1).1,
            &[1, 2, 3, 4, 5, 6, 7, 8, 9, 10],
            "JKIJHIGHFGEFDECDBCAB",
        ),
    ),
    (32, group("the empty tray, at the most", &[], &[], "")),
];

/// Two slips that share all letters but one, and have 32: as many as a slip may have, and as a least overlap may ask for.
pub struct Long {
    /// How many letters each slip has.
    pub letters: usize,
    /// The slips.
    pub slips: [Vec<u8>; 2],
    /// Their legend where they are joined.
    pub text: Vec<u8>,
}

/// Neither of two kept slips stands in the other, so no two share all letters: they are joined with one letter less than
/// they have as the least overlap, and not with as many.
pub fn long() -> Long {
    let letters = 32;
    let text: Vec<u8> = (b'A'..=b'Z').cycle().take(letters + 1).collect();
    Long {
        letters,
        slips: [text[..letters].to_vec(), text[1..].to_vec()],
        text,
    }
}

/// The compose tray, refused by 8: the least overlap, the letters lent for the legend, and the letters needed. The shortest
/// legend has as many.
pub const SHORT_ROOMS: &[(usize, usize, usize)] = &[(2, 14, 15), (3, 16, 17), (4, 19, 20), (5, 23, 24), (32, 0, 24)];

/// Trays and rooms, two of which no other row would turn back. Each of [`REFUSED`] is refused first.
pub fn refused_first() -> Vec<Turned> {
    let ample = |name, tray| turned(name, &tray, [32_000, 2_000], [21, 0]);
    let mut all = vec![
        ample("the compose tray", Tray::of(COMPOSE.slips)),
        ample("the empty tray", Tray::default()),
    ];
    let first = |case| Turned {
        number: 21,
        detail: 0,
        ..case
    };
    all.extend(all_turned().into_iter().map(first));
    all
}
