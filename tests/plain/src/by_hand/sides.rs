//! Trays with sides: each side composed, its shortest legend, and pairs. The sides stand here as bytes.
use super::shortest::FALLING;
use super::COMPOSE;
use crate::tray::Tray;
use crate::Settings;

/// A slip with its side before it.
pub type Sided = (u8, &'static str);

/// The slips of a tray, each with its side.
pub type SidedSlips = &'static [Sided];

/// The blank side, the obverse and the reverse.
pub(super) const B: u8 = b' ';
pub(super) const O: u8 = b'O';
pub(super) const R: u8 = b'R';

/// One side of a tray composed, and its outcome.
pub struct Composed {
    /// What it shows.
    pub name: &'static str,
    /// The slips of the tray.
    pub slips: SidedSlips,
    /// The least overlap.
    pub least: usize,
    /// The side named.
    pub side: u8,
    /// The legend.
    pub legend: &'static str,
    /// The joins in the order made: left slip, right slip, overlap.
    pub joins: &'static [(usize, usize, usize)],
    /// For each slip of the side its number, its place, K if it is kept and S if it is set aside, and the letters compared.
    pub places: &'static [(usize, usize, char, usize)],
}

/// What is told of a side with a least overlap of 1: its legend, joins and places.
type Told = (
    u8,
    &'static str,
    &'static [(usize, usize, usize)],
    &'static [(usize, usize, char, usize)],
);

/// A side without slips.
const fn nothing(side: u8) -> Told {
    (side, "", &[], &[])
}

/// A tray, and what is told of each side.
const fn tray(name: &'static str, slips: SidedSlips, [b, o, r]: [Told; 3]) -> [Composed; 3] {
    [told(name, slips, b), told(name, slips, o), told(name, slips, r)]
}

const fn told(name: &'static str, slips: SidedSlips, (side, legend, joins, places): Told) -> Composed {
    Composed {
        name,
        slips,
        least: 1,
        side,
        legend,
        joins,
        places,
    }
}

/// Slip 1 stands in slip 2, which is of another side.
pub const INSIDE: SidedSlips = &[(B, "AB"), (O, "ABC")];

/// Slips of three sides: a join of O would have the numbers 2 and 1 in a tray of O alone.
pub const THREE: SidedSlips = &[(B, "AB"), (O, "ABC"), (R, "AVG"), (O, "BA")];

/// Equal slips of one side, and one of another.
pub const EQUAL: SidedSlips = &[(O, "AVG"), (O, "AVG"), (R, "AVG")];

/// The compose tray on the obverse, with slips of the other sides between.
const AMONG: SidedSlips = &[
    (O, "IMPCAES"),
    (R, "SIMP"),
    (O, "AES"),
    (B, "CAESAVG"),
    (O, "CAESAVG"),
    (O, "VGPIVS"),
    (R, "IMPCAESAVG"),
    (O, "SIMP"),
];

/// Neighbours on two sides.
const NEIGHBOURS: SidedSlips = &[(O, "ABC"), (R, "BCD"), (O, "BCE"), (R, "CDE")];

/// Trays with what is told of each side.
const TRAYS: &[[Composed; 3]] = &[
    tray("the empty tray", &[], [nothing(B), nothing(O), nothing(R)]),
    tray(
        "a slip inside one of another side",
        INSIDE,
        [
            (B, "AB", &[], &[(1, 1, 'K', 0)]),
            (O, "ABC", &[], &[(2, 1, 'K', 0)]),
            nothing(R),
        ],
    ),
    tray(
        "numbers of the whole tray",
        THREE,
        [
            (B, "AB", &[], &[(1, 1, 'K', 0)]),
            (O, "BABC", &[(4, 2, 1)], &[(2, 2, 'K', 0), (4, 1, 'K', 0)]),
            (R, "AVG", &[], &[(3, 1, 'K', 0)]),
        ],
    ),
    tray(
        "equal slips on two sides",
        EQUAL,
        [
            nothing(B),
            (O, "AVG", &[], &[(1, 1, 'K', 0), (2, 1, 'S', 3)]),
            (R, "AVG", &[], &[(3, 1, 'K', 0)]),
        ],
    ),
    tray(
        "equal slips on three sides",
        &[(R, "AVG"), (B, "AVG"), (O, "AVG")],
        [
            (B, "AVG", &[], &[(2, 1, 'K', 0)]),
            (O, "AVG", &[], &[(3, 1, 'K', 0)]),
            (R, "AVG", &[], &[(1, 1, 'K', 0)]),
        ],
    ),
    tray(
        "one side alone",
        &[(R, "IMPCAES"), (R, "AES"), (R, "CAESAVG"), (R, "VGPIVS"), (R, "SIMP")],
        [
            nothing(B),
            nothing(O),
            (
                R,
                COMPOSE.legend,
                COMPOSE.joins,
                &[
                    (1, 2, 'K', 0),
                    (2, 6, 'S', 8),
                    (3, 5, 'K', 0),
                    (4, 10, 'K', 0),
                    (5, 1, 'K', 0),
                ],
            ),
        ],
    ),
    tray(
        "inside a slip of the same side and one of another",
        &[(O, "CAESAVG"), (R, "AVG"), (R, "XAVGX"), (O, "AVG")],
        [
            nothing(B),
            (O, "CAESAVG", &[], &[(1, 1, 'K', 0), (4, 5, 'S', 7)]),
            (R, "XAVGX", &[], &[(2, 2, 'S', 4), (3, 1, 'K', 0)]),
        ],
    ),
    tray(
        "neighbours of another side that share more",
        &[(B, "IMPC"), (O, "PCAES"), (B, "CAES"), (O, "SAVG")],
        [
            (B, "IMPCAES", &[(1, 3, 1)], &[(1, 1, 'K', 0), (3, 4, 'K', 0)]),
            (O, "PCAESAVG", &[(2, 4, 1)], &[(2, 1, 'K', 0), (4, 5, 'K', 0)]),
            nothing(R),
        ],
    ),
    tray(
        "a ring over two sides is none",
        &[(O, "AB"), (R, "BC"), (O, "CA")],
        [
            nothing(B),
            (O, "CAB", &[(3, 1, 1)], &[(1, 2, 'K', 0), (3, 1, 'K', 0)]),
            (R, "BC", &[], &[(2, 1, 'K', 0)]),
        ],
    ),
    tray(
        "chains of two sides among each other",
        &[(R, "XY"), (O, "QA"), (R, "YZ"), (O, "AB"), (R, "CX")],
        [
            nothing(B),
            (O, "QAB", &[(2, 4, 1)], &[(2, 1, 'K', 0), (4, 2, 'K', 0)]),
            (
                R,
                "CXYZ",
                &[(5, 1, 1), (1, 3, 1)],
                &[(1, 2, 'K', 0), (3, 3, 'K', 0), (5, 1, 'K', 0)],
            ),
        ],
    ),
    tray(
        "a place across two chains of a side",
        &[(O, "AB"), (B, "BC"), (O, "CD"), (O, "XBCY"), (O, "BC")],
        [
            (B, "BC", &[], &[(2, 1, 'K', 0)]),
            (
                O,
                "ABCDXBCY",
                &[],
                &[(1, 1, 'K', 0), (3, 3, 'K', 0), (4, 5, 'K', 0), (5, 2, 'S', 3)],
            ),
            nothing(R),
        ],
    ),
    tray(
        "stops on two sides",
        &[(O, "A."), (O, ".B"), (R, "X.A"), (R, ".AB")],
        [
            nothing(B),
            (O, "A..B", &[], &[(1, 1, 'K', 0), (2, 3, 'K', 0)]),
            (R, "X.AB", &[(3, 4, 2)], &[(3, 1, 'K', 0), (4, 2, 'K', 0)]),
        ],
    ),
    tray(
        "the compose tray among slips of other sides",
        AMONG,
        [
            (B, "CAESAVG", &[], &[(4, 1, 'K', 0)]),
            (
                O,
                COMPOSE.legend,
                &[(1, 5, 4), (8, 1, 3), (5, 6, 2)],
                &[
                    (1, 2, 'K', 0),
                    (3, 6, 'S', 8),
                    (5, 5, 'K', 0),
                    (6, 10, 'K', 0),
                    (8, 1, 'K', 0),
                ],
            ),
            (R, "SIMPCAESAVG", &[(2, 7, 3)], &[(2, 1, 'K', 0), (7, 2, 'K', 0)]),
        ],
    ),
];

/// Sides with a greater least overlap.
const AT_MORE: &[(usize, Composed)] = &[
    (
        2,
        told(
            "two letters of O, at 2",
            NEIGHBOURS,
            (O, "ABCE", &[(1, 3, 2)], &[(1, 1, 'K', 0), (3, 2, 'K', 0)]),
        ),
    ),
    (
        2,
        told(
            "two letters of R, at 2",
            NEIGHBOURS,
            (R, "BCDE", &[(2, 4, 2)], &[(2, 1, 'K', 0), (4, 2, 'K', 0)]),
        ),
    ),
    (
        3,
        told(
            "two letters of O, at 3",
            NEIGHBOURS,
            (O, "ABCBCE", &[], &[(1, 1, 'K', 0), (3, 4, 'K', 0)]),
        ),
    ),
];

/// Sides of trays composed.
pub fn composed() -> Vec<Composed> {
    let copy = |case: &Composed, least: usize| Composed { least, ..*case };
    let at_one = TRAYS.iter().flatten().map(|case| copy(case, 1));
    at_one
        .chain(AT_MORE.iter().map(|(least, case)| copy(case, *least)))
        .collect()
}

/// One side of a tray, and its shortest legend.
pub struct SideGroup {
    /// What it shows.
    pub name: &'static str,
    /// The tray.
    pub tray: Tray,
    /// The settings.
    pub settings: Settings,
    /// The kept slips of the side in the order in which they are laid.
    pub order: Vec<usize>,
    /// The legend.
    pub legend: &'static str,
}

/// Slips of three sides; of O the shortest legend is shorter than the composed one.
const SHORTER: SidedSlips = &[(O, "CA"), (B, "CA"), (O, "AB"), (R, "AB"), (O, "ADA")];

/// Slips of a side that stand in slips of that side, and of the other.
const ASIDE: SidedSlips = &[(R, "B"), (O, "AB"), (O, "BC"), (R, "C"), (O, "C")];

/// The second first, but for the least overlap.
const SECOND_FIRST: SidedSlips = &[(O, "AB"), (R, "AB"), (R, "XA")];

/// Sides of small trays, named with a least overlap.
fn small_groups() -> Vec<SideGroup> {
    let group = |name, slips: SidedSlips, (least, side), order: &[usize], legend| SideGroup {
        name,
        tray: Tray::sided(slips),
        settings: Settings { least, side },
        order: order.to_vec(),
        legend,
    };
    vec![
        group("the empty tray", &[], (1, O), &[], ""),
        group("a side without slips", INSIDE, (1, R), &[], ""),
        group("numbers of the whole tray", THREE, (1, O), &[4, 2], "BABC"),
        group("one slip of a side", THREE, (1, R), &[3], "AVG"),
        group("shorter than composed", SHORTER, (1, O), &[1, 5, 3], "CADAB"),
        group("the same letters on another side", SHORTER, (1, B), &[2], "CA"),
        group("equal slips on two sides", EQUAL, (1, O), &[1], "AVG"),
        group("equal slips of the other side", EQUAL, (1, R), &[3], "AVG"),
        group("set aside by its own side", ASIDE, (1, O), &[2, 3], "ABC"),
        group("not set aside by the other side", ASIDE, (1, R), &[1, 4], "BC"),
        group("the second first, at 1", SECOND_FIRST, (1, R), &[3, 2], "XAB"),
        group("the second first, at 2", SECOND_FIRST, (2, R), &[2, 3], "ABXA"),
    ]
}

/// Eleven kept slips of O, and one of R.
pub fn eleven_and_one() -> Tray {
    let mut slips: Vec<Sided> = FALLING.map(|slip| (O, slip)).to_vec();
    slips.push((R, "AB"));
    Tray::sided(&slips)
}

/// Ten kept slips each of O and R, by turns.
fn ten_and_ten() -> Tray {
    let both = FALLING[1..].iter().flat_map(|slip| [(O, *slip), (R, *slip)]);
    Tray::sided(&both.collect::<Vec<Sided>>())
}

/// Shortest legends of sides. Refusal 20 counts the kept slips of the side.
pub fn side_groups() -> Vec<SideGroup> {
    let group = |name, tray, side, order, legend| SideGroup {
        name,
        tray,
        settings: Settings { least: 1, side },
        order,
        legend,
    };
    let (odd, even) = ((1..20).step_by(2).rev(), (2..21).step_by(2).rev());
    let falling = "ABCDEFGHIJK";
    let mut all = small_groups();
    all.extend([
        group("one slip of R beside eleven of O", eleven_and_one(), R, vec![12], "AB"),
        group("no blank slip beside twelve", eleven_and_one(), B, vec![], ""),
        group("ten of O beside ten of R", ten_and_ten(), O, odd.collect(), falling),
        group("ten of R beside ten of O", ten_and_ten(), R, even.collect(), falling),
    ]);
    all
}

/// Two slips of a tray with sides, a least overlap, and their overlap.
pub struct SidePair {
    /// The slips of the tray.
    pub slips: SidedSlips,
    /// The numbers of the two.
    pub numbers: (usize, usize),
    /// The least overlap.
    pub least: usize,
    /// Their overlap, counted.
    pub letters: usize,
}

const fn pair(slips: SidedSlips, numbers: (usize, usize), least: usize, letters: usize) -> SidePair {
    SidePair {
        slips,
        numbers,
        least,
        letters,
    }
}

/// Pairs of slips of one side, and of two.
pub const SIDE_PAIRS: &[SidePair] = &[
    pair(EQUAL, (1, 2), 1, 3),
    pair(EQUAL, (2, 1), 1, 3),
    pair(EQUAL, (1, 3), 1, 0),
    pair(EQUAL, (3, 1), 1, 0),
    pair(EQUAL, (1, 2), 3, 3),
    pair(EQUAL, (1, 2), 4, 0),
    pair(THREE, (4, 2), 1, 1),
    pair(THREE, (2, 4), 1, 0),
    pair(THREE, (1, 2), 1, 0),
    pair(THREE, (1, 4), 1, 0),
    pair(THREE, (4, 1), 1, 0),
    pair(NEIGHBOURS, (1, 2), 1, 0),
    pair(NEIGHBOURS, (1, 3), 1, 2),
    pair(NEIGHBOURS, (1, 3), 2, 2),
    pair(NEIGHBOURS, (1, 3), 3, 0),
    pair(NEIGHBOURS, (2, 4), 2, 2),
    pair(&[(B, "AB"), (B, "BC")], (1, 2), 1, 1),
    pair(&[(R, "AB"), (R, "BC")], (1, 2), 1, 1),
    pair(&[(B, "AB"), (R, "BC")], (1, 2), 1, 0),
    pair(&[(R, "AB"), (B, "BC")], (1, 2), 1, 0),
];
