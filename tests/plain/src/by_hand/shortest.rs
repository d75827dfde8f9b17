//! Small die groups and their shortest legends, and what is refused.
use super::COMPOSE;
use crate::tray::Tray;

/// A tray of few kept slips, and its shortest legend.
pub struct DieGroup {
    /// What it shows.
    pub name: &'static str,
    /// Its slips.
    pub slips: &'static [&'static str],
    /// The kept slips in the order in which they are laid.
    pub order: &'static [usize],
    /// The legend.
    pub legend: &'static str,
}

pub(super) const fn group(
    name: &'static str,
    slips: &'static [&'static str],
    order: &'static [usize],
    legend: &'static str,
) -> DieGroup {
    DieGroup {
        name,
        slips,
        order,
        legend,
    }
}

/// A chain of eleven slips, the last of the chain first.
pub(super) const FALLING: [&str; 11] = ["KL", "JK", "IJ", "HI", "GH", "FG", "EF", "DE", "CD", "BC", "AB"];

/// 200 slips: every twentieth is one of the last ten of [`FALLING`], all others stand in the last.
const TEN_OF_MANY: [&str; 200] = {
    let mut all = ["A"; 200];
    let mut i = 1;
    while i <= 10 {
        all[20 * i - 1] = FALLING[i];
        i += 1;
    }
    all
};

/// Small die groups.
pub const DIE_GROUPS: &[DieGroup] = &[
    group("empty tray", &[], &[], ""),
    group("one slip", &["AVG"], &[1], "AVG"),
    group("shorter than composed", &["CA", "AB", "ADA"], &[1, 3, 2], "CADAB"),
    group("two orders as short", &["AB", "BA"], &[1, 2], "ABA"),
    group("nothing shared", &["C", "A"], &[1, 2], "CA"),
    group("all orders as short", &["ABA", "ACA", "ADA"], &[1, 2, 3], "ABACADA"),
    group("a slip by itself goes last", &["AB", "BC", "XY"], &[1, 2, 3], "ABCXY"),
    group("an overlap later, not sooner", &["AB", "CB", "BD"], &[1, 2, 3], "ABCBD"),
    group("a ring of three", &["AB", "BC", "CA"], &[1, 2, 3], "ABCA"),
    group(
        "a ring of four",
        &["AXB", "BYC", "CZD", "DWA"],
        &[1, 2, 3, 4],
        "AXBYCZDWA",
    ),
    group("the only chain", &["CC", "AB", "BA", "CA"], &[1, 4, 2, 3], "CCABA"),
    group("two equal slips", &["AB", "AB", "BC"], &[1, 3], "ABC"),
    group(
        "slips set aside before and behind",
        &["B", "AB", "BC", "C"],
        &[2, 3],
        "ABC",
    ),
    group("the second of two is kept", &["AVG", "CAESAVG"], &[2], "CAESAVG"),
    group("a stop is not shared", &["A.", ".B"], &[1, 2], "A..B"),
    group(
        "shared letters where stops would come first",
        &["BA", "A.", ".B"],
        &[3, 1, 2],
        ".BA.",
    ),
    group("a stop and a letter are shared", &[".AB", "X.A"], &[2, 1], "X.AB"),
    group("slips of stops", &["..", "A.", ".B"], &[1, 2, 3], "..A..B"),
    group("the compose tray", COMPOSE.slips, &[5, 1, 3, 4], "SIMPCAESAVGPIVS"),
    group(
        "the tray of document 003",
        &["AKI", "ELE", "KIKI", "KIRA", "LEA"],
        &[2, 5, 1, 3, 4],
        "ELEAKIKIRA",
    ),
    group(
        "ten kept slips in a chain",
        FALLING.split_at(1).1,
        &[10, 9, 8, 7, 6, 5, 4, 3, 2, 1],
        "ABCDEFGHIJK",
    ),
    group(
        "ten kept slips that share nothing",
        &["J", "I", "H", "G", "F", "E", "D", "C", "B", "A"],
        &[1, 2, 3, 4, 5, 6, 7, 8, 9, 10],
        "JIHGFEDCBA",
    ),
    group(
        "ten kept slips of 200",
        &TEN_OF_MANY,
        &[200, 180, 160, 140, 120, 100, 80, 60, 40, 20],
        "ABCDEFGHIJK",
    ),
];

/// Ten of the longest slips, of 32 letters, and their legend.
pub struct Longest {
    /// The slips, each a letter further back in one text than the one before.
    pub slips: Vec<Vec<u8>>,
    /// The order in which they are laid: the last one first.
    pub order: Vec<usize>,
    /// The legend, which is that text.
    pub legend: Vec<u8>,
}

/// Neighbours share all letters but one. Ten different slips end at ten places of a legend, so no legend is shorter.
pub fn longest() -> Longest {
    let text: Vec<u8> = (b'A'..=b'Z').cycle().take(32 + 9).collect();
    Longest {
        slips: text.windows(32).rev().map(<[u8]>::to_vec).collect(),
        order: (1..=10).rev().collect(),
        legend: text,
    }
}

/// A tray with the cells and letters lent, and number and detail of the refusal.
pub struct Turned {
    /// What it shows.
    pub name: &'static str,
    /// The tray.
    pub tray: Tray,
    /// Cells of the work area.
    pub work: usize,
    /// Letters of the legend's buffer.
    pub room: usize,
    /// The number of the row.
    pub number: usize,
    /// Its detail.
    pub detail: usize,
}

/// A name, a tray, the cells and letters lent, number and detail.
pub(super) fn turned(
    name: &'static str,
    tray: &Tray,
    [work, room]: [usize; 2],
    [number, detail]: [usize; 2],
) -> Turned {
    Turned {
        name,
        tray: tray.clone(),
        work,
        room,
        number,
        detail,
    }
}

/// Rows 7, 20 and 8.
fn turned_rooms() -> Vec<Turned> {
    let (sample, eleven) = (Tray::of(COMPOSE.slips), Tray::of(&FALLING));
    let (stops, empty) = (Tray::of(&["A.", ".B"]), Tray::default());
    vec![
        turned("a legend of 14", &sample, [32_000, 14], [8, 15]),
        turned("no legend", &sample, [32_000, 0], [8, 15]),
        turned("a legend of 3, with stops", &stops, [32_000, 3], [8, 4]),
        turned("31,999 cells", &sample, [31_999, 15], [7, 0]),
        turned("no cells", &sample, [0, 15], [7, 0]),
        turned("no cells and the empty tray", &empty, [0, 0], [7, 0]),
        turned("7 before 8", &sample, [31_999, 14], [7, 0]),
        turned("11 kept slips", &eleven, [32_000, 2_000], [20, 0]),
        turned("20 before 8", &eleven, [32_000, 11], [20, 0]),
        turned("20 and no legend", &eleven, [32_000, 0], [20, 0]),
        turned("7 before 20", &eleven, [31_999, 2_000], [7, 0]),
        turned("7 before 20 and 8", &eleven, [31_999, 11], [7, 0]),
    ]
}

/// The eleven slips, and more.
fn eleven_and(more: &[String]) -> Tray {
    let first = FALLING.map(String::from);
    Tray::of(&[&first, more].concat())
}

/// Rows 1 to 6, each with at least eleven different slips, 31,999 cells and no legend.
fn turned_trays() -> Vec<Turned> {
    let slip = |letters: usize| "M".repeat(letters);
    // 22 letters, one, and 86 times 23.
    let long = [vec![slip(1)], vec![slip(23); 86]].concat();
    let mut equal_ends = Tray::of(&FALLING);
    equal_ends.ends[4] = equal_ends.ends[3];
    let mut letter_behind = Tray::of(&FALLING);
    letter_behind.letters.push(b'M');
    let mut small_letter = Tray::of(&FALLING);
    small_letter.letters[13] = b'f';
    let trays = [
        ("201 slips", eleven_and(&vec![slip(1); 190]), [1, 0]),
        ("an end equals the one before", equal_ends, [2, 5]),
        ("a slip one letter too long", eleven_and(&[slip(33)]), [3, 12]),
        ("2,001 letters", eleven_and(&long), [4, 0]),
        ("a letter behind the last end", letter_behind, [5, 0]),
        ("a small letter", small_letter, [6, 7]),
    ];
    let case = |(name, tray, refusal)| turned(name, &tray, [31_999, 0], refusal);
    trays.map(case).into()
}

/// What is refused.
pub fn all_turned() -> Vec<Turned> {
    [turned_trays(), turned_rooms()].into_iter().flatten().collect()
}
