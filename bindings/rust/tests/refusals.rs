//! Every kind of refusal, provoked by a call: its number, its detail and its sentence.
use kotsghane::RefusalKind as Kind;
use kotsghane::{
    compose, compose_tray, find, read_tray, shortest_legend, Found, Join, Place, Refusal, Settings, Side, Tray,
    TrayRef, FILE_ENDS, MAX_FILE, MAX_LEAST, MAX_LETTERS, MAX_SHORTEST, MAX_SLIP, MAX_SLIPS, MAX_TEXT, WORK_CELLS,
};
use std::collections::{BTreeMap, HashSet};
use std::error::Error;

/// No overlap is too short.
const DEFAULT: Settings = Settings::least(1);

/// What is expected of a refusal.
struct Row {
    kind: Kind,
    number: u32,
    /// 0 if the row names none.
    detail: usize,
    /// The limits that the sentence names.
    limits: &'static [usize],
    sentence: &'static str,
}

const fn row(kind: Kind, (number, detail): (u32, usize), limits: &'static [usize], sentence: &'static str) -> Row {
    Row {
        kind,
        number,
        detail,
        limits,
        sentence,
    }
}

/// What [`told`] tells of each kind.
#[rustfmt::skip]
const ROWS: [Row; 22] = [
    row(Kind::TooManySlips, (1, 0), &[MAX_SLIPS], "the tray has over 200 slips"),
    row(Kind::EmptySlip, (2, 2), &[], "slip 2 has no letters"),
    row(Kind::SlipTooLong, (3, 2), &[MAX_SLIP], "slip 2 has over 32 letters"),
    row(Kind::TooManyLetters, (4, 0), &[MAX_LETTERS], "the tray has over 2000 letters"),
    row(Kind::LastEndMismatch, (5, 0), &[], "the last end is not the count of letters"),
    row(Kind::BadSlipByte, (6, 2), &[], "slip 2 has a byte that is neither a capital A to Z nor a full stop"),
    row(Kind::WorkAreaTooSmall, (7, 0), &[WORK_CELLS], "the work area has under 32000 cells"),
    row(Kind::LegendBufferTooSmall, (8, 15), &[], "the legend has 15 letters, more than its buffer takes"),
    row(Kind::JoinOrPlaceListTooSmall, (9, 3), &[], "the lists are too short for 3 joins and one place for each slip of the side"),
    row(Kind::NoSuchSlip, (10, 77), &[], "the tray has no slip 77"),
    row(Kind::SameSlipTwice, (11, 3), &[], "the pair names slip 3 twice"),
    row(Kind::TextTooLong, (12, 0), &[MAX_TEXT], "the text has over 2000 bytes"),
    row(Kind::BadTextByte, (13, 4), &[], "place 4 of the text is neither a capital A to Z nor a full stop"),
    row(Kind::FoundListTooSmall, (14, 3), &[], "there are 3 occurrences, more than their list takes"),
    row(Kind::TrayBuffersTooSmall, (15, 0), &[MAX_FILE, FILE_ENDS, MAX_LETTERS, MAX_SLIPS],
        "fewer letters, ends or sides are lent than 16384, 1700 and 1700 for a tray file, or 2000, 200 and 200 for two trays merged"),
    row(Kind::FileTooLong, (16, 0), &[MAX_FILE], "the tray file has over 16384 bytes"),
    row(Kind::BadLine, (17, 1), &[], "line 1 of the tray file is not of the layout"),
    row(Kind::WrongSlipNumber, (18, 2), &[], "line 2 of the tray file has a slip number other than 2"),
    row(Kind::WrongLength, (19, 3), &[], "line 3 of the tray file states another length than it has"),
    row(Kind::TooManyKeptSlips, (20, 0), &[MAX_SHORTEST], "the side has over 10 kept slips"),
    row(Kind::LeastOverlapOutOfRange, (21, 0), &[MAX_LEAST], "the least overlap is zero or over 32"),
    row(Kind::BadSide, (22, 0), &[],
        "a side is missing, one too many or none of the three: give each slip a blank, O or R, and name one of these"),
];

fn sample() -> Tray {
    Tray::of(&["IMPCAES", "AES", "CAESAVG", "VGPIVS", "SIMP"])
}

/// A tray composed, with this many cells, letters and joins lent.
fn composed(tray: TrayRef, cells: usize, letters: usize, joins: usize) -> Result<(), Refusal> {
    let (mut work, mut legend) = (vec![0; cells], vec![0; letters]);
    let (mut joins, mut places) = (vec![Join::default(); joins], [Place::default(); 5]);
    compose(tray, DEFAULT, &mut work, &mut legend, &mut joins, &mut places).map(|_| ())
}

/// The sample tray found in a text, with a list of 2.
fn found(text: &str) -> Result<(), Refusal> {
    let (tray, mut work, mut list) = (sample(), vec![0; 32_000], [Found::default(); 2]);
    find(tray.letters(), tray.ends(), text.as_bytes(), &mut work, &mut list).map(|_| ())
}

fn read(file: &str) -> Result<(), Refusal> {
    Tray::read(file).map(|_| ())
}

/// What a call tells that is refused by this kind.
fn told(kind: Kind) -> Result<(), Refusal> {
    let letters = |n: usize| "A".repeat(n);
    match kind {
        Kind::TooManySlips => Tray::of(&["A"; 201]).check(),
        Kind::EmptySlip => Tray::of(&["AB", "", ""]).check(),
        Kind::SlipTooLong => Tray::of(&["AB", &letters(33)]).check(),
        Kind::TooManyLetters => Tray::of(&vec![letters(32); 63]).check(),
        Kind::LastEndMismatch => Tray::from_parts(b"ABC".to_vec(), vec![1, 2]).check(),
        Kind::BadSlipByte => Tray::of(&["AVG", "avg"]).check(),
        Kind::WorkAreaTooSmall => composed(sample().lend(), 31_999, 15, 3),
        Kind::LegendBufferTooSmall => composed(sample().lend(), 32_000, 14, 3),
        Kind::JoinOrPlaceListTooSmall => composed(sample().lend(), 32_000, 15, 2),
        Kind::NoSuchSlip => sample().slip(77).map(|_| ()),
        Kind::SameSlipTwice => sample().overlap(3, 3, DEFAULT).map(|_| ()),
        Kind::TextTooLong => found(&letters(2_001)),
        Kind::BadTextByte => found("IMP CAES"),
        Kind::FoundListTooSmall => found("IMPCAESAVG"),
        Kind::TrayBuffersTooSmall => read_tray(b"", &mut [0; 16_384], &mut [0; 1_700], &mut [0; 1_699]).map(|_| ()),
        Kind::FileTooLong => read(&letters(16_385)),
        Kind::BadLine => read("no tray\n"),
        Kind::WrongSlipNumber => read("   1   1 A\n   3   1 B\n"),
        Kind::WrongLength => read("   1   1 A\n   2   1 B\n   3   2 C\n"),
        Kind::TooManyKeptSlips => {
            let eleven: Tray = (b'A'..=b'K').map(|letter| [letter]).collect();
            shortest_legend(&eleven, DEFAULT).map(|_| ())
        }
        Kind::LeastOverlapOutOfRange => compose_tray(&sample(), Settings::least(33)).map(|_| ()),
        Kind::BadSide => composed(TrayRef::new(b"AVG", &[3], b"o"), 32_000, 3, 0),
        _ => panic!("no call for {kind:?}"),
    }
}

#[test]
fn every_kind_is_told() {
    for row in &ROWS {
        let refusal = told(row.kind).unwrap_err();
        let numbers = (refusal.kind(), refusal.number(), refusal.detail());
        assert_eq!(numbers, (row.kind, row.number, row.detail));
    }
    let kinds = ROWS.iter().map(|row| row.kind);
    assert!(kinds.eq(Kind::ALL.iter().copied()));
}

/// Limits and detail stand in the sentence, and no other number does.
#[test]
fn every_kind_has_a_sentence() {
    let mut met = HashSet::new();
    for row in &ROWS {
        let refusal = told(row.kind).unwrap_err();
        let error: &dyn Error = &refusal;
        let sentence = error.to_string();
        assert_eq!(sentence, row.sentence);
        assert!(error.source().is_none());
        let detail = (row.detail > 0).then_some(row.detail);
        let wanted: HashSet<usize> = row.limits.iter().copied().chain(detail).collect();
        let words = sentence.split(|c: char| !c.is_ascii_digit());
        let stand: HashSet<usize> = words.filter_map(|word| word.parse().ok()).collect();
        assert_eq!(stand, wanted, "{sentence}");
        assert!(met.insert(sentence), "{}", row.sentence);
    }
}

/// The sentence follows the detail.
#[test]
fn sentences_with_other_details() {
    for slip in [6, 7, 4_294_967_295] {
        let refusal = sample().slip(slip).unwrap_err();
        assert_eq!(refusal.to_string(), format!("the tray has no slip {slip}"));
    }
}

/// 22 in each call that takes sides: a list that is too short, too long, or holds another byte.
#[test]
fn sides_that_are_refused() {
    let (tray, sides) = (sample(), [Side::Obverse; 6]);
    let parts = |n: usize| Tray::from_sided_parts(tray.letters().to_vec(), tray.ends().to_vec(), &sides[..n]);
    for n in [0, 4, 6] {
        let tray = parts(n);
        let told = [
            compose_tray(&tray, DEFAULT).map(|_| ()),
            shortest_legend(&tray, DEFAULT).map(|_| ()),
            tray.overlap(1, 2, DEFAULT).map(|_| ()),
            tray.merge(&sample()).map(|_| ()),
            sample().merge(&tray).map(|_| ()),
            tray.to_file().map(|_| ()),
            tray.check(),
        ];
        assert!(
            told.iter().all(|told| told.is_err_and(|x| x.kind() == Kind::BadSide)),
            "{n} sides"
        );
        assert_eq!(tray.slip(1), Ok(&b"IMPCAES"[..]));
    }
    assert_eq!(parts(5).check(), Ok(()));
    for sides in [b"OOoOO", b"OO\0OO", b"OOOOo", b"0OOOO"] {
        let lent = TrayRef { sides, ..tray.lend() };
        assert_eq!(composed(lent, 32_000, 15, 3).unwrap_err().kind(), Kind::BadSide);
    }
}

#[test]
fn numbers_and_kinds() {
    assert_eq!(Kind::ALL.len(), 22);
    for number in 1..=22 {
        let kind = Kind::from_number(number).expect("a kind of the table");
        assert_eq!((kind.number(), kind as u32), (number, number));
        assert_eq!(Kind::ALL[number as usize - 1], kind);
    }
    for number in [0, 23, 24, 257, 65_537, u32::MAX] {
        assert_eq!(Kind::from_number(number), None);
    }
}

/// The rows of docs/REFUSALS.md: number, and whether the row names a detail.
fn rows() -> BTreeMap<u32, bool> {
    let path = format!("{}/../../docs/REFUSALS.md", env!("CARGO_MANIFEST_DIR"));
    let file = std::fs::read_to_string(path).expect("the table of refusals");
    let row = |line: &str| {
        let cells: Vec<&str> = line.split('|').map(str::trim).collect();
        let number = cells.get(1)?.parse().ok()?;
        Some((number, !cells[3].is_empty()))
    };
    file.lines().filter_map(row).collect()
}

/// The table has the same numbers, and a detail in the same rows.
#[test]
fn the_table_has_the_same_rows() {
    let expected = ROWS.iter().map(|row| (row.number, row.detail > 0));
    assert_eq!(rows(), expected.collect());
}
