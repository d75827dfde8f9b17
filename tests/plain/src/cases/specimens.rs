//! The specimen trays of the rules, trays that tell a misreading from the rule, and each limit with its neighbour.
use super::{lending, tray_room, Case, Lending, FILE_ROOM, JOINS, PLACES, WHOLE, WHOLE_LIST};
use crate::by_hand::{COMPOSE, COMPOSE_FILE, SEARCHES, SPECIMENS, TYPED_FILE};
use crate::made::files::tray_file;
use crate::tray::Tray;
use crate::{PLACE_CELLS, USUAL, WORK_CELLS};

/// The numbers of five places, those of the compose tray.
const FIVE: usize = 5 * PLACE_CELLS;

/// What is lent for the compose tray.
const LENDINGS: &[(&str, Lending)] = &[
    ("all exact", lending(32_000, 15, 9, FIVE)),
    ("all longer", lending(32_050, 40, 33, 2 * FIVE + 7)),
    ("a work area of 31,999 cells", lending(31_999, 15, 9, FIVE)),
    ("a legend of 14", lending(32_000, 14, 9, FIVE)),
    ("2 joins", lending(32_000, 15, 8, FIVE)),
    ("4 places", lending(32_000, 15, 9, FIVE - 1)),
    ("8 before 9", lending(32_000, 14, 8, FIVE - 1)),
    ("7 before 8 and 9", lending(31_999, 14, 8, FIVE - 1)),
    ("nothing", lending(0, 0, 0, 0)),
    ("7 with 200 records of each", lending(31_999, 15, JOINS, PLACES)),
    ("8 with 200 records of each", lending(32_000, 14, JOINS, PLACES)),
    ("2 records of each", lending(32_000, 15, 6, 2 * PLACE_CELLS)),
];

/// Texts for the compose tray, and how many cells and numbers are lent.
const TEXTS: &[(&str, &str, usize, usize)] = &[
    ("the find text", "IMPCAESAVG", 32_000, 6),
    ("a list of 2", "IMPCAESAVG", 32_000, 4),
    ("31,999 cells", "IMPCAESAVG", 31_999, 6),
    ("31,999 cells and a list of 2", "IMPCAESAVG", 31_999, 4),
    ("31,999 cells and a list of 2,000", "IMPCAESAVG", 31_999, 16_000),
    ("no letters", "", 32_000, 0),
    ("the legend", "SIMPCAESAVGPIVS", 32_000, 16_000),
    ("bad bytes at places 4 and 8", "IMP-AES/VG", 32_000, 16_000),
    ("13 before 7 and 14", "IMPCAESAVGa", 31_999, 0),
];

/// This many letters in slips of `most` letters, of which the last may have fewer; no two of the first 26 begin alike.
fn cut(letters: usize, most: usize) -> Tray {
    let slip = |(i, start): (usize, usize)| {
        let long = most.min(letters - start);
        (i..i + long).map(|k| b'A' + ((k * k + i) % 26) as u8).collect()
    };
    let starts = (0..letters).step_by(most).enumerate();
    Tray::of(&starts.map(slip).collect::<Vec<Vec<u8>>>())
}

/// The longest slips, each a letter and then 31 As, and one that stands in the last of them: at most places half of its
/// letters or more agree.
fn runs() -> Tray {
    let run = |first: u8, letters: usize| [&[first][..], &vec![b'A'; letters - 1]].concat();
    let mut all: Vec<Vec<u8>> = (b'B'..=b'Z').map(|first| run(first, 32)).collect();
    all.push(run(b'Z', 16));
    Tray::of(&all)
}

/// Each limit of a tray, and one more.
fn limits() -> Vec<(String, Tray)> {
    let slips = |n: usize, letters: usize| (format!("{n} slips"), cut(n * letters, letters));
    let slip = |letters: usize| (format!("a slip of {letters} letters"), cut(letters, letters));
    let full = |name: &str, letters: usize, most: usize| {
        let tray = cut(letters, most);
        (format!("{name} letters in {} slips", tray.ends.len()), tray)
    };
    vec![
        slips(200, 7),
        slips(201, 7),
        slip(32),
        slip(33),
        full("2,000", 2_000, 10),
        full("2,000", 2_000, 32),
        full("2,001", 2_001, 32),
    ]
}

/// Tray files that are whole or wrong in one respect, each with enough room.
fn files() -> Vec<(&'static str, Vec<u8>)> {
    let lines = |parts: &[&[u8]]| parts.concat();
    let filled = |n: usize| [b"   1   1 A\n".to_vec(), vec![b'B'; n - 11]].concat();
    vec![
        ("the compose file", COMPOSE_FILE.into()),
        ("no line", vec![]),
        ("a line of LF alone", b"\n".to_vec()),
        ("letters of any kind", b"   1   7 a \0\xff;\r,\n".to_vec()),
        ("a slip without letters", b"   1   0 \n".to_vec()),
        ("a last line without LF", b"   1   3 AVG\n   2   3 AES".to_vec()),
        ("a leading zero", b"   1  03 AVG\n".to_vec()),
        ("a sign before a number", b"  +1   3 AVG\n".to_vec()),
        ("a blank behind a number", b"1      3 AVG\n".to_vec()),
        ("no number", b"       3 AVG\n".to_vec()),
        ("no blank in column 9", b"   1   3AVGS\n".to_vec()),
        ("slip 0", b"   0   3 AVG\n".to_vec()),
        ("slip 2 first", b"   2   3 AVG\n".to_vec()),
        ("a length too low", b"   1   2 AVG\n".to_vec()),
        ("a length too high", b"   1   4 AVG\n".to_vec()),
        ("17 before 18 and 19", b"   2   4AVG\n".to_vec()),
        ("18 before 19", b"   2   4 AVG\n".to_vec()),
        (
            "the first bad line",
            lines(&[b"   1   3 AVG\n   2   4 AES\n", b"no line\n"]),
        ),
        ("1,638 slips without letters", tray_file(&vec![b""; 1_638])),
        ("a file of 16,384 bytes", filled(16_384)),
        ("a file of 16,385 bytes", filled(16_385)),
    ]
}

/// Tray files with letters that are folded, or are none, each with enough room.
fn folded_files() -> Vec<(&'static str, Vec<u8>)> {
    vec![
        ("small letters", b"   1   3 avg\n".to_vec()),
        ("small u and j", b"   1   2 uj\n".to_vec()),
        ("U beside V", b"   1   3 UVA\n".to_vec()),
        ("letters of both cases and a stop", b"   1   8 AvGuStj.\n".to_vec()),
        ("the compose file as readers may type it", TYPED_FILE.into()),
        ("slips that are equal as filed", tray_file(&["AVG", "aug"])),
        ("a digit in a slip", tray_file(&["AVG", "a9s"])),
        ("CR that the length does not count", b"   1   3 avg\r\n".to_vec()),
        ("CR that the length counts", b"   1   4 avg\r\n".to_vec()),
        ("a small letter for a slip number", b"   a   3 AVG\n".to_vec()),
        ("a small letter for a length", b"   1   c AVG\n".to_vec()),
        ("a small letter in column 9", b"   1   3aAVG\n".to_vec()),
        ("the bytes beside the letters", tray_file(&["@", "[", "`", "{"])),
        ("the bytes beside the stop", tray_file(&["-.", "./"])),
        (
            "every byte but LF",
            tray_file(&[(0..=255).filter(|&x| x != b'\n').collect::<Vec<u8>>()]),
        ),
    ]
}

/// A named case.
pub fn named(name: &str, case: Case) -> [Case; 2] {
    [Case::Heading(name.to_string()), case]
}

/// Trays composed.
fn trays() -> Vec<Case> {
    let sample = Tray::of(COMPOSE.slips);
    let mut cases = Vec::new();
    for case in SPECIMENS {
        cases.extend(named(case.name, Case::Compose(Tray::of(case.slips), USUAL, WHOLE)));
    }
    for (name, lent) in LENDINGS {
        cases.extend(named(name, Case::Compose(sample.clone(), USUAL, *lent)));
    }
    cases.extend(named(
        "the empty tray and nothing but cells",
        Case::Compose(Tray::default(), USUAL, lending(WORK_CELLS, 0, 0, 0)),
    ));
    for (name, tray) in limits() {
        cases.extend(named(&name, Case::Compose(tray.clone(), USUAL, WHOLE)));
        cases.push(Case::Compose(tray, USUAL, lending(WORK_CELLS, 0, JOINS, PLACES)));
    }
    cases.extend(named("many letters compared", Case::Compose(runs(), USUAL, WHOLE)));
    cases
}

/// Slips found in texts.
fn texts() -> Vec<Case> {
    let sample = Tray::of(COMPOSE.slips);
    let mut cases = Vec::new();
    for case in SEARCHES {
        cases.extend(named(
            case.name,
            Case::Find(Tray::of(case.slips), case.text.into(), WORK_CELLS, WHOLE_LIST),
        ));
    }
    for (name, text, work, list) in TEXTS {
        cases.extend(named(
            name,
            Case::Find(sample.clone(), text.as_bytes().to_vec(), *work, *list),
        ));
    }
    for (name, n) in [("2,000 letters", 2_000), ("2,001 letters", 2_001)] {
        cases.extend(named(
            name,
            Case::Find(sample.clone(), vec![b'S'; n], WORK_CELLS, WHOLE_LIST),
        ));
    }
    cases
}

/// Tray files read.
fn readings() -> Vec<Case> {
    let mut cases = Vec::new();
    for (name, file) in [files(), folded_files()].concat() {
        cases.extend(named(name, Case::Read(file, FILE_ROOM)));
    }
    for (letters, ends) in [
        (16_384, 1_700),
        (16_383, 1_700),
        (16_384, 1_699),
        (16_400, 1_750),
        (0, 0),
    ] {
        let name = format!("{letters} letters and {ends} ends lent");
        let room = tray_room(letters, ends, 1_700);
        cases.extend(named(&name, Case::Read(COMPOSE_FILE.into(), room)));
    }
    let long = vec![b'A'; 16_385];
    let short = tray_room(16_383, 1_700, 1_700);
    cases.extend(named("15 before 16", Case::Read(long, short)));
    cases
}

pub fn all() -> Vec<Case> {
    let heading = vec![Case::Heading("Specimens".to_string())];
    [heading, trays(), texts(), readings()].concat()
}
