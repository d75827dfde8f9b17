//! The cases of the program `trials`: one line each, and the line that it must answer.
//!
//! | line | what is asked |
//! |---|---|
//! | `- TEXT` | nothing: a heading, answered by itself |
//! | `C LEAST WORK LEGEND JOINS PLACES TRAY` | composing, with this many cells, letters and numbers lent |
//! | `L LEAST WORK LEGEND TRAY` | the shortest legend, with this many cells and letters lent |
//! | `F WORK LIST TEXT TRAY` | finding, with this many cells and numbers lent |
//! | `A LEAST LEFT RIGHT TRAY` | the tray check, the letters of slip LEFT, the overlap of LEFT and RIGHT |
//! | `T LETTERS ENDS SIDES FILE` | reading a tray file, with this many letters, ends and sides lent |
//! | `M LETTERS ENDS TRAY;TRAY` | two trays merged, with this many letters and ends lent, and 200 sides |
//! | `S` | which bytes are signs |
//!
//! In these all slips are blank, and the blank side is named. With any other sides the tag is a small letter, and the sides come
//! first:
//!
//! | line | what comes first |
//! |---|---|
//! | `c SIDE LIST LEAST ..` | the side named, and the list of sides |
//! | `l SIDE LIST LEAST ..` | the same |
//! | `a LIST LEAST ..` | the list of sides |
//! | `m LIST LIST SIDES LETTERS ..` | the lists of both trays, and how many sides are lent |
//!
//! LEAST is the least overlap. Every lent buffer is filled with a mark before the call, and after it a sum over all its
//! cells is told.
use crate::tray::Tray;
use crate::{Settings, BLANK, FOUND_CELLS, JOIN_CELLS, MAX_SLIPS, ONE_LETTER, PLACE_CELLS};

mod answers;
mod code;
pub mod edges;
mod least;
mod made_up;
mod makers;
mod merging;
mod shortest;
mod sided;
mod sided_trays;
mod sides;
mod specimens;

/// What a lent byte holds before the call.
const MARK_BYTE: usize = 7;

/// What a lent cell of 16 bits holds before the call.
const MARK_CELL: usize = 7_777;

/// What a lent number of 32 bits holds before the call.
const MARK_NUMBER: usize = 77_777_777;

/// How much is lent for composing: cells, letters, numbers of joins and numbers of places.
#[derive(Clone, Copy, Debug)]
pub struct Lending {
    numbers: [usize; 4],
}

/// The numbers of 200 joins.
const JOINS: usize = 200 * JOIN_CELLS;

/// The numbers of 200 places.
const PLACES: usize = 200 * PLACE_CELLS;

/// Room for every tray.
const WHOLE: Lending = lending(32_000, 2_000, JOINS, PLACES);

/// Room for every text of the program `find`.
const WHOLE_LIST: usize = 8_000 * FOUND_CELLS;

const fn lending(work: usize, legend: usize, joins: usize, places: usize) -> Lending {
    Lending {
        numbers: [work, legend, joins, places],
    }
}

impl Lending {
    /// Lists of 200 records, and of 2, are tried as records too.
    fn has_records(&self) -> bool {
        [2, 200]
            .iter()
            .any(|n| self.numbers[2..] == [JOIN_CELLS * n, PLACE_CELLS * n])
    }
}

/// How many letters, ends and sides are lent for a tray that is written.
#[derive(Clone, Copy, Debug, PartialEq, Eq)]
pub struct TrayRoom {
    /// The letters.
    pub letters: usize,
    /// The ends.
    pub ends: usize,
    /// The sides.
    pub sides: usize,
}

/// Just enough is lent for two trays merged.
const MERGE_ROOM: TrayRoom = tray_room(2_000, 200, 200);

/// Just enough is lent for a tray file.
const FILE_ROOM: TrayRoom = tray_room(16_384, 1_700, 1_700);

const fn tray_room(letters: usize, ends: usize, sides: usize) -> TrayRoom {
    TrayRoom { letters, ends, sides }
}

/// One case.
#[derive(Clone, Debug)]
pub enum Case {
    /// What follows, in words.
    Heading(String),
    /// A tray, the settings, and how much is lent.
    Compose(Tray, Settings, Lending),
    /// A tray, the settings, and how many cells and letters are lent for its shortest legend.
    Shortest(Tray, Settings, usize, usize),
    /// A tray, a text, and how many cells and numbers are lent.
    Find(Tray, Vec<u8>, usize, usize),
    /// A tray, the least overlap, and two slip numbers.
    Ask(Tray, usize, usize, usize),
    /// A tray file, and how much is lent.
    Read(Vec<u8>, TrayRoom),
    /// Two trays, and how much is lent.
    Merge(Tray, Tray, TrayRoom),
    /// All bytes.
    Signs,
}

/// Whether all slips are blank.
fn is_blank(tray: &Tray) -> bool {
    tray.sides == vec![BLANK; tray.ends.len()]
}

/// The tag of a case about one side of a tray: the capital where all slips are blank and the blank side is named, else the small
/// letter with the side and the list of sides.
fn side_tag(tag: char, tray: &Tray, side: u8) -> String {
    match is_blank(tray) && side == BLANK {
        true => tag.to_string(),
        false => {
            let (side, list) = (code::bytes(&[side]), code::bytes(&tray.sides));
            format!("{} {side} {list}", tag.to_ascii_lowercase())
        }
    }
}

impl Case {
    fn line(&self) -> String {
        match self {
            Case::Heading(text) => format!("- {text}"),
            Case::Compose(tray, settings, lent) => {
                let ([work, legend, joins, places], least) = (lent.numbers, settings.least);
                let tag = side_tag('C', tray, settings.side);
                format!("{tag} {least} {work} {legend} {joins} {places} {}", code::tray(tray))
            }
            Case::Shortest(tray, settings, work, legend) => {
                let tag = side_tag('L', tray, settings.side);
                format!("{tag} {} {work} {legend} {}", settings.least, code::tray(tray))
            }
            Case::Find(tray, text, work, list) => {
                format!("F {work} {list} {} {}", code::bytes(text), code::tray(tray))
            }
            Case::Ask(tray, least, left, right) => {
                let tag = match is_blank(tray) {
                    true => "A".to_string(),
                    false => format!("a {}", code::bytes(&tray.sides)),
                };
                format!("{tag} {least} {left} {right} {}", code::tray(tray))
            }
            Case::Read(file, room) => {
                let file = code::bytes(file);
                format!("T {} {} {} {file}", room.letters, room.ends, room.sides)
            }
            Case::Merge(first, second, room) => {
                let tag = merge_tag(first, second, room.sides);
                let trays = [first, second].map(code::tray).join(";");
                format!("{tag} {} {} {trays}", room.letters, room.ends)
            }
            Case::Signs => "S".to_string(),
        }
    }

    /// What `trials` must print of it.
    pub fn answer(&self) -> String {
        match self {
            Case::Heading(_) => self.line(),
            Case::Compose(tray, settings, lent) => answers::compose(tray, *settings, lent),
            Case::Shortest(tray, settings, work, legend) => answers::shortest(tray, *settings, *work, *legend),
            Case::Find(tray, text, work, list) => answers::find(tray, text, *work, *list),
            Case::Ask(tray, least, left, right) => answers::ask(tray, *least, *left, *right),
            Case::Read(file, room) => answers::read(file, *room),
            Case::Merge(first, second, room) => answers::merge(first, second, *room),
            Case::Signs => answers::signs(),
        }
    }
}

/// The tag of a case of two trays merged: the capital where all slips are blank and just enough sides are lent, else the small
/// letter with both lists of sides and how many are lent.
fn merge_tag(first: &Tray, second: &Tray, sides: usize) -> String {
    match is_blank(first) && is_blank(second) && sides == MAX_SLIPS {
        true => "M".to_string(),
        false => {
            let lists = [first, second].map(|tray| code::bytes(&tray.sides));
            format!("m {} {} {sides}", lists[0], lists[1])
        }
    }
}

/// All cases: the edge trays, the specimens, and the made-up ones.
pub fn all() -> Vec<Case> {
    let specimens = [
        specimens::all(),
        shortest::specimens(),
        least::specimens(),
        merging::specimens(),
        sides::specimens(),
    ];
    [edge_trays(), specimens.concat(), made_up::all()].concat()
}

fn edge_trays() -> Vec<Case> {
    let case = |row: &str| match edges::asked(row) {
        Some(asked) => vec![
            Case::Heading(asked.name),
            Case::Ask(asked.tray, ONE_LETTER, asked.left, asked.right),
        ],
        None => vec![Case::Heading(row.to_string())],
    };
    let rows = edges::rows().into_iter().flat_map(case);
    rows.chain([Case::Signs]).collect()
}

/// The input of `trials`.
pub fn lines(cases: &[Case]) -> String {
    cases.iter().map(|case| case.line() + "\n").collect()
}

/// What `trials` must print.
pub fn answers(cases: &[Case]) -> String {
    cases.iter().map(|case| case.answer() + "\n").collect()
}
