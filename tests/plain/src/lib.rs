//! What is right, said once more and in another way than the library says it: a plain program that compares all pairs of
//! slips, written only from the sentences of the rules. It shares no table, no loop, no order of work and no number with the
//! library: the limits are its own.
//!
//! - [`tray`], [`fold`], [`mod@file`], [`compose`], [`shortest`], [`find`], [`merge`], [`sheet`]: the plain program.
//! - [`by_hand`]: what was worked out by hand.
//! - [`made`]: made-up trays, texts and files, whole and damaged.
//! - [`cases`]: the cases of the program `trials`, and what it must answer to each.
#![deny(missing_docs, unsafe_code)]

pub mod by_hand;
pub mod cases;
pub mod compose;
pub mod file;
pub mod find;
pub mod fold;
mod limits;
pub mod made;
pub mod merge;
pub mod sheet;
pub mod shortest;
pub mod tray;

pub use limits::{
    FILE_ENDS, FOUND_CELLS, JOIN_CELLS, MAX_FILE, MAX_LEAST, MAX_LETTERS, MAX_SHORTEST, MAX_SLIP, MAX_SLIPS, MAX_TEXT,
    PLACE_CELLS, WORK_CELLS,
};

/// The least overlap that the programs pass: no overlap is too short.
pub const ONE_LETTER: usize = 1;

/// No side.
pub const BLANK: u8 = b' ';

/// The obverse.
pub const OBVERSE: u8 = b'O';

/// The reverse.
pub const REVERSE: u8 = b'R';

/// The three sides, in the order in which their sheets are printed.
pub const SIDES: [u8; 3] = [BLANK, OBVERSE, REVERSE];

/// What the person composing sets. Any number and any byte can be set: what may not be is refused.
#[derive(Clone, Copy, Debug, PartialEq, Eq)]
pub struct Settings {
    /// The least overlap: a shorter one counts as empty.
    pub least: usize,
    /// The side that is composed.
    pub side: u8,
}

impl Settings {
    /// This least overlap, and the blank side.
    pub const fn blank(least: usize) -> Settings {
        Settings { least, side: BLANK }
    }
}

/// The settings of the programs, but for the side.
pub const USUAL: Settings = Settings::blank(ONE_LETTER);

/// The occurrences that the list of the program `find` takes.
pub const MAX_FOUND: usize = 8_000;

/// The 27 signs in byte order. Files take small letters too, which are folded: [`fold`].
pub const SIGNS: &[u8] = b".ABCDEFGHIJKLMNOPQRSTUVWXYZ";

/// What turns a call back: a row's number and one detail, 0 where none is named.
#[derive(Clone, Copy, Debug, PartialEq, Eq)]
pub struct Refusal {
    /// The number of the row.
    pub number: usize,
    /// Its detail.
    pub detail: usize,
}

/// The refusal with this number and detail.
pub fn refusal(number: usize, detail: usize) -> Refusal {
    Refusal { number, detail }
}

/// The refusal, or go on.
pub(crate) fn unless(fault: Option<Refusal>) -> Result<(), Refusal> {
    fault.map_or(Ok(()), Err)
}

/// A row without a detail: it turns back where `bad` holds.
pub(crate) fn row(number: usize, bad: bool) -> Option<Refusal> {
    bad.then_some(refusal(number, 0))
}
