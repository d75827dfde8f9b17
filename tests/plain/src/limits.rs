//! The limits of the rules, with numbers of the plain program's own, taken from docs/RULES.md. A test of the Rust crate
//! compares them with the crate's.

/// How many cells of 16 bits the work area has, at least (row 7).
pub const WORK_CELLS: usize = 32_000;

/// The most slips that a tray has (row 1), and how many ends, and how many sides, are lent for two trays merged (row 15).
pub const MAX_SLIPS: usize = 200;

/// The most letters that a slip has (row 3).
pub const MAX_SLIP: usize = 32;

/// The most letters that a tray has (row 4), and how many are lent for two trays merged (row 15).
pub const MAX_LETTERS: usize = 2_000;

/// The most letters that a text has (row 12).
pub const MAX_TEXT: usize = 2_000;

/// The most bytes that a tray file has (row 16), and how many letters are lent for one (row 15).
pub const MAX_FILE: usize = 16_384;

/// How many ends, and how many sides, are lent for a tray file (row 15).
pub const FILE_ENDS: usize = 1_700;

/// The most kept slips for which the shortest legend is sought (row 20).
pub const MAX_SHORTEST: usize = 10;

/// The most letters that a least overlap may ask for (row 21).
pub const MAX_LEAST: usize = 32;

/// How many numbers a join has: left slip, right slip, overlap.
pub const JOIN_CELLS: usize = 3;

/// How many numbers a record of places has: the slip, its place, whether it is kept, the letters compared, its side.
pub const PLACE_CELLS: usize = 5;

/// How many numbers an occurrence has: end place, slip.
pub const FOUND_CELLS: usize = 2;
