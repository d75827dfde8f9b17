//! Coin legends composed from worn readings: a safe crate over the proved library.
//!
//! Readings of one die, each a *slip* of letters and together a [`Tray`], are joined by their overlaps into one legend. A slip
//! whose letters stand in a longer slip, or equal those of a slip with a lower number, is *set aside*; the others are *kept*.
//! Slips of the obverse and of the reverse may lie in one tray: a slip has a [`Side`], and each side is composed by itself.
//! [`rules`] has all rules in words, with an example each. The crate links an archive for x86-64 that is built from the proved
//! sources; README.md says how.
//!
//! # Composing a tray file
//!
//! ```
//! use kotsghane::{compose_tray, Refusal, RefusalKind, Settings, Side, Tray};
//!
//! /// The legend of one side of a tray file, its joins, and the slips that are set aside.
//! fn sheet(file: &[u8], side: Side) -> Result<String, Refusal> {
//!     let tray = Tray::read(file)?;
//!     let legend = compose_tray(&tray, Settings::default().with_side(side))?;
//!     let mut sheet = format!("{legend}\n");
//!     for join in &legend.joins {
//!         sheet += &format!("{} and {} share {}\n", join.left(), join.right(), join.overlap());
//!     }
//!     for place in legend.places.iter().filter(|place| !place.is_kept()) {
//!         sheet += &format!("{} is set aside, and stands at place {}\n", place.slip(), place.place());
//!     }
//!     Ok(sheet)
//! }
//!
//! let file = b"   1   7 IMPCAES\n   2   3 AES\n   3   7 CAESAVG\n";
//! let expected = "IMPCAESAVG\n1 and 3 share 4\n2 is set aside, and stands at place 5\n";
//! assert_eq!(sheet(file, Side::Blank).unwrap(), expected);
//!
//! // Column 9 has the side.
//! let file = b"   1   7OIMPCAES\n   2   3RPAX\n   3   7OCAESAVG\n";
//! assert_eq!(sheet(file, Side::Obverse).unwrap(), "IMPCAESAVG\n1 and 3 share 4\n");
//! assert_eq!(sheet(file, Side::Reverse).unwrap(), "PAX\n");
//!
//! let refusal = sheet(b"   1   7 IMPCAES\n   2   4 AES\n", Side::Blank).unwrap_err();
//! assert_eq!((refusal.kind(), refusal.detail()), (RefusalKind::WrongLength, 2));
//! assert_eq!(refusal.to_string(), "line 2 of the tray file states another length than it has");
//! ```
//!
//! # The calls
//!
//! | call | in lent buffers | what it does |
//! |---|---|---|
//! | [`compose_tray`] | [`compose`] | composes one side of a tray into a legend |
//! | [`shortest_legend`] | [`shortest`](fn@shortest) | seeks the shortest legend of one side, if few slips are kept |
//! | [`find_slips`] | [`find`] | finds every occurrence of every slip, of any side, in a text |
//! | [`Tray::read`] | [`read_tray`] | reads a tray file |
//! | [`Tray::merge`] | [`merge_trays`] | merges two trays |
//! | [`Tray::to_file`] | | writes a tray file |
//! | [`Tray::check`] | | judges a tray |
//! | [`Tray::slip`] | | gives the letters of a slip |
//! | [`Tray::side`] | | gives the side of a slip |
//! | [`Tray::overlap`] | | counts the letters that a pair shares |
//!
//! # Slips and letters
//!
//! A tray has at most [`MAX_SLIPS`] slips of 1 to [`MAX_SLIP`] letters, and at most [`MAX_LETTERS`] letters together. Slips
//! are numbered from 1, by `usize`. A number above `u32::MAX` is taken as `u32::MAX`, and refused as that.
//!
//! Letters are 27 signs: the capitals A to Z and the full stop, which is a letter like the rest, except that full stops alone
//! are no overlap. A tray file may also have small letters, and U and J, which are not on the die: [`Tray::read`] files them as
//! the die has them. No other call does.
//!
//! # Sides
//!
//! Slips of different sides neither overlap nor set each other aside. Each side of a tray composes as if the tray had no other
//! slips, except that the slips keep their numbers. [`Tray::of`] and [`Tray::push`] make blank slips; [`Tray::of_sides`] and
//! [`Tray::push_side`] take the side with the letters. [`Settings`] name the side that is composed, by default the blank one, so
//! that callers whose slips have no sides can ignore them. [`find_slips`] and [`Tray::slip`] look at all slips.
//!
//! # Refusals
//!
//! Every call takes anything: any bytes, any ends, any sides, any lengths. What cannot be done is refused by a [`Refusal`],
//! which has a [kind](RefusalKind) to match on, a detail (such as the slip at fault), and a sentence that says both. It is an
//! [`Error`](std::error::Error), so `?` hands it on. [`refusals`] has the table of all refusals, with what to do about each. No
//! call panics, unless the crate is linked with an archive of another version than its own.
//!
//! # Lent buffers
//!
//! The forms in lent buffers allocate nothing. They take a tray as a [`TrayRef`], which may have any bytes as sides; [`find`]
//! takes its letters and ends alone. What a buffer holds before the call does not matter. On success the outcome is its first
//! part, and the rest is unchanged. A refusal leaves every buffer as it was, except that the work area may differ after
//! `LegendBufferTooSmall`, `JoinOrPlaceListTooSmall`, `FoundListTooSmall` and `TooManyKeptSlips`.
#![deny(missing_docs, unsafe_code)]

mod composing;
mod file;
mod finding;
mod limits;
mod merging;
mod records;
mod refusal;
mod settings;
mod shortest;
mod side;
mod slips;
#[allow(unsafe_code)]
mod sys;
mod tray;
mod tray_ref;
mod written;

/// [`RefusalKind`] has a name for each number.
#[doc = include_str!("../../../docs/REFUSALS.md")]
pub mod refusals {}

// Its layouts of files and sheets are no Rust, so they are not tested as such.
#[cfg_attr(not(doctest), doc = include_str!("../../../docs/RULES.md"))]
#[cfg_attr(doctest, doc = "The rules.")]
pub mod rules {}

/// The example in the README is tested too.
#[cfg(doctest)]
#[doc = include_str!("../README.md")]
mod readme {}

pub use composing::{compose, compose_tray, Composed, Legend};
pub use file::read_tray;
pub use finding::{find, find_slips, Finding, Search};
pub use limits::{
    FILE_ENDS, FOUND_CELLS, JOIN_CELLS, MAX_FILE, MAX_LEAST, MAX_LETTERS, MAX_SHORTEST, MAX_SLIP, MAX_SLIPS, MAX_TEXT,
    PLACE_CELLS, WORK_CELLS,
};
pub use merging::merge_trays;
pub use records::{Found, Join, Place};
pub use refusal::{Refusal, RefusalKind};
pub use settings::Settings;
pub use shortest::{shortest, shortest_legend, Shortest, ShortestLegend};
pub use side::Side;
pub use slips::Slips;
pub use tray::Tray;
pub use tray_ref::TrayRef;
pub use written::Written;
