//! The limits of the rules, each written once for this crate.

/// How many cells of the work area are asked for ([`WorkAreaTooSmall`](crate::RefusalKind::WorkAreaTooSmall)).
pub const WORK_CELLS: usize = 32_000;

/// The most slips that a tray has ([`TooManySlips`](crate::RefusalKind::TooManySlips)), and how many ends, and how many sides,
/// are lent for two trays merged ([`TrayBuffersTooSmall`](crate::RefusalKind::TrayBuffersTooSmall)).
pub const MAX_SLIPS: usize = 200;

/// The most letters that a slip has ([`SlipTooLong`](crate::RefusalKind::SlipTooLong)).
pub const MAX_SLIP: usize = 32;

/// The most letters that a tray has ([`TooManyLetters`](crate::RefusalKind::TooManyLetters)), and how many are lent for two
/// trays merged ([`TrayBuffersTooSmall`](crate::RefusalKind::TrayBuffersTooSmall)).
pub const MAX_LETTERS: usize = 2_000;

/// The most letters that a text has ([`TextTooLong`](crate::RefusalKind::TextTooLong)).
pub const MAX_TEXT: usize = 2_000;

/// The most bytes that a tray file has ([`FileTooLong`](crate::RefusalKind::FileTooLong)), and how many letters are lent for
/// one ([`TrayBuffersTooSmall`](crate::RefusalKind::TrayBuffersTooSmall)).
pub const MAX_FILE: usize = 16_384;

/// How many ends, and how many sides, are lent for a tray file
/// ([`TrayBuffersTooSmall`](crate::RefusalKind::TrayBuffersTooSmall)).
pub const FILE_ENDS: usize = 1_700;

/// The most kept slips of one side for which the shortest legend is sought
/// ([`TooManyKeptSlips`](crate::RefusalKind::TooManyKeptSlips)).
pub const MAX_SHORTEST: usize = 10;

/// The most letters that a least overlap may ask for
/// ([`LeastOverlapOutOfRange`](crate::RefusalKind::LeastOverlapOutOfRange)).
pub const MAX_LEAST: usize = 32;

/// How many numbers of 16 bits a [`Join`](crate::Join) has.
pub const JOIN_CELLS: usize = 3;

/// How many numbers of 16 bits a [`Place`](crate::Place) has.
pub const PLACE_CELLS: usize = 5;

/// How many numbers of 32 bits a [`Found`](crate::Found) has.
pub const FOUND_CELLS: usize = 2;
