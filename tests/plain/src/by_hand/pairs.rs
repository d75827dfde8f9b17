//! Pairs of slips with several least overlaps.
use super::COMPOSE;

/// Two slips of a tray with a least overlap.
pub struct Pair {
    /// The least overlap.
    pub least: usize,
    /// The slips.
    pub slips: &'static [&'static str],
    /// The numbers of the two.
    pub numbers: (usize, usize),
    /// Their overlap, or number and detail of the refusal.
    pub told: Result<usize, (usize, usize)>,
}

const fn pair(
    slips: &'static [&'static str],
    numbers: (usize, usize),
    least: usize,
    told: Result<usize, (usize, usize)>,
) -> Pair {
    Pair {
        least,
        slips,
        numbers,
        told,
    }
}

/// Pairs. A whole slip may be the overlap, as two slips need not both be kept.
pub const PAIRS: &[Pair] = &[
    pair(&["AB", "BC"], (1, 2), 1, Ok(1)),
    pair(&["AB", "BC"], (1, 2), 2, Ok(0)),
    pair(&["AB", "BC"], (2, 1), 1, Ok(0)),
    pair(&["ABC", "BCD"], (1, 2), 2, Ok(2)),
    pair(&["ABC", "BCD"], (1, 2), 3, Ok(0)),
    pair(COMPOSE.slips, (1, 3), 4, Ok(4)),
    pair(COMPOSE.slips, (1, 3), 5, Ok(0)),
    pair(COMPOSE.slips, (1, 3), 32, Ok(0)),
    pair(COMPOSE.slips, (1, 2), 3, Ok(3)),
    pair(COMPOSE.slips, (1, 2), 4, Ok(0)),
    pair(&["AVG", "AVG"], (2, 1), 3, Ok(3)),
    pair(&["AVG", "AVG"], (2, 1), 4, Ok(0)),
    pair(&["XABAB", "ABABY"], (1, 2), 2, Ok(4)),
    pair(&["X.A", ".AB"], (1, 2), 2, Ok(2)),
    pair(&["X.A", ".AB"], (1, 2), 3, Ok(0)),
    pair(&["X..", "..Y"], (1, 2), 1, Ok(0)),
    pair(&["X..", "..Y"], (1, 2), 2, Ok(0)),
    pair(&["...", "..."], (1, 2), 3, Ok(0)),
    pair(&["A..B", "..B"], (1, 2), 3, Ok(3)),
    pair(&["AB", "BC"], (0, 2), 2, Err((10, 0))),
    pair(&["AB", "BC"], (1, 3), 2, Err((10, 3))),
    pair(&["AB", "BC"], (2, 2), 2, Err((11, 2))),
    pair(&["AB", "bc"], (1, 2), 2, Err((6, 2))),
    pair(&["AB", "BC"], (1, 2), 0, Err((21, 0))),
    pair(&["AB", "BC"], (1, 2), 33, Err((21, 0))),
    pair(&["AB", "BC"], (1, 2), 4_294_967_295, Err((21, 0))),
    pair(&["AB", "BC"], (0, 3), 0, Err((21, 0))),
    pair(&["AB", "BC"], (2, 2), 33, Err((21, 0))),
    pair(&["AB", "bc"], (1, 2), 0, Err((21, 0))),
    pair(&[], (0, 0), 33, Err((21, 0))),
];
