//! Two trays merged: every slip of the second is compared with all slips written before it.
use crate::tray::{Slip, Tray};
use crate::{row, unless, Refusal, MAX_LETTERS, MAX_SLIPS};

/// The slips of the first tray, all of them, and then those of the second that equal no slip written before, in letters and in
/// side.
pub fn merged_slips<'a>(first: &[Slip<'a>], second: &[Slip<'a>]) -> Vec<Slip<'a>> {
    let mut written = first.to_vec();
    for slip in second {
        if !written.contains(slip) {
            written.push(*slip);
        }
    }
    written
}

/// Merges two trays of any kind where this many letters, ends and sides are lent, or refuses. Row 15 comes first, then rows 1 to
/// 6 and 22 of the first tray, of the second, and of the outcome.
pub fn merge_trays(first: &Tray, second: &Tray, letters: usize, ends: usize, sides: usize) -> Result<Tray, Refusal> {
    unless(row(15, letters < MAX_LETTERS || ends < MAX_SLIPS || sides < MAX_SLIPS))?;
    unless(first.sided_fault())?;
    unless(second.sided_fault())?;
    let slips = merged_slips(&first.sided_slips(), &second.sided_slips());
    let outcome: Tray = slips.into_iter().collect();
    unless(outcome.sided_fault())?;
    Ok(outcome)
}

/// The long tray: two accepted trays simply written one after the other.
pub fn long_tray(first: &Tray, second: &Tray) -> Tray {
    first.sided_slips().into_iter().chain(second.sided_slips()).collect()
}
