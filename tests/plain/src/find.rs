//! Finding: at every end place every slip is compared, and the state of the definition of moves is a string.
use crate::tray::Tray;
use crate::{refusal, row, unless, Refusal, MAX_TEXT, SIGNS, WORK_CELLS};
use std::cmp::Reverse;

/// An occurrence: the place of its last letter, from 1, and its slip.
#[derive(Clone, Copy, Debug, PartialEq, Eq)]
pub struct Found {
    /// The end place.
    pub end: usize,
    /// The slip.
    pub slip: usize,
}

/// What was found in a text.
#[derive(Clone, Debug, PartialEq, Eq)]
pub struct Finding {
    /// The occurrences by end place, then longer slip first, then lower number.
    pub found: Vec<Found>,
    /// The letters read plus the drops.
    pub moves: usize,
}

/// The occurrences of all slips by end place, then longer slip first, then lower number.
pub fn occurrences(slips: &[&[u8]], text: &[u8]) -> Vec<Found> {
    let mut numbers: Vec<usize> = (1..=slips.len()).collect();
    numbers.sort_by_key(|&i| (Reverse(slips[i - 1].len()), i));
    let mut all = Vec::new();
    for end in 1..=text.len() {
        let here = numbers.iter().filter(|&&i| text[..end].ends_with(slips[i - 1]));
        all.extend(here.map(|&slip| Found { end, slip }));
    }
    all
}

fn begins(slips: &[&[u8]], x: &[u8]) -> bool {
    slips.iter().any(|y| y.starts_with(x))
}

/// The longest ending of `x` that begins a slip.
pub fn longest_ending<'a>(slips: &[&[u8]], x: &'a [u8]) -> &'a [u8] {
    let mut endings = (0..x.len()).map(|start| &x[start..]);
    endings.find(|y| begins(slips, y)).unwrap_or_default()
}

/// The state after a text, and the moves over it: the letters read plus the drops. On a letter, the state drops to its
/// longest proper ending that begins a slip until the letter extends it or it is empty.
pub fn walk<'a>(slips: &[&[u8]], text: &'a [u8]) -> (&'a [u8], usize) {
    let mut state: &[u8] = &[];
    let mut drops = 0;
    for read in 0..text.len() {
        let extended = |state: &[u8]| &text[read - state.len()..=read];
        while !state.is_empty() && !begins(slips, extended(state)) {
            state = longest_ending(slips, &state[1..]);
            drops += 1;
        }
        let with_letter = extended(state);
        state = if begins(slips, with_letter) { with_letter } else { &[] };
    }
    (state, text.len() + drops)
}

/// Rows 12 and 13.
fn text_fault(text: &[u8]) -> Option<Refusal> {
    let outside = || text.iter().position(|byte| !SIGNS.contains(byte));
    row(12, text.len() > MAX_TEXT).or_else(|| outside().map(|at| refusal(13, at + 1)))
}

/// What turns finding back before place C: rows 1 to 6, 12, 13, and 7.
pub fn fault_before_c(tray: &Tray, text: &[u8], work: usize) -> Option<Refusal> {
    tray.fault().or(text_fault(text)).or(row(7, work < WORK_CELLS))
}

/// Finds every occurrence, with this many cells and a list of this many records, or refuses.
pub fn find_slips(tray: &Tray, text: &[u8], work: usize, records: usize) -> Result<Finding, Refusal> {
    unless(fault_before_c(tray, text, work))?;
    let slips = tray.slips();
    let found = occurrences(&slips, text);
    unless((found.len() > records).then_some(refusal(14, found.len())))?;
    let (_, moves) = walk(&slips, text);
    Ok(Finding { found, moves })
}
