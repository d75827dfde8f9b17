//! Finding: every occurrence of every slip of a tray in a text.
use crate::{sys, Found, Refusal, RefusalKind, Tray, MAX_TEXT, WORK_CELLS};

/// The counts of what [`find`] has written.
#[derive(Clone, Copy, Debug, Default, PartialEq, Eq, Hash)]
#[non_exhaustive]
pub struct Search {
    /// The moves over the text: its letters and the drops, at most twice the letters.
    pub moves: usize,
    /// The occurrences; this many are written.
    pub count: usize,
}

/// Finds every occurrence of every slip of a tray in a text, in lent buffers. [`find_slips`] does the same and makes the
/// buffers itself.
///
/// Slip 1 runs in `letters` from the start to `ends[0]`, slip i from `ends[i - 2]` to `ends[i - 1]`. Finding takes no sides.
/// Occurrences are written to the first part of `found`, by end place, then longer slips first, then lower numbers; the rest
/// is unchanged. Lend [`WORK_CELLS`] cells.
///
/// # Errors
///
/// In this order: what [`Tray::check`] refuses, but for the sides (`TooManySlips`, `EmptySlip`, `SlipTooLong`,
/// `TooManyLetters`, `LastEndMismatch`, `BadSlipByte`); [`TextTooLong`](RefusalKind::TextTooLong);
/// [`BadTextByte`](RefusalKind::BadTextByte);
/// [`WorkAreaTooSmall`](RefusalKind::WorkAreaTooSmall); [`FoundListTooSmall`](RefusalKind::FoundListTooSmall), with the
/// occurrences needed. The list then holds what it held. The work area does too, except after the last one.
///
/// ```
/// use kotsghane::{find, Found, WORK_CELLS};
///
/// let mut work = vec![0; WORK_CELLS];
/// let mut found = [Found::default(); 5];
/// let search = find(b"ANNAAN", &[4, 6], b"ANNANNA", &mut work, &mut found).unwrap();
/// let occurrences = found[..search.count].iter().map(|found| (found.end(), found.slip()));
/// assert!(occurrences.eq([(2, 2), (4, 1), (5, 2), (7, 1)]));
/// ```
pub fn find(
    letters: &[u8],
    ends: &[u16],
    text: &[u8],
    work: &mut [u16],
    found: &mut [Found],
) -> Result<Search, Refusal> {
    let [moves, count] = sys::find(letters, ends, text, work, found)?;
    Ok(Search { moves, count })
}

/// What was found in a text.
#[derive(Clone, Debug, PartialEq, Eq, Hash)]
#[non_exhaustive]
pub struct Finding {
    /// The occurrences by end place, then longer slips first, then lower numbers.
    pub found: Vec<Found>,
    /// The moves over the text: its letters and the drops.
    pub moves: usize,
}

/// Finds every occurrence of every slip of a tray in a text, whatever its side.
///
/// # Errors
///
/// In this order: what [`Tray::check`] refuses, but for the sides (`TooManySlips`, `EmptySlip`, `SlipTooLong`,
/// `TooManyLetters`, `LastEndMismatch`, `BadSlipByte`); [`TextTooLong`](RefusalKind::TextTooLong);
/// [`BadTextByte`](RefusalKind::BadTextByte).
///
/// ```
/// use kotsghane::{find_slips, Found, RefusalKind, Tray};
///
/// let tray = Tray::of(&["IMPCAES", "AES", "CAESAVG", "VGPIVS", "SIMP"]);
/// let finding = find_slips(&tray, "IMPCAESAVG").unwrap();
/// assert_eq!(finding.found, [Found::new(7, 1), Found::new(7, 2), Found::new(10, 3)]);
/// assert_eq!(finding.moves, 11);
///
/// let refusal = find_slips(&tray, "IMP CAESAVG").unwrap_err();
/// assert_eq!((refusal.kind(), refusal.detail()), (RefusalKind::BadTextByte, 4));
/// ```
pub fn find_slips(tray: &Tray, text: impl AsRef<[u8]>) -> Result<Finding, Refusal> {
    let text = text.as_ref();
    let mut work = vec![0; WORK_CELLS];
    let mut found = vec![Found::default(); text.len().min(MAX_TEXT)];
    let mut search = |found: &mut [Found]| find(tray.letters(), tray.ends(), text, &mut work, found);
    let told = match search(&mut found) {
        Err(refusal) if refusal.kind() == RefusalKind::FoundListTooSmall => {
            found.resize(refusal.detail(), Found::default());
            search(&mut found)
        }
        told => told,
    };
    let Search { moves, count } = told?;
    found.truncate(count);
    Ok(Finding { found, moves })
}
