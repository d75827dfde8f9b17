//! Two trays merged.
use crate::{sys, Refusal, Tray, TrayRef, Written, MAX_LETTERS, MAX_SLIPS};

/// Merges two trays into lent letters, ends and sides. [`Tray::merge`] does the same and makes the buffers itself.
///
/// The outcome has the slips of the first tray, and then those of the second that equal no slip written before, numbered
/// from 1. Equal slips have the same letters and are of one side. Equal slips of the first tray all stay, and a slip that is
/// only a part of another is no equal. It is written to the first part of each buffer; the rest is unchanged. If the two
/// trays, written one after the other, are accepted as one tray, then each side of that tray and of the outcome have the same
/// legend, whatever the settings.
///
/// # Errors
///
/// [`TrayBuffersTooSmall`](crate::RefusalKind::TrayBuffersTooSmall), if fewer than [`MAX_LETTERS`] letters, [`MAX_SLIPS`] ends
/// or [`MAX_SLIPS`] sides are lent. Then what [`Tray::check`] refuses (`TooManySlips`, `EmptySlip`, `SlipTooLong`,
/// `TooManyLetters`, `LastEndMismatch`, `BadSlipByte`, `BadSide`) of the first tray, of the second, and of the outcome, which
/// can only have too many slips or letters. The detail names a slip of its own tray; which tray it is, `check` tells for each.
/// All three buffers then hold what they held.
///
/// ```
/// use kotsghane::{merge_trays, RefusalKind, TrayRef, MAX_LETTERS, MAX_SLIPS};
///
/// let first = TrayRef::new(b"ABCDD", &[3, 4, 5], b"ORR");
/// let second = TrayRef::new(b"DABDE", &[1, 3, 4, 5], b"RO  ");
/// let mut letters = vec![b'-'; MAX_LETTERS];
/// let (mut ends, mut sides) = (vec![0; MAX_SLIPS], vec![b'-'; MAX_SLIPS]);
/// let written = merge_trays(first, second, &mut letters, &mut ends, &mut sides).unwrap();
/// assert_eq!((written.letters, written.slips), (9, 6));
/// assert_eq!((&letters[..10], &sides[..7]), (&b"ABCDDABDE-"[..], &b"ORRO  -"[..]));
/// assert_eq!(ends[..7], [3, 4, 5, 7, 8, 9, 0]);
///
/// let refusal = merge_trays(first, second, &mut letters, &mut ends, &mut sides[1..]).unwrap_err();
/// assert_eq!(refusal.kind(), RefusalKind::TrayBuffersTooSmall);
/// ```
pub fn merge_trays(
    first: TrayRef<'_>,
    second: TrayRef<'_>,
    letters: &mut [u8],
    ends: &mut [u16],
    sides: &mut [u8],
) -> Result<Written, Refusal> {
    sys::merge(first, second, letters, ends, sides).map(Written::of)
}

impl Tray {
    /// This tray and then those slips of the second that equal no slip before them, as [`merge_trays`] has it.
    ///
    /// # Errors
    ///
    /// What [`Tray::check`] refuses (`TooManySlips`, `EmptySlip`, `SlipTooLong`, `TooManyLetters`, `LastEndMismatch`,
    /// `BadSlipByte`, `BadSide`) of this tray, of the second, and of the outcome, which can only have too many slips or letters.
    ///
    /// ```
    /// use kotsghane::{RefusalKind, Side, Tray};
    ///
    /// let (first, second) = (Tray::of(&["IMPCAES", "AES"]), Tray::of(&["CAESAVG", "AES", "SIMP"]));
    /// let merged = first.merge(&second).unwrap();
    /// assert_eq!(merged, Tray::of(&["IMPCAES", "AES", "CAESAVG", "SIMP"]));
    ///
    /// // Slips of different sides are no equals.
    /// let (blank, obverse) = ((Side::Blank, "AVG"), (Side::Obverse, "AVG"));
    /// let merged = Tray::of(&["AVG"]).merge(&Tray::of_sides([obverse, blank])).unwrap();
    /// assert_eq!(merged, Tray::of_sides([blank, obverse]));
    ///
    /// let refusal = first.merge(&Tray::of(&["AVG", "avg"])).unwrap_err();
    /// assert_eq!((refusal.kind(), refusal.detail()), (RefusalKind::BadSlipByte, 2));
    /// ```
    pub fn merge(&self, second: &Tray) -> Result<Tray, Refusal> {
        let (mut letters, mut ends, mut sides) = (vec![0; MAX_LETTERS], vec![0; MAX_SLIPS], vec![0; MAX_SLIPS]);
        let written = merge_trays(self.lend(), second.lend(), &mut letters, &mut ends, &mut sides)?;
        Ok(written.tray(letters, ends, sides))
    }
}
