//! Trays that own their letters: how they are made, and what is asked of one slip or of a pair.
use crate::{sys, Refusal, RefusalKind, Settings, Side, Slips, TrayRef, MAX_SLIP};

/// A tray: slips of letters, numbered from 1, each of a [`Side`].
///
/// Any slips can be put into a tray. [`Tray::check`] judges them, and so does every call that takes a tray. Letters stay as
/// they are given, so a small letter is refused: only [`Tray::read`] turns it into a capital. A slip whose side is not given is
/// blank.
///
/// ```
/// use kotsghane::{Side, Tray};
///
/// let mut tray = Tray::of(&["IMPCAES", "AES"]);
/// tray.push("CAESAVG");
/// tray.extend(["VGPIVS", "SIMP"]);
/// assert_eq!(tray.len(), 5);
/// assert_eq!(tray.slip(3), Ok(&b"CAESAVG"[..]));
///
/// let short: Tray = tray.slips().filter(|slip| slip.len() < 5).collect();
/// assert_eq!(short, Tray::of(&["AES", "SIMP"]));
///
/// tray.push_side(Side::Reverse, "PAX");
/// assert_eq!((tray.side(5), tray.side(6)), (Some(Side::Blank), Some(Side::Reverse)));
/// ```
#[derive(Clone, Debug, Default, PartialEq, Eq, Hash)]
pub struct Tray {
    letters: Vec<u8>,
    ends: Vec<u16>,
    /// The bytes of sides, one for each end, unless `from_sided_parts` was given another number of them.
    sides: Vec<u8>,
}

impl Tray {
    /// The tray of these slips, all of them blank.
    #[must_use]
    pub fn of<S: AsRef<[u8]>>(slips: &[S]) -> Tray {
        slips.iter().collect()
    }

    /// The tray of these slips, each with its side.
    ///
    /// ```
    /// use kotsghane::{Side, Tray};
    ///
    /// let tray = Tray::of_sides([(Side::Obverse, "IMPCAES"), (Side::Reverse, "PAX"), (Side::Obverse, "CAESAVG")]);
    /// let obverse = tray.sided_slips().filter(|&(side, _)| side == Side::Obverse);
    /// assert_eq!(Tray::of_sides(obverse).letters(), b"IMPCAESCAESAVG");
    /// ```
    #[must_use]
    pub fn of_sides<S: AsRef<[u8]>>(slips: impl IntoIterator<Item = (Side, S)>) -> Tray {
        let mut tray = Tray::default();
        slips.into_iter().for_each(|(side, slip)| tray.push_side(side, slip));
        tray
    }

    /// The tray of these letters and ends, which may be of any kind; all slips are blank. Slip 1 runs from the start to
    /// `ends[0]`, slip i from `ends[i - 2]` to `ends[i - 1]`.
    ///
    /// ```
    /// use kotsghane::Tray;
    ///
    /// let tray = Tray::from_parts(b"IMPCAESAES".to_vec(), vec![7, 10]);
    /// assert_eq!(tray, Tray::of(&["IMPCAES", "AES"]));
    /// ```
    #[must_use]
    pub fn from_parts(letters: Vec<u8>, ends: Vec<u16>) -> Tray {
        let sides = vec![Side::Blank.byte(); ends.len()];
        Tray { letters, ends, sides }
    }

    /// The same with a side for each slip. If there are more sides or fewer than ends, the tray is refused
    /// ([`BadSide`](RefusalKind::BadSide)).
    ///
    /// ```
    /// use kotsghane::{Side, Tray};
    ///
    /// let parts = |sides| Tray::from_sided_parts(b"IMPCAESPAX".to_vec(), vec![7, 10], sides);
    /// let tray = parts(&[Side::Obverse, Side::Reverse]);
    /// assert_eq!(tray, Tray::of_sides([(Side::Obverse, "IMPCAES"), (Side::Reverse, "PAX")]));
    /// assert!(parts(&[Side::Obverse]).check().is_err());
    /// ```
    #[must_use]
    pub fn from_sided_parts(letters: Vec<u8>, ends: Vec<u16>, sides: &[Side]) -> Tray {
        let sides = sides.iter().map(|side| side.byte()).collect();
        Tray { letters, ends, sides }
    }

    /// The tray that a call has written: its sides are bytes of sides, one for each end.
    pub(crate) fn written(letters: Vec<u8>, ends: Vec<u16>, sides: Vec<u8>) -> Tray {
        Tray { letters, ends, sides }
    }

    /// Adds a blank slip after the last one, as [`Tray::push_side`] does.
    pub fn push(&mut self, slip: impl AsRef<[u8]>) {
        self.push_side(Side::Blank, slip);
    }

    /// Adds a slip of this side after the last one.
    ///
    /// Ends have 16 bits. So only the first `MAX_SLIP + 1` letters of a slip that is too long are stored, and no end is above
    /// `u16::MAX`, which it takes more than [`MAX_SLIPS`](crate::MAX_SLIPS) slips to reach. A tray made of slips is refused
    /// just as if all its letters were stored.
    pub fn push_side(&mut self, side: Side, slip: impl AsRef<[u8]>) {
        let slip = slip.as_ref();
        let stored = &slip[..slip.len().min(MAX_SLIP + 1)];
        // Counted from the last end, not from the letters: if these differ, they still do, and the tray is still refused.
        let last = self.ends.last().map_or(0, |&end| usize::from(end));
        let end = (last + stored.len()).try_into().unwrap_or(u16::MAX);
        self.letters.extend_from_slice(stored);
        self.ends.push(end);
        self.sides.push(side.byte());
    }

    /// The letters of all slips.
    #[must_use]
    pub fn letters(&self) -> &[u8] {
        &self.letters
    }

    /// Where each slip ends in the letters.
    #[must_use]
    pub fn ends(&self) -> &[u16] {
        &self.ends
    }

    /// For each slip the byte of its [`Side`], as the forms in lent buffers take it.
    #[must_use]
    pub fn sides(&self) -> &[u8] {
        &self.sides
    }

    /// The side of one slip, numbered from 1, or none if there is no such slip. Nothing is judged.
    ///
    /// ```
    /// use kotsghane::{Side, Tray};
    ///
    /// let tray = Tray::of_sides([(Side::Obverse, "IMPCAES"), (Side::Reverse, "PAX")]);
    /// assert_eq!((tray.side(2), tray.side(3)), (Some(Side::Reverse), None));
    /// ```
    #[must_use]
    pub fn side(&self, slip: usize) -> Option<Side> {
        let byte = self.sides.get(slip.checked_sub(1)?)?;
        Side::from_byte(*byte)
    }

    /// The tray as the forms in lent buffers take it.
    #[must_use]
    pub fn lend(&self) -> TrayRef<'_> {
        TrayRef::new(&self.letters, &self.ends, &self.sides)
    }

    /// How many slips there are.
    #[must_use]
    pub fn len(&self) -> usize {
        self.ends.len()
    }

    /// Whether there is no slip.
    #[must_use]
    pub fn is_empty(&self) -> bool {
        self.ends.is_empty()
    }

    /// The letters of each slip, slip 1 first. Nothing is judged: where the ends of a slip do not rise, or lie past the
    /// letters, the slip is empty.
    ///
    /// ```
    /// use kotsghane::Tray;
    ///
    /// let tray = Tray::of(&["AVG", "CAESAVG"]);
    /// for (number, slip) in (1..).zip(tray.slips()) {
    ///     println!("{number} {}", slip.escape_ascii());
    /// }
    /// assert!(tray.slips().rev().eq([&b"CAESAVG"[..], b"AVG"]));
    /// ```
    pub fn slips(&self) -> Slips<'_> {
        Slips::new(self)
    }

    /// The side and the letters of each slip, slip 1 first, as [`Tray::of_sides`] takes them. Nothing is judged: the letters are
    /// those of [`Tray::slips`], and if there are fewer sides than slips, the slips past the last side are left out.
    pub fn sided_slips(&self) -> impl Iterator<Item = (Side, &[u8])> {
        let sides = (1..).map_while(|slip| self.side(slip));
        sides.zip(self.slips())
    }

    /// Judges the tray, as every call does that takes it with its sides. A tray without slips is accepted.
    ///
    /// # Errors
    ///
    /// The first of these that holds: [`TooManySlips`](RefusalKind::TooManySlips), [`EmptySlip`](RefusalKind::EmptySlip),
    /// [`SlipTooLong`](RefusalKind::SlipTooLong), [`TooManyLetters`](RefusalKind::TooManyLetters),
    /// [`LastEndMismatch`](RefusalKind::LastEndMismatch), [`BadSlipByte`](RefusalKind::BadSlipByte),
    /// [`BadSide`](RefusalKind::BadSide).
    ///
    /// ```
    /// use kotsghane::{RefusalKind, Tray};
    ///
    /// assert_eq!(Tray::of(&["AVG", "CAES."]).check(), Ok(()));
    /// assert_eq!(Tray::default().check(), Ok(()));
    ///
    /// let refusal = Tray::of(&["AVG", "C?ES"]).check().unwrap_err();
    /// assert_eq!((refusal.kind(), refusal.detail()), (RefusalKind::BadSlipByte, 2));
    /// ```
    pub fn check(&self) -> Result<(), Refusal> {
        match self.overlap(0, 0, Settings::default()) {
            // That there is no slip 0 is told after all that is judged of a tray. So nothing else is wrong.
            Err(refusal) if refusal.kind() == RefusalKind::NoSuchSlip => Ok(()),
            told => told.map(|_| ()),
        }
    }

    /// The letters of one slip, numbered from 1. The whole tray is judged first, but for its sides: of one that is refused,
    /// [`Tray::slips`] still has the letters. A number above `u32::MAX` is taken as `u32::MAX`, which no tray has.
    ///
    /// # Errors
    ///
    /// What [`Tray::check`] refuses, but for the sides (`TooManySlips`, `EmptySlip`, `SlipTooLong`, `TooManyLetters`,
    /// `LastEndMismatch`, `BadSlipByte`); then [`NoSuchSlip`](RefusalKind::NoSuchSlip).
    ///
    /// ```
    /// use kotsghane::{RefusalKind, Tray};
    ///
    /// let tray = Tray::of(&["AVG", "CAESAVG"]);
    /// assert_eq!(tray.slip(2), Ok(&b"CAESAVG"[..]));
    /// assert_eq!(tray.slip(3).unwrap_err().kind(), RefusalKind::NoSuchSlip);
    /// ```
    pub fn slip(&self, slip: usize) -> Result<&[u8], Refusal> {
        let [start, end] = sys::slip(&self.letters, &self.ends, slip)?;
        Ok(&self.letters[start..end])
    }

    /// How many letters end slip `left` and begin slip `right`, both numbered from 1. Full stops alone do not count, nor do
    /// fewer letters than the least overlap. Slips of different sides share none: the side of the settings is not looked at.
    /// A number above `u32::MAX` is taken as `u32::MAX`, which is refused too.
    ///
    /// # Errors
    ///
    /// In this order: [`LeastOverlapOutOfRange`](RefusalKind::LeastOverlapOutOfRange); what [`Tray::check`] refuses
    /// (`TooManySlips`, `EmptySlip`, `SlipTooLong`, `TooManyLetters`, `LastEndMismatch`, `BadSlipByte`, `BadSide`);
    /// [`NoSuchSlip`](RefusalKind::NoSuchSlip); [`SameSlipTwice`](RefusalKind::SameSlipTwice).
    ///
    /// ```
    /// use kotsghane::{RefusalKind, Settings, Side, Tray};
    ///
    /// let (tray, settings) = (Tray::of(&["IMPCAES", "CAESAVG"]), Settings::default());
    /// assert_eq!((tray.overlap(1, 2, settings), tray.overlap(2, 1, settings)), (Ok(4), Ok(0)));
    /// assert_eq!(tray.overlap(1, 2, Settings::least(5)), Ok(0));
    /// assert_eq!(tray.overlap(2, 2, settings).unwrap_err().kind(), RefusalKind::SameSlipTwice);
    ///
    /// assert_eq!(Tray::of(&["A.", ".B"]).overlap(1, 2, settings), Ok(0));
    /// assert_eq!(Tray::of(&["X.A", ".AB"]).overlap(1, 2, settings), Ok(2));
    ///
    /// let two = |side| Tray::of_sides([(Side::Obverse, "IMPCAES"), (side, "CAESAVG")]);
    /// assert_eq!(two(Side::Obverse).overlap(1, 2, settings), Ok(4));
    /// assert_eq!(two(Side::Reverse).overlap(1, 2, settings), Ok(0));
    /// ```
    pub fn overlap(&self, left: usize, right: usize, settings: Settings) -> Result<usize, Refusal> {
        let [overlap] = sys::pair(self.lend(), left, right, settings.least)?;
        Ok(overlap)
    }
}

impl<S: AsRef<[u8]>> Extend<S> for Tray {
    /// Adds blank slips after the last one, as [`Tray::push`] does.
    fn extend<I: IntoIterator<Item = S>>(&mut self, slips: I) {
        slips.into_iter().for_each(|slip| self.push(slip));
    }
}

impl<S: AsRef<[u8]>> FromIterator<S> for Tray {
    /// The tray of these slips, all of them blank, stored as [`Tray::push`] has it.
    fn from_iter<I: IntoIterator<Item = S>>(slips: I) -> Tray {
        let mut tray = Tray::default();
        tray.extend(slips);
        tray
    }
}

impl<'a> IntoIterator for &'a Tray {
    type Item = &'a [u8];
    type IntoIter = Slips<'a>;

    fn into_iter(self) -> Slips<'a> {
        self.slips()
    }
}
