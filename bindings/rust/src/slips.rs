//! The slips of a tray, one after another.
use crate::Tray;
use std::iter::FusedIterator;
use std::ops::Range;

/// The letters of each slip of a tray, from [`Tray::slips`].
#[derive(Clone, Debug)]
#[must_use = "an iterator does nothing unless it is used"]
pub struct Slips<'a> {
    tray: &'a Tray,
    /// Which slips are left, counted from 0.
    left: Range<usize>,
}

impl<'a> Slips<'a> {
    pub(crate) fn new(tray: &'a Tray) -> Slips<'a> {
        let left = 0..tray.len();
        Slips { tray, left }
    }

    /// The stretch of letters of a slip, counted from 0; empty if there is none.
    fn stretch(&self, i: usize) -> &'a [u8] {
        let (letters, ends) = (self.tray.letters(), self.tray.ends());
        let start = if i == 0 { 0 } else { usize::from(ends[i - 1]) };
        letters.get(start..usize::from(ends[i])).unwrap_or_default()
    }
}

impl<'a> Iterator for Slips<'a> {
    type Item = &'a [u8];

    fn next(&mut self) -> Option<&'a [u8]> {
        self.left.next().map(|i| self.stretch(i))
    }

    fn size_hint(&self) -> (usize, Option<usize>) {
        self.left.size_hint()
    }
}

impl<'a> DoubleEndedIterator for Slips<'a> {
    fn next_back(&mut self) -> Option<&'a [u8]> {
        self.left.next_back().map(|i| self.stretch(i))
    }
}

impl ExactSizeIterator for Slips<'_> {}

impl FusedIterator for Slips<'_> {}
