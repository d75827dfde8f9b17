//! What a call tells that writes a tray.
use crate::Tray;

/// The counts of a tray that [`read_tray`](crate::read_tray) or [`merge_trays`](crate::merge_trays) has written into lent
/// letters, ends and sides.
#[derive(Clone, Copy, Debug, Default, PartialEq, Eq, Hash)]
#[non_exhaustive]
pub struct Written {
    /// The letters written.
    pub letters: usize,
    /// The slips; this many ends are written, and this many sides.
    pub slips: usize,
}

impl Written {
    pub(crate) fn of([letters, slips]: [usize; 2]) -> Written {
        Written { letters, slips }
    }

    /// The tray that was written into these letters, ends and sides.
    pub(crate) fn tray(self, mut letters: Vec<u8>, mut ends: Vec<u16>, mut sides: Vec<u8>) -> Tray {
        letters.truncate(self.letters);
        ends.truncate(self.slips);
        sides.truncate(self.slips);
        Tray::written(letters, ends, sides)
    }
}
