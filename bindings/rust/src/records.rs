//! The records that the archive writes into lent lists.
use crate::{Side, FOUND_CELLS, JOIN_CELLS, PLACE_CELLS};

/// Two slips joined: the right one is laid after the left one, over the letters that they share.
///
/// ```
/// use kotsghane::Join;
///
/// let join = Join::new(1, 3, 4);
/// assert_eq!((join.left(), join.right(), join.overlap()), (1, 3, 4));
/// ```
#[repr(C)]
#[derive(Clone, Copy, Debug, Default, PartialEq, Eq, Hash)]
pub struct Join {
    left: u16,
    right: u16,
    overlap: u16,
}

const _: () = assert!(size_of::<Join>() == JOIN_CELLS * size_of::<u16>());

impl Join {
    /// The join of these slips, which share `overlap` letters. A number above `u16::MAX` becomes `u16::MAX`; no legend has
    /// one so large.
    #[must_use]
    pub const fn new(left: usize, right: usize, overlap: usize) -> Join {
        Join {
            left: cell(left),
            right: cell(right),
            overlap: cell(overlap),
        }
    }

    /// The left slip, from 1.
    #[must_use]
    pub const fn left(&self) -> usize {
        self.left as usize
    }

    /// The right slip, from 1.
    #[must_use]
    pub const fn right(&self) -> usize {
        self.right as usize
    }

    /// How many letters they share.
    #[must_use]
    pub const fn overlap(&self) -> usize {
        self.overlap as usize
    }
}

/// Where a slip stands in the legend of its side, and whether it is kept. A slip that is not kept is set aside: its letters
/// stand in a longer slip of its side, or equal those of a slip of its side with a lower number.
///
/// ```
/// use kotsghane::{Place, Side};
///
/// let place = Place::new(2, 6, false, 8, Side::Obverse);
/// assert_eq!((place.slip(), place.place(), place.side()), (2, 6, Side::Obverse));
/// assert_eq!((place.is_kept(), place.compared()), (false, 8));
/// ```
#[repr(C)]
#[derive(Clone, Copy, Debug, PartialEq, Eq, Hash)]
pub struct Place {
    slip: u16,
    place: u16,
    kept: u16,
    compared: u16,
    side: u16,
}

const _: () = assert!(size_of::<Place>() == PLACE_CELLS * size_of::<u16>());

impl Place {
    /// The place of a slip that is kept or set aside, the letters compared to find it, and the side of the slip. A number above
    /// `u16::MAX` becomes `u16::MAX`; no legend has one so large.
    #[must_use]
    pub const fn new(slip: usize, place: usize, kept: bool, compared: usize, side: Side) -> Place {
        Place {
            slip: cell(slip),
            place: cell(place),
            kept: kept as u16,
            compared: cell(compared),
            side: side.byte() as u16,
        }
    }

    /// The slip, from 1, by its number in the tray.
    #[must_use]
    pub const fn slip(&self) -> usize {
        self.slip as usize
    }

    /// The place of its first letter in the legend, from 1: where a kept slip was laid, or the first place at which the letters
    /// of one set aside stand.
    #[must_use]
    pub const fn place(&self) -> usize {
        self.place as usize
    }

    /// Whether the slip is kept; if not, it is set aside.
    #[must_use]
    pub const fn is_kept(&self) -> bool {
        self.kept != 0
    }

    /// The letters compared to find the place, 0 if the slip is kept: at each place tried, from the last letter backwards,
    /// those that agree and, if any, the one that differs.
    #[must_use]
    pub const fn compared(&self) -> usize {
        self.compared as usize
    }

    /// The side of the slip: the one that was composed.
    #[must_use]
    pub const fn side(&self) -> Side {
        // The archive writes the byte of a side, and so does `new`.
        match Side::from_byte(self.side as u8) {
            Some(side) => side,
            None => Side::Blank,
        }
    }
}

impl Default for Place {
    /// For a list to be filled with: no slip, and the blank side.
    fn default() -> Place {
        Place::new(0, 0, false, 0, Side::Blank)
    }
}

/// An occurrence of a slip in a text.
///
/// ```
/// use kotsghane::Found;
///
/// let found = Found::new(7, 2);
/// assert_eq!((found.end(), found.slip()), (7, 2));
/// ```
#[repr(C)]
#[derive(Clone, Copy, Debug, Default, PartialEq, Eq, Hash)]
pub struct Found {
    end: u32,
    slip: u32,
}

const _: () = assert!(size_of::<Found>() == FOUND_CELLS * size_of::<u32>());

impl Found {
    /// The occurrence of this slip that ends at this place. A number above `u32::MAX` becomes `u32::MAX`; no text has one so
    /// large.
    #[must_use]
    pub const fn new(end: usize, slip: usize) -> Found {
        Found {
            end: number(end),
            slip: number(slip),
        }
    }

    /// The place of its last letter in the text, from 1.
    #[must_use]
    pub const fn end(&self) -> usize {
        self.end as usize
    }

    /// The slip, from 1.
    #[must_use]
    pub const fn slip(&self) -> usize {
        self.slip as usize
    }
}

/// A number of 16 bits: the same, or the highest.
const fn cell(n: usize) -> u16 {
    if n < u16::MAX as usize {
        n as u16
    } else {
        u16::MAX
    }
}

/// A number of 32 bits, as the archive takes it: the same, or the highest.
pub(crate) const fn number(n: usize) -> u32 {
    if n < u32::MAX as usize {
        n as u32
    } else {
        u32::MAX
    }
}
