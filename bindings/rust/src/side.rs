//! The sides of a coin.
use crate::{Refusal, RefusalKind};
use std::fmt::{self, Write};

/// The side of a coin from which a slip was read.
///
/// Slips of different sides neither overlap nor set each other aside. Each side of a tray is composed by itself, as if the
/// tray had no other slips; [`Settings`](crate::Settings) name it. Finding takes no sides: it looks for all slips.
///
/// ```
/// use kotsghane::Side;
///
/// assert_eq!(Side::ALL.map(Side::byte), *b" OR");
/// assert_eq!(Side::from_byte(b'R'), Some(Side::Reverse));
/// assert_eq!((Side::from_byte(b'r'), Side::try_from(b'O')), (None, Ok(Side::Obverse)));
/// assert_eq!(format!("{}", Side::Obverse), "O");
/// ```
#[derive(Clone, Copy, Debug, Default, PartialEq, Eq, PartialOrd, Ord, Hash)]
#[repr(u8)]
pub enum Side {
    /// A blank: no side is known.
    #[default]
    Blank = b' ',
    /// O, the obverse.
    Obverse = b'O',
    /// R, the reverse.
    Reverse = b'R',
}

impl Side {
    /// All sides, in the order in which the program `compose` prints their sheets.
    pub const ALL: [Side; 3] = [Side::Blank, Side::Obverse, Side::Reverse];

    /// The byte that stands for it in column 9 of a tray file, and in a list of sides that is lent.
    #[must_use]
    pub const fn byte(self) -> u8 {
        self as u8
    }

    /// The side for which this byte stands, if there is one.
    #[must_use]
    pub const fn from_byte(byte: u8) -> Option<Side> {
        match byte {
            b' ' => Some(Side::Blank),
            b'O' => Some(Side::Obverse),
            b'R' => Some(Side::Reverse),
            _ => None,
        }
    }
}

impl From<Side> for u8 {
    fn from(side: Side) -> u8 {
        side.byte()
    }
}

impl TryFrom<u8> for Side {
    /// [`BadSide`](RefusalKind::BadSide).
    type Error = Refusal;

    fn try_from(byte: u8) -> Result<Side, Refusal> {
        Side::from_byte(byte).ok_or(Refusal::new(RefusalKind::BadSide, 0))
    }
}

impl fmt::Display for Side {
    /// A blank, O or R.
    fn fmt(&self, f: &mut fmt::Formatter<'_>) -> fmt::Result {
        f.write_char(char::from(self.byte()))
    }
}
