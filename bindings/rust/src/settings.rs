//! What the person composing sets.
use crate::Side;

/// What the person composing sets: the least overlap, and the side. Start from [`Settings::default`] or [`Settings::least`], so
/// that a setting added later changes nothing for you.
///
/// ```
/// use kotsghane::{compose_tray, Settings, Side, Tray};
///
/// let tray = Tray::of_sides([(Side::Blank, "AB"), (Side::Blank, "BC"), (Side::Obverse, "BD")]);
/// let text = |settings| compose_tray(&tray, settings).unwrap().text;
/// assert_eq!(text(Settings::default()), "ABC");
/// assert_eq!(text(Settings::least(2)), "ABBC");
/// assert_eq!(text(Settings::default().with_side(Side::Obverse)), "BD");
/// ```
#[derive(Clone, Copy, Debug, PartialEq, Eq, Hash)]
#[non_exhaustive]
pub struct Settings {
    /// The least overlap, from 1 to [`MAX_LEAST`](crate::MAX_LEAST) letters: a shorter one counts as empty. Any other number is
    /// refused ([`LeastOverlapOutOfRange`](crate::RefusalKind::LeastOverlapOutOfRange)), before any fault of the tray.
    pub least: usize,
    /// The side whose slips are composed, as if the tray had no others. A pair of slips is asked for without it.
    pub side: Side,
}

impl Settings {
    /// This many letters as the least overlap, and all else by default. One letter is enough to join two slips by chance;
    /// more letters join fewer strangers.
    #[must_use]
    pub const fn least(least: usize) -> Settings {
        let side = Side::Blank;
        Settings { least, side }
    }

    /// The same with this side.
    #[must_use]
    pub const fn with_side(self, side: Side) -> Settings {
        Settings { side, ..self }
    }
}

impl Default for Settings {
    /// One letter, so that no overlap is too short, and the blank side. The programs go by one letter.
    fn default() -> Settings {
        Settings::least(1)
    }
}
