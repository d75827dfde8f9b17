//! A tray as it is lent to a call.

/// A tray as the forms in lent buffers take it: letters, ends and sides, each of any kind and any length. What does not go
/// together is refused. [`Tray::lend`](crate::Tray::lend) gives that of a [`Tray`](crate::Tray).
///
/// ```
/// use kotsghane::{Side, Tray, TrayRef};
///
/// let tray = Tray::of_sides([(Side::Obverse, "IMPCAES"), (Side::Blank, "AES")]);
/// assert_eq!(tray.lend(), TrayRef::new(b"IMPCAESAES", &[7, 10], b"O "));
/// ```
#[derive(Clone, Copy, Debug, Default, PartialEq, Eq, Hash)]
pub struct TrayRef<'a> {
    /// The letters of all slips, one after another.
    pub letters: &'a [u8],
    /// For each slip where it ends: slip 1 runs from the start to `ends[0]`, slip i from `ends[i - 2]` to `ends[i - 1]`.
    pub ends: &'a [u16],
    /// For each slip the byte of its [`Side`](crate::Side): that of slip i is `sides[i - 1]`.
    pub sides: &'a [u8],
}

impl<'a> TrayRef<'a> {
    /// The tray of these letters, ends and sides.
    #[must_use]
    pub const fn new(letters: &'a [u8], ends: &'a [u16], sides: &'a [u8]) -> TrayRef<'a> {
        TrayRef { letters, ends, sides }
    }
}
