//! Composing: the slips of one side of a tray joined into one legend.
use crate::{sys, Join, Place, Refusal, Settings, Tray, TrayRef, MAX_LETTERS, MAX_SLIPS, WORK_CELLS};
use std::fmt;

/// The counts of what [`compose`] has written.
#[derive(Clone, Copy, Debug, Default, PartialEq, Eq, Hash)]
#[non_exhaustive]
pub struct Composed {
    /// The slips of the side; this many places are written.
    pub slips: usize,
    /// The kept slips of the side.
    pub kept: usize,
    /// The letters of the kept slips: those of the legend and those saved.
    pub kept_letters: usize,
    /// The letters saved by the joins.
    pub saved: usize,
    /// The letters of the legend; this many are written.
    pub legend: usize,
    /// The joins; this many are written.
    pub joins: usize,
}

/// Composes the side of a tray that the settings name, in lent buffers. [`compose_tray`] does the same and makes the buffers
/// itself.
///
/// The legend, the joins in the order made, and a place for each slip of the side, in the order of their numbers, are written
/// to the first part of their buffers; the rest is unchanged. Joins and places have the numbers that the slips have in the
/// tray. Lend [`WORK_CELLS`] cells. [`MAX_LETTERS`] letters, [`MAX_SLIPS`] joins and [`MAX_SLIPS`] places suffice for every
/// tray. A side without slips has an empty legend.
///
/// # Errors
///
/// In this order: [`LeastOverlapOutOfRange`](crate::RefusalKind::LeastOverlapOutOfRange); what [`Tray::check`] refuses
/// (`TooManySlips`, `EmptySlip`, `SlipTooLong`, `TooManyLetters`, `LastEndMismatch`, `BadSlipByte`, `BadSide`);
/// [`WorkAreaTooSmall`](crate::RefusalKind::WorkAreaTooSmall);
/// [`LegendBufferTooSmall`](crate::RefusalKind::LegendBufferTooSmall), with the letters needed;
/// [`JoinOrPlaceListTooSmall`](crate::RefusalKind::JoinOrPlaceListTooSmall), with the joins needed. The legend, the joins and
/// the places then hold what they held. The work area does too, except after the last two.
///
/// ```
/// use kotsghane::{compose, Join, Place, RefusalKind, Settings, Side, TrayRef, WORK_CELLS};
///
/// let mut work = vec![0; WORK_CELLS];
/// let mut legend = [b'-'; 5];
/// let mut joins = [Join::default(); 2];
/// let mut places = [Place::default(); 2];
/// let mut call = |sides, settings| {
///     let tray = TrayRef::new(b"ABCDBA", &[2, 4, 6], sides);
///     compose(tray, settings, &mut work, &mut legend, &mut joins, &mut places)
/// };
///
/// let refusal = call(b"ORO", Settings::least(0)).unwrap_err();
/// assert_eq!(refusal.kind(), RefusalKind::LeastOverlapOutOfRange);
/// let refusal = call(b"ORo", Settings::default()).unwrap_err();
/// assert_eq!(refusal.kind(), RefusalKind::BadSide);
///
/// let composed = call(b"ORO", Settings::default().with_side(Side::Obverse)).unwrap();
/// assert_eq!((composed.slips, composed.legend, composed.joins), (2, 3, 1));
/// assert_eq!(&legend, b"BAB--");
/// assert_eq!(joins[0], Join::new(3, 1, 1));
/// assert_eq!(places.map(|place| (place.slip(), place.place())), [(1, 2), (3, 1)]);
/// ```
pub fn compose(
    tray: TrayRef<'_>,
    settings: Settings,
    work: &mut [u16],
    legend: &mut [u8],
    joins: &mut [Join],
    places: &mut [Place],
) -> Result<Composed, Refusal> {
    let (least, side) = (settings.least, settings.side.byte());
    let counts = sys::compose(tray, (least, side), work, legend, joins, places)?;
    let [slips, kept, kept_letters, saved, legend, joins] = counts;
    Ok(Composed {
        slips,
        kept,
        kept_letters,
        saved,
        legend,
        joins,
    })
}

/// The legend of one side of a tray. Its [`Display`](fmt::Display) form is its text.
#[derive(Clone, Debug, PartialEq, Eq, Hash)]
#[non_exhaustive]
pub struct Legend {
    /// Its letters.
    pub text: String,
    /// The joins in the order made.
    pub joins: Vec<Join>,
    /// Where each slip of the side stands, in the order of their numbers.
    pub places: Vec<Place>,
    /// How many slips of the side are kept.
    pub kept: usize,
    /// The letters of the kept slips: those of the legend and those saved.
    pub kept_letters: usize,
    /// The letters saved by the joins.
    pub saved: usize,
}

impl fmt::Display for Legend {
    fn fmt(&self, f: &mut fmt::Formatter<'_>) -> fmt::Result {
        f.write_str(&self.text)
    }
}

/// Composes the side of a tray that the settings name into a legend. Joins and places have the numbers that the slips have in
/// the tray.
///
/// # Errors
///
/// In this order: [`LeastOverlapOutOfRange`](crate::RefusalKind::LeastOverlapOutOfRange); what [`Tray::check`] refuses
/// (`TooManySlips`, `EmptySlip`, `SlipTooLong`, `TooManyLetters`, `LastEndMismatch`, `BadSlipByte`, `BadSide`).
///
/// ```
/// use kotsghane::{compose_tray, Join, RefusalKind, Settings, Side, Tray};
///
/// let tray = Tray::of(&["AKI", "ELE", "KIKI", "KIRA", "LEA"]);
/// let legend = compose_tray(&tray, Settings::default()).unwrap();
/// assert_eq!((legend.text.as_str(), legend.saved), ("ELEAKIKIRA", 7));
///
/// // At least two letters.
/// let legend = compose_tray(&tray, Settings::least(2)).unwrap();
/// assert_eq!((legend.text.as_str(), legend.saved), ("AKIKIRAELEA", 6));
///
/// let refusal = compose_tray(&Tray::of(&["AVG", ""]), Settings::default()).unwrap_err();
/// assert_eq!((refusal.kind(), refusal.detail()), (RefusalKind::EmptySlip, 2));
///
/// // Each side by itself.
/// let (obverse, reverse) = (Side::Obverse, Side::Reverse);
/// let tray = Tray::of_sides([(obverse, "ABC"), (reverse, "AVG"), (obverse, "BA"), (Side::Blank, "AB")]);
/// let legend = compose_tray(&tray, Settings::default().with_side(obverse)).unwrap();
/// assert_eq!((legend.text.as_str(), legend.joins), ("BABC", vec![Join::new(3, 1, 1)]));
/// assert_eq!(compose_tray(&tray, Settings::default()).unwrap().text, "AB");
/// ```
pub fn compose_tray(tray: &Tray, settings: Settings) -> Result<Legend, Refusal> {
    let tray = tray.lend();
    // Enough for every tray that is accepted.
    let most = tray.ends.len().min(MAX_SLIPS);
    let mut work = vec![0; WORK_CELLS];
    let mut legend = vec![0; tray.letters.len().min(MAX_LETTERS)];
    let mut joins = vec![Join::default(); most];
    let mut places = vec![Place::default(); most];
    let composed = compose(tray, settings, &mut work, &mut legend, &mut joins, &mut places)?;
    legend.truncate(composed.legend);
    joins.truncate(composed.joins);
    places.truncate(composed.slips);
    Ok(Legend {
        text: legend.into_iter().map(char::from).collect(),
        joins,
        places,
        kept: composed.kept,
        kept_letters: composed.kept_letters,
        saved: composed.saved,
    })
}
