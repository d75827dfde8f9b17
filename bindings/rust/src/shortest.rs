//! The shortest legend of a small die group.
use crate::{sys, Refusal, Settings, Tray, TrayRef, MAX_SHORTEST, MAX_SLIP, WORK_CELLS};
use std::fmt;

/// What [`shortest`] has found, and the count of what it has written.
#[derive(Clone, Copy, Debug, Default, PartialEq, Eq, Hash)]
#[non_exhaustive]
pub struct Shortest {
    /// The letters of the legend; this many are written.
    pub legend: usize,
    /// The kept slips of the side, counted.
    pub count: usize,
    /// The kept slips, from 1, in the order in which they are laid; 0 past the count.
    pub order: [usize; MAX_SHORTEST],
}

/// Seeks the shortest legend of the side that the settings name, of which at most [`MAX_SHORTEST`] slips are kept, in lent
/// buffers. [`shortest_legend`] does the same and makes the buffers itself.
///
/// The kept slips of the side are laid as one chain: each adds its letters beyond the overlap with the one before it. Of all
/// orders the one with the shortest legend is taken; of several, the one that is smallest as a list of slip numbers, which are
/// those of the tray. The legend is written to the first part of its buffer, and the rest is unchanged. Lend [`WORK_CELLS`]
/// cells. `MAX_SHORTEST * MAX_SLIP` letters suffice for every tray.
///
/// # Errors
///
/// In this order: [`LeastOverlapOutOfRange`](crate::RefusalKind::LeastOverlapOutOfRange); what [`Tray::check`] refuses
/// (`TooManySlips`, `EmptySlip`, `SlipTooLong`, `TooManyLetters`, `LastEndMismatch`, `BadSlipByte`, `BadSide`);
/// [`WorkAreaTooSmall`](crate::RefusalKind::WorkAreaTooSmall); [`TooManyKeptSlips`](crate::RefusalKind::TooManyKeptSlips);
/// [`LegendBufferTooSmall`](crate::RefusalKind::LegendBufferTooSmall), with the letters needed. The legend then holds what it
/// held. The work area does too, except after the last two.
///
/// ```
/// use kotsghane::{shortest, Settings, Side, TrayRef, WORK_CELLS};
///
/// let mut work = vec![0; WORK_CELLS];
/// let mut legend = [b'-'; 7];
/// let tray = TrayRef::new(b"AVGCAABADA", &[3, 5, 7, 10], b"ORRR");
/// let settings = Settings::default().with_side(Side::Reverse);
/// let told = shortest(tray, settings, &mut work, &mut legend).unwrap();
/// assert_eq!((told.legend, &told.order[..told.count]), (5, &[2, 4, 3][..]));
/// assert_eq!(&legend, b"CADAB--");
/// ```
pub fn shortest(
    tray: TrayRef<'_>,
    settings: Settings,
    work: &mut [u16],
    legend: &mut [u8],
) -> Result<Shortest, Refusal> {
    let (least, side) = (settings.least, settings.side.byte());
    let [legend, count, order @ ..] = sys::shortest(tray, (least, side), work, legend)?;
    Ok(Shortest { legend, count, order })
}

/// The shortest legend of one side of a tray. Its [`Display`](fmt::Display) form is its text.
#[derive(Clone, Debug, PartialEq, Eq, Hash)]
#[non_exhaustive]
pub struct ShortestLegend {
    /// Its letters.
    pub text: String,
    /// The kept slips, from 1, in the order in which they are laid.
    pub order: Vec<usize>,
}

impl fmt::Display for ShortestLegend {
    fn fmt(&self, f: &mut fmt::Formatter<'_>) -> fmt::Result {
        f.write_str(&self.text)
    }
}

/// Seeks the shortest legend of the side that the settings name, of which at most [`MAX_SHORTEST`] slips are kept.
///
/// # Errors
///
/// In this order: [`LeastOverlapOutOfRange`](crate::RefusalKind::LeastOverlapOutOfRange); what [`Tray::check`] refuses
/// (`TooManySlips`, `EmptySlip`, `SlipTooLong`, `TooManyLetters`, `LastEndMismatch`, `BadSlipByte`, `BadSide`);
/// [`TooManyKeptSlips`](crate::RefusalKind::TooManyKeptSlips).
///
/// ```
/// use kotsghane::{compose_tray, shortest_legend, RefusalKind, Settings, Side, Tray};
///
/// let (tray, settings) = (Tray::of(&["CA", "AB", "ADA"]), Settings::default());
/// let shortest = shortest_legend(&tray, settings).unwrap();
/// assert_eq!((shortest.text.as_str(), shortest.order), ("CADAB", vec![1, 3, 2]));
/// assert_eq!(compose_tray(&tray, settings).unwrap().text, "CABADA");
///
/// // At least two letters.
/// let ring = Tray::of(&["XYA", "AXY", "YZ"]);
/// let order = |least| shortest_legend(&ring, Settings::least(least)).unwrap().order;
/// assert_eq!((order(1), order(2)), (vec![1, 2, 3], vec![2, 1, 3]));
///
/// let eleven = ["KL", "JK", "IJ", "HI", "GH", "FG", "EF", "DE", "CD", "BC", "AB"];
/// let refusal = shortest_legend(&Tray::of(&eleven), settings).unwrap_err();
/// assert_eq!(refusal.kind(), RefusalKind::TooManyKeptSlips);
/// assert_eq!(shortest_legend(&Tray::of(&eleven[1..]), settings).unwrap().text, "ABCDEFGHIJK");
///
/// // Only the kept slips of the side are counted.
/// let mut tray = Tray::of(&eleven);
/// tray.push_side(Side::Reverse, "PAX");
/// let shortest = shortest_legend(&tray, settings.with_side(Side::Reverse)).unwrap();
/// assert_eq!((shortest.text.as_str(), shortest.order), ("PAX", vec![12]));
/// ```
pub fn shortest_legend(tray: &Tray, settings: Settings) -> Result<ShortestLegend, Refusal> {
    let mut work = vec![0; WORK_CELLS];
    let mut letters = vec![0; MAX_SHORTEST * MAX_SLIP];
    let told = shortest(tray.lend(), settings, &mut work, &mut letters)?;
    letters.truncate(told.legend);
    Ok(ShortestLegend {
        text: letters.into_iter().map(char::from).collect(),
        order: told.order[..told.count].to_vec(),
    })
}
