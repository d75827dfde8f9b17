//! A tray of the plain program as a tray of the crate.
use kotsghane::{Side, Tray};
use plain::tray;

/// The same tray. Each of its sides must be one, but there may be more or fewer than slips.
pub fn ours(tray: &tray::Tray) -> Tray {
    let side = |&byte: &u8| Side::from_byte(byte).expect("a side");
    let sides: Vec<Side> = tray.sides.iter().map(side).collect();
    Tray::from_sided_parts(tray.letters.clone(), tray.ends.clone(), &sides)
}
