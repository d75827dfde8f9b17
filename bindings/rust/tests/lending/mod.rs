//! A tray and settings, each as the other program takes them.
use kotsghane::{Settings, TrayRef};
use plain::tray::Tray;

/// The tray as it is lent to the library, with any sides.
pub fn lend(tray: &Tray) -> TrayRef<'_> {
    TrayRef::new(&tray.letters, &tray.ends, &tray.sides)
}

/// The settings as the plain program has them.
pub fn named(settings: Settings) -> plain::Settings {
    plain::Settings {
        least: settings.least,
        side: settings.side.byte(),
    }
}
