//! Reads a tray file on standard input and prints, for each side that has slips, its legend, the joins in the order made, and
//! the slips set aside. If the tray is refused, it says why on standard error and exits with status 1.

use kotsghane::{compose_tray, Legend, RefusalKind, Settings, Side, Tray};
use std::error::Error;
use std::io::{self, Read, Write};
use std::process::ExitCode;

fn compose(tray: &Tray, side: Side) -> Result<Legend, Box<dyn Error>> {
    let settings = Settings::default().with_side(side);
    let legend = compose_tray(tray, settings).map_err(|refusal| match refusal.kind() {
        RefusalKind::BadSlipByte => {
            let letters = tray.slips().nth(refusal.detail() - 1).unwrap_or_default();
            format!("{refusal}\n{}", letters.escape_ascii())
        }
        _ => refusal.to_string(),
    })?;
    Ok(legend)
}

fn print(tray: &Tray, legend: &Legend) -> io::Result<()> {
    let mut out = io::stdout().lock();
    writeln!(out, "{legend}")?;
    for join in &legend.joins {
        writeln!(out, "{} and {} share {}", join.left(), join.right(), join.overlap())?;
    }
    for place in legend.places.iter().filter(|place| !place.is_kept()) {
        let letters = tray.slips().nth(place.slip() - 1).unwrap_or_default().escape_ascii();
        let (slip, place) = (place.slip(), place.place());
        writeln!(out, "{slip} {letters} is set aside, and stands at place {place}")?;
    }
    Ok(())
}

fn run() -> Result<(), Box<dyn Error>> {
    let mut file = Vec::new();
    io::stdin().read_to_end(&mut file)?;
    let tray = Tray::read(&file)?;
    for side in Side::ALL {
        let legend = compose(&tray, side)?;
        if legend.places.is_empty() {
            continue;
        }
        if side != Side::Blank {
            println!("side {side}");
        }
        print(&tray, &legend)?;
    }
    Ok(())
}

fn main() -> ExitCode {
    if let Err(error) = run() {
        eprintln!("{error}");
        return ExitCode::FAILURE;
    }
    ExitCode::SUCCESS
}
