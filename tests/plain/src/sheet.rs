//! What the programs print.
use crate::compose::{compose_tray, Composition, Rooms};
use crate::file::read_tray;
use crate::find::{find_slips, Finding};
use crate::fold::filed;
use crate::tray::Tray;
use crate::{
    Refusal, Settings, BLANK, FILE_ENDS, MAX_FILE, MAX_FOUND, MAX_LETTERS, MAX_SLIPS, SIDES, USUAL, WORK_CELLS,
};

/// What a program lends suffices for every tray.
const ROOMS: Rooms = Rooms {
    work: WORK_CELLS,
    legend: MAX_LETTERS,
    joins: MAX_SLIPS,
    places: MAX_SLIPS,
};

fn refused(refusal: Refusal) -> Vec<u8> {
    format!("REFUSED{:4}{:6}\n", refusal.number, refusal.detail).into_bytes()
}

/// What stands after the header of a side's sheet: nothing of the blank side, else a blank and the letter.
fn header_end(side: u8) -> String {
    match side {
        BLANK => String::new(),
        _ => format!(" {}", char::from(side)),
    }
}

/// The sheet of a side.
fn composed(tray: &Tray, side: u8, made: &Composition) -> Vec<u8> {
    let slips = tray.slips();
    let (kept, saved) = (made.kept(), made.saved());
    let head = format!(
        "TRAY{:4}{kept:4}{:5}{saved:5}{:5}{}\n",
        made.places.len(),
        made.kept_letters,
        made.legend.len(),
        header_end(side)
    );
    let mut sheet = head.into_bytes();
    for place in &made.places {
        let mark = if place.kept { 'K' } else { 'S' };
        let letters = slips[place.slip - 1].len();
        sheet.extend(format!("{:4}{letters:4}{:5} {mark}\n", place.slip, place.place).bytes());
    }
    for join in &made.joins {
        sheet.extend(format!("{:4}{:4}{:4}\n", join.left, join.right, join.overlap).bytes());
    }
    sheet.extend_from_slice(&made.legend);
    sheet.push(b'\n');
    sheet
}

/// The sheets of all sides that have slips, blank, O, R in that order; the empty tray has the blank one. A side that is refused
/// refuses the tray.
fn sheets(tray: &Tray) -> Result<Vec<u8>, Refusal> {
    let has_sheet = |side: &u8| tray.sides.contains(side) || (tray.sides.is_empty() && *side == BLANK);
    let sheet = |side: u8| {
        let made = compose_tray(tray, Settings { side, ..USUAL }, ROOMS)?;
        Ok(composed(tray, side, &made))
    };
    let sides = SIDES.into_iter().filter(has_sheet);
    let all: Result<Vec<Vec<u8>>, Refusal> = sides.map(sheet).collect();
    Ok(all?.concat())
}

/// What `compose` prints of a tray file: the sheets of its sides, or one line that says what is refused.
pub fn compose_sheet(file: &[u8]) -> Vec<u8> {
    let tray = read_tray(file, MAX_FILE, FILE_ENDS, FILE_ENDS);
    tray.and_then(|tray| sheets(&tray)).unwrap_or_else(refused)
}

fn found(text: &[u8], finding: &Finding) -> Vec<u8> {
    let head = format!("FIND{:4}{:4}{:6}\n", text.len(), finding.moves, finding.found.len());
    let lines = finding.found.iter().map(|x| format!("{:4}{:4}\n", x.end, x.slip));
    std::iter::once(head).chain(lines).collect::<String>().into_bytes()
}

/// What `find` prints of a tray file and a text file: it takes no sides, and looks for all slips. One final LF of the text,
/// if present, is not counted. Every byte left is folded; an LF is no sign.
pub fn find_sheet(file: &[u8], text: &[u8]) -> Vec<u8> {
    let text = filed(text.strip_suffix(b"\n").unwrap_or(text));
    let tray = match read_tray(file, MAX_FILE, FILE_ENDS, FILE_ENDS) {
        Ok(tray) => tray,
        Err(refusal) => return refused(refusal),
    };
    match find_slips(&tray, &text, WORK_CELLS, MAX_FOUND) {
        Ok(finding) => found(&text, &finding),
        Err(refusal) => refused(refusal),
    }
}
