//! Tray files: a line for each slip.
use crate::fold::filed;
use crate::tray::{Slip, Tray};
use crate::{refusal, row, unless, Refusal, FILE_ENDS, MAX_FILE, SIDES};

/// The number that columns hold: decimal, right-justified, without leading zeros.
fn number(columns: &[u8]) -> Option<usize> {
    let text = std::str::from_utf8(columns).ok()?;
    let n = text.trim_start_matches(' ').parse().ok()?;
    (format!("{n:width$}", width = columns.len()) == text).then_some(n)
}

/// A line of the layout: columns 1 to 4, 5 to 8, a side in 9, letters from 10, LF.
struct Line<'a> {
    number: usize,
    length: usize,
    slip: Slip<'a>,
}

/// The parts of a line, if it is of the layout. Column 9 is taken as it stands: a small o is no side.
fn parts(line: &[u8]) -> Option<Line<'_>> {
    let line = line.strip_suffix(b"\n")?;
    if line.len() < 9 || !SIDES.contains(&line[8]) {
        return None;
    }
    Some(Line {
        number: number(&line[..4])?,
        length: number(&line[4..8])?,
        slip: Slip {
            side: line[8],
            letters: &line[9..],
        },
    })
}

/// The slip of a line that stands as line `k`, its letters as they are typed: rows 17, 18 and 19.
fn slip(line: &[u8], k: usize) -> Result<Slip<'_>, Refusal> {
    let line = parts(line).ok_or(refusal(17, k))?;
    unless((line.number != k).then_some(refusal(18, k)))?;
    unless((line.length != line.slip.letters.len()).then_some(refusal(19, k)))?;
    Ok(line.slip)
}

/// Reads a tray file where this many letters, ends and sides are lent, or refuses it. An empty file is the empty tray.
///
/// Rows 15 to 19 judge the file as it is typed. Only then are the letters folded: a byte that is no sign is read as 0, and
/// the tray check turns it back.
pub fn read_tray(file: &[u8], letters: usize, ends: usize, sides: usize) -> Result<Tray, Refusal> {
    unless(row(15, letters < MAX_FILE || ends < FILE_ENDS || sides < FILE_ENDS))?;
    unless(row(16, file.len() > MAX_FILE))?;
    let lines = file.split_inclusive(|&byte| byte == b'\n');
    let typed: Result<Tray, Refusal> = lines.zip(1..).map(|(line, k)| slip(line, k)).collect();
    typed.map(|tray| Tray {
        letters: filed(&tray.letters),
        ..tray
    })
}
