//! How bytes and trays stand in a line of cases: a sign as itself, a blank as `_`, so that fields stay apart, any other byte as
//! `%` and two hex digits, three or more equal ones with their count before, and a comma where a slip ends.
use crate::tray::Tray;
use crate::SIGNS;

fn push_run(line: &mut String, byte: u8, times: usize) {
    let one = match byte {
        b' ' => "_".to_string(),
        sign if SIGNS.contains(&sign) => char::from(sign).to_string(),
        other => format!("%{other:02X}"),
    };
    match times {
        0..=2 => line.push_str(&one.repeat(times)),
        _ => line.push_str(&format!("{times}{one}")),
    }
}

/// Bytes of any kind: letters, texts, files, sides.
pub fn bytes(all: &[u8]) -> String {
    let mut line = String::new();
    for run in all.chunk_by(|a, b| a == b) {
        push_run(&mut line, run[0], run.len());
    }
    line
}

/// The letters and ends of a tray of any kind: its letters with a comma at each end, or, where the ends fall or lie past the letters, its letters
/// and then its ends.
pub fn tray(tray: &Tray) -> String {
    let ends: Vec<usize> = tray.ends.iter().map(|&end| usize::from(end)).collect();
    let last = ends.last().copied().unwrap_or(0);
    if !ends.is_sorted() || last > tray.letters.len() {
        let listed: String = ends.iter().map(|end| format!(" {end}")).collect();
        return bytes(&tray.letters) + &listed;
    }
    let starts = std::iter::once(0).chain(ends.iter().copied());
    let slips = starts
        .zip(&ends)
        .map(|(start, &end)| bytes(&tray.letters[start..end]) + ",");
    slips.collect::<String>() + &bytes(&tray.letters[last..])
}
