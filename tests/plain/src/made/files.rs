//! Tray files, whole and damaged.
use super::damage::BAD_BYTES;
use super::Chance;
use crate::BLANK;

/// The tray file of these slips, all of them blank.
pub fn tray_file<S: AsRef<[u8]>>(slips: &[S]) -> Vec<u8> {
    sided_file(&slips.iter().map(|slip| (BLANK, slip)).collect::<Vec<_>>())
}

/// The tray file of these slips, each with what stands in column 9 before it: its side, or any other byte.
pub fn sided_file<S: AsRef<[u8]>>(slips: &[(u8, S)]) -> Vec<u8> {
    let mut file = Vec::new();
    for (i, (side, slip)) in slips.iter().enumerate() {
        let slip = slip.as_ref();
        file.extend(format!("{:4}{:4}", i + 1, slip.len()).bytes());
        file.push(*side);
        file.extend_from_slice(slip);
        file.push(b'\n');
    }
    file
}

/// What is done to a tray file.
#[derive(Clone, Copy, Debug)]
pub enum Blot {
    /// Another byte somewhere, mostly among the columns of a line.
    Byte,
    /// The final LF, or more, is cut off.
    Cut,
    /// A byte is taken out.
    Missing,
    /// A byte is put in.
    Added,
    /// A line stands twice.
    Twice,
    /// A line is taken out.
    NoLine,
    /// Two numbers of a line change places.
    Exchanged,
    /// A number has another digit.
    Digit,
    /// A slip of no letters.
    Empty,
}

/// All that is done to tray files.
pub const BLOTS: [Blot; 9] = [
    Blot::Byte,
    Blot::Cut,
    Blot::Missing,
    Blot::Added,
    Blot::Twice,
    Blot::NoLine,
    Blot::Exchanged,
    Blot::Digit,
    Blot::Empty,
];

/// A byte of one of the columns 1 to 9 of a line, or of its letters or LF.
fn place(chance: &mut Chance, line: &[u8]) -> usize {
    match chance.below(4) {
        0 => chance.below(line.len()),
        _ => chance.below(9),
    }
}

/// The file of these slips, all of them blank, with such damage in one of its lines.
pub fn damaged_file(chance: &mut Chance, slips: &[Vec<u8>], blot: Blot) -> Vec<u8> {
    blotted(chance, &tray_file(slips), blot)
}

/// A file with such damage in one of its lines.
pub fn blotted(chance: &mut Chance, whole: &[u8], blot: Blot) -> Vec<u8> {
    let mut lines: Vec<Vec<u8>> = whole.split_inclusive(|&b| b == b'\n').map(<[u8]>::to_vec).collect();
    let at = chance.below(lines.len());
    let line = &mut lines[at];
    let column = place(chance, line);
    match blot {
        Blot::Byte => line[column] = chance.one(&[BAD_BYTES, b" 0123456789"].concat()),
        Blot::Cut => {
            let from = chance.below(line.len());
            line.truncate(from);
            lines.truncate(at + 1);
        }
        Blot::Missing => {
            line.remove(column);
        }
        Blot::Added => line.insert(column, chance.one(b" 01.A\n\r")),
        Blot::Twice => lines.insert(at, lines[at].clone()),
        Blot::NoLine => {
            lines.remove(at);
        }
        Blot::Exchanged => {
            let (number, length) = line[..8].split_at_mut(4);
            number.swap_with_slice(length);
        }
        Blot::Digit => line[chance.one(&[3, 7])] = chance.one(b"0123456789"),
        Blot::Empty => *line = format!("{:4}   0 \n", at + 1).into_bytes(),
    }
    lines.concat()
}
