//! Readers type small letters, and write U for V and J for I. Tray files and text files take that, and file every sign
//! as the die has it. Trays and texts that are lent to the library are not folded.
use crate::SIGNS;

/// How a byte of a file is filed: a small letter as its capital, then U as V and J as I. What is no sign then is filed
/// as 0.
pub fn fold(byte: u8) -> u8 {
    let filed = match byte.to_ascii_uppercase() {
        b'U' => b'V',
        b'J' => b'I',
        other => other,
    };
    match SIGNS.contains(&filed) {
        true => filed,
        false => 0,
    }
}

/// Letters or a text of a file, each byte folded; their count stays.
pub fn filed(bytes: &[u8]) -> Vec<u8> {
    bytes.iter().map(|&byte| fold(byte)).collect()
}
