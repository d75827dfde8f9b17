//! Slips and texts as readers type them in files: small letters, U for V, J for I.
use super::{slips, within_limit, Chance, Slips, SHAPES};
use crate::SIGNS;

/// Bytes that are no signs in a file, those beside the signs among them.
pub const BAD_IN_FILES: &[u8] = b"@[`{/-\0\xff\n0";

/// Few signs, most of them typed in four ways. U and J among them are on no die.
const FEW_SIGNS: [&[u8]; 5] = [b"VI", b"AVGI.", b"IJUV", b".UVX", SIGNS];

/// A valid tray of up to `most` slips of up to `longest` letters, of any shape, with many letters that readers type
/// otherwise.
pub fn many_forms(chance: &mut Chance, most: usize, longest: usize) -> Slips {
    let shape = chance.one(&SHAPES);
    let signs = chance.one(&FEW_SIGNS);
    let count = chance.between(1, most);
    let high = chance.between(1, longest);
    let low = chance.between(1, high);
    within_limit(slips(shape, chance, count, low, high, signs))
}

/// These signs as a reader may type them.
pub fn typed(chance: &mut Chance, signs: &[u8]) -> Vec<u8> {
    let mut form = |&sign: &u8| {
        let other = match sign {
            b'V' => b'U',
            b'I' => b'J',
            same => same,
        };
        let capital = chance.one(&[sign, other]);
        chance.one(&[capital, capital.to_ascii_lowercase()])
    };
    signs.iter().map(&mut form).collect()
}

/// These slips as a reader may type them.
pub fn typed_slips(chance: &mut Chance, all: &[Vec<u8>]) -> Slips {
    all.iter().map(|slip| typed(chance, slip)).collect()
}

/// Puts up to this many bytes that are no signs into letters or a text.
pub fn spoil(chance: &mut Chance, letters: &mut [u8], times: usize) {
    // None where there is no letter.
    for _ in 0..times.min(letters.len()) {
        let place = chance.below(letters.len());
        letters[place] = chance.one(BAD_IN_FILES);
    }
}

/// Whether letters stand in a file otherwise than on the die: small ones, U or J.
pub fn has_other_forms(letters: &[u8]) -> bool {
    letters
        .iter()
        .any(|byte| byte.is_ascii_lowercase() || b"UJ".contains(byte))
}
