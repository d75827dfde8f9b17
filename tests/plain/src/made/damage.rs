//! Trays that are turned back, or may be, and bytes that are no signs.
use super::{valid, within_limit, Chance, Slips};
use crate::tray::Tray;
use crate::{MAX_LETTERS, MAX_SLIP, MAX_SLIPS, SIGNS};

/// What is done to a tray before it is lent.
#[derive(Clone, Copy, Debug)]
pub enum Damage {
    /// An end below the one before.
    FallingEnd,
    /// An end that equals the one before.
    EqualEnd,
    /// A slip of one letter too many.
    LongSlip,
    /// A byte that is no sign.
    BadByte,
    /// A letter after the last end.
    LastEndLow,
    /// The last end past the letters.
    LastEndHigh,
    /// Letters cut off.
    LettersMissing,
    /// One slip too many.
    ManySlips,
    /// One letter too many.
    ManyLetters,
    /// Ends by chance.
    AnyEnds,
}

/// All kinds of damage.
pub const DAMAGES: [Damage; 10] = [
    Damage::FallingEnd,
    Damage::EqualEnd,
    Damage::LongSlip,
    Damage::BadByte,
    Damage::LastEndLow,
    Damage::LastEndHigh,
    Damage::LettersMissing,
    Damage::ManySlips,
    Damage::ManyLetters,
    Damage::AnyEnds,
];

/// Bytes that are no signs of a tray or text that is lent, those beside the signs among them. In files small letters are
/// signs: [`BAD_IN_FILES`](super::typed::BAD_IN_FILES).
pub const BAD_BYTES: &[u8] = b"a@[/-\0\xff\n0z";

/// A tray of up to `most` slips with one of the faults; where it does not apply, the tray as it is.
pub fn damaged(chance: &mut Chance, damage: Damage, most: usize) -> Tray {
    let mut all = valid(chance, most, MAX_SLIP);
    let at = chance.below(all.len());
    match damage {
        Damage::LongSlip => all[at] = chance.word(b"AB", MAX_SLIP + 1),
        Damage::ManySlips => all.resize(MAX_SLIPS + 1, b"A".to_vec()),
        Damage::ManyLetters => {
            let have: usize = all.iter().map(Vec::len).sum();
            let more = chance.word(b"ABC", MAX_LETTERS + 1 - have);
            all.extend(more.chunks(MAX_SLIP).map(<[u8]>::to_vec));
        }
        _ => {}
    }
    let mut tray = Tray::of(&all);
    let (letters, ends) = (&mut tray.letters, &mut tray.ends);
    let place = chance.below(letters.len());
    match damage {
        Damage::FallingEnd if at > 0 => ends[at] = chance.below(usize::from(ends[at - 1])) as u16,
        Damage::EqualEnd if at > 0 => ends[at] = ends[at - 1],
        Damage::FallingEnd | Damage::EqualEnd => ends[0] = 0,
        Damage::BadByte => letters[place] = chance.one(BAD_BYTES),
        Damage::LastEndLow => letters.push(b'A'),
        Damage::LastEndHigh => *ends.last_mut().expect("a valid tray has a slip") += 1,
        Damage::LettersMissing => letters.truncate(place),
        Damage::AnyEnds => ends.iter_mut().for_each(|end| *end = chance.below(65_536) as u16),
        _ => {}
    }
    tray
}

/// A tray of up to `most` slips, valid where a slip could have 8 letters more than now; about half have a slip that is too
/// long now.
pub fn stored(chance: &mut Chance, most: usize) -> Slips {
    let mut all = valid(chance, most, MAX_SLIP + 8);
    if chance.below(2) == 0 {
        let (at, letters) = (chance.below(all.len()), chance.between(MAX_SLIP + 1, MAX_SLIP + 8));
        all[at] = chance.word(SIGNS, letters);
    }
    within_limit(all)
}
