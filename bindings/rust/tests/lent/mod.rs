//! Letters, ends and sides lent for a tray, and what is expected of a call that writes one into them.
use crate::told::plainly;
use kotsghane::{Refusal, Written};
use plain::made::Chance;
use plain::tray::Tray;

/// What is lent.
#[derive(Clone, Debug, PartialEq, Eq)]
pub struct Lent {
    pub letters: Vec<u8>,
    pub ends: Vec<u16>,
    pub sides: Vec<u8>,
}

impl Lent {
    /// This many letters, ends and sides, which hold anything.
    pub fn of(chance: &mut Chance, letters: usize, ends: usize, sides: usize) -> Lent {
        Lent {
            letters: (0..letters).map(|_| chance.below(256) as u8).collect(),
            ends: (0..ends).map(|_| chance.below(65_536) as u16).collect(),
            sides: (0..sides).map(|_| chance.below(256) as u8).collect(),
        }
    }

    /// Checks what a call told, and what is lent after it: the tray of the plain program over the first part of each and the
    /// rest unchanged, or its refusal and all as it was.
    pub fn assert_after(&self, told: Result<Written, Refusal>, after: &Lent, plain: &Result<Tray, plain::Refusal>) {
        let mut wanted = self.clone();
        if let Ok(tray) = plain {
            wanted.letters[..tray.letters.len()].copy_from_slice(&tray.letters);
            wanted.ends[..tray.ends.len()].copy_from_slice(&tray.ends);
            wanted.sides[..tray.sides.len()].copy_from_slice(&tray.sides);
        }
        let counts = told.map(|written| (written.letters, written.slips));
        let expected = plain.as_ref().map(|tray| (tray.letters.len(), tray.ends.len()));
        assert_eq!(counts.map_err(plainly), expected.map_err(|refusal| *refusal));
        assert!(*after == wanted, "the buffers differ");
    }
}
