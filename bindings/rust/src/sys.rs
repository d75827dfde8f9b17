//! The calls of the archive: the only module with unsafe code.
//!
//! Each function takes slices, makes one call, and turns the numbers of the answer into counts or a [`Refusal`]. What follows
//! holds for every call, and the `SAFETY` comments refer to it.
//!
//! # Why every call is sound
//!
//! - **Declarations.** Each has the parameters of `bindings/c/kotsghane.h`, in the same order and of the same types.
//! - **Pointers and lengths.** Every pointer is taken from a slice and passed with the length of that slice, in the elements
//!   that the callee counts. One that is passed with length 0 is never dereferenced. An [`Answer`] has as many numbers as the
//!   header names for it.
//! - **Records.** A list of records is passed as a list of their numbers. A `Join`, a `Place` and a `Found` are `repr(C)`, have
//!   fields of one integer type and no padding (asserted in `records.rs`), and are valid whatever these hold. So n records are
//!   n times as many numbers as one has, and since they are in memory, their count does not overflow.
//! - **Borrowing.** All slices outlive the call. What is written is borrowed by `&mut`, so it overlaps nothing else that is
//!   passed. What is only read may be passed twice: two trays may be one.
//! - **The callee** is proved for every content and every length. It reads and writes within the lengths, keeps no pointer and
//!   does not unwind. It has no state of its own, so calls may be made from several threads at once.
use crate::records::number;
use crate::{Found, Join, Place, Refusal, RefusalKind, TrayRef, FOUND_CELLS, JOIN_CELLS, MAX_SHORTEST, PLACE_CELLS};

/// An answer: number and detail of the refusal, 0 and 0 if there is none, and the counts, all 0 if the call is refused. It
/// is laid out as the header's array of 2 + N numbers.
#[repr(C)]
struct Answer<const N: usize> {
    number: u32,
    detail: u32,
    counts: [u32; N],
}

impl<const N: usize> Answer<N> {
    /// For the callee to write.
    const fn new() -> Answer<N> {
        Answer {
            number: 0,
            detail: 0,
            counts: [0; N],
        }
    }

    /// The counts, or the refusal.
    ///
    /// # Panics
    ///
    /// If an archive of this crate's version cannot give this answer: then another one is linked.
    fn told(self) -> Result<[usize; N], Refusal> {
        if self.number == 0 {
            return Ok(self.counts.map(|count| count as usize));
        }
        match RefusalKind::from_number(self.number) {
            Some(kind) if self.counts == [0; N] => Err(Refusal::new(kind, self.detail as usize)),
            _ => panic!(
                "libkotsghane.a and the crate kotsghane are of different versions: refusal {}, counts {:?}",
                self.number, self.counts
            ),
        }
    }
}

extern "C" {
    fn kotsghane_compose(
        letters: *const u8,
        letters_len: usize,
        ends: *const u16,
        ends_len: usize,
        sides: *const u8,
        sides_len: usize,
        least: u32,
        side: u8,
        work: *mut u16,
        work_len: usize,
        legend: *mut u8,
        legend_len: usize,
        joins: *mut u16,
        joins_len: usize,
        places: *mut u16,
        places_len: usize,
        answer: *mut Answer<6>,
    );
    fn kotsghane_shortest(
        letters: *const u8,
        letters_len: usize,
        ends: *const u16,
        ends_len: usize,
        sides: *const u8,
        sides_len: usize,
        least: u32,
        side: u8,
        work: *mut u16,
        work_len: usize,
        legend: *mut u8,
        legend_len: usize,
        answer: *mut Answer<{ 2 + MAX_SHORTEST }>,
    );
    fn kotsghane_find(
        letters: *const u8,
        letters_len: usize,
        ends: *const u16,
        ends_len: usize,
        text: *const u8,
        text_len: usize,
        work: *mut u16,
        work_len: usize,
        found: *mut u32,
        found_len: usize,
        answer: *mut Answer<2>,
    );
    fn kotsghane_slip(
        letters: *const u8,
        letters_len: usize,
        ends: *const u16,
        ends_len: usize,
        slip: u32,
        answer: *mut Answer<2>,
    );
    fn kotsghane_pair(
        letters: *const u8,
        letters_len: usize,
        ends: *const u16,
        ends_len: usize,
        sides: *const u8,
        sides_len: usize,
        left: u32,
        right: u32,
        least: u32,
        answer: *mut Answer<1>,
    );
    fn kotsghane_read_tray(
        file: *const u8,
        file_len: usize,
        letters: *mut u8,
        letters_len: usize,
        ends: *mut u16,
        ends_len: usize,
        sides: *mut u8,
        sides_len: usize,
        answer: *mut Answer<2>,
    );
    fn kotsghane_merge(
        letters1: *const u8,
        letters1_len: usize,
        ends1: *const u16,
        ends1_len: usize,
        sides1: *const u8,
        sides1_len: usize,
        letters2: *const u8,
        letters2_len: usize,
        ends2: *const u16,
        ends2_len: usize,
        sides2: *const u8,
        sides2_len: usize,
        letters: *mut u8,
        letters_len: usize,
        ends: *mut u16,
        ends_len: usize,
        sides: *mut u8,
        sides_len: usize,
        answer: *mut Answer<2>,
    );
}

/// Composes with a least overlap and a side: its slips, kept slips, their letters, letters saved, letters of the legend, joins.
pub(crate) fn compose(
    tray: TrayRef<'_>,
    (least, side): (usize, u8),
    work: &mut [u16],
    legend: &mut [u8],
    joins: &mut [Join],
    places: &mut [Place],
) -> Result<[usize; 6], Refusal> {
    let mut answer = Answer::new();
    // SAFETY: see the head of this module; joins and places are lists of records.
    unsafe {
        kotsghane_compose(
            tray.letters.as_ptr(),
            tray.letters.len(),
            tray.ends.as_ptr(),
            tray.ends.len(),
            tray.sides.as_ptr(),
            tray.sides.len(),
            number(least),
            side,
            work.as_mut_ptr(),
            work.len(),
            legend.as_mut_ptr(),
            legend.len(),
            joins.as_mut_ptr().cast(),
            JOIN_CELLS * joins.len(),
            places.as_mut_ptr().cast(),
            PLACE_CELLS * places.len(),
            &mut answer,
        );
    }
    answer.told()
}

/// Seeks the shortest legend with a least overlap and a side: its letters, kept slips, and their order, 0 past the count.
pub(crate) fn shortest(
    tray: TrayRef<'_>,
    (least, side): (usize, u8),
    work: &mut [u16],
    legend: &mut [u8],
) -> Result<[usize; 2 + MAX_SHORTEST], Refusal> {
    let mut answer = Answer::new();
    // SAFETY: see the head of this module.
    unsafe {
        kotsghane_shortest(
            tray.letters.as_ptr(),
            tray.letters.len(),
            tray.ends.as_ptr(),
            tray.ends.len(),
            tray.sides.as_ptr(),
            tray.sides.len(),
            number(least),
            side,
            work.as_mut_ptr(),
            work.len(),
            legend.as_mut_ptr(),
            legend.len(),
            &mut answer,
        );
    }
    answer.told()
}

/// Finds: moves and occurrences.
pub(crate) fn find(
    letters: &[u8],
    ends: &[u16],
    text: &[u8],
    work: &mut [u16],
    found: &mut [Found],
) -> Result<[usize; 2], Refusal> {
    let mut answer = Answer::new();
    // SAFETY: see the head of this module; what is found is a list of records.
    unsafe {
        kotsghane_find(
            letters.as_ptr(),
            letters.len(),
            ends.as_ptr(),
            ends.len(),
            text.as_ptr(),
            text.len(),
            work.as_mut_ptr(),
            work.len(),
            found.as_mut_ptr().cast(),
            FOUND_CELLS * found.len(),
            &mut answer,
        );
    }
    answer.told()
}

/// Where the letters of a slip start and end.
pub(crate) fn slip(letters: &[u8], ends: &[u16], slip: usize) -> Result<[usize; 2], Refusal> {
    let mut answer = Answer::new();
    // SAFETY: see the head of this module.
    unsafe {
        kotsghane_slip(
            letters.as_ptr(),
            letters.len(),
            ends.as_ptr(),
            ends.len(),
            number(slip),
            &mut answer,
        );
    }
    answer.told()
}

/// The overlap of the left slip with the right one.
pub(crate) fn pair(tray: TrayRef<'_>, left: usize, right: usize, least: usize) -> Result<[usize; 1], Refusal> {
    let mut answer = Answer::new();
    // SAFETY: see the head of this module.
    unsafe {
        kotsghane_pair(
            tray.letters.as_ptr(),
            tray.letters.len(),
            tray.ends.as_ptr(),
            tray.ends.len(),
            tray.sides.as_ptr(),
            tray.sides.len(),
            number(left),
            number(right),
            number(least),
            &mut answer,
        );
    }
    answer.told()
}

/// Reads a tray file: letters and slips written.
pub(crate) fn read_tray(
    file: &[u8],
    letters: &mut [u8],
    ends: &mut [u16],
    sides: &mut [u8],
) -> Result<[usize; 2], Refusal> {
    let mut answer = Answer::new();
    // SAFETY: see the head of this module.
    unsafe {
        kotsghane_read_tray(
            file.as_ptr(),
            file.len(),
            letters.as_mut_ptr(),
            letters.len(),
            ends.as_mut_ptr(),
            ends.len(),
            sides.as_mut_ptr(),
            sides.len(),
            &mut answer,
        );
    }
    answer.told()
}

/// Merges two trays: letters and slips written.
pub(crate) fn merge(
    first: TrayRef<'_>,
    second: TrayRef<'_>,
    letters: &mut [u8],
    ends: &mut [u16],
    sides: &mut [u8],
) -> Result<[usize; 2], Refusal> {
    let mut answer = Answer::new();
    // SAFETY: see the head of this module.
    unsafe {
        kotsghane_merge(
            first.letters.as_ptr(),
            first.letters.len(),
            first.ends.as_ptr(),
            first.ends.len(),
            first.sides.as_ptr(),
            first.sides.len(),
            second.letters.as_ptr(),
            second.letters.len(),
            second.ends.as_ptr(),
            second.ends.len(),
            second.sides.as_ptr(),
            second.sides.len(),
            letters.as_mut_ptr(),
            letters.len(),
            ends.as_mut_ptr(),
            ends.len(),
            sides.as_mut_ptr(),
            sides.len(),
            &mut answer,
        );
    }
    answer.told()
}

#[cfg(test)]
mod tests;
