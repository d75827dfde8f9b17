//! Trays: letters, ends and sides of any kind, what turns one back, its slips, and what is asked of one slip or of a pair.
use crate::{refusal, row, unless, Refusal, BLANK, MAX_LEAST, MAX_LETTERS, MAX_SLIP, MAX_SLIPS, SIDES, SIGNS};

/// A tray as it is lent. Slip 1 runs from the start to the first end, each other from the end before it to its own.
#[derive(Clone, Debug, Default, PartialEq, Eq)]
pub struct Tray {
    /// The letters of all slips, any bytes.
    pub letters: Vec<u8>,
    /// For each slip its end, any number.
    pub ends: Vec<u16>,
    /// For each slip its side, any byte; there may be more or fewer than slips.
    pub sides: Vec<u8>,
}

/// A slip of an accepted tray. Equal slips have equal letters and are of equal side.
#[derive(Clone, Copy, Debug, PartialEq, Eq)]
pub struct Slip<'a> {
    /// The side.
    pub side: u8,
    /// The letters.
    pub letters: &'a [u8],
}

/// The longest string that ends `a` and begins `b`. It may be a whole slip, and may be empty.
pub fn longest_shared<'a>(a: &[u8], b: &'a [u8]) -> &'a [u8] {
    let most = a.len().min(b.len());
    let length = (1..=most)
        .rev()
        .find(|n| a[a.len() - n] == b[0] && a[a.len() - n..] == b[..*n])
        .unwrap_or(0);
    &b[..length]
}

/// The overlap of `a` with `b`, two slips of one side, counted: the longest string that ends `a` and begins `b`, unless it has
/// under `least` letters or is full stops alone.
pub fn overlap(a: &[u8], b: &[u8], least: usize) -> usize {
    let shared = longest_shared(a, b);
    let too_short = shared.len() < least;
    let stops_alone = shared.iter().all(|&letter| letter == b'.');
    // No shorter string is tried: it would begin the longest one, and so be too short or stops alone too.
    match too_short || stops_alone {
        true => 0,
        false => shared.len(),
    }
}

impl<'a> Slip<'a> {
    /// The slip of this side with these letters.
    fn of<S: AsRef<[u8]>>(side: u8, letters: &'a S) -> Slip<'a> {
        let letters = letters.as_ref();
        Slip { side, letters }
    }

    /// The overlap with a slip to the right, counted: none where the sides differ.
    pub fn overlap(&self, right: &Slip, least: usize) -> usize {
        match self.side == right.side {
            true => overlap(self.letters, right.letters, least),
            false => 0,
        }
    }
}

/// Row 21: a least overlap that is 0, or more than it may be.
pub fn least_fault(least: usize) -> Option<Refusal> {
    row(21, least == 0 || least > MAX_LEAST)
}

/// Row 22 of the side named: it is none of the three.
pub fn side_fault(side: u8) -> Option<Refusal> {
    row(22, !SIDES.contains(&side))
}

impl<'a> FromIterator<Slip<'a>> for Tray {
    fn from_iter<I: IntoIterator<Item = Slip<'a>>>(slips: I) -> Tray {
        let mut tray = Tray::default();
        for slip in slips {
            tray.letters.extend_from_slice(slip.letters);
            tray.ends.push(tray.letters.len() as u16);
            tray.sides.push(slip.side);
        }
        tray
    }
}

impl Tray {
    /// The tray of these slips, all of them blank.
    pub fn of<S: AsRef<[u8]>>(slips: &[S]) -> Tray {
        slips.iter().map(|slip| Slip::of(BLANK, slip)).collect()
    }

    /// The tray of these slips, each with its side before it.
    pub fn sided<S: AsRef<[u8]>>(slips: &[(u8, S)]) -> Tray {
        slips.iter().map(|(side, slip)| Slip::of(*side, slip)).collect()
    }

    /// The tray of these letters and ends, all slips of it blank.
    pub fn all_blank(letters: Vec<u8>, ends: Vec<u16>) -> Tray {
        let sides = vec![BLANK; ends.len()];
        Tray { letters, ends, sides }
    }

    /// Where each slip starts and ends, as the ends say.
    fn spans(&self) -> Vec<(usize, usize)> {
        let ends = self.ends.iter().map(|&end| usize::from(end));
        let starts = std::iter::once(0).chain(ends.clone());
        starts.zip(ends).collect()
    }

    /// Rows 1 to 6. A slip as a detail is the lowest at fault.
    pub fn fault(&self) -> Option<Refusal> {
        let (spans, size) = (self.spans(), self.letters.len());
        let lowest = |number: usize, bad: &dyn Fn(usize, usize) -> bool| {
            let slip = spans.iter().position(|&(start, end)| bad(start, end))?;
            Some(refusal(number, slip + 1))
        };
        let outside = |byte: &u8| !SIGNS.contains(byte);
        row(1, spans.len() > MAX_SLIPS)
            .or_else(|| lowest(2, &|start, end| end <= start))
            .or_else(|| lowest(3, &|start, end| end - start > MAX_SLIP))
            .or_else(|| row(4, size > MAX_LETTERS))
            .or_else(|| row(5, spans.last().map_or(0, |&(_, end)| end) != size))
            .or_else(|| lowest(6, &|start, end| self.letters[start..end].iter().any(outside)))
    }

    /// Rows 1 to 6, and then row 22 of the list: it has a side more or fewer than there are slips, or one that is none of the
    /// three.
    pub fn sided_fault(&self) -> Option<Refusal> {
        let unfit = self.sides.len() != self.ends.len();
        let outside = |side: &u8| !SIDES.contains(side);
        self.fault().or(row(22, unfit || self.sides.iter().any(outside)))
    }

    /// The letters of the slips of a tray that rows 1 to 6 accept; slip 1 stands first.
    pub fn slips(&self) -> Vec<&[u8]> {
        let part = |(start, end): (usize, usize)| &self.letters[start..end];
        self.spans().into_iter().map(part).collect()
    }

    /// The slips of an accepted tray with their sides; slip 1 stands first.
    pub fn sided_slips(&self) -> Vec<Slip<'_>> {
        let all = self.sides.iter().zip(self.slips());
        all.map(|(&side, letters)| Slip { side, letters }).collect()
    }

    /// Row 10: the first of these slip numbers that is 0 or above the count.
    fn request_fault(&self, numbers: &[usize]) -> Option<Refusal> {
        let bad = numbers.iter().find(|&&i| i == 0 || i > self.ends.len());
        bad.map(|&i| refusal(10, i))
    }

    /// The letters of one slip. No sides are asked for.
    pub fn slip(&self, i: usize) -> Result<&[u8], Refusal> {
        unless(self.fault())?;
        unless(self.request_fault(&[i]))?;
        Ok(self.slips()[i - 1])
    }

    /// The overlap of slips i and j, of which a shorter one than `least` counts as empty; none where their sides differ. Row 21
    /// comes before those of the tray, and 22 after them. No side is named.
    pub fn pair(&self, i: usize, j: usize, least: usize) -> Result<usize, Refusal> {
        unless(least_fault(least))?;
        unless(self.sided_fault())?;
        unless(self.request_fault(&[i, j]))?;
        unless((i == j).then_some(refusal(11, i)))?;
        let slips = self.sided_slips();
        Ok(slips[i - 1].overlap(&slips[j - 1], least))
    }
}
