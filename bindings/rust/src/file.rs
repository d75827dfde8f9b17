//! Tray files, read and written.
use crate::{sys, Refusal, Tray, Written, FILE_ENDS, MAX_FILE, MAX_LETTERS, MAX_SLIP, MAX_SLIPS};

/// The bytes of a line besides its letters: nine columns and LF.
const LINE: usize = 10;

/// The highest number in four columns.
const FOUR_COLUMNS: usize = 9_999;

// Every accepted tray fits in a file that is read again.
const _: () = assert!(MAX_SLIPS * LINE + MAX_LETTERS <= MAX_FILE && MAX_SLIPS <= FILE_ENDS);
const _: () = assert!(MAX_SLIPS <= FOUR_COLUMNS && MAX_SLIP <= FOUR_COLUMNS);

/// Reads a tray file into lent letters, ends and sides. [`Tray::read`] does the same and makes the buffers itself.
///
/// A line of the file has the slip number in columns 1 to 4, the length in columns 5 to 8, the side in column 9, which is a
/// blank, O or R, then the letters, and LF, on the last line too. Numbers are right-justified, without leading zeros. An empty
/// file is the empty tray.
///
/// Letters are filed as the die has them: small letters as capitals, then U as V and J as I. Any other byte is filed as
/// the byte 0. Column 9 is never folded: a small o is no side. The tray that was read is not judged here: [`Tray::check`] and
/// all other calls refuse a byte 0 among the letters (`BadSlipByte`). The tray is written to the first part of each buffer,
/// and the rest is unchanged.
///
/// # Errors
///
/// In this order: [`TrayBuffersTooSmall`](crate::RefusalKind::TrayBuffersTooSmall), if fewer than [`MAX_FILE`] letters,
/// [`FILE_ENDS`] ends or [`FILE_ENDS`] sides are lent; [`FileTooLong`](crate::RefusalKind::FileTooLong); and of the first bad
/// line [`BadLine`](crate::RefusalKind::BadLine), [`WrongSlipNumber`](crate::RefusalKind::WrongSlipNumber) or
/// [`WrongLength`](crate::RefusalKind::WrongLength). All three buffers then hold what they held.
///
/// ```
/// use kotsghane::{read_tray, FILE_ENDS, MAX_FILE};
///
/// let (mut letters, mut ends, mut sides) = (vec![0; MAX_FILE], vec![0; FILE_ENDS], vec![0; FILE_ENDS]);
/// let file = b"   1   3 avg\n   2   4Ruj.7\n";
/// let written = read_tray(file, &mut letters, &mut ends, &mut sides).unwrap();
/// assert_eq!((written.letters, written.slips), (7, 2));
/// assert_eq!((&letters[..7], &ends[..2], &sides[..2]), (&b"AVGVI.\0"[..], &[3, 7][..], &b" R"[..]));
/// ```
pub fn read_tray(file: &[u8], letters: &mut [u8], ends: &mut [u16], sides: &mut [u8]) -> Result<Written, Refusal> {
    sys::read_tray(file, letters, ends, sides).map(Written::of)
}

impl Tray {
    /// The tray of a tray file. A line has the slip number in columns 1 to 4, the length in columns 5 to 8, the side in column 9,
    /// which is a blank, O or R, then the letters, and LF, on the last line too. Numbers are right-justified, without leading
    /// zeros; the length counts bytes.
    ///
    /// Letters are filed as [`read_tray`] has it: small letters as capitals, U as V, J as I. Any other byte is filed as the byte
    /// 0, so the tray does not tell which it was. The tray is not judged: [`Tray::check`] and all other calls do that.
    ///
    /// # Errors
    ///
    /// [`FileTooLong`](crate::RefusalKind::FileTooLong); or of the first bad line [`BadLine`](crate::RefusalKind::BadLine),
    /// [`WrongSlipNumber`](crate::RefusalKind::WrongSlipNumber) or [`WrongLength`](crate::RefusalKind::WrongLength).
    ///
    /// ```
    /// use kotsghane::{RefusalKind, Side, Tray};
    ///
    /// assert_eq!(Tray::read("   1   3 AVG\n   2   3 AES\n"), Ok(Tray::of(&["AVG", "AES"])));
    /// assert_eq!(Tray::read("   1   3 avg\n   2   2 uj\n"), Ok(Tray::of(&["AVG", "VI"])));
    /// let sided = Tray::of_sides([(Side::Obverse, "AVG"), (Side::Reverse, "PAX")]);
    /// assert_eq!(Tray::read("   1   3Oavg\n   2   3Rpax\n"), Ok(sided));
    ///
    /// let refusal = Tray::read("   1   3 AVG\n   3   3 AES\n").unwrap_err();
    /// assert_eq!((refusal.kind(), refusal.detail()), (RefusalKind::WrongSlipNumber, 2));
    /// assert_eq!(Tray::read("   1   3oAVG\n").unwrap_err().kind(), RefusalKind::BadLine);
    ///
    /// // A digit is read, and then refused by the tray check.
    /// let tray = Tray::read("   1   3 avg\n   2   3 a3s\n").unwrap();
    /// assert_eq!(tray.check().unwrap_err().kind(), RefusalKind::BadSlipByte);
    /// ```
    pub fn read(file: impl AsRef<[u8]>) -> Result<Tray, Refusal> {
        let (mut letters, mut ends, mut sides) = (vec![0; MAX_FILE], vec![0; FILE_ENDS], vec![0; FILE_ENDS]);
        let written = read_tray(file.as_ref(), &mut letters, &mut ends, &mut sides)?;
        Ok(written.tray(letters, ends, sides))
    }

    /// The tray file of an accepted tray. [`Tray::read`] reads it again, and gives the same tray except that U is V there and
    /// J is I.
    ///
    /// # Errors
    ///
    /// What [`Tray::check`] refuses: `TooManySlips`, `EmptySlip`, `SlipTooLong`, `TooManyLetters`, `LastEndMismatch`,
    /// `BadSlipByte`, `BadSide`.
    ///
    /// ```
    /// use kotsghane::{Side, Tray};
    ///
    /// let mut tray = Tray::of(&["IMPCAES", "AUG"]);
    /// tray.push_side(Side::Reverse, "PAX");
    /// let file = tray.to_file().unwrap();
    /// assert_eq!(file, b"   1   7 IMPCAES\n   2   3 AUG\n   3   3RPAX\n");
    ///
    /// let mut read = Tray::of(&["IMPCAES", "AVG"]);
    /// read.push_side(Side::Reverse, "PAX");
    /// assert_eq!(Tray::read(file), Ok(read));
    /// ```
    pub fn to_file(&self) -> Result<Vec<u8>, Refusal> {
        self.check()?;
        let mut file = Vec::with_capacity(self.len() * LINE + self.letters().len());
        for ((side, slip), number) in self.sided_slips().zip(1..) {
            let columns: String = format!("{number:4}{:4}{side}", slip.len());
            file.extend_from_slice(columns.as_bytes());
            file.extend_from_slice(slip);
            file.push(b'\n');
        }
        Ok(file)
    }
}
