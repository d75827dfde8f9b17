//! Why a call is refused.
use crate::{FILE_ENDS, MAX_FILE, MAX_LEAST, MAX_LETTERS, MAX_SHORTEST, MAX_SLIP, MAX_SLIPS, MAX_TEXT, WORK_CELLS};
use std::error::Error;
use std::fmt;

/// What is wrong where a call is refused: one kind for each number of the table in [`refusals`](crate::refusals).
///
/// ```
/// use kotsghane::RefusalKind;
///
/// assert_eq!(RefusalKind::SlipTooLong.number(), 3);
/// assert_eq!(RefusalKind::from_number(3), Some(RefusalKind::SlipTooLong));
/// ```
#[derive(Clone, Copy, Debug, PartialEq, Eq, Hash)]
#[non_exhaustive]
#[repr(u32)]
pub enum RefusalKind {
    /// 1: the tray has over [`MAX_SLIPS`] slips.
    TooManySlips = 1,
    /// 2: a slip has no letters, since its end is not above the one before (0 before the first). The detail is the slip.
    EmptySlip = 2,
    /// 3: a slip has over [`MAX_SLIP`] letters. The detail is the slip.
    SlipTooLong = 3,
    /// 4: the tray has over [`MAX_LETTERS`] letters.
    TooManyLetters = 4,
    /// 5: the last end (0 if there is none) is not the count of letters. Only [`Tray::from_parts`](crate::Tray::from_parts)
    /// and the forms in lent buffers can meet it.
    LastEndMismatch = 5,
    /// 6: a slip has a byte that is neither a capital A to Z nor the full stop. The detail is the slip.
    BadSlipByte = 6,
    /// 7: the work area has under [`WORK_CELLS`] cells.
    WorkAreaTooSmall = 7,
    /// 8: the legend is longer than its buffer. The detail is how many letters it has.
    LegendBufferTooSmall = 8,
    /// 9: there are more joins than their list takes, or fewer records of places than slips of the side. The detail is how many
    /// joins there are.
    JoinOrPlaceListTooSmall = 9,
    /// 10: a slip number is 0 or above the count of slips. The detail is that number.
    NoSuchSlip = 10,
    /// 11: a pair names one slip twice. The detail is the slip.
    SameSlipTwice = 11,
    /// 12: the text has over [`MAX_TEXT`] bytes.
    TextTooLong = 12,
    /// 13: the text has a byte that is neither a capital A to Z nor the full stop. The detail is its place, from 1.
    BadTextByte = 13,
    /// 14: there are more occurrences than their list takes. The detail is how many there are.
    FoundListTooSmall = 14,
    /// 15: too few letters, ends or sides are lent for a tray: under [`MAX_FILE`] letters or [`FILE_ENDS`] ends or sides to read
    /// a file, under [`MAX_LETTERS`] letters or [`MAX_SLIPS`] ends or sides to merge two trays.
    TrayBuffersTooSmall = 15,
    /// 16: the tray file has over [`MAX_FILE`] bytes.
    FileTooLong = 16,
    /// 17: a line of the tray file is not of the layout. The detail is the line.
    BadLine = 17,
    /// 18: the slip number in a line of the tray file is not the number of the line. The detail is the line.
    WrongSlipNumber = 18,
    /// 19: the length stated in a line of the tray file is not the count of its letters. The detail is the line.
    WrongLength = 19,
    /// 20: the shortest legend is sought and the side has over [`MAX_SHORTEST`] kept slips.
    TooManyKeptSlips = 20,
    /// 21: the least overlap is 0 or over [`MAX_LEAST`].
    LeastOverlapOutOfRange = 21,
    /// 22: there are more sides or fewer than slips, or a byte is no [`Side`](crate::Side). The number also stands for a side
    /// named that is none, which [`Settings`](crate::Settings) cannot hold. Only
    /// [`Tray::from_sided_parts`](crate::Tray::from_sided_parts) and the forms in lent buffers can meet it.
    BadSide = 22,
}

impl RefusalKind {
    /// All kinds, in the order of their numbers.
    pub const ALL: &'static [RefusalKind] = &[
        RefusalKind::TooManySlips,
        RefusalKind::EmptySlip,
        RefusalKind::SlipTooLong,
        RefusalKind::TooManyLetters,
        RefusalKind::LastEndMismatch,
        RefusalKind::BadSlipByte,
        RefusalKind::WorkAreaTooSmall,
        RefusalKind::LegendBufferTooSmall,
        RefusalKind::JoinOrPlaceListTooSmall,
        RefusalKind::NoSuchSlip,
        RefusalKind::SameSlipTwice,
        RefusalKind::TextTooLong,
        RefusalKind::BadTextByte,
        RefusalKind::FoundListTooSmall,
        RefusalKind::TrayBuffersTooSmall,
        RefusalKind::FileTooLong,
        RefusalKind::BadLine,
        RefusalKind::WrongSlipNumber,
        RefusalKind::WrongLength,
        RefusalKind::TooManyKeptSlips,
        RefusalKind::LeastOverlapOutOfRange,
        RefusalKind::BadSide,
    ];

    /// The number in the table of refusals, which the programs print.
    #[must_use]
    pub const fn number(self) -> u32 {
        self as u32
    }

    /// The kind with this number, or none if the table does not have it.
    #[must_use]
    pub fn from_number(number: u32) -> Option<RefusalKind> {
        RefusalKind::ALL.iter().copied().find(|kind| kind.number() == number)
    }
}

/// Why a call is refused: a kind, and one detail.
///
/// Its [`Display`](fmt::Display) form is a sentence with the detail and the limit, if there are any.
///
/// ```
/// use kotsghane::{compose_tray, RefusalKind, Settings, Tray};
///
/// let refusal = compose_tray(&Tray::of(&["AVG", "avg"]), Settings::default()).unwrap_err();
/// assert_eq!(refusal.to_string(), "slip 2 has a byte that is neither a capital A to Z nor a full stop");
///
/// let advice = match refusal.kind() {
///     RefusalKind::TooManySlips | RefusalKind::TooManyLetters => "split the tray".to_string(),
///     RefusalKind::BadSlipByte => format!("read slip {} again", refusal.detail()), // `Tray::slips` has its letters
///     _ => refusal.to_string(),
/// };
/// assert_eq!(advice, "read slip 2 again");
/// ```
#[derive(Clone, Copy, Debug, PartialEq, Eq, Hash)]
pub struct Refusal {
    kind: RefusalKind,
    detail: usize,
}

impl Refusal {
    /// The refusal of this kind with this detail.
    pub(crate) const fn new(kind: RefusalKind, detail: usize) -> Refusal {
        Refusal { kind, detail }
    }

    /// What is wrong.
    #[must_use]
    pub const fn kind(&self) -> RefusalKind {
        self.kind
    }

    /// The number of the kind in the table of refusals.
    #[must_use]
    pub const fn number(&self) -> u32 {
        self.kind.number()
    }

    /// A slip, a place in the text, a line of the tray file or a count, as the documentation of the [kind](RefusalKind) says;
    /// 0 if it names no detail. A slip is the lowest at fault, a place or a line the first.
    #[must_use]
    pub const fn detail(&self) -> usize {
        self.detail
    }
}

/// What may be wrong with sides, and what to do.
const BAD_SIDE: &str =
    "a side is missing, one too many or none of the three: give each slip a blank, O or R, and name one of these";

impl fmt::Display for Refusal {
    fn fmt(&self, f: &mut fmt::Formatter<'_>) -> fmt::Result {
        use RefusalKind as Kind;
        let d = self.detail;
        match self.kind {
            Kind::TooManySlips => write!(f, "the tray has over {MAX_SLIPS} slips"),
            Kind::EmptySlip => write!(f, "slip {d} has no letters"),
            Kind::SlipTooLong => write!(f, "slip {d} has over {MAX_SLIP} letters"),
            Kind::TooManyLetters => write!(f, "the tray has over {MAX_LETTERS} letters"),
            Kind::LastEndMismatch => write!(f, "the last end is not the count of letters"),
            Kind::BadSlipByte => write!(
                f,
                "slip {d} has a byte that is neither a capital A to Z nor a full stop"
            ),
            Kind::WorkAreaTooSmall => write!(f, "the work area has under {WORK_CELLS} cells"),
            Kind::LegendBufferTooSmall => write!(f, "the legend has {d} letters, more than its buffer takes"),
            Kind::JoinOrPlaceListTooSmall => write!(
                f,
                "the lists are too short for {d} joins and one place for each slip of the side"
            ),
            Kind::NoSuchSlip => write!(f, "the tray has no slip {d}"),
            Kind::SameSlipTwice => write!(f, "the pair names slip {d} twice"),
            Kind::TextTooLong => write!(f, "the text has over {MAX_TEXT} bytes"),
            Kind::BadTextByte => write!(f, "place {d} of the text is neither a capital A to Z nor a full stop"),
            Kind::FoundListTooSmall => write!(f, "there are {d} occurrences, more than their list takes"),
            Kind::TrayBuffersTooSmall => write!(
                f,
                "fewer letters, ends or sides are lent than {MAX_FILE}, {FILE_ENDS} and {FILE_ENDS} for a tray file, \
                 or {MAX_LETTERS}, {MAX_SLIPS} and {MAX_SLIPS} for two trays merged"
            ),
            Kind::FileTooLong => write!(f, "the tray file has over {MAX_FILE} bytes"),
            Kind::BadLine => write!(f, "line {d} of the tray file is not of the layout"),
            Kind::WrongSlipNumber => write!(f, "line {d} of the tray file has a slip number other than {d}"),
            Kind::WrongLength => write!(f, "line {d} of the tray file states another length than it has"),
            Kind::TooManyKeptSlips => write!(f, "the side has over {MAX_SHORTEST} kept slips"),
            Kind::LeastOverlapOutOfRange => write!(f, "the least overlap is zero or over {MAX_LEAST}"),
            Kind::BadSide => f.write_str(BAD_SIDE),
        }
    }
}

impl Error for Refusal {}
