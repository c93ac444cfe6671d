//! Why a call was refused.

use crate::raw;
use std::{fmt, io, str};

/// The reasons for a refusal, by their numbers in `j8.h`.
///
/// No refusal has the number 5: it stood for all five faults of UTF-8, which are told
/// apart now. [`is_utf8`](Refusal::is_utf8) asks for any of them.
#[derive(Clone, Copy, Debug, PartialEq, Eq, Hash)]
#[non_exhaustive]
#[repr(u32)]
pub enum Refusal {
    /// A lent buffer, state, record or node table is unfit.
    Unfit = 1,
    /// The text is over [`TEXT_MAX`](crate::TEXT_MAX) bytes, or an upload's line
    /// over [`LINE_ROOM`](crate::LINE_ROOM).
    TooLong = 2,
    /// A string text doesn't begin with `"` `'` `u'` `b'`.
    NoOpening = 3,
    /// The text ends where more is needed.
    CutOff = 4,
    /// A literal control byte, below 0x20.
    Control = 6,
    /// An escape is unknown, cut off or malformed.
    BadEscape = 7,
    /// A single-quoted `\u{h}` from d800 to dfff.
    Surrogate = 8,
    /// A single-quoted `\u{h}` above 10ffff.
    TooLarge = 9,
    /// `\y` in `u''` or `''`.
    ByteEscape = 10,
    /// Bytes after the closing quote, or after the JSON8 value other than
    /// whitespace and comments.
    Trailing = 11,
    /// All else is right, and the result is longer than the room.
    NoRoom = 12,
    /// JSON8: this can't stand here.
    Misplaced = 13,
    /// JSON8: a malformed number.
    Number = 14,
    /// JSON8: a bracket is over [`DEPTH_MAX`](crate::DEPTH_MAX) deep.
    TooDeep = 15,
    /// JSON8: a node is over [`NODES_MAX`](crate::NODES_MAX).
    TooManyNodes = 16,
    /// An upload is over [`UPLOAD_MAX`](crate::UPLOAD_MAX) bytes.
    UploadLimit = 17,
    /// An upload already ended.
    Ended = 18,
    /// TSV8: the first line is missing or isn't `!tsv8` with 1 to
    /// [`COLUMNS_MAX`](crate::COLUMNS_MAX) names, a type is none of the four, or a
    /// `!type` isn't the second line.
    BadHeader = 19,
    /// TSV8: a line has the wrong number of cells, begins with neither tab nor `!`,
    /// or begins with `!` after data.
    BadLine = 20,
    /// TSV8: a cell doesn't fit the type of its column.
    WrongType = 21,
    /// TSV8: a cell is empty, or blank.
    EmptyCell = 22,
    /// UTF-8: a byte from 80 to bf or f8 to ff, with which no character begins.
    Utf8BadEncoding = 23,
    /// UTF-8: too few continuation bytes, also where the text, the line, the cell or the
    /// comment ends.
    Utf8Incomplete = 24,
    /// UTF-8: more bytes than the character needs.
    Utf8Overlong = 25,
    /// UTF-8: half of a surrogate pair, from d800 to dfff.
    Utf8Surrogate = 26,
    /// UTF-8: a number above 10ffff.
    Utf8TooLarge = 27,
}

impl Refusal {
    /// All of them, in the order of their numbers, which begin at 1 and leave out 5.
    pub const ALL: &'static [Refusal] = &[
        Refusal::Unfit,
        Refusal::TooLong,
        Refusal::NoOpening,
        Refusal::CutOff,
        Refusal::Control,
        Refusal::BadEscape,
        Refusal::Surrogate,
        Refusal::TooLarge,
        Refusal::ByteEscape,
        Refusal::Trailing,
        Refusal::NoRoom,
        Refusal::Misplaced,
        Refusal::Number,
        Refusal::TooDeep,
        Refusal::TooManyNodes,
        Refusal::UploadLimit,
        Refusal::Ended,
        Refusal::BadHeader,
        Refusal::BadLine,
        Refusal::WrongType,
        Refusal::EmptyCell,
        Refusal::Utf8BadEncoding,
        Refusal::Utf8Incomplete,
        Refusal::Utf8Overlong,
        Refusal::Utf8Surrogate,
        Refusal::Utf8TooLarge,
    ];

    /// Its number, from 1 to 27 and never 5.
    pub const fn number(self) -> u32 {
        self as u32
    }

    /// Whether it is a fault of UTF-8: one of the five from
    /// [`Utf8BadEncoding`](Refusal::Utf8BadEncoding) to
    /// [`Utf8TooLarge`](Refusal::Utf8TooLarge). A name in Latin-1, say, has mostly one
    /// of the first two. Only `b'...'` can hold such bytes.
    ///
    /// ```
    /// let error = j8::read_to_vec(b"\"caf\xe9\"").unwrap_err();
    /// assert_eq!(error.refusal, j8::Refusal::Utf8Incomplete);
    /// assert!(error.refusal.is_utf8());
    /// ```
    pub const fn is_utf8(self) -> bool {
        matches!(
            self,
            Refusal::Utf8BadEncoding
                | Refusal::Utf8Incomplete
                | Refusal::Utf8Overlong
                | Refusal::Utf8Surrogate
                | Refusal::Utf8TooLarge
        )
    }
}

/// The sentence alone, as the archive tells it: the command prints the same.
impl fmt::Display for Refusal {
    fn fmt(&self, f: &mut fmt::Formatter<'_>) -> fmt::Result {
        let mut room = [0; raw::SENTENCE_ROOM];
        let told = raw::sentence(self.number(), &mut room);
        // The room is enough for every number, and the sentences are ASCII.
        f.write_str(str::from_utf8(&room[..told.length]).unwrap_or_default())
    }
}

impl From<Refusal> for u32 {
    fn from(refusal: Refusal) -> u32 {
        refusal.number()
    }
}

/// The refusal with this number, or the number back if there is none.
impl TryFrom<u32> for Refusal {
    type Error = u32;

    fn try_from(number: u32) -> Result<Refusal, u32> {
        let mut all = Refusal::ALL.iter().copied();
        all.find(|refusal| refusal.number() == number).ok_or(number)
    }
}

/// What is unfit of a value that shall be written.
#[derive(Clone, Copy, Debug, PartialEq, Eq, Hash)]
#[non_exhaustive]
pub enum Unfit {
    /// It is over [`DEPTH_MAX`](crate::DEPTH_MAX) brackets deep.
    TooDeep,
    /// It has over [`NODES_MAX`](crate::NODES_MAX) nodes, keys with them.
    TooManyNodes,
    /// A number's text is none.
    Number,
}

impl fmt::Display for Unfit {
    fn fmt(&self, f: &mut fmt::Formatter<'_>) -> fmt::Result {
        f.write_str(match self {
            Unfit::TooDeep => "the value is over 32 brackets deep",
            Unfit::TooManyNodes => "the value has over 1,024 nodes",
            Unfit::Number => "the text of a number is none",
        })
    }
}

/// A refused call: why, and where.
///
/// ```
/// let error = j8::read_to_vec(b"\"scans\" x").unwrap_err();
/// assert_eq!(error.refusal, j8::Refusal::Trailing);
/// assert_eq!((error.number(), error.line, error.place), (11, None, 7));
/// assert_eq!(
///     error.to_string(),
///     "refusal 11 at byte 7: there is more behind the end of the string or value"
/// );
/// ```
#[derive(Clone, Copy, Debug, PartialEq, Eq, Hash)]
#[non_exhaustive]
pub struct Error {
    /// Why.
    pub refusal: Refusal,
    /// The line of an upload, from 1. Nothing for every other text, and where no
    /// line is at fault: [`Refusal::Unfit`] and [`Refusal::Ended`].
    pub line: Option<usize>,
    /// The byte where the fault stands, from 0: in the line as received, blanks
    /// with it, or in the text.
    pub place: usize,
    /// What is unfit of a [`Value`](crate::Value) that shall be written, if
    /// [`Refusal::Unfit`] is about one.
    pub unfit: Option<Unfit>,
}

impl Error {
    /// A refusal of a text at a byte.
    #[must_use]
    pub const fn new(refusal: Refusal, place: usize) -> Error {
        Error {
            refusal,
            line: None,
            place,
            unfit: None,
        }
    }

    /// The same in a line of an upload, from 1.
    #[must_use]
    pub const fn in_line(self, line: usize) -> Error {
        Error {
            line: Some(line),
            ..self
        }
    }

    /// The refusal's number.
    pub const fn number(&self) -> u32 {
        self.refusal.number()
    }

    /// Whether it is a fault of UTF-8, as of [`Refusal::is_utf8`].
    pub const fn is_utf8(&self) -> bool {
        self.refusal.is_utf8()
    }

    /// What an answer of the library says, if it is a refusal. Line 0 is none.
    pub(crate) fn check(number: u32, line: usize, place: usize) -> Result<(), Error> {
        match Refusal::try_from(number) {
            Ok(refusal) => Err(Error {
                refusal,
                line: (line > 0).then_some(line),
                place,
                unfit: None,
            }),
            Err(0) => Ok(()),
            // The archive's numbers are the header's, and a state that is kept
            // here never held another.
            Err(other) => unreachable!("the library answered {other}"),
        }
    }
}

impl fmt::Display for Error {
    fn fmt(&self, f: &mut fmt::Formatter<'_>) -> fmt::Result {
        write!(f, "refusal {}", self.number())?;
        match self {
            Error {
                line: Some(line),
                place,
                ..
            } => write!(f, " in line {line} at byte {place}")?,
            // Of the whole text, or of what was lent: no byte is at fault.
            Error {
                refusal: Refusal::Unfit | Refusal::TooLong | Refusal::NoRoom | Refusal::Ended,
                ..
            } => {}
            Error { place, .. } => write!(f, " at byte {place}")?,
        }
        match self.unfit {
            Some(unfit) => write!(f, ": {unfit}"),
            None => write!(f, ": {}", self.refusal),
        }
    }
}

impl std::error::Error for Error {}

/// Of the kind [`InvalidData`](io::ErrorKind::InvalidData), with the error inside.
impl From<Error> for io::Error {
    fn from(error: Error) -> io::Error {
        io::Error::new(io::ErrorKind::InvalidData, error)
    }
}
