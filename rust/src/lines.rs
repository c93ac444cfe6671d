//! Records, and J8 Lines written from them.

use crate::strings::length;
use crate::{raw, Error, Refusal};

/// The bytes of a record before its payload: length and kind.
pub const RECORD_HEAD: usize = 4;
/// The kind of a record whose payload is valid UTF-8.
pub const KIND_TEXT: u16 = 1;
/// The kind of a record whose payload is anything else.
pub const KIND_BYTES: u16 = 2;

/// What one line of an upload denotes.
///
/// ```
/// use j8::Record;
///
/// assert_eq!(Record::from("scans"), Record::Text("scans"));
/// assert_eq!(Record::from(b"caf\xe9".as_slice()), Record::Bytes(b"caf\xe9"));
/// ```
#[derive(Clone, Copy, Debug, PartialEq, Eq, Hash)]
pub enum Record<'a> {
    /// Valid UTF-8, in whatever style the line was.
    Text(&'a str),
    /// Bytes that are no valid UTF-8.
    Bytes(&'a [u8]),
}

impl<'a> Record<'a> {
    /// Its bytes, text or not.
    pub fn as_bytes(&self) -> &'a [u8] {
        match self {
            Record::Text(text) => text.as_bytes(),
            Record::Bytes(bytes) => bytes,
        }
    }

    /// Its text, if it is valid UTF-8.
    pub fn as_str(&self) -> Option<&'a str> {
        match self {
            Record::Text(text) => Some(text),
            Record::Bytes(_) => None,
        }
    }

    /// [`KIND_TEXT`] or [`KIND_BYTES`].
    pub fn kind(&self) -> u16 {
        match self {
            Record::Text(_) => KIND_TEXT,
            Record::Bytes(_) => KIND_BYTES,
        }
    }
}

impl<'a> From<&'a str> for Record<'a> {
    fn from(text: &'a str) -> Self {
        Record::Text(text)
    }
}

/// Of the kind that fits the bytes.
impl<'a> From<&'a [u8]> for Record<'a> {
    fn from(bytes: &'a [u8]) -> Self {
        std::str::from_utf8(bytes).map_or(Record::Bytes(bytes), Record::Text)
    }
}

impl AsRef<[u8]> for Record<'_> {
    fn as_ref(&self) -> &[u8] {
        self.as_bytes()
    }
}

/// The records that bytes hold, one after the other.
///
/// It ends at the bytes' end, or at a record that is cut short or whose kind
/// doesn't fit its payload; an upload's output never has such a one.
///
/// ```
/// use j8::Record;
///
/// let bytes = b"\x02\x00\x01\x00ab\x01\x00\x02\x00\xff\x09";
/// let mut records = j8::Records::new(bytes);
/// assert_eq!(records.next(), Some(Record::Text("ab")));
/// assert_eq!(records.next(), Some(Record::Bytes(b"\xff")));
/// assert_eq!(records.next(), None);
/// assert_eq!(records.rest(), b"\x09"); // cut short
/// ```
#[derive(Clone, Debug)]
#[must_use = "records that nobody takes are lost"]
pub struct Records<'a> {
    rest: &'a [u8],
}

impl<'a> Records<'a> {
    /// Begins at the first byte.
    pub fn new(bytes: &'a [u8]) -> Self {
        Records { rest: bytes }
    }

    /// The bytes behind the last record given. Once there is no further record
    /// they are empty, or begin with one that is none.
    pub fn rest(&self) -> &'a [u8] {
        self.rest
    }
}

impl<'a> Iterator for Records<'a> {
    type Item = Record<'a>;

    fn next(&mut self) -> Option<Record<'a>> {
        let (head, behind) = self.rest.split_first_chunk::<RECORD_HEAD>()?;
        let length = usize::from(u16::from_le_bytes([head[0], head[1]]));
        let record = Record::from(behind.get(..length)?);
        if record.kind() != u16::from_le_bytes([head[2], head[3]]) {
            return None;
        }
        self.rest = &behind[length..];
        Some(record)
    }
}

impl std::iter::FusedIterator for Records<'_> {}

/// Appends a record with this payload, of the kind that fits it.
///
/// ```
/// let mut records = Vec::new();
/// j8::push_record(&mut records, b"scans");
/// j8::push_record(&mut records, b"caf\xe9");
/// assert_eq!(j8::write_lines_to_vec(&records)?, b"\"scans\"\nb'caf\\ye9'\n");
/// # Ok::<(), j8::Error>(())
/// ```
///
/// # Panics
/// If the payload is over 65,535 bytes, which no record holds.
pub fn push_record(records: &mut Vec<u8>, payload: &[u8]) {
    let length = u16::try_from(payload.len()).expect("a record holds at most 65,535 bytes");
    records.extend(length.to_le_bytes());
    records.extend(Record::from(payload).kind().to_le_bytes());
    records.extend(payload);
}

/// The room that always suffices to write `length` bytes of records as lines:
/// six for each.
///
/// # Panics
/// If no `usize` can hold it.
pub const fn write_lines_room(length: usize) -> usize {
    match length.checked_mul(6) {
        Some(room) => room,
        None => panic!("no room can be that long"),
    }
}

/// Writes records as J8 Lines at the start of `out`, each payload as
/// [`write`](crate::write) has it and one LF after each, and answers the text's
/// length. [`write_lines_room`] always suffices. Nothing is allocated.
///
/// # Errors
/// [`Unfit`](Refusal::Unfit) if a record is cut short or its kind doesn't fit
/// its payload, then [`NoRoom`](Refusal::NoRoom); `out` is then as it was.
pub fn write_lines(records: &[u8], out: &mut [u8]) -> Result<usize, Error> {
    length(raw::lines_write(records, out))
}

/// Writes records as J8 Lines into a vector of its own.
///
/// # Errors
/// [`Unfit`](Refusal::Unfit) if a record is cut short or its kind doesn't fit
/// its payload.
///
/// # Panics
/// If no vector can hold [`write_lines_room`] bytes.
pub fn write_lines_to_vec(records: &[u8]) -> Result<Vec<u8>, Error> {
    // Most names are plain, so a third more than that is tried first.
    let mut out = vec![0; records.len() + records.len() / 3];
    let length = match write_lines(records, &mut out) {
        Err(error) if error.refusal == Refusal::NoRoom => {
            out = vec![0; write_lines_room(records.len())];
            write_lines(records, &mut out)?
        }
        answer => answer?,
    };
    out.truncate(length);
    Ok(out)
}
