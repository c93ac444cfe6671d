//! An upload of J8 Lines that arrives in pieces.

use crate::{raw, Error, Records, Refusal, RECORD_HEAD};
use std::{fmt, io};

/// The line buffer of an upload, and the longest line that is read, its LF not
/// counted.
pub const LINE_ROOM: usize = 1_024;
/// The longest upload, LFs with it.
pub const UPLOAD_MAX: usize = 1_048_576;
/// The room that always suffices for an upload's output, if nothing of it is
/// drained. `a` LF becomes five bytes, and a last line without its LF saves one
/// more.
pub const UPLOAD_OUTPUT_MAX: usize = 2_621_441;

/// The room that always suffices for the records of one feed of `length` bytes,
/// and of a finish, if the records of the calls before were drained. The first LF
/// may end a line of 1,024 bytes that was held; behind it each `a` LF becomes five
/// bytes.
///
/// # Panics
/// If no `usize` can hold it.
pub const fn feed_room(length: usize) -> usize {
    match (length / 2).checked_mul(5) {
        Some(room) if room <= usize::MAX - RECORD_HEAD - LINE_ROOM => {
            room + RECORD_HEAD + LINE_ROOM
        }
        _ => panic!("no room can be that long"),
    }
}

/// How far an upload is: everything that is known between two calls besides the
/// two buffers.
#[derive(Clone, Copy, Debug, Default, PartialEq, Eq, Hash)]
pub struct UploadState {
    /// Bytes taken, LFs with them; the byte that causes a refusal isn't.
    pub taken: usize,
    /// LFs among them.
    pub lfs: usize,
    /// Bytes of the open line, which are in the line buffer.
    pub held: usize,
    /// Bytes of the output that hold records.
    pub used: usize,
    /// Whether a finish ended the upload.
    pub ended: bool,
    /// The refusal that every later call repeats.
    pub refusal: Option<Error>,
}

impl From<UploadState> for raw::j8_upload {
    fn from(state: UploadState) -> Self {
        let (refusal, line, place) = match state.refusal {
            Some(error) => (error.number(), error.line.unwrap_or(0), error.place),
            None => (0, 0, 0),
        };
        raw::j8_upload {
            taken: state.taken,
            lfs: state.lfs,
            held: state.held,
            used: state.used,
            ended: u32::from(state.ended),
            refusal,
            line,
            place,
        }
    }
}

/// Refused, with the number, if the state keeps a refusal that there isn't. The
/// library makes no such state, but takes one.
impl TryFrom<raw::j8_upload> for UploadState {
    type Error = u32;

    fn try_from(state: raw::j8_upload) -> Result<Self, u32> {
        let refusal = match state.refusal {
            0 => None,
            number => Some(Error {
                refusal: Refusal::try_from(number)?,
                line: (state.line > 0).then_some(state.line),
                place: state.place,
                unfit: None,
            }),
        };
        Ok(UploadState {
            taken: state.taken,
            lfs: state.lfs,
            held: state.held,
            used: state.used,
            ended: state.ended != 0,
            refusal,
        })
    }
}

/// An upload's state, and its calls on any two buffers.
#[derive(Clone)]
struct Calls(raw::j8_upload);

impl Calls {
    fn feed(&mut self, piece: &[u8], line: &mut [u8], out: &mut [u8]) -> Result<(), Error> {
        let fed = raw::upload_feed(self.0, piece, line, out);
        self.keep(fed)
    }

    fn finish(&mut self, line: &[u8], out: &mut [u8]) -> Result<(), Error> {
        let fed = raw::upload_finish(self.0, line, out);
        self.keep(fed)
    }

    fn keep(&mut self, fed: raw::j8_fed) -> Result<(), Error> {
        self.0 = fed.upload;
        Error::check(fed.answer.number, fed.answer.line, fed.answer.place)
    }

    fn state(&self) -> UploadState {
        UploadState::try_from(self.0).expect("the library's refusals have their numbers")
    }

    /// The output's records, whose room is free from now on.
    fn drain<'a>(&mut self, out: &'a [u8]) -> Records<'a> {
        let used = std::mem::take(&mut self.0.used);
        Records::new(&out[..used])
    }

    /// The state and the room; the buffers would bury them.
    fn show(&self, name: &str, room: usize, f: &mut fmt::Formatter<'_>) -> fmt::Result {
        f.debug_struct(name)
            .field("state", &self.state())
            .field("room", &room)
            .finish_non_exhaustive()
    }
}

/// What a write answers for a feed that took so many bytes. A refused one took the
/// bytes before the one that caused it, and a write that fails must have taken
/// none: so the next write, which repeats the refusal, is the one to fail.
fn written(taken: usize, fed: Result<(), Error>) -> io::Result<usize> {
    match fed {
        Err(error) if taken == 0 => Err(error.into()),
        _ => Ok(taken),
    }
}

/// An upload with buffers of its own. The output grows as it must; where records
/// are [drained](Upload::drain) after each piece it stays at [`feed_room`] of the
/// longest.
///
/// How the text is cut into pieces makes no difference to the records, the
/// state or the refusal.
///
/// ```
/// let mut upload = j8::Upload::new();
/// for piece in [b"scans/a b\nb'x\\y".as_slice(), b"ff'\n\n''"] {
///     upload.feed(piece)?;
/// }
/// upload.finish()?;
/// let names: Vec<&[u8]> = upload.records().map(|record| record.as_bytes()).collect();
/// assert_eq!(names, [b"scans/a b".as_slice(), b"x\xff", b""]);
/// # Ok::<(), j8::Error>(())
/// ```
///
/// A bad line gets one refusal, which stays. The records of the good lines
/// before it are kept:
///
/// ```
/// let mut upload = j8::Upload::new();
/// let error = upload.feed(b"scans\n\"x\" y\nmore\n").unwrap_err();
/// assert_eq!(
///     error.to_string(),
///     "refusal 11 in line 2 at byte 3: there is more behind the end of the string or value"
/// );
/// assert_eq!(upload.finish(), Err(error));
/// assert_eq!(upload.records().count(), 1);
/// ```
///
/// It is a writer, so that any reader can be copied to it:
///
/// ```
/// let mut file = std::io::Cursor::new("scans\nb'x\\yff'\n");
/// let mut upload = j8::Upload::new();
/// std::io::copy(&mut file, &mut upload)?;
/// upload.finish()?;
/// assert_eq!(upload.records().count(), 2);
/// # Ok::<(), Box<dyn std::error::Error>>(())
/// ```
#[derive(Clone)]
pub struct Upload {
    calls: Calls,
    line: Box<[u8; LINE_ROOM]>,
    out: Vec<u8>,
}

impl Upload {
    /// A fresh upload.
    pub fn new() -> Self {
        Upload {
            calls: Calls(raw::upload_fresh()),
            line: Box::new([0; LINE_ROOM]),
            out: Vec::new(),
        }
    }

    /// Makes room for the records of so many bytes more.
    fn reserve(&mut self, length: usize) {
        // No byte over the limit is taken.
        let length = length.min(UPLOAD_MAX - self.calls.0.taken);
        let room = self.calls.0.used + feed_room(length);
        if self.out.len() < room {
            self.out.resize(room, 0);
        }
    }

    /// Feeds a piece of the text, of any length.
    ///
    /// # Errors
    /// The refusal that an earlier call got; [`Ended`](Refusal::Ended) after a
    /// finish; refusals 2, 4, 6 to 11, 17 and 23 to 27 with their line and place. The
    /// byte that causes one and those behind it aren't taken.
    pub fn feed(&mut self, piece: &[u8]) -> Result<(), Error> {
        self.reserve(piece.len());
        self.calls.feed(piece, &mut *self.line, &mut self.out)
    }

    /// Reads the line that is still open, if any byte of it is held, and ends
    /// the upload.
    ///
    /// # Errors
    /// The refusal that an earlier call got; [`Ended`](Refusal::Ended) after
    /// another finish; refusals 4, 6 to 11 and 23 to 27 of the open line. A refused
    /// finish doesn't end the upload.
    pub fn finish(&mut self) -> Result<(), Error> {
        self.reserve(0);
        self.calls.finish(&*self.line, &mut self.out)
    }

    /// How far the upload is.
    pub fn state(&self) -> UploadState {
        self.calls.state()
    }

    /// The records' bytes so far, without those that were drained.
    pub fn output(&self) -> &[u8] {
        &self.out[..self.calls.0.used]
    }

    /// The records so far, without those that were drained.
    pub fn records(&self) -> Records<'_> {
        Records::new(self.output())
    }

    /// Hands on the records so far: they are given this once, and their room is
    /// used again, whether all are looked at or not.
    ///
    /// ```
    /// let mut upload = j8::Upload::new();
    /// let mut names = Vec::new();
    /// for piece in [b"scans/in\nsca".as_slice(), b"ns/out\nla", b"st"] {
    ///     upload.feed(piece)?;
    ///     names.extend(upload.drain().map(|record| record.as_bytes().to_vec()));
    /// }
    /// assert_eq!(names, [b"scans/in".as_slice(), b"scans/out"]);
    /// upload.finish()?;
    /// assert_eq!(upload.drain().next(), Some(j8::Record::Text("last")));
    /// assert_eq!(upload.drain().next(), None);
    /// # Ok::<(), j8::Error>(())
    /// ```
    pub fn drain(&mut self) -> Records<'_> {
        self.calls.drain(&self.out)
    }

    /// The records' bytes, and nothing behind them.
    #[must_use]
    pub fn into_output(mut self) -> Vec<u8> {
        self.out.truncate(self.calls.0.used);
        self.out
    }
}

impl Default for Upload {
    fn default() -> Self {
        Upload::new()
    }
}

impl fmt::Debug for Upload {
    fn fmt(&self, f: &mut fmt::Formatter<'_>) -> fmt::Result {
        self.calls.show("Upload", self.out.len(), f)
    }
}

/// A write feeds. Where a byte is refused it takes those before, and fails if
/// there are none; the [`Error`] is inside, and [`finish`](Upload::finish) repeats
/// it. A flush does nothing: the end is told by `finish` alone.
impl io::Write for Upload {
    fn write(&mut self, piece: &[u8]) -> io::Result<usize> {
        let before = self.calls.0.taken;
        let fed = self.feed(piece);
        written(self.calls.0.taken - before, fed)
    }

    fn flush(&mut self) -> io::Result<()> {
        Ok(())
    }
}

/// An upload in buffers that are lent to it; nothing is allocated.
///
/// ```
/// let (mut line, mut out) = ([0; j8::LINE_ROOM], [0; 64]);
/// let mut upload = j8::LentUpload::new(&mut line, &mut out);
/// upload.feed(b"sca")?;
/// upload.feed(b"ns\r\n")?;
/// upload.finish()?;
/// assert_eq!(upload.into_output(), b"\x05\x00\x01\x00scans");
/// # Ok::<(), j8::Error>(())
/// ```
pub struct LentUpload<'a> {
    calls: Calls,
    line: &'a mut [u8],
    out: &'a mut [u8],
}

impl<'a> LentUpload<'a> {
    /// A fresh upload. `line` has [`LINE_ROOM`] bytes or more: with a shorter one
    /// every call is [`Unfit`](Refusal::Unfit). A line whose record doesn't fit
    /// into `out` is refused by [`NoRoom`](Refusal::NoRoom); [`feed_room`] of the
    /// longest piece suffices if records are drained after each call, and
    /// [`UPLOAD_OUTPUT_MAX`] bytes suffice if they aren't.
    pub fn new(line: &'a mut [u8], out: &'a mut [u8]) -> Self {
        LentUpload {
            calls: Calls(raw::upload_fresh()),
            line,
            out,
        }
    }

    /// Goes on from a state, with the line buffer and the output that belong to
    /// it. Any state will do: one that no upload had gives other records or
    /// [`Unfit`](Refusal::Unfit), and nothing worse.
    ///
    /// ```
    /// let (mut line, mut out) = ([0; j8::LINE_ROOM], [0; 64]);
    /// let mut upload = j8::LentUpload::new(&mut line, &mut out);
    /// upload.feed(b"sca")?;
    /// let state = upload.state();
    ///
    /// let mut upload = j8::LentUpload::resume(state, &mut line, &mut out);
    /// upload.feed(b"ns")?;
    /// upload.finish()?;
    /// assert_eq!(upload.drain().next(), Some(j8::Record::Text("scans")));
    /// # Ok::<(), j8::Error>(())
    /// ```
    pub fn resume(state: UploadState, line: &'a mut [u8], out: &'a mut [u8]) -> Self {
        LentUpload {
            calls: Calls(state.into()),
            line,
            out,
        }
    }

    /// As [`Upload::feed`].
    ///
    /// # Errors
    /// As of [`Upload::feed`]; also [`Unfit`](Refusal::Unfit), before all others,
    /// and [`NoRoom`](Refusal::NoRoom).
    pub fn feed(&mut self, piece: &[u8]) -> Result<(), Error> {
        self.calls.feed(piece, self.line, self.out)
    }

    /// As [`Upload::finish`].
    ///
    /// # Errors
    /// As of [`Upload::finish`]; also [`Unfit`](Refusal::Unfit), before all
    /// others, and [`NoRoom`](Refusal::NoRoom).
    pub fn finish(&mut self) -> Result<(), Error> {
        self.calls.finish(self.line, self.out)
    }

    /// How far the upload is.
    pub fn state(&self) -> UploadState {
        self.calls.state()
    }

    /// The records' bytes so far, without those that were drained.
    pub fn output(&self) -> &[u8] {
        &self.out[..self.used()]
    }

    /// The records so far, without those that were drained.
    pub fn records(&self) -> Records<'_> {
        Records::new(self.output())
    }

    /// As [`Upload::drain`].
    pub fn drain(&mut self) -> Records<'_> {
        self.calls.0.used = self.used();
        self.calls.drain(self.out)
    }

    /// The records' bytes, for as long as the output was lent.
    pub fn into_output(self) -> &'a [u8] {
        let used = self.used();
        &self.out[..used]
    }

    /// A state that was handed in may say more than there is.
    fn used(&self) -> usize {
        self.calls.0.used.min(self.out.len())
    }
}

impl fmt::Debug for LentUpload<'_> {
    fn fmt(&self, f: &mut fmt::Formatter<'_>) -> fmt::Result {
        self.calls.show("LentUpload", self.out.len(), f)
    }
}

/// As of [`Upload`].
impl io::Write for LentUpload<'_> {
    fn write(&mut self, piece: &[u8]) -> io::Result<usize> {
        let before = self.calls.0.taken;
        let fed = self.feed(piece);
        written(self.calls.0.taken - before, fed)
    }

    fn flush(&mut self) -> io::Result<()> {
        Ok(())
    }
}
