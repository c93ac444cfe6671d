//! J8 Lines: one line, an upload call by call, the J8 Lines definition over the
//! joined text, and the writer.
//!
//! The calls and the definition share the reading of a line and the limits, and
//! nothing else, so that they can be compared.

use crate::{opening, put_bytes, put_json, read, refuse, Count, Fill, Refusal, Sink};
use crate::{refuse_character, CONTROL, NO_ROOM, TOO_LONG, UNFIT};

/// The longest line, LF not counted, and the least line buffer.
pub const LINE_MAX: usize = 1_024;
/// The most bytes that an upload takes.
pub const UPLOAD_MAX: usize = 1_048_576;
/// The bytes of a record before its payload.
pub const RECORD_HEAD: usize = 4;

/// The kind of a payload that is valid UTF-8.
pub const TEXT: u16 = 1;
/// The kind of any other payload.
pub const BYTES: u16 = 2;

const UPLOAD_LIMIT: u32 = 17;
const ENDED: u32 = 18;

// --------------------------------------------------------------- one line

/// What is left without the blanks at both ends, and where it starts; nothing
/// if the line is ignored.
pub(crate) fn stripped(line: &[u8]) -> Option<(usize, &[u8])> {
    let stays = |b: &u8| !matches!(b, b' ' | b'\t' | b'\r');
    let start = line.iter().position(stays)?;
    let end = line.iter().rposition(stays)? + 1;
    Some((start, &line[start..end]))
}

/// A bare line is valid UTF-8 with no control but tab.
pub(crate) fn judge_bare(text: &[u8]) -> Result<(), Refusal> {
    let valid = match std::str::from_utf8(text) {
        Ok(_) => text.len(),
        Err(fault) => fault.valid_up_to(),
    };
    // A control before the ill-formed character is further left. No early exit,
    // so that all the bytes are compared at once; there is hardly ever one.
    let control = |b: u8| b < 0x20 && b != b'\t';
    if text[..valid]
        .iter()
        .fold(false, |seen, &b| seen | control(b))
    {
        let place = text.iter().position(|&b| control(b)).unwrap_or(valid);
        return refuse(CONTROL, place);
    }
    if valid < text.len() {
        return refuse_character(text, 0, valid);
    }
    Ok(())
}

/// A bare line's payload: itself.
fn read_bare(text: &[u8], out: &mut [u8]) -> Result<usize, Refusal> {
    judge_bare(text)?;
    match out.get_mut(..text.len()) {
        Some(room) => room.copy_from_slice(text),
        None => return refuse(NO_ROOM, 0),
    }
    Ok(text.len())
}

fn kind_of(payload: &[u8]) -> u16 {
    match std::str::from_utf8(payload) {
        Ok(_) => TEXT,
        Err(_) => BYTES,
    }
}

/// Reads a line of at most [`LINE_MAX`] bytes, puts its record at the start of
/// `out` and answers the record's length, 0 if the line is ignored. A refused
/// line leaves `out` as it was. Places are in the line as received.
pub fn read_line(line: &[u8], out: &mut [u8]) -> Result<usize, Refusal> {
    let Some((start, text)) = stripped(line) else {
        return Ok(0);
    };
    let (head, payload) = out.split_at_mut(RECORD_HEAD.min(out.len()));
    let bare = opening(text).is_none();
    let reader = if bare { read_bare } else { read };
    let length = reader(text, payload).map_err(|refusal| match refusal.number {
        NO_ROOM => refusal,
        number => Refusal {
            number,
            place: start + refusal.place,
        },
    })?;
    if head.len() < RECORD_HEAD {
        return refuse(NO_ROOM, 0);
    }
    let kind = if bare {
        TEXT
    } else {
        kind_of(&payload[..length])
    };
    // A payload is never longer than its line.
    head[..2].copy_from_slice(&(length as u16).to_le_bytes());
    head[2..].copy_from_slice(&kind.to_le_bytes());
    Ok(RECORD_HEAD + length)
}

// -------------------------------------------------------- call by call

/// The state of an upload. Any values may stand in it.
#[derive(Clone, Copy, Debug, Default, PartialEq, Eq)]
pub struct Upload {
    pub taken: usize,
    pub lfs: usize,
    pub held: usize,
    pub used: usize,
    pub ended: bool,
    pub refusal: u32,
    pub line: usize,
    pub place: usize,
}

/// What a call answers; all 0 where nothing is refused.
#[derive(Clone, Copy, Debug, Default, PartialEq, Eq)]
pub struct Answer {
    pub number: u32,
    pub line: usize,
    pub place: usize,
}

impl Answer {
    /// A refusal that no line has and no state keeps.
    fn lineless(number: u32) -> Answer {
        Answer {
            number,
            line: 0,
            place: 0,
        }
    }
}

impl Upload {
    /// 0 for everything, and not ended.
    pub fn fresh() -> Upload {
        Upload::default()
    }

    /// The refusal that the state keeps, or zeros.
    fn kept(&self) -> Answer {
        match self.refusal {
            0 => Answer::default(),
            number => Answer {
                number,
                line: self.line,
                place: self.place,
            },
        }
    }

    /// What a call answers before it looks at anything else.
    fn beforehand(&self, line_room: usize, room: usize) -> Answer {
        let unfit = line_room < LINE_MAX
            || self.held > LINE_MAX
            || self.taken > UPLOAD_MAX
            || self.lfs > self.taken
            || self.used > room;
        if unfit {
            Answer::lineless(UNFIT)
        } else if self.refusal != 0 {
            self.kept()
        } else if self.ended {
            Answer::lineless(ENDED)
        } else {
            Answer::default()
        }
    }

    fn keep(mut self, refusal: Refusal) -> (Upload, Answer) {
        self.refusal = refusal.number;
        self.line = self.lfs + 1;
        self.place = refusal.place;
        (self, self.kept())
    }

    /// Takes the bytes of a piece.
    pub fn feed(mut self, piece: &[u8], line: &mut [u8], out: &mut [u8]) -> (Upload, Answer) {
        let answer = self.beforehand(line.len(), out.len());
        if answer.number != 0 {
            return (self, answer);
        }
        let mut rest = piece;
        while let Some(&next) = rest.first() {
            if self.taken == UPLOAD_MAX {
                let place = self.held;
                return self.keep(Refusal {
                    number: UPLOAD_LIMIT,
                    place,
                });
            }
            let run = if next == b'\n' {
                match read_line(&line[..self.held], &mut out[self.used..]) {
                    Ok(length) => self.used += length,
                    Err(refusal) => return self.keep(refusal),
                }
                self.lfs += 1;
                self.held = 0;
                1
            } else {
                if self.held == LINE_MAX {
                    return self.keep(Refusal {
                        number: TOO_LONG,
                        place: LINE_MAX,
                    });
                }
                // As many as neither limit stops. At least one, by the above.
                let most = (LINE_MAX - self.held).min(UPLOAD_MAX - self.taken);
                let open = &rest[..most.min(rest.len())];
                let run = open.iter().position(|&b| b == b'\n').unwrap_or(open.len());
                line[self.held..self.held + run].copy_from_slice(&open[..run]);
                self.held += run;
                run
            };
            self.taken += run;
            rest = &rest[run..];
        }
        (self, Answer::default())
    }

    /// Reads the line held, if any byte is, and ends the upload.
    pub fn finish(mut self, line: &[u8], out: &mut [u8]) -> (Upload, Answer) {
        let answer = self.beforehand(line.len(), out.len());
        if answer.number != 0 {
            return (self, answer);
        }
        if self.held > 0 {
            match read_line(&line[..self.held], &mut out[self.used..]) {
                Ok(length) => self.used += length,
                Err(refusal) => return self.keep(refusal),
            }
        }
        self.held = 0;
        self.ended = true;
        (self, Answer::default())
    }
}

// ---------------------------------------------------------- the definition

/// The first refusal in a text: the place of its byte in the text, or the
/// text's length if the finish is refused, and the rest as the state has it.
struct First {
    at: usize,
    answer: Answer,
}

/// The J8 Lines definition: the state and both buffers, the line buffer first,
/// for the joined text, whether a finish came, and the buffers as first lent.
/// It knows no feeding step and no piece.
///
/// # Panics
/// If the line buffer is short, of which the definition says nothing.
pub fn definition(
    text: &[u8],
    finished: bool,
    line: &[u8],
    out: &[u8],
) -> (Upload, Vec<u8>, Vec<u8>) {
    assert!(line.len() >= LINE_MAX, "a short line buffer");
    let (mut line, mut out) = (line.to_vec(), out.to_vec());

    let mut record = [0; RECORD_HEAD + LINE_MAX];
    let mut used = 0;
    let mut first: Option<First> = None;
    let mut start = 0;
    for (before, whole) in text.split(|&b| b == b'\n').enumerate() {
        let end = start + whole.len();
        let refused = |at, number, place| {
            let line = before + 1;
            let answer = Answer {
                number,
                line,
                place,
            };
            Some(First { at, answer })
        };
        // A byte that is one too many, the LF at the end with them.
        let over = (start..text.len().min(end + 1)).contains(&UPLOAD_MAX);
        let long = whole.len() > LINE_MAX;
        if over && !(long && start + LINE_MAX < UPLOAD_MAX) {
            first = refused(UPLOAD_MAX, UPLOAD_LIMIT, UPLOAD_MAX - start);
        } else if long {
            first = refused(start + LINE_MAX, TOO_LONG, LINE_MAX);
        } else if end < text.len() || (finished && !whole.is_empty()) {
            // A record never finds this too small: the lent room is judged here.
            match read_line(whole, &mut record) {
                Err(Refusal { number, place }) => first = refused(end, number, place),
                Ok(length) if length > out.len() - used => first = refused(end, NO_ROOM, 0),
                Ok(length) => {
                    out[used..used + length].copy_from_slice(&record[..length]);
                    used += length;
                }
            }
        }
        if first.is_some() {
            break;
        }
        start = end + 1;
    }

    let ended = finished && first.is_none();
    let (taken, answer) = match first {
        Some(First { at, answer }) => (&text[..at], answer),
        None => (text, Answer::default()),
    };
    let mut open = 0;
    for part in taken.split(|&b| b == b'\n') {
        line[..part.len()].copy_from_slice(part);
        open = part.len();
    }
    let state = Upload {
        taken: taken.len(),
        lfs: taken.iter().filter(|&&b| b == b'\n').count(),
        held: if ended { 0 } else { open },
        used,
        ended,
        refusal: answer.number,
        line: answer.line,
        place: answer.place,
    };
    (state, line, out)
}

/// What the definition answers for a call, by the state that it gives for the
/// calls up to and with that one, and whether a finish came before it.
pub fn definition_answer(state: &Upload, finished_before: bool) -> Answer {
    match state.kept() {
        refusal if refusal.number != 0 => refusal,
        _ if finished_before => Answer::lineless(ENDED),
        none => none,
    }
}

/// One call of an upload.
#[derive(Clone, Copy, Debug)]
pub enum Call<'a> {
    Feed(&'a [u8]),
    Finish,
}

/// The joined text of a list of calls, all bytes fed before the first finish,
/// and whether a finish came.
pub fn joined(calls: &[Call]) -> (Vec<u8>, bool) {
    let mut text = Vec::new();
    for call in calls {
        match call {
            Call::Feed(piece) => text.extend_from_slice(piece),
            Call::Finish => return (text, true),
        }
    }
    (text, false)
}

// ------------------------------------------------------------- the writer

/// The first record's kind and payload, and the bytes behind it; nothing if it
/// is cut short.
fn split_record(records: &[u8]) -> Option<(u16, &[u8], &[u8])> {
    let [l0, l1, k0, k1, rest @ ..] = records else {
        return None;
    };
    let length = usize::from(u16::from_le_bytes([*l0, *l1]));
    let kind = u16::from_le_bytes([*k0, *k1]);
    Some((kind, rest.get(..length)?, &rest[length..]))
}

/// Puts the lines of records that are known to be right.
fn put_lines(records: &[u8], sink: &mut impl Sink) {
    let mut rest = records;
    while let Some((kind, payload, behind)) = split_record(rest) {
        match kind {
            TEXT => put_json(payload, sink),
            _ => put_bytes(payload, sink),
        }
        sink.put(b"\n");
        rest = behind;
    }
}

/// Writes records as lines, each string quoted and one LF after each.
pub fn write_lines(records: &[u8], out: &mut [u8]) -> Result<usize, Refusal> {
    let mut rest = records;
    while !rest.is_empty() {
        match split_record(rest) {
            Some((kind, payload, behind)) if kind == kind_of(payload) => rest = behind,
            _ => return refuse(UNFIT, 0),
        }
    }
    let mut count = Count(0);
    put_lines(records, &mut count);
    if count.0 > out.len() {
        return refuse(NO_ROOM, 0);
    }
    let mut sink = Fill { out, at: 0 };
    put_lines(records, &mut sink);
    Ok(sink.at)
}

#[cfg(test)]
mod tests;
