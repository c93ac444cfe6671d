//! What the tests of J8 Lines share: the library and the reference as sides of
//! one shape, and buffers that are watched on every side.

use j8::raw::{self, j8_answer, j8_fed, j8_result, j8_upload};
use j8::{Error, LentUpload, UploadState};
use j8_reference::lines::{self, Answer, Upload};

// ------------------------------------------------------------- both sides

/// One implementation of the upload.
pub struct Side {
    pub fresh: fn() -> j8_upload,
    pub feed: fn(j8_upload, &[u8], &mut [u8], &mut [u8]) -> j8_fed,
    pub finish: fn(j8_upload, &mut [u8], &mut [u8]) -> j8_fed,
    pub write: fn(&[u8], &mut [u8]) -> j8_result,
}

impl Side {
    pub fn call(
        &self,
        state: j8_upload,
        call: lines::Call,
        line: &mut [u8],
        out: &mut [u8],
    ) -> j8_fed {
        match call {
            lines::Call::Feed(piece) => (self.feed)(state, piece, line, out),
            lines::Call::Finish => (self.finish)(state, line, out),
        }
    }
}

/// This crate's own types. An upload is taken up again at each call, so that the
/// buffers can be looked at in between.
pub const LIBRARY: Side = Side {
    fresh: || UploadState::default().into(),
    feed: |state, piece, line, out| {
        let mut upload = resume(state, line, out);
        let answer = upload.feed(piece);
        fed(upload.state(), answer)
    },
    finish: |state, line, out| {
        let mut upload = resume(state, line, out);
        let answer = upload.finish();
        fed(upload.state(), answer)
    },
    write: |records, out| match j8::write_lines(records, out) {
        Ok(length) => written(length),
        Err(error) => refused(error.number(), error.place),
    },
};

/// The C functions over slices, for states that the types above can't hold:
/// refusals that there aren't, a line and a place without a refusal.
#[allow(dead_code)]
pub const RAW: Side = Side {
    fresh: raw::upload_fresh,
    feed: raw::upload_feed,
    finish: |state, line, out| raw::upload_finish(state, line, out),
    write: raw::lines_write,
};

fn resume<'a>(state: j8_upload, line: &'a mut [u8], out: &'a mut [u8]) -> LentUpload<'a> {
    let state = UploadState::try_from(state).expect("a refusal that there is");
    LentUpload::resume(state, line, out)
}

fn fed(state: UploadState, answer: Result<(), Error>) -> j8_fed {
    j8_fed {
        upload: state.into(),
        answer: match answer {
            Ok(()) => j8_answer {
                number: 0,
                line: 0,
                place: 0,
            },
            Err(error) => j8_answer {
                number: error.number(),
                line: error.line.unwrap_or(0),
                place: error.place,
            },
        },
    }
}

fn written(length: usize) -> j8_result {
    j8_result {
        number: 0,
        place: 0,
        length,
    }
}

fn refused(number: u32, place: usize) -> j8_result {
    j8_result {
        number,
        place,
        length: 0,
    }
}

pub const REFERENCE: Side = Side {
    fresh: || as_state(Upload::fresh()),
    feed: |state, piece, line, out| as_fed(as_upload(state).feed(piece, line, out)),
    finish: |state, line, out| as_fed(as_upload(state).finish(line, out)),
    write: |records, out| match lines::write_lines(records, out) {
        Ok(length) => written(length),
        Err(refusal) => refused(refusal.number, refusal.place),
    },
};

pub fn as_state(upload: Upload) -> j8_upload {
    j8_upload {
        taken: upload.taken,
        lfs: upload.lfs,
        held: upload.held,
        used: upload.used,
        ended: u32::from(upload.ended),
        refusal: upload.refusal,
        line: upload.line,
        place: upload.place,
    }
}

fn as_upload(state: j8_upload) -> Upload {
    Upload {
        taken: state.taken,
        lfs: state.lfs,
        held: state.held,
        used: state.used,
        ended: state.ended != 0,
        refusal: state.refusal,
        line: state.line,
        place: state.place,
    }
}

pub fn as_answer(answer: Answer) -> j8_answer {
    j8_answer {
        number: answer.number,
        line: answer.line,
        place: answer.place,
    }
}

fn as_fed((upload, answer): (Upload, Answer)) -> j8_fed {
    j8_fed {
        upload: as_state(upload),
        answer: as_answer(answer),
    }
}

// ---------------------------------------------------------------- buffers

/// Bytes on each side of a lent part.
const MARGIN: usize = 32;

/// A lent part with its margins.
#[derive(Clone, PartialEq, Eq)]
pub struct Lent {
    whole: Vec<u8>,
}

/// Differs from place to place.
fn margin() -> [u8; MARGIN] {
    std::array::from_fn(|i| (i as u8).wrapping_mul(37) ^ 0x5a)
}

impl Lent {
    /// The part holds these bytes.
    pub fn new(bytes: &[u8]) -> Lent {
        Lent {
            whole: [&margin(), bytes, &margin()].concat(),
        }
    }

    pub fn part(&mut self) -> &mut [u8] {
        let end = self.whole.len() - MARGIN;
        &mut self.whole[MARGIN..end]
    }

    /// Whether the part holds these bytes and the margins are as they were.
    pub fn holds(&self, bytes: &[u8]) -> bool {
        let (before, rest) = self.whole.split_at(MARGIN);
        let (part, behind) = rest.split_at(rest.len() - MARGIN);
        before == margin() && part == bytes && behind == margin()
    }
}

/// A pattern that differs from place to place; `flip` turns every bit of it, so
/// that no byte can hide by being what the pattern has.
pub fn pattern(length: usize, flip: bool) -> Vec<u8> {
    let mask = if flip { 0xff } else { 0 };
    let mut bytes: Vec<u8> = (0..=255u8).map(|i| i.wrapping_mul(37) ^ mask).collect();
    bytes = bytes.repeat(length / 256 + 1);
    bytes.truncate(length);
    bytes
}
