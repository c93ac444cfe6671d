//! An upload's state and answers as the reference has them and as `j8.h` has them.

use j8::raw::{j8_answer, j8_upload};
use j8_reference::lines::{Answer, Upload};

pub fn as_state(upload: Upload) -> j8_upload {
    j8_upload {
        taken: upload.taken,
        lfs: upload.lfs,
        held: upload.held,
        used: upload.used,
        ended: u32::from(upload.ended),
        refusal: upload.refusal,
        line: upload.line,
        place: upload.place,
    }
}

pub fn as_answer(answer: Answer) -> j8_answer {
    j8_answer {
        number: answer.number,
        line: answer.line,
        place: answer.place,
    }
}
