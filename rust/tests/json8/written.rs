//! What the tests of the JSON8 writer share: the library and the reference as
//! calls of one shape.

use j8::raw::j8_result;
use j8_inputs::trees::Parts;

pub fn library(parts: &Parts, out: &mut [u8]) -> j8_result {
    let Parts { table, text, store } = parts;
    match j8::write_json8(table, text, store, out) {
        Ok(length) => done(length),
        Err(error) => {
            assert_eq!(error.place, 0);
            refused(error.number())
        }
    }
}

pub fn reference(parts: &Parts, out: &mut [u8]) -> j8_result {
    let Parts { table, text, store } = parts;
    match j8_reference::json8::write(table, text, store, out) {
        Ok(length) => done(length),
        Err(refusal) => j8_result {
            number: refusal.number,
            place: refusal.place,
            length: 0,
        },
    }
}

pub fn done(length: usize) -> j8_result {
    j8_result {
        number: 0,
        place: 0,
        length,
    }
}

pub fn refused(number: u32) -> j8_result {
    j8_result {
        number,
        place: 0,
        length: 0,
    }
}
