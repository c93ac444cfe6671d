//! What the tests share: the two implementations as calls of one shape, and a
//! room that is watched on every side. The library is called by this crate's own
//! functions, so that they are what is tested.

use j8::raw::j8_result;

pub type Call = fn(&[u8], &mut [u8]) -> j8_result;

pub fn library_read(text: &[u8], out: &mut [u8]) -> j8_result {
    library(j8::read(text, out))
}

pub fn library_write(data: &[u8], out: &mut [u8]) -> j8_result {
    library(j8::write(data, out))
}

pub fn reference_read(text: &[u8], out: &mut [u8]) -> j8_result {
    reference(j8_reference::read(text, out))
}

pub fn reference_write(data: &[u8], out: &mut [u8]) -> j8_result {
    reference(j8_reference::write(data, out))
}

fn library(answer: Result<usize, j8::Error>) -> j8_result {
    answer.map_or_else(
        |error| {
            assert_eq!(error.line, None);
            refused(error.number(), error.place)
        },
        done,
    )
}

fn reference(answer: Result<usize, j8_reference::Refusal>) -> j8_result {
    answer.map_or_else(|refusal| refused(refusal.number, refusal.place), done)
}

fn done(length: usize) -> j8_result {
    j8_result {
        number: 0,
        place: 0,
        length,
    }
}

fn refused(number: u32, place: usize) -> j8_result {
    j8_result {
        number,
        place,
        length: 0,
    }
}

/// Bytes on each side of the lent room.
pub const MARGIN: usize = 32;

/// A room with its margins, filled by a pattern that differs from place to
/// place; `flip` turns every bit of it, so that no byte can hide by being
/// what the pattern has.
pub fn patterned(room: usize, flip: bool) -> Vec<u8> {
    let mask = if flip { 0xff } else { 0 };
    (0..room + 2 * MARGIN)
        .map(|i| (i.wrapping_mul(37).wrapping_add(11)) as u8 ^ mask)
        .collect()
}

/// Lends exactly `room` bytes of a patterned buffer; gives the answer and the
/// whole buffer afterwards.
pub fn lend(call: Call, input: &[u8], room: usize, flip: bool) -> (j8_result, Vec<u8>) {
    let mut buffer = patterned(room, flip);
    let result = call(input, &mut buffer[MARGIN..MARGIN + room]);
    (result, buffer)
}
