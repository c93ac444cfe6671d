//! J8 strings.

use crate::{raw, Error};

/// The longest text that is read, of a string, of JSON8 or of TSV8.
pub const TEXT_MAX: usize = 32_768;

/// The room that always suffices to write `length` bytes: six for each, and
/// the two quotes.
///
/// # Panics
/// If no `usize` can hold it.
#[must_use]
pub const fn write_room(length: usize) -> usize {
    match length.checked_mul(6) {
        Some(room) if room <= usize::MAX - 2 => room + 2,
        _ => panic!("no room can be that long"),
    }
}

/// The length of a result, or the refusal.
pub(crate) fn length(result: raw::j8_result) -> Result<usize, Error> {
    Error::check(result.number, 0, result.place).map(|()| result.length)
}

/// Reads a J8 string's text: puts the bytes that it denotes at the start of
/// `out` and answers how many they are.
///
/// The text is the whole string and nothing more; no blanks are skipped. A
/// refused text leaves `out` as it was, and bytes past the result are never
/// touched. As much room as the text is long always suffices. Nothing is
/// allocated.
///
/// ```
/// let mut name = [0; 16];
/// let length = j8::read(br#""a\tb""#, &mut name)?;
/// assert_eq!(&name[..length], b"a\tb");
/// # Ok::<(), j8::Error>(())
/// ```
///
/// # Errors
/// Refusals 2 to 4, 6 to 12 and 23 to 27: the text is too long, malformed, or there is
/// no room.
pub fn read(text: &[u8], out: &mut [u8]) -> Result<usize, Error> {
    length(raw::string_read(text, out))
}

/// Writes any bytes as a J8 string at the start of `out` and answers the text's
/// length: `"..."` if they are valid UTF-8, `b'...'` otherwise. [`write_room`]
/// always suffices. Nothing is allocated.
///
/// ```
/// let mut text = [0; j8::write_room(4)];
/// let length = j8::write(b"caf\xe9", &mut text)?;
/// assert_eq!(&text[..length], br"b'caf\ye9'");
/// # Ok::<(), j8::Error>(())
/// ```
///
/// # Errors
/// [`NoRoom`](crate::Refusal::NoRoom) alone; `out` is then as it was.
pub fn write(data: &[u8], out: &mut [u8]) -> Result<usize, Error> {
    length(raw::string_write(data, out))
}

/// Reads a J8 string's text into a vector of its own.
///
/// # Errors
/// Refusals 2 to 4, 6 to 11 and 23 to 27, as of [`read`].
pub fn read_to_vec(text: &[u8]) -> Result<Vec<u8>, Error> {
    // A text over the cap is refused anyway and needs no room.
    let mut out = vec![0; text.len().min(TEXT_MAX)];
    let length = read(text, &mut out)?;
    out.truncate(length);
    Ok(out)
}

/// Writes any bytes as a J8 string into a vector of its own.
///
/// # Panics
/// If no vector can hold [`write_room`] bytes.
#[must_use]
pub fn write_to_vec(data: &[u8]) -> Vec<u8> {
    // Most names are plain, so a third more than that is tried first.
    let mut out = vec![0; data.len() + data.len() / 3 + 8];
    let length = write(data, &mut out).unwrap_or_else(|_| {
        out = vec![0; write_room(data.len())];
        write(data, &mut out).expect("the room suffices")
    });
    out.truncate(length);
    out
}
