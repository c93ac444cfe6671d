//! A node table written in its one form.

use super::{Json8, Nodes};
use crate::strings::length;
use crate::{raw, Error, Refusal};

/// The room that always suffices to write the table that a text of `length`
/// bytes was read to: twice the text, as [`Nodes::write`] says.
///
/// # Panics
/// If no `usize` can hold it.
#[must_use]
pub const fn write_json8_room(length: usize) -> usize {
    match length.checked_mul(2) {
        Some(room) => room,
        None => panic!("no room can be that long"),
    }
}

/// Writes a node table as a JSON8 text at the start of `out` and answers the
/// text's length. `text` and `store` are those that the table speaks of.
///
/// There is one form: no spaces, no comments, no trailing commas, every key
/// quoted, numbers as they stand. A text of at most
/// [`TEXT_MAX`](crate::TEXT_MAX) bytes reads back to the same tree.
///
/// Any table will do, also one that no reader made. Bytes past the result are
/// never touched. Nothing is allocated. Six bytes for each node and for each byte
/// of its strings and numbers always suffice.
///
/// ```
/// // A dict of one pair: the key is in the text, the string in the store.
/// let table = [8, 3, 0, 1, 5, 1, 0, 4, 6, 1, 0, 4];
/// let mut out = [0; 32];
/// let length = j8::write_json8(&table, b"name", b"caf\xe9", &mut out)?;
/// assert_eq!(&out[..length], br#"{"name":b'caf\ye9'}"#);
///
/// // Without its value the key is no pair.
/// let error = j8::write_json8(&[8, 2, 0, 1, 5, 1, 0, 4], b"name", b"", &mut out).unwrap_err();
/// assert_eq!(error.refusal, j8::Refusal::Unfit);
/// # Ok::<(), j8::Error>(())
/// ```
///
/// # Errors
/// [`Unfit`](Refusal::Unfit) if its nodes aren't one tree within the limits, or a
/// range is outside its buffer, or a number's text is none; then
/// [`NoRoom`](Refusal::NoRoom). `out` is then as it was.
pub fn write_json8(
    table: &[u32],
    text: &[u8],
    store: &[u8],
    out: &mut [u8],
) -> Result<usize, Error> {
    length(raw::json8_write(table, text, store, out))
}

/// Writes a node table as a JSON8 text into a vector of its own.
///
/// ```
/// let table = [7, 3, 0, 2, 3, 1, 0, 2, 4, 1, 0, 4]; // ranges may overlap
/// assert_eq!(j8::write_json8_to_vec(&table, b"12.5", b"")?, b"[12,12.5]");
/// # Ok::<(), j8::Error>(())
/// ```
///
/// # Errors
/// [`Unfit`](Refusal::Unfit), as of [`write_json8`].
///
/// # Panics
/// If no vector can hold the text.
pub fn write_json8_to_vec(table: &[u32], text: &[u8], store: &[u8]) -> Result<Vec<u8>, Error> {
    // A table as it was read seldom needs more. Ranges may overlap, so no room
    // by the buffers' lengths would do for all.
    let mut room = text.len() + store.len() + table.len();
    loop {
        let mut out = vec![0; room];
        match write_json8(table, text, store, &mut out) {
            Err(error) if error.refusal == Refusal::NoRoom => room *= 2,
            written => {
                out.truncate(written?);
                return Ok(out);
            }
        }
    }
}

impl Nodes<'_> {
    /// Writes the nodes as a JSON8 text, as [`write_json8`] does.
    ///
    /// [`write_json8_room`] of the text's length always suffices. What grows
    /// most just doubles: an unquoted key of one letter and its colon, a `"`
    /// between single quotes, a `\u` half without its other half.
    ///
    /// ```
    /// let text = br"{ tray: 2, folders: ['scans/in', b'caf\ye9'], } # backup";
    /// let (mut table, mut store) = ([0; 64], [0; 64]);
    /// let nodes = j8::read_json8(text, &mut table, &mut store)?;
    /// let mut out = [0; j8::write_json8_room(64)];
    /// let length = nodes.write(&mut out)?;
    /// assert_eq!(&out[..length], br#"{"tray":2,"folders":["scans/in",b'caf\ye9']}"#);
    /// # Ok::<(), j8::Error>(())
    /// ```
    ///
    /// # Errors
    /// [`NoRoom`](Refusal::NoRoom) alone: what was read is fit.
    pub fn write(&self, out: &mut [u8]) -> Result<usize, Error> {
        write_json8(self.table, self.text, self.store, out)
    }

    /// Writes the nodes as a JSON8 text into a vector of its own.
    #[must_use]
    pub fn write_to_vec(&self) -> Vec<u8> {
        write_json8_to_vec(self.table, self.text, self.store).expect("what was read is fit")
    }
}

impl Json8 {
    /// Writes it back in its one form; as [`Nodes::write`].
    ///
    /// ```
    /// let backup = j8::Json8::read(br"{ name: 'Front desk', } # second floor")?;
    /// let mut out = [0; 24];
    /// let length = backup.write(&mut out)?;
    /// assert_eq!(&out[..length], br#"{"name":"Front desk"}"#);
    /// assert_eq!(backup.write(&mut out[..8]).unwrap_err().refusal, j8::Refusal::NoRoom);
    /// # Ok::<(), j8::Error>(())
    /// ```
    ///
    /// # Errors
    /// [`NoRoom`](Refusal::NoRoom) alone: what was read is fit.
    pub fn write(&self, out: &mut [u8]) -> Result<usize, Error> {
        self.nodes().write(out)
    }

    /// Writes it back in its one form, into a vector of its own.
    ///
    /// ```
    /// let backup = j8::Json8::read(b"[1, 2.50, 'it\\'s', ]")?;
    /// let text = backup.write_to_vec();
    /// assert_eq!(text, br#"[1,2.50,"it's"]"#);
    /// // Written once more it is the same.
    /// assert_eq!(j8::Json8::read(text.as_slice())?.write_to_vec(), text);
    /// # Ok::<(), j8::Error>(())
    /// ```
    #[must_use]
    pub fn write_to_vec(&self) -> Vec<u8> {
        self.nodes().write_to_vec()
    }
}
