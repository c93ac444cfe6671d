//! The C interface as it stands in `include/j8.h`, and each of its functions over
//! slices. Every unsafe block of this crate is in this module.
//!
//! The functions over slices are safe, and answer what the C functions do. They
//! are for what the types of this crate don't express, such as an upload's state
//! that was made by hand: the library takes any.

#![allow(non_camel_case_types)]

/// The answer of a call: `number` 0 means done with a result of `length` bytes,
/// otherwise it is a refusal at `place`.
#[repr(C)]
#[derive(Clone, Copy, Debug, PartialEq, Eq)]
pub struct j8_result {
    /// The refusal's number, or 0.
    pub number: u32,
    /// Its place, or 0.
    pub place: usize,
    /// The result's length, or 0.
    pub length: usize,
}

/// The state of an upload.
#[repr(C)]
#[derive(Clone, Copy, Debug, PartialEq, Eq)]
pub struct j8_upload {
    /// Bytes taken, LFs with them.
    pub taken: usize,
    /// LFs among them.
    pub lfs: usize,
    /// Bytes of the open line in the line buffer.
    pub held: usize,
    /// Bytes of the output that hold records. It may be set to 0 when they were
    /// handed on.
    pub used: usize,
    /// Whether a finish ended the upload: 0 or 1; a call takes all but 0 as 1.
    pub ended: u32,
    /// The refusal that is kept, or 0.
    pub refusal: u32,
    /// Its line from 1, or 0.
    pub line: usize,
    /// Its place in the line as received, or 0.
    pub place: usize,
}

/// What one call of an upload answers: `number` 0 means that nothing is refused,
/// otherwise it is a refusal at `place` in `line`.
#[repr(C)]
#[derive(Clone, Copy, Debug, PartialEq, Eq)]
pub struct j8_answer {
    /// The refusal's number, or 0.
    pub number: u32,
    /// Its line from 1, or 0.
    pub line: usize,
    /// Its place in the line, or 0.
    pub place: usize,
}

/// What a feed or a finish returns.
#[repr(C)]
#[derive(Clone, Copy, Debug, PartialEq, Eq)]
pub struct j8_fed {
    /// The new state.
    pub upload: j8_upload,
    /// The answer.
    pub answer: j8_answer,
}

/// What reading JSON8 answers.
#[repr(C)]
#[derive(Clone, Copy, Debug, PartialEq, Eq)]
pub struct j8_nodes {
    /// The refusal's number, or 0.
    pub number: u32,
    /// Its place, or 0.
    pub place: usize,
    /// Nodes in the table, or 0.
    pub nodes: usize,
    /// Bytes in the store, or 0.
    pub stored: usize,
}

/// What showing a string answers.
#[repr(C)]
#[derive(Clone, Copy, Debug, PartialEq, Eq)]
pub struct j8_shown {
    /// 0, or 1 if there is nothing to show.
    pub number: u32,
    /// 1 if its bytes are in the store, 0 if they are in the text.
    pub stored: u32,
    /// Where they begin.
    pub place: usize,
    /// How many they are.
    pub length: usize,
}

/// What reading TSV8 answers.
#[repr(C)]
#[derive(Clone, Copy, Debug, PartialEq, Eq)]
pub struct j8_sheet {
    /// The refusal's number, or 0.
    pub number: u32,
    /// Its place, or 0.
    pub place: usize,
    /// Names, and types, or 0.
    pub columns: usize,
    /// Cells of all rows, or 0.
    pub cells: usize,
    /// Bytes in the store, or 0.
    pub stored: usize,
}

/// Room that suffices for the sentence of any number.
pub const SENTENCE_ROOM: usize = 128;

extern "C" {
    /// The version of the archive: major times 1,000,000, minor times 1,000, patch.
    ///
    /// # Safety
    /// Nothing is asked for.
    pub fn j8_version() -> u32;

    /// Puts what a refusal's number says into the lent bytes. Any number will do.
    ///
    /// # Safety
    /// As for [`j8_string_read`].
    pub fn j8_sentence(number: u32, out: *mut u8, out_len: usize) -> j8_result;

    /// Reads a J8 string's text into the lent bytes.
    ///
    /// # Safety
    /// Each pointer must be good for its length and aligned for its type, no part
    /// that is written may overlap another, and a null pointer is for length 0
    /// only.
    pub fn j8_string_read(
        text: *const u8,
        text_len: usize,
        out: *mut u8,
        out_len: usize,
    ) -> j8_result;

    /// Writes any bytes as a J8 string into the lent bytes.
    ///
    /// # Safety
    /// As for [`j8_string_read`].
    pub fn j8_string_write(
        data: *const u8,
        data_len: usize,
        out: *mut u8,
        out_len: usize,
    ) -> j8_result;

    /// The state of an upload that nothing was fed to.
    ///
    /// # Safety
    /// Nothing is asked for.
    pub fn j8_upload_fresh() -> j8_upload;

    /// Feeds a piece of the text. Any state will do.
    ///
    /// # Safety
    /// As for [`j8_string_read`].
    pub fn j8_upload_feed(
        upload: j8_upload,
        piece: *const u8,
        piece_len: usize,
        line: *mut u8,
        line_len: usize,
        out: *mut u8,
        out_len: usize,
    ) -> j8_fed;

    /// Reads the line held and ends the upload. Any state will do.
    ///
    /// # Safety
    /// As for [`j8_string_read`].
    pub fn j8_upload_finish(
        upload: j8_upload,
        line: *const u8,
        line_len: usize,
        out: *mut u8,
        out_len: usize,
    ) -> j8_fed;

    /// Writes records as J8 Lines into the lent bytes.
    ///
    /// # Safety
    /// As for [`j8_string_read`].
    pub fn j8_lines_write(
        records: *const u8,
        records_len: usize,
        out: *mut u8,
        out_len: usize,
    ) -> j8_result;

    /// Reads a JSON8 text to the lent table and store. `table_len` counts
    /// numbers, four a node.
    ///
    /// # Safety
    /// As for [`j8_string_read`].
    pub fn j8_json8_read(
        text: *const u8,
        text_len: usize,
        table: *mut u32,
        table_len: usize,
        store: *mut u8,
        store_len: usize,
    ) -> j8_nodes;

    /// Writes a node table as a JSON8 text into the lent bytes. Any table will
    /// do.
    ///
    /// # Safety
    /// As for [`j8_string_read`].
    pub fn j8_json8_write(
        table: *const u32,
        table_len: usize,
        text: *const u8,
        text_len: usize,
        store: *const u8,
        store_len: usize,
        out: *mut u8,
        out_len: usize,
    ) -> j8_result;

    /// Says where the bytes of a string node stand. Any table will do.
    ///
    /// # Safety
    /// As for [`j8_string_read`].
    pub fn j8_json8_show(
        table: *const u32,
        table_len: usize,
        text: *const u8,
        text_len: usize,
        store: *const u8,
        store_len: usize,
        node: usize,
    ) -> j8_shown;

    /// Reads a TSV8 text to the lent names, types, cells and store. The lengths of
    /// names, types and cells count numbers: three a name or cell, one a type.
    ///
    /// # Safety
    /// As for [`j8_string_read`].
    pub fn j8_tsv8_read(
        text: *const u8,
        text_len: usize,
        names: *mut u32,
        names_len: usize,
        types: *mut u32,
        types_len: usize,
        cells: *mut u32,
        cells_len: usize,
        store: *mut u8,
        store_len: usize,
    ) -> j8_sheet;
}

/// [`j8_version`].
pub fn version() -> u32 {
    // SAFETY: it is lent nothing.
    unsafe { j8_version() }
}

/// [`j8_sentence`] over a slice.
pub fn sentence(number: u32, out: &mut [u8]) -> j8_result {
    // SAFETY: the part is a slice, and there is no other. The number may be any.
    unsafe { j8_sentence(number, out.as_mut_ptr(), out.len()) }
}

/// [`j8_string_read`] over slices.
pub fn string_read(text: &[u8], out: &mut [u8]) -> j8_result {
    // SAFETY: a slice's pointer is good for its length and aligned, and not null
    // where it is empty. `out` is lent mutably, so it doesn't overlap `text`.
    unsafe { j8_string_read(text.as_ptr(), text.len(), out.as_mut_ptr(), out.len()) }
}

/// [`j8_string_write`] over slices.
pub fn string_write(data: &[u8], out: &mut [u8]) -> j8_result {
    // SAFETY: both parts are slices, and `out`, being lent mutably, doesn't
    // overlap `data`.
    unsafe { j8_string_write(data.as_ptr(), data.len(), out.as_mut_ptr(), out.len()) }
}

/// [`j8_upload_fresh`].
pub fn upload_fresh() -> j8_upload {
    // SAFETY: it is lent nothing.
    unsafe { j8_upload_fresh() }
}

/// [`j8_upload_feed`] over slices.
pub fn upload_feed(upload: j8_upload, piece: &[u8], line: &mut [u8], out: &mut [u8]) -> j8_fed {
    // SAFETY: all parts are slices, and `line` and `out`, being lent mutably,
    // overlap nothing. The state may be any: it is checked against the lengths.
    unsafe {
        j8_upload_feed(
            upload,
            piece.as_ptr(),
            piece.len(),
            line.as_mut_ptr(),
            line.len(),
            out.as_mut_ptr(),
            out.len(),
        )
    }
}

/// [`j8_upload_finish`] over slices.
pub fn upload_finish(upload: j8_upload, line: &[u8], out: &mut [u8]) -> j8_fed {
    // SAFETY: both parts are slices, and `out`, being lent mutably, doesn't
    // overlap `line`. The state may be any: it is checked against the lengths.
    unsafe {
        j8_upload_finish(
            upload,
            line.as_ptr(),
            line.len(),
            out.as_mut_ptr(),
            out.len(),
        )
    }
}

/// [`j8_lines_write`] over slices.
pub fn lines_write(records: &[u8], out: &mut [u8]) -> j8_result {
    // SAFETY: both parts are slices, and `out`, being lent mutably, doesn't
    // overlap `records`.
    unsafe { j8_lines_write(records.as_ptr(), records.len(), out.as_mut_ptr(), out.len()) }
}

/// [`j8_json8_read`] over slices.
pub fn json8_read(text: &[u8], table: &mut [u32], store: &mut [u8]) -> j8_nodes {
    // SAFETY: all parts are slices, so the table is aligned for its numbers, and
    // `table` and `store`, being lent mutably, overlap nothing.
    unsafe {
        j8_json8_read(
            text.as_ptr(),
            text.len(),
            table.as_mut_ptr(),
            table.len(),
            store.as_mut_ptr(),
            store.len(),
        )
    }
}

/// [`j8_json8_write`] over slices.
pub fn json8_write(table: &[u32], text: &[u8], store: &[u8], out: &mut [u8]) -> j8_result {
    // SAFETY: all parts are slices, so the table is aligned for its numbers, and
    // `out`, being lent mutably, overlaps nothing. The table may be any: it is
    // judged against the lengths.
    unsafe {
        j8_json8_write(
            table.as_ptr(),
            table.len(),
            text.as_ptr(),
            text.len(),
            store.as_ptr(),
            store.len(),
            out.as_mut_ptr(),
            out.len(),
        )
    }
}

/// [`j8_json8_show`] over slices.
pub fn json8_show(table: &[u32], text: &[u8], store: &[u8], node: usize) -> j8_shown {
    // SAFETY: all parts are slices, and nothing is written. The table and the
    // node may be any: they are checked against the lengths.
    unsafe {
        j8_json8_show(
            table.as_ptr(),
            table.len(),
            text.as_ptr(),
            text.len(),
            store.as_ptr(),
            store.len(),
            node,
        )
    }
}

/// [`j8_tsv8_read`] over slices.
pub fn tsv8_read(
    text: &[u8],
    names: &mut [u32],
    types: &mut [u32],
    cells: &mut [u32],
    store: &mut [u8],
) -> j8_sheet {
    // SAFETY: all parts are slices, so those of numbers are aligned for them, and
    // the four that are written, being lent mutably, overlap nothing.
    unsafe {
        j8_tsv8_read(
            text.as_ptr(),
            text.len(),
            names.as_mut_ptr(),
            names.len(),
            types.as_mut_ptr(),
            types.len(),
            cells.as_mut_ptr(),
            cells.len(),
            store.as_mut_ptr(),
            store.len(),
        )
    }
}
