//! J8 Notation strings, lines, JSON8 and TSV8 for printer backups and logs.
//!
//! A J8 string is a text for any bytes: `"..."` for valid UTF-8, as in JSON,
//! and `b'...'` for the rest. So a folder name with odd bytes comes back from
//! a backup as it went in. This crate is a safe face over the C interface of
//! the proved library `libj8.a`.
//!
//! ```
//! let name = b"scans/caf\xe9"; // a Latin-1 name, no UTF-8
//! let text = j8::write_to_vec(name);
//! assert_eq!(text, br"b'scans/caf\ye9'");
//! assert_eq!(j8::read_to_vec(&text)?, name);
//! # Ok::<(), j8::Error>(())
//! ```
//!
//! A bad text gets one [`Error`]: a numbered [`Refusal`] with its place.
//!
//! ```
//! let error = j8::read_to_vec(b"\"scans\" x").unwrap_err();
//! assert_eq!((error.refusal, error.place), (j8::Refusal::Trailing, 7));
//! ```
//!
//! J8 Lines have one name a line: [`Upload`] reads them from an upload that
//! arrives in pieces, [`write_lines`] writes them.
//!
//! ```
//! let mut upload = j8::Upload::new();
//! for piece in ["scans/in\nsca", "ns/out\n"] {
//!     upload.feed(piece.as_bytes())?;
//!     for record in upload.drain() {
//!         println!("{record:?}");
//!     }
//! }
//! upload.finish()?;
//! # assert_eq!(upload.state().lfs, 2);
//! # Ok::<(), j8::Error>(())
//! ```
//!
//! JSON8 is JSON with J8 strings, comments, trailing commas and unquoted keys:
//! [`Json8`] reads a settings backup to a node table in memory of its own,
//! [`read_json8`] to lent buffers. [`write_json8`] writes a table in its one form,
//! also a [`Table`] made from a [`Value`].
//!
//! ```
//! let backup = j8::Json8::read("{ name: 'Front desk', tray: 2, } # second floor")?;
//! for (key, value) in backup.root().pairs() {
//!     println!("{}: {:?}", key.escape_ascii(), value.kind());
//! }
//! assert_eq!(backup.write_to_vec(), br#"{"name":"Front desk","tray":2}"#);
//! # Ok::<(), j8::Error>(())
//! ```
//!
//! TSV8 is a table with typed columns, divided by tabs: [`Tsv8`] reads a counter
//! log to a [`Sheet`] in memory of its own, [`read_tsv8`] to lent buffers.
//!
//! ```
//! let log = j8::Tsv8::read("!tsv8\tdesk\tscans\n!type\tStr\tInt\n\tFront desk\t41\n")?;
//! for row in log.sheet().rows() {
//!     println!("{row:?}");
//! }
//! assert_eq!(log.sheet().cell(0, 1), Some(j8::Cell::Int("41")));
//! # Ok::<(), j8::Error>(())
//! ```
//!
//! Whatever has `_to_vec` in its name, [`Upload`], [`Json8`], [`Tsv8`], [`Table`],
//! [`Value`] and an [`io::Error`](std::io::Error) made of an [`Error`] allocate;
//! everything else works in what it is lent.

#![deny(missing_docs, unsafe_code, missing_debug_implementations)]

mod error;
mod json8;
mod lines;
mod strings;
mod tsv8;
mod upload;

// The one place where pointers are handed to the archive.
#[allow(unsafe_code)]
pub mod raw;

pub use error::{Error, Refusal, Unfit};
pub use json8::{
    read_json8, show_string, write_json8, write_json8_room, write_json8_to_vec, Children, Iter,
    Json8, Kind, Node, Nodes, Pairs, Table, Value, DEPTH_MAX, NODES_MAX, NODE_ROOM, TABLE_ROOM,
};
pub use lines::{
    push_record, write_lines, write_lines_room, write_lines_to_vec, Record, Records, KIND_BYTES,
    KIND_TEXT, RECORD_HEAD,
};
pub use strings::{read, read_to_vec, write, write_room, write_to_vec, TEXT_MAX};
pub use tsv8::{
    read_tsv8, Cell, Cells, Column, Columns, Row, Rows, Sheet, Tsv8, Type, CELLS_ROOM, CELL_ROOM,
    COLUMNS_MAX, NAMES_ROOM, TYPES_ROOM,
};
pub use upload::{
    feed_room, LentUpload, Upload, UploadState, LINE_ROOM, UPLOAD_MAX, UPLOAD_OUTPUT_MAX,
};

/// The programs in the two READMEs are run as tests.
#[cfg(doctest)]
mod readme {
    #[doc = include_str!("../README.md")]
    struct Crate;
    #[doc = include_str!("../../README.md")]
    struct Repository;
}
