//! What the tests of JSON8 share: the library and the reference as sides of one
//! shape, and buffers that are watched on every side.

use j8::raw::{self, j8_nodes, j8_shown};
use j8_reference::json8;

pub use j8_inputs::Lent;

// ------------------------------------------------------------- both sides

/// One implementation of the reader and of showing.
pub struct Side {
    pub read: fn(&[u8], &mut [u32], &mut [u8]) -> j8_nodes,
    pub show: fn(&[u32], &[u8], &[u8], usize) -> j8_shown,
}

/// This crate's own functions. They show a string's bytes, and the C function over
/// slices says where these stand.
pub const LIBRARY: Side = Side {
    read: |text, table, store| match j8::read_json8(text, table, store) {
        Ok(nodes) => done(nodes.len(), nodes.store().len()),
        Err(error) => refused(error.number(), error.place),
    },
    show: |table, text, store, node| {
        let shown = raw::json8_show(table, text, store, node);
        let buffer = if shown.stored == 0 { text } else { store };
        let bytes = &buffer[shown.place..shown.place + shown.length];
        let expected = (shown.number == 0).then_some(bytes);
        assert_eq!(j8::show_string(table, text, store, node), expected);
        shown
    },
};

pub const REFERENCE: Side = Side {
    read: |text, table, store| match json8::read(text, table, store) {
        Ok(filled) => done(filled.nodes, filled.stored),
        Err(refusal) => refused(refusal.number, refusal.place),
    },
    show: |table, text, store, node| match json8::show(table, text, store, node) {
        Some(shown) => j8_shown {
            number: 0,
            stored: u32::from(shown.stored),
            place: shown.place,
            length: shown.length,
        },
        None => NOT_SHOWN,
    },
};

pub const NOT_SHOWN: j8_shown = j8_shown {
    number: 1,
    stored: 0,
    place: 0,
    length: 0,
};

pub fn done(nodes: usize, stored: usize) -> j8_nodes {
    j8_nodes {
        number: 0,
        place: 0,
        nodes,
        stored,
    }
}

pub fn refused(number: u32, place: usize) -> j8_nodes {
    j8_nodes {
        number,
        place,
        nodes: 0,
        stored: 0,
    }
}
