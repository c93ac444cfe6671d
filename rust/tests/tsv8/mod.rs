//! What the tests of TSV8 share: the implementations as functions of one shape,
//! and the four parts that are lent, watched on every side.

use j8::raw::j8_sheet;
use j8_inputs::Lent;
use j8_reference::tsv8;

pub fn done(columns: usize, cells: usize, stored: usize) -> j8_sheet {
    j8_sheet {
        number: 0,
        place: 0,
        columns,
        cells,
        stored,
    }
}

pub fn refused(number: u32, place: usize) -> j8_sheet {
    j8_sheet {
        number,
        place,
        columns: 0,
        cells: 0,
        stored: 0,
    }
}

/// What is lent: names, types, cells and store.
#[derive(Clone, Debug, PartialEq)]
pub struct Parts {
    pub names: Lent<u32>,
    pub types: Lent<u32>,
    pub cells: Lent<u32>,
    pub store: Lent<u8>,
}

impl Parts {
    /// Parts of these lengths, in a pattern.
    pub fn new([names, types, cells, store]: [usize; 4], flip: bool) -> Parts {
        Parts {
            names: Lent::new(names, flip),
            types: Lent::new(types, flip),
            cells: Lent::new(cells, flip),
            store: Lent::new(store, flip),
        }
    }
}

/// One implementation of the reader.
pub type Read = fn(&[u8], &mut Parts) -> j8_sheet;

/// This crate's own function.
pub const LIBRARY: Read = |text, parts| {
    let sheet = j8::read_tsv8(
        text,
        parts.names.part(),
        parts.types.part(),
        parts.cells.part(),
        parts.store.part(),
    );
    match sheet {
        Ok(sheet) => done(
            sheet.width(),
            sheet.numbers().len() / j8::CELL_ROOM,
            sheet.store().len(),
        ),
        Err(error) => {
            assert_eq!(error.line, None);
            refused(error.number(), error.place)
        }
    }
};

pub const REFERENCE: Read = |text, parts| {
    let filled = tsv8::read(
        text,
        parts.names.part(),
        parts.types.part(),
        parts.cells.part(),
        parts.store.part(),
    );
    match filled {
        Ok(filled) => done(filled.columns, filled.cells, filled.stored),
        Err(refusal) => refused(refusal.number, refusal.place),
    }
};
