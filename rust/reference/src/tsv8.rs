//! TSV8: a text read to names, types, a table of cells and a store.

use crate::json8::number_kind;
use crate::lines::{judge_bare, stripped};
use crate::{decode, opening, refuse, Refusal, TEXT_MAX};
use crate::{NO_ROOM, TOO_LONG, TRAILING};

/// The most columns.
pub const COLUMNS_MAX: usize = 64;
/// The numbers of a name or cell: kind, place and length.
pub const CELL: usize = 3;

const BAD_HEADER: u32 = 19;
const BAD_LINE: u32 = 20;
const WRONG_TYPE: u32 = 21;
const EMPTY_CELL: u32 = 22;

// Types of columns.
const BOOL: u32 = 1;
const INT: u32 = 2;
const FLOAT: u32 = 3;
const STR: u32 = 4;

// Kinds of names and cells.
const FALSE: u32 = 1;
const TRUE: u32 = 2;
const INT_TEXT: u32 = 3;
const FLOAT_TEXT: u32 = 4;
const PLAIN: u32 = 5;
const DECODED: u32 = 6;

/// How much a text filled: names, cells, and bytes of the store. There are as many
/// types as names.
#[derive(Clone, Copy, Debug, PartialEq, Eq)]
pub struct Filled {
    pub columns: usize,
    pub cells: usize,
    pub stored: usize,
}

/// A part of the text, and where it starts there.
#[derive(Clone, Copy)]
struct Part<'a> {
    start: usize,
    bytes: &'a [u8],
}

impl<'a> Part<'a> {
    /// What stands before, between and behind these bytes.
    fn divided(self, by: u8) -> impl Iterator<Item = Part<'a>> {
        let mut next = self.start;
        self.bytes.split(move |&b| b == by).map(move |bytes| {
            let start = next;
            next += bytes.len() + 1;
            Part { start, bytes }
        })
    }

    /// Whether a line is empty, or of only spaces and CR.
    fn is_ignored(&self) -> bool {
        self.bytes.iter().all(|b| matches!(b, b' ' | b'\r'))
    }

    /// A line's first cell, as it stands.
    fn first(self) -> &'a [u8] {
        self.divided(b'\t').next().map_or(b"", |cell| cell.bytes)
    }

    /// The cells behind a line's first.
    fn cells(self) -> impl Iterator<Item = Part<'a>> {
        self.divided(b'\t').skip(1)
    }

    /// How many these are: one for each tab.
    fn count(&self) -> usize {
        self.bytes.iter().filter(|&&b| b == b'\t').count()
    }
}

/// The type that a cell of the `!type` line names.
fn type_of(cell: Part) -> Result<u32, Refusal> {
    match stripped(cell.bytes) {
        Some((_, b"Bool")) => Ok(BOOL),
        Some((_, b"Int")) => Ok(INT),
        Some((_, b"Float")) => Ok(FLOAT),
        Some((_, b"Str")) => Ok(STR),
        _ => refuse(BAD_HEADER, cell.start),
    }
}

/// The kind of a bare cell, if it fits a column of this type.
fn bare_kind(token: &[u8], column: u32) -> Option<u32> {
    match (column, token) {
        (BOOL, b"false") => Some(FALSE),
        (BOOL, b"true") => Some(TRUE),
        (BOOL, _) => None,
        (INT, _) => {
            let digits_only = token.iter().all(u8::is_ascii_digit);
            (digits_only && number_kind(token).is_some()).then_some(INT_TEXT)
        }
        (FLOAT, _) => number_kind(token).map(|_| FLOAT_TEXT),
        (_, _) => Some(PLAIN),
    }
}

fn entry(kind: u32, place: usize, length: usize) -> [u32; CELL] {
    [kind, place as u32, length as u32]
}

#[derive(Default)]
struct Sheet {
    names: Vec<[u32; CELL]>,
    types: Vec<u32>,
    cells: Vec<[u32; CELL]>,
    store: Vec<u8>,
}

impl Sheet {
    /// A cell of a column of this type: 22, then its own text, then 21.
    fn cell(&mut self, cell: Part, column: u32) -> Result<[u32; CELL], Refusal> {
        let Some((before, token)) = stripped(cell.bytes) else {
            return refuse(EMPTY_CELL, cell.start);
        };
        let at = cell.start + before;
        let in_text = |refusal: Refusal| Refusal {
            place: at + refusal.place,
            ..refusal
        };
        let Some((style, mark)) = opening(token) else {
            judge_bare(token).map_err(in_text)?;
            return match bare_kind(token, column) {
                Some(kind) => Ok(entry(kind, at, token.len())),
                None => refuse(WRONG_TYPE, cell.start),
            };
        };
        let stored = self.store.len();
        let end = decode(token, mark, style, &mut self.store).map_err(in_text)?;
        if end < token.len() {
            return refuse(TRAILING, at + end);
        }
        if column != STR {
            return refuse(WRONG_TYPE, cell.start);
        }
        let body = &token[mark..end - 1];
        if body.contains(&b'\\') {
            return Ok(entry(DECODED, stored, self.store.len() - stored));
        }
        self.store.truncate(stored);
        Ok(entry(PLAIN, at + mark, body.len()))
    }

    /// The first line that is left.
    fn header(&mut self, line: Part) -> Result<(), Refusal> {
        if line.first() != b"!tsv8" || !(1..=COLUMNS_MAX).contains(&line.count()) {
            return refuse(BAD_HEADER, line.start);
        }
        for cell in line.cells() {
            let name = self.cell(cell, STR)?;
            self.names.push(name);
        }
        self.types = vec![STR; self.names.len()];
        Ok(())
    }

    /// A line behind the first that is left.
    fn line(&mut self, line: Part, is_second: bool) -> Result<(), Refusal> {
        let is_data = line.bytes.starts_with(b"\t");
        let may_stand = is_data || (line.bytes.starts_with(b"!") && self.cells.is_empty());
        if !may_stand || line.count() != self.names.len() {
            return refuse(BAD_LINE, line.start);
        }
        if is_data {
            for (column, cell) in line.cells().enumerate() {
                let cell = self.cell(cell, self.types[column])?;
                self.cells.push(cell);
            }
        } else if line.first() == b"!type" {
            if !is_second {
                return refuse(BAD_HEADER, line.start);
            }
            self.types = line.cells().map(type_of).collect::<Result<_, _>>()?;
        }
        Ok(())
    }

    fn text(&mut self, bytes: &[u8]) -> Result<(), Refusal> {
        let lines = Part { start: 0, bytes }.divided(b'\n');
        let mut left = lines.filter(|line| !line.is_ignored());
        match left.next() {
            Some(first) => self.header(first)?,
            None => return refuse(BAD_HEADER, 0),
        }
        for (behind, line) in left.enumerate() {
            self.line(line, behind == 0)?;
        }
        Ok(())
    }
}

/// Fills the start of a room, which is known to suffice.
fn fill<T: Copy>(room: &mut [T], items: &[T]) {
    room[..items.len()].copy_from_slice(items);
}

/// Reads a TSV8 text to the start of each lent part, or refuses it and leaves all
/// of them as they were. A part that isn't whole threes has room for those in it.
pub fn read(
    text: &[u8],
    names: &mut [u32],
    types: &mut [u32],
    cells: &mut [u32],
    store: &mut [u8],
) -> Result<Filled, Refusal> {
    if text.len() > TEXT_MAX {
        return refuse(TOO_LONG, 0);
    }
    let mut sheet = Sheet::default();
    sheet.text(text)?;
    let fits = sheet.names.len() <= names.len() / CELL
        && sheet.types.len() <= types.len()
        && sheet.cells.len() <= cells.len() / CELL
        && sheet.store.len() <= store.len();
    if !fits {
        return refuse(NO_ROOM, 0);
    }
    fill(names, &sheet.names.concat());
    fill(types, &sheet.types);
    fill(cells, &sheet.cells.concat());
    fill(store, &sheet.store);
    Ok(Filled {
        columns: sheet.names.len(),
        cells: sheet.cells.len(),
        stored: sheet.store.len(),
    })
}

#[cfg(test)]
mod tests;
