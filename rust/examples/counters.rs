//! Shows a counter log: each cell with its row, its column's name and its value,
//! strings as J8 strings. A refused log is told by line and column. `j8 tsv8` prints
//! the same.
//!
//! ```sh
//! cargo run --offline --example counters < ../samples/counters.tsv8
//! ```

use std::io::{self, Read, Write};

/// The line and the column, in characters, of a place in a text; both from 1.
fn position(text: &[u8], place: usize) -> (usize, usize) {
    let before = &text[..place];
    let lines = before.iter().filter(|&&b| b == b'\n').count();
    let start = before
        .iter()
        .rposition(|&b| b == b'\n')
        .map_or(0, |at| at + 1);
    let characters = String::from_utf8_lossy(&before[start..]).chars().count();
    (lines + 1, characters + 1)
}

/// Prints a cell as a TSV8 text could have it.
fn show(cell: j8::Cell, out: &mut impl Write) -> io::Result<()> {
    match cell {
        j8::Cell::Bool(is_true) => write!(out, "{is_true}"),
        j8::Cell::Int(number) | j8::Cell::Float(number) => out.write_all(number.as_bytes()),
        j8::Cell::Str(bytes) => out.write_all(&j8::write_to_vec(bytes)),
    }
}

/// Reads a log to its end and shows it; answers whether it was accepted.
pub fn run(mut log: impl Read, out: &mut impl Write) -> io::Result<bool> {
    let mut text = Vec::new();
    log.read_to_end(&mut text)?;
    let log = match j8::Tsv8::read(text.as_slice()) {
        Ok(log) => log,
        Err(error) => {
            let (line, column) = position(&text, error.place);
            writeln!(
                out,
                "refused {} at line {line}, column {column}, place {}: {}",
                error.number(),
                error.place,
                error.refusal
            )?;
            return Ok(false);
        }
    };
    let sheet = log.sheet();
    for row in sheet.rows() {
        for (column, cell) in sheet.columns().zip(row) {
            write!(out, "{}\t", row.index() + 1)?;
            out.write_all(&j8::write_to_vec(column.name()))?;
            out.write_all(b"\t")?;
            show(cell, out)?;
            out.write_all(b"\n")?;
        }
    }
    Ok(true)
}

fn main() -> io::Result<()> {
    let accepted = run(io::stdin().lock(), &mut io::stdout().lock())?;
    std::process::exit(i32::from(!accepted));
}
