//! Reading counter logs to names, types and cells, beside the reference and the csv
//! crate.

use super::library::libraries;
use super::race::{keep, Call, Case, Plan};
use j8_inputs::random::Random;
use j8_reference::tsv8;
use std::hint::black_box;

const SEED: u64 = 8;

pub const SIZES: [usize; 3] = [1_024, 8_192, LIMIT];

/// The longest text that is read.
pub const LIMIT: usize = 32_768;

pub const KINDS: [&str; 2] = ["counters", "long names"];

/// The bytes of a long name.
const LONG: usize = 200;

fn head(kind: &str) -> &'static str {
    match kind {
        "counters" => concat!(
            "!tsv8\t\"day\"\t\"desk\"\t\"scans\"\t\"copies\"\t\"jams\"\t\"toner\"\t\"duplex\"\t\"folder\"\n",
            "!type\tStr\tStr\tInt\tInt\tInt\tFloat\tBool\tStr\n"
        ),
        _ => "!tsv8\t\"folder\"\n!type\tStr\n",
    }
}

/// A row as the printer writes it: strings quoted, a tab before each cell.
fn row(kind: &str, number: usize, random: &mut Random) -> String {
    if kind == "counters" {
        let (day, desk) = (1 + number / 24 % 28, random.below(60));
        let (scans, copies) = (random.below(1_000), random.below(300));
        let (jams, toner) = (random.below(3), random.below(10_000));
        let duplex = random.pick(&[true, false]);
        return format!(
            "\t\"2026-11-{day:02}\"\t\"desk {desk}\"\t{scans}\t{copies}\t{jams}\t{}.{:02}\t{duplex}\t\"scans/user{desk}/inbox\"\n",
            toner / 100,
            toner % 100
        );
    }
    let mut name = format!("scans/2026/Marketing-Invoices_{number:06}/");
    while name.len() < LONG {
        name += "Incoming/Letters-and-Bills/";
    }
    name.truncate(LONG);
    format!("\t\"{name}\"\n")
}

/// A text of `size` bytes or a few less, whole rows only.
fn log(plan: Plan) -> Vec<u8> {
    let mut random = Random::of(SEED, 0);
    let mut text = head(plan.kind).to_string();
    for number in 0.. {
        let row = row(plan.kind, number, &mut random);
        if text.len() + row.len() > plan.size {
            break;
        }
        text += &row;
    }
    text.into_bytes()
}

/// What is lent besides the text.
#[derive(Clone, PartialEq)]
pub struct Buffers {
    pub names: Vec<u32>,
    pub types: Vec<u32>,
    pub cells: Vec<u32>,
    pub store: Vec<u8>,
}

impl Buffers {
    fn new(text: &[u8]) -> Buffers {
        Buffers {
            names: vec![0; j8::NAMES_ROOM],
            types: vec![0; j8::TYPES_ROOM],
            cells: vec![0; j8::CELLS_ROOM],
            store: vec![0; text.len()],
        }
    }
}

fn reference(text: &[u8], buffers: &mut Buffers) -> Option<tsv8::Filled> {
    let Buffers {
        names,
        types,
        cells,
        store,
    } = buffers;
    tsv8::read(text, names, types, cells, store).ok()
}

/// A reader for each text, as one has it for a file; the record keeps its memory.
fn by_csv(text: &[u8], record: &mut csv::ByteRecord, mut field: impl FnMut(&str)) {
    let mut reader = csv::ReaderBuilder::new()
        .delimiter(b'\t')
        .has_headers(false)
        .from_reader(text);
    while reader.read_byte_record(record).expect("rows of one length") {
        for bytes in record.iter() {
            field(std::str::from_utf8(bytes).expect("the log is UTF-8"));
        }
    }
}

/// Before any timing all must see the same cells.
fn agree(text: &[u8]) {
    let mut theirs = Buffers::new(text);
    let filled = reference(text, &mut theirs).expect("the reference takes the log");
    for (_, library) in libraries() {
        let mut ours = Buffers::new(text);
        let sheet = library.tsv8_read(text, &mut ours);
        assert_eq!(
            (sheet.number, sheet.columns, sheet.cells, sheet.stored),
            (0, filled.columns, filled.cells, filled.stored)
        );
        assert!(ours == theirs);
    }
    // Each line has a first cell, which the library leaves out, and so has the line
    // of types.
    let (mut fields, mut record) = (Vec::new(), csv::ByteRecord::new());
    by_csv(text, &mut record, |field| fields.push(field.to_string()));
    let lines: Vec<&[String]> = fields.chunks(filled.columns + 1).collect();
    assert_eq!(lines.len(), 2 + filled.cells / filled.columns);
    let cells = lines[2..].iter().flat_map(|line| &line[1..]);
    for (cell, numbers) in cells.zip(theirs.cells.chunks_exact(3)) {
        let (place, length) = (numbers[1] as usize, numbers[2] as usize);
        assert_eq!(cell.as_bytes(), &text[place..place + length]);
    }
}

pub fn case(plan: Plan) -> Case {
    let text = keep(log(plan)).as_slice();
    agree(text);
    let mut calls: Vec<(&'static str, Call)> = Vec::new();
    for (who, library) in libraries() {
        let mut lent = Buffers::new(text);
        calls.push((
            who,
            Box::new(move || {
                black_box(library.tsv8_read(black_box(text), black_box(&mut lent)));
            }),
        ));
    }
    let mut record = csv::ByteRecord::new();
    calls.push((
        "csv",
        Box::new(move || {
            by_csv(black_box(text), &mut record, |field| {
                black_box(field);
            });
        }),
    ));
    let mut lent = Buffers::new(text);
    calls.push((
        "reference",
        Box::new(move || {
            black_box(reference(black_box(text), black_box(&mut lent)));
        }),
    ));
    Case {
        plan,
        bytes: text.len(),
        contestants: calls,
    }
}
