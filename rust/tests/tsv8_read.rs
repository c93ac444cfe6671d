//! TSV8: every vector of tests/vectors by this crate and by the reference, the four
//! parts compared whole; the types of this crate; limits; empty parts.

mod cases;
mod tsv8;

use cases::{bytes, each_case};
use j8::{Cell, Error, Refusal, Sheet, Tsv8, Type};
use tsv8::{done, refused, Parts, Read, LIBRARY, REFERENCE};

/// The numbers of a field, divided by commas and colons.
fn numbers(field: &str) -> Vec<u32> {
    match field {
        "-" => Vec::new(),
        _ => field
            .split([',', ':'])
            .map(|n| n.parse().expect("a number"))
            .collect(),
    }
}

// ---------------------------------------------------------- tsv8_read.txt

fn reads(read: Read) -> usize {
    each_case("tsv8_read.txt", |fields: [&str; 11], what| {
        let [text, lengths @ .., number, place, names, types, cells, store] = fields;
        let lengths: [&str; 4] = lengths;
        let lengths = lengths.map(|length| length.parse().expect("a length"));
        let (text, store) = (bytes(text), bytes(store));
        let [names, types, cells] = [names, types, cells].map(numbers);
        let expected = match number.parse().expect("number") {
            0 => done(types.len(), cells.len() / 3, store.len()),
            number => refused(number, place.parse().expect("place")),
        };
        for flip in [false, true] {
            let before = text.clone();
            let mut parts = Parts::new(lengths, flip);
            assert_eq!(read(&text, &mut parts), expected, "{what}: answer");
            // All are empty on a refusal, so the patterns stay as they are.
            assert!(parts.names.holds(&names), "{what}: names");
            assert!(parts.types.holds(&types), "{what}: types");
            assert!(parts.cells.holds(&cells), "{what}: cells");
            assert!(parts.store.holds(&store), "{what}: store");
            assert!(text == before, "{what}: text");
        }
    })
}

#[test]
fn library_reads() {
    assert_eq!(reads(LIBRARY), 725);
}

#[test]
fn reference_reads() {
    assert_eq!(reads(REFERENCE), 725);
}

// ------------------------------------------------ the types of this crate

const LOG: &str = concat!(
    "!tsv8\t\"desk\"\tscans\t'\\u{74}oner'\tduplex\n",
    "!type\tStr\tInt\tFloat\tBool\r\n",
    "!unit\t\tpages\tpercent\t\n\n",
    "\tFront desk\t41\t93.50\ttrue\n",
    "\tb'caf\\ye9'\t7\t80\tfalse",
);

fn whole_log(sheet: Sheet) {
    assert_eq!((sheet.width(), sheet.height()), (4, 2));
    assert_eq!(sheet.text(), LOG.as_bytes());
    assert_eq!(sheet.store(), b"tonercaf\xe9");
    assert_eq!(sheet.types(), [4, 2, 3, 1]);
    assert_eq!(sheet.names()[..6], [5, 7, 4, 5, 13, 5]);
    assert_eq!(sheet.numbers().len(), 24);

    let columns: Vec<(&[u8], Type)> = sheet.columns().map(|c| (c.name(), c.kind())).collect();
    assert_eq!(
        columns,
        [
            (b"desk".as_slice(), Type::Str),
            (b"scans", Type::Int),
            (b"toner", Type::Float),
            (b"duplex", Type::Bool)
        ]
    );
    let rows: Vec<Vec<Cell>> = sheet.rows().map(|row| row.cells().collect()).collect();
    assert_eq!(
        rows,
        [
            [
                Cell::Str(b"Front desk"),
                Cell::Int("41"),
                Cell::Float("93.50"),
                Cell::Bool(true)
            ],
            [
                Cell::Str(b"caf\xe9"),
                Cell::Int("7"),
                Cell::Float("80"),
                Cell::Bool(false)
            ]
        ]
    );

    for (index, row) in sheet.rows().enumerate() {
        assert_eq!(row.index(), index);
        assert_eq!(sheet.row(index), Some(row));
        assert_eq!(row.into_iter().len(), 4);
        for (place, cell) in row.into_iter().enumerate() {
            assert_eq!(row.get(place), Some(cell));
            assert_eq!(sheet.cell(index, place), Some(cell));
            assert_eq!(cell.kind(), sheet.column(place).unwrap().kind());
        }
        assert_eq!(row.get(4), None);
        assert_eq!(row.get(usize::MAX), None);
    }
    for column in sheet.columns() {
        assert_eq!(sheet.column(column.index()), Some(column));
        assert_eq!(sheet.find(column.name()), Some(column));
        let cells: Vec<Cell> = column.cells().collect();
        assert_eq!(cells, [rows[0][column.index()], rows[1][column.index()]]);
    }
    for index in [2, 4, usize::MAX] {
        assert_eq!(sheet.row(index), None);
    }
    for index in [4, usize::MAX] {
        assert_eq!(sheet.column(index), None);
        assert_eq!(sheet.cell(0, index), None);
    }
    assert_eq!(sheet.find(b"Desk"), None);
    assert_eq!((sheet.columns().len(), sheet.rows().len()), (4, 2));
    assert_eq!(sheet.rows().last().map(|row| row.index()), Some(1));
}

#[test]
fn a_log_is_walked() {
    let (mut names, mut types) = ([77; j8::NAMES_ROOM], [77; j8::TYPES_ROOM]);
    let (mut cells, mut store) = ([77; 30], [0xaa; 20]);
    let sheet = j8::read_tsv8(
        LOG.as_bytes(),
        &mut names,
        &mut types,
        &mut cells,
        &mut store,
    )
    .unwrap();
    whole_log(sheet);
    // The same in memory of its own.
    let log = Tsv8::read(LOG).unwrap();
    assert_eq!(log.sheet(), sheet);
    assert_eq!(log.clone().sheet(), sheet);
    whole_log(log.sheet());
    assert_eq!(log.into_text(), LOG.as_bytes());
    assert_eq!(names[12..], [77; j8::NAMES_ROOM - 12]);
    assert_eq!(types[4..], [77; j8::TYPES_ROOM - 4]);
    assert_eq!(cells[24..], [77; 6]);
    assert_eq!(store[9..], [0xaa; 11]);
}

/// What is left is told at each step, and nothing comes behind the end.
fn steps<I: ExactSizeIterator + Clone>(whole: I, count: usize)
where
    I::Item: PartialEq + std::fmt::Debug,
{
    let mut rest = whole.clone();
    for left in (0..count).rev() {
        assert_eq!(rest.size_hint(), (left + 1, Some(left + 1)));
        let copy = rest.clone().next();
        assert_eq!(rest.next(), copy);
        assert_eq!(rest.len(), left);
    }
    assert!(rest.next().is_none() && rest.next().is_none());
    assert_eq!(rest.len(), 0);
    assert_eq!(whole.clone().count(), count);
    assert!(whole.clone().nth(count).is_none());
    assert_eq!(
        whole.clone().last(),
        whole.clone().nth(count.wrapping_sub(1))
    );
}

#[test]
fn iterators_tell_what_is_left() {
    let log = Tsv8::read(LOG).unwrap();
    let sheet = log.sheet();
    steps(sheet.columns(), 4);
    steps(sheet.rows(), 2);
    for row in sheet.rows() {
        steps(row.cells(), 4);
        steps(row.into_iter(), 4);
    }
    for column in sheet.columns() {
        steps(column.cells(), 2);
    }
    let empty = Tsv8::read("!tsv8\ta").unwrap();
    steps(empty.sheet().rows(), 0);
    steps(empty.sheet().column(0).unwrap().cells(), 0);
}

#[test]
fn cells_by_their_kind() {
    let text = Cell::Str(b"41");
    assert_eq!(
        (text.as_bytes(), text.as_str()),
        (Some(&b"41"[..]), Some("41"))
    );
    assert_eq!((text.as_number(), text.as_bool()), (None, None));
    assert_eq!(Cell::Str(b"\xff").as_str(), None);
    for number in [Cell::Int("41"), Cell::Float("41")] {
        assert_eq!(number.as_number(), Some("41"));
        assert_eq!((number.as_bytes(), number.as_bool()), (None, None));
    }
    let no = Cell::Bool(false);
    assert_eq!(
        (no.as_bool(), no.as_number(), no.as_str()),
        (Some(false), None, None)
    );
    for (number, name) in [(1, "Bool"), (2, "Int"), (3, "Float"), (4, "Str")] {
        let kind = Type::try_from(number).unwrap();
        assert_eq!((kind as u32, kind.to_string().as_str()), (number, name));
    }
    for number in [0, 5, 257, u32::MAX] {
        assert_eq!(Type::try_from(number), Err(number));
    }
}

#[test]
fn they_can_be_printed() {
    let log = Tsv8::read("!tsv8\ta\tb\n!type\tStr\tInt\n\tb'\\yff'\t7\n").unwrap();
    let row = log.sheet().row(0).unwrap();
    assert_eq!(format!("{row:?}"), r#"[Str(b"\xff"), Int(7)]"#);
    let column = log.sheet().column(1).unwrap();
    assert_eq!(
        format!("{column:?}"),
        r#"Column { index: 1, name: Str(b"b"), kind: Int }"#
    );
    assert!(format!("{log:?}").starts_with("Tsv8(Sheet { columns: [Column {"));
    assert!(format!("{:?}", Cell::Float("1e3")) == "Float(1e3)");
    assert!(format!("{:?}", Cell::Bool(true)) == "Bool(true)");
}

#[test]
fn a_log_without_rows() {
    let log = Tsv8::read("!tsv8\ta\ta").unwrap();
    let sheet = log.sheet();
    assert_eq!((sheet.width(), sheet.height()), (2, 0));
    assert_eq!(sheet.rows().next(), None);
    assert_eq!(sheet.row(0), None);
    assert_eq!(sheet.cell(0, 0), None);
    // Of equal names the first is found.
    assert_eq!(sheet.find(b"a").map(|column| column.index()), Some(0));
    assert!(sheet.columns().all(|column| column.cells().len() == 0));
    assert!(sheet.columns().all(|column| column.kind() == Type::Str));
}

// ----------------------------------------------------------------- limits

/// A text of so many columns and rows, each cell of one byte.
fn dense(columns: usize, rows: usize) -> Vec<u8> {
    let mut text = [b"!tsv8".as_slice(), &b"\tx".repeat(columns)].concat();
    for _ in 0..rows {
        text.push(b'\n');
        text.extend(b"\tx".repeat(columns));
    }
    text
}

fn error(text: &[u8]) -> Error {
    Tsv8::read(text).unwrap_err()
}

#[test]
fn limits() {
    let most = Tsv8::read(dense(j8::COLUMNS_MAX, 3)).unwrap();
    assert_eq!((most.sheet().width(), most.sheet().height()), (64, 3));
    assert_eq!(most.sheet().names().len(), j8::NAMES_ROOM);
    assert_eq!(most.sheet().types().len(), j8::TYPES_ROOM);
    let wide = dense(j8::COLUMNS_MAX + 1, 3);
    assert_eq!(error(&wide), Error::new(Refusal::BadHeader, 0));

    // The most cells.
    let mut text = dense(62, 261);
    let cells = Tsv8::read(text.as_slice()).unwrap();
    assert_eq!(cells.sheet().numbers().len(), j8::CELLS_ROOM);
    text.resize(j8::TEXT_MAX, b' ');
    assert_eq!(Tsv8::read(text.as_slice()).unwrap().sheet().height(), 261);
    text.push(b' ');
    assert_eq!(error(&text), Error::new(Refusal::TooLong, 0));

    // A line and a cell may be as long as the text.
    let head = "!tsv8\ta\n\t";
    for length in [1_024, 1_025, 30_000, j8::TEXT_MAX - head.len()] {
        let text = head.to_string() + &"n".repeat(length);
        let log = Tsv8::read(text).unwrap();
        let cell = log.sheet().cell(0, 0).unwrap();
        assert_eq!(cell.as_bytes().map(<[u8]>::len), Some(length));
    }
}

/// Each part exact, and one short: 12, with nothing written.
#[test]
fn rooms() {
    let exact = [12, 4, 24, 9];
    for read in [LIBRARY, REFERENCE] {
        let mut parts = Parts::new(exact, false);
        assert_eq!(read(LOG.as_bytes(), &mut parts), done(4, 8, 9));
        for part in 0..4 {
            for less in [1, 2, 3] {
                let mut lengths = exact;
                lengths[part] -= less;
                let mut parts = Parts::new(lengths, true);
                let before = parts.clone();
                assert_eq!(read(LOG.as_bytes(), &mut parts), refused(12, 0));
                assert!(parts == before, "part {part}, {less} short");
            }
        }
        // Numbers that are no whole three make no room, and aren't touched.
        for more in [1, 2] {
            let mut parts = Parts::new([12 + more, 4, 24 + more, 9], true);
            assert_eq!(read(LOG.as_bytes(), &mut parts), done(4, 8, 9));
            assert!(parts.names.holds(&parts.names.items()[..12]));
            assert!(parts.cells.holds(&parts.cells.items()[..24]));
        }
        // A fault comes before the room.
        let mut none = Parts::new([0; 4], false);
        assert_eq!(read(b"!tsv8\ta\n\t\"", &mut none), refused(4, 10));
        assert_eq!(read(b"!tsv8\ta", &mut none), refused(12, 0));
        assert_eq!(read(b"", &mut none), refused(19, 0));
    }
}

/// Walks all of a log that is read; what is refused says so with its place, and
/// leaves the four parts.
fn any_text(text: &[u8]) {
    let tabs = text.iter().filter(|&&b| b == b'\t').count();
    let mut parts = Parts::new([3 * tabs, tabs, 3 * tabs, text.len()], false);
    let before = parts.clone();
    let answer = LIBRARY(text, &mut parts);
    let shown = text.escape_ascii();
    match Tsv8::read(text) {
        Ok(log) => {
            let sheet = log.sheet();
            let cells = sheet.rows().flatten().count();
            assert_eq!(
                answer,
                done(sheet.width(), cells, sheet.store().len()),
                "{shown}"
            );
            assert!(sheet
                .columns()
                .all(|column| !format!("{column:?}").is_empty()));
            assert_eq!(sheet.text(), text);
        }
        Err(error) => {
            assert_eq!(answer, refused(error.number(), error.place), "{shown}");
            assert!(parts == before, "{shown}");
            assert!(error.place <= text.len(), "{shown}");
            let start = format!("refusal {} at byte {}: ", error.number(), error.place);
            assert!(error.to_string().starts_with(&start), "{error}");
        }
    }
}

/// The log cut off anywhere, with any byte in place of each of its first 60, with a
/// hostile one before each, and each byte alone.
#[test]
fn hostile_texts() {
    let log = LOG.as_bytes();
    for at in 0..log.len() {
        any_text(&log[..at]);
        for byte in *b"\0\t\n\r !\"'\\0\x7f\x80\xed\xff" {
            any_text(&[&log[..at], &[byte], &log[at..]].concat());
            any_text(&[&log[..at], &[byte], &log[at + 1..]].concat());
        }
    }
    for at in 0..60 {
        for byte in 0..=255 {
            any_text(&[&log[..at], &[byte], &log[at + 1..]].concat());
        }
    }
    for byte in 0..=255 {
        any_text(&[byte]);
        any_text(&[b"!tsv8\ta\n\t".as_slice(), &[byte]].concat());
        any_text(&[b"!tsv8\t".as_slice(), &[byte]].concat());
    }
    // Of one byte only, as long as a text may be.
    for byte in *b"\t\n !\"\\" {
        any_text(&[byte; j8::TEXT_MAX]);
        let mut cell = b"!tsv8\ta\n\t".to_vec();
        cell.resize(j8::TEXT_MAX, byte);
        any_text(&cell);
    }
}

#[test]
fn refusals_say_where() {
    let told = |text: &str, refusal, place| {
        let found = error(text.as_bytes());
        assert_eq!(found, Error::new(refusal, place), "{text:?}");
        let start = format!("refusal {} at byte {place}: ", refusal.number());
        assert!(found.to_string().starts_with(&start), "{found}");
    };
    told("tsv8\ta\n", Refusal::BadHeader, 0);
    told("!tsv8\ta\n!type\tint\n", Refusal::BadHeader, 14);
    told("!tsv8\ta\n\tx\ty\n", Refusal::BadLine, 8);
    told("!tsv8\ta\n!type\tInt\n\t4l\n", Refusal::WrongType, 19);
    told("!tsv8\ta\tb\n\tx\t \n", Refusal::EmptyCell, 13);
    told("!tsv8\ta\n\t\"x\" y\n", Refusal::Trailing, 12);
}
