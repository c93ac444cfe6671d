//! TSV8 texts made by the rules, each with what must come of it, and the same
//! texts and counter logs damaged.

use crate::characters;
use crate::made::{Piece, BYTES, COMMON, JSON, LITERAL, SINGLE};
use crate::random::Random;

/// A text with the names, types, cells and stored bytes that it has, whatever the
/// limits.
pub struct Made {
    pub text: Vec<u8>,
    pub names: Vec<[u32; 3]>,
    pub types: Vec<u32>,
    pub cells: Vec<[u32; 3]>,
    pub store: Vec<u8>,
    /// The place of the first line that isn't ignored.
    first: usize,
}

impl Made {
    /// The limit that the text is over, with its place.
    pub fn refusal(&self) -> Option<(u32, usize)> {
        if self.text.len() > 32_768 {
            return Some((2, 0));
        }
        (self.names.len() > 64).then_some((19, self.first))
    }

    /// Blank lines, or blanks of the last one, so that the text has this length.
    pub fn pad(&mut self, random: &mut Random, length: usize) {
        let missing = length.saturating_sub(self.text.len());
        if missing > 0 && self.text.last() != Some(&b'\n') && random.once_in(2) {
            self.text.push(b'\n');
        }
        let fill = random.pick(b" \r\n");
        let target = length.max(self.text.len());
        self.text.resize(target, fill);
    }
}

/// Which texts are made.
#[derive(Clone, Copy)]
pub struct Shape {
    pub columns: usize,
    pub rows: usize,
    /// Cells of one byte, with nothing around them.
    pub dense: bool,
    /// The bytes of one long cell, or 0.
    pub long: usize,
}

/// A shape that is small, or about one of the limits.
pub fn shape(random: &mut Random) -> Shape {
    let mut shape = Shape {
        columns: 1 + random.below(5),
        rows: random.pick(&[0, 1, 1, 2, 2, 3, 5]),
        dense: random.once_in(12),
        long: 0,
    };
    match random.below(400) {
        0..=9 => shape.columns = 62 + random.below(4),
        10 => {
            shape.dense = true;
            shape.columns = random.pick(&[1, 8, 62, 62, 62, 64]);
            // As many rows as a text has room for, or one more.
            let (head, row) = (5 + 2 * shape.columns, 1 + 2 * shape.columns);
            shape.rows = (32_768 - head) / row + usize::from(random.once_in(4));
        }
        11 | 12 => {
            shape.rows = 1;
            shape.long = random.pick(&[1_024, 1_025, 30_000, 32_700]);
        }
        _ => {}
    }
    shape
}

/// A text of some shape, now and then about the longest.
pub fn text(random: &mut Random) -> Made {
    let shape = shape(random);
    let mut made = make(random, shape);
    if random.once_in(300) {
        let length = 32_764 + random.below(8);
        made.pad(random, length);
    }
    made
}

// ------------------------------------------------------------------ making

struct Maker<'r> {
    random: &'r mut Random,
    dense: bool,
    long: usize,
    made: Made,
}

/// A text of this shape.
pub fn make(random: &mut Random, shape: Shape) -> Made {
    let mut maker = Maker {
        random,
        dense: shape.dense,
        long: shape.long,
        made: Made {
            text: Vec::new(),
            names: Vec::new(),
            types: Vec::new(),
            cells: Vec::new(),
            store: Vec::new(),
            first: 0,
        },
    };
    maker.ignored();
    maker.header(shape.columns);
    maker.ignored();
    maker.made.types = vec![4; shape.columns];
    // A dense text is nothing but names and cells, and so is one with a long cell.
    let plain = shape.dense || shape.long > 0;
    if !plain && maker.random.below(3) < 2 {
        maker.types(shape.columns);
        maker.ignored();
    }
    let notes = if plain { &[0][..] } else { &[0, 0, 0, 1, 2] };
    for _ in 0..maker.random.pick(notes) {
        maker.note(shape.columns);
        maker.ignored();
    }
    for _ in 0..shape.rows {
        maker.row();
        maker.ignored();
    }
    if maker.random.once_in(2) && maker.made.text.last() == Some(&b'\n') {
        // The last line needs no LF.
        maker.made.text.pop();
    }
    maker.made
}

impl Maker<'_> {
    fn put(&mut self, bytes: &[u8]) {
        self.made.text.extend_from_slice(bytes);
    }

    fn line_end(&mut self) {
        let end = if self.dense || !self.random.once_in(6) {
            b"\n".as_slice()
        } else {
            b"\r\n"
        };
        self.put(end);
    }

    /// Lines that are ignored, mostly none.
    fn ignored(&mut self) {
        while !self.dense && self.random.once_in(8) {
            self.blanks();
            self.line_end();
        }
    }

    /// What is stripped from a cell.
    fn blanks(&mut self) {
        if self.dense {
            return;
        }
        for _ in 0..self.random.pick(&[0, 0, 0, 0, 0, 1, 2]) {
            let blank = self.random.pick(b"  \r");
            self.put(&[blank]);
        }
    }

    /// The tab of a cell, and the blanks behind it.
    fn tab(&mut self) {
        self.put(b"\t");
        self.blanks();
    }

    fn header(&mut self, columns: usize) {
        self.made.first = self.made.text.len();
        self.put(b"!tsv8");
        for _ in 0..columns {
            self.tab();
            let name = self.string();
            self.made.names.push(name);
            self.blanks();
        }
        self.line_end();
    }

    fn types(&mut self, columns: usize) {
        self.put(b"!type");
        for column in 0..columns {
            self.tab();
            let kind = 1 + self.random.below(4);
            self.put(["Bool", "Int", "Float", "Str"][kind - 1].as_bytes());
            self.made.types[column] = kind as u32;
            self.blanks();
        }
        self.line_end();
    }

    /// Another line that begins with `!`: only its count is judged.
    fn note(&mut self, columns: usize) {
        let first = self.random.pick(&NOTES);
        self.put(first);
        for _ in 0..columns {
            self.put(b"\t");
            let junk = self.random.pick(&CELLS);
            self.put(junk);
        }
        self.line_end();
    }

    fn row(&mut self) {
        for column in 0..self.made.types.len() {
            self.tab();
            let cell = match self.made.types[column] {
                1 => {
                    let is_true = self.random.once_in(2);
                    self.token(
                        1 + u32::from(is_true),
                        if is_true { "true" } else { "false" },
                    )
                }
                2 => {
                    let digits = self.whole();
                    self.token(3, &digits)
                }
                3 => {
                    let number = self.number();
                    self.token(4, &number)
                }
                _ if self.long > 0 => {
                    let long = "n".repeat(std::mem::take(&mut self.long));
                    self.token(5, &long)
                }
                _ => self.string(),
            };
            self.made.cells.push(cell);
            self.blanks();
        }
        self.line_end();
    }

    /// A bare token, which is its own text.
    fn token(&mut self, kind: u32, token: &str) -> [u32; 3] {
        let place = self.made.text.len();
        self.put(token.as_bytes());
        [kind, place as u32, token.len() as u32]
    }

    fn digits(&mut self, most: usize) -> String {
        let count = 1 + self.random.below(most);
        let mut digit = || char::from(b'0' + self.random.below(10) as u8);
        (0..count).map(|_| digit()).collect()
    }

    /// A number of digits only.
    fn whole(&mut self) -> String {
        if self.random.once_in(4) {
            return "0".to_string();
        }
        let mut digits = char::from(self.random.pick(b"123456789")).to_string();
        if !self.dense && self.random.once_in(2) {
            let most = self.random.pick(&[2, 2, 5, 25]);
            digits += &self.digits(most);
        }
        digits
    }

    fn number(&mut self) -> String {
        let mut number = self.whole();
        if self.dense {
            return number;
        }
        if self.random.once_in(3) {
            number.insert(0, '-');
        }
        if self.random.once_in(2) {
            number.push('.');
            number += &self.digits(4);
        }
        if self.random.once_in(4) {
            number += self.random.pick(&["e", "E", "e+", "E-", "e-"]);
            number += &self.digits(3);
        }
        number
    }

    /// A name, or a cell of a column of strings.
    fn string(&mut self) -> [u32; 3] {
        if self.dense {
            return self.token(5, "x");
        }
        match self.random.below(5) {
            0 | 1 => self.bare(),
            style => self.quoted(style - 2),
        }
    }

    fn bare(&mut self) -> [u32; 3] {
        let mut token = self.random.pick(&FRONTS).to_string();
        for _ in 0..self.random.below(3) {
            token += self.random.pick(&INNER);
            token += self.random.pick(&FRONTS);
        }
        self.token(5, &token)
    }

    fn quoted(&mut self, style: usize) -> [u32; 3] {
        let style = if style == 1 && self.random.once_in(2) {
            3
        } else {
            style
        };
        let mark = ["\"", "'", "b'", "u'"][style];
        self.put(mark.as_bytes());
        let (start, mut decoded) = (self.made.text.len(), Vec::new());
        for _ in 0..self.random.below(5) {
            let (source, bytes): Piece = match (self.random.below(6), style) {
                (0, _) => self.random.pick(&COMMON),
                (1, 0) => self.random.pick(&JSON),
                (1, _) => self.random.pick(&SINGLE),
                (2, 2) => self.random.pick(&BYTES),
                _ => {
                    let literal = self.random.pick(&LITERAL);
                    (literal, literal.as_bytes())
                }
            };
            self.put(source.as_bytes());
            decoded.extend_from_slice(bytes);
        }
        let made = &mut self.made;
        let length = decoded.len() as u32;
        let cell = if made.text[start..].contains(&b'\\') {
            let place = made.store.len() as u32;
            made.store.extend_from_slice(&decoded);
            [6, place, length]
        } else {
            [5, start as u32, length]
        };
        self.put(if style == 0 { b"\"" } else { b"'" });
        cell
    }
}

/// What bare strings begin and end with.
const FRONTS: [&str; 14] = [
    "a", "scans/in", "2026", "0", "true", "-1.5", "é", "🤦", "#", "!x", "!type", "u", "\u{7f}",
    "\\",
];
/// What may stand inside them besides. A single quote right behind a `u` would open
/// a string.
const INNER: [&str; 8] = [" ", "  ", "\"", " '", "u'", "\\n", "€", "/"];

// ----------------------------------------------------------------- damaged

/// First cells of other `!` lines.
pub const NOTES: [&[u8]; 8] = [
    b"!", b"!x", b"!types", b"!type ", b"!Type", b"!tsv8", b"! note", b"!\xff",
];

/// Cells, each right in some columns and wrong in most.
pub const CELLS: [&[u8]; 64] = [
    b"",
    b" ",
    b"\r",
    b"x",
    b"0",
    b"12",
    b"007",
    b"-5",
    b"-0",
    b"1.0",
    b"1.",
    b".5",
    b"+1",
    b"1e3",
    b"1e",
    b"1-2",
    b"18446744073709551616",
    b"1 2",
    b"true",
    b"false",
    b"True",
    b"truex",
    b"tru",
    b"null",
    b"\"true\"",
    b"\"true",
    b"\"1\"",
    b"'1'",
    b"u'1'",
    b"b'1'",
    b"1\"",
    b"\"",
    b"'",
    b"u'",
    b"b'",
    b"u",
    b"u\"a\"",
    b"\"\"",
    b"''",
    b"Int",
    b"int",
    b"Bool",
    b"Float",
    b"Str",
    b"\"Int\"",
    b"Int x",
    b"4\xff",
    b"\xff",
    b"\xe2\x82",
    b"\xed\xa0\x80",
    b"\xef\xbb\xbfx",
    b"a\x01",
    b"a\rb",
    b"\x00",
    b"\"a\x01\"",
    b"\"\\q\"",
    b"\"\\u12\"",
    b"'\\u{dc00}'",
    b"u'\\u{110000}'",
    b"'\\yff'",
    b"b'\\yf'",
    b"b'\\yff'",
    b"'a' x",
    b"\"a\"\"b\"",
];

/// One of these, or a damaged character, with blanks and marks around it or without.
fn cell(random: &mut Random) -> Vec<u8> {
    if !random.once_in(6) {
        return random.pick(&CELLS).to_vec();
    }
    let before = random.pick(&["", " ", "4", "tr", "é", "'", "\"a", " b'"]);
    let behind = random.pick(&["", "", " ", "\r", "'", "\"", "4"]);
    let bytes = characters::damaged(random);
    [before.as_bytes(), &bytes, behind.as_bytes()].concat()
}

/// Lines, each right in some places and wrong in most; the count of their cells is
/// right for few texts.
const LINES: [&[u8]; 18] = [
    b"",
    b" ",
    b" \r",
    b"\t",
    b"\t\t",
    b" \t",
    b"\r\tx",
    b"x",
    b"x\ty",
    b"!",
    b"!\t",
    b"!x\ty",
    b"!type",
    b"!type\tInt",
    b"!type\r",
    b"!tsv8\ta",
    b"!tsv8",
    b"\x00",
];

/// Counter logs as printers write them and as people edit them.
pub const LOGS: [&str; 4] = [
    concat!(
        "!tsv8\t\"day\"\t\"desk\"\t\"scans\"\t\"jams\"\t\"toner\"\t\"duplex\"\n",
        "!type\tStr\tStr\tInt\tInt\tFloat\tBool\n",
        "\t\"2026-03-02\"\t\"Front desk\"\t41\t0\t93.5\ttrue\n",
        "\t\"2026-03-02\"\tb'caf\\ye9'\t7\t1\t80.25\tfalse\n",
        "\t\"2026-03-03\"\t\"Marketing \\\"2\\\"\"\t112\t0\t6e1\ttrue\n",
    ),
    concat!(
        "!tsv8\tname\tpages\r\n!type\tStr\tInt\r\n!unit\t\tpages\r\n\r\n",
        "\tscans/in\t12\r\n\t\"two words\" \t 3\r\n \r\n\t'last'\t0",
    ),
    "!tsv8\tfolder\n\tscans/Marketing 2026\n\tu'\\u{1f926}'\n\tcaf\u{e9}\n",
    "!tsv8\ton\tlevel\n!type\tBool\tFloat\n\ttrue\t0\n\tfalse\t-1.5e-3\n",
];

/// A text with as many cells as its first line has, behind this first cell.
fn counted(first: &[u8], cells: &[&[u8]], columns: usize, random: &mut Random) -> Vec<u8> {
    let mut line = first.to_vec();
    for _ in 0..columns {
        line.push(b'\t');
        line.extend(random.pick(cells));
    }
    line
}

/// Another line for a text with so many columns.
fn other_line(random: &mut Random, columns: usize) -> Vec<u8> {
    let words: [&[u8]; 4] = [b"Bool", b"Int", b"Float", b"Str"];
    let mut line = match random.below(7) {
        0 => counted(b"!type", &words, columns, random),
        1 => counted(b"!type", &CELLS, columns, random),
        2 => {
            let first = random.pick(&NOTES);
            counted(first, &CELLS, columns, random)
        }
        3 => counted(b"", &CELLS, columns, random),
        4 => counted(b"x", &[b"1", b"x"], columns, random),
        _ => random.pick(&LINES).to_vec(),
    };
    line.push(b'\n');
    line
}

/// The places behind each tab, and where each line starts.
fn places(text: &[u8]) -> (Vec<usize>, Vec<usize>) {
    let behind = |byte| {
        let places = text.iter().enumerate().filter(move |(_, &b)| b == byte);
        places.map(|(at, _)| at + 1)
    };
    let lines = std::iter::once(0).chain(behind(b'\n'));
    (behind(b'\t').collect(), lines.collect())
}

/// Damages a text, mostly at its cells and lines.
pub fn damage(random: &mut Random, text: &[u8], other: &[u8]) -> Vec<u8> {
    let (starts, lines) = places(text);
    let mut text = text.to_vec();
    let first_line = text.split(|&b| b == b'\n').find(|line| line.len() > 1);
    let columns = first_line.map_or(1, |line| line.iter().filter(|&&b| b == b'\t').count());
    let line = random.pick(&lines);
    let line_end = |text: &[u8], from: usize| {
        let end = text[from..].iter().position(|&b| b == b'\n');
        end.map_or(text.len(), |length| from + length + 1)
    };
    match random.below(10) {
        0..=2 if !starts.is_empty() => {
            // In place of a cell, or of its beginning.
            let from = random.pick(&starts);
            let most = text[from..].iter().position(|b| b"\t\n".contains(b));
            let most = most.unwrap_or(text.len() - from);
            let gone = if random.once_in(4) {
                random.below(most + 1)
            } else {
                most
            };
            let cell = cell(random);
            text.splice(from..from + gone, cell);
        }
        3 if !starts.is_empty() => {
            // A cell more, or less by its tab.
            let at = random.pick(&starts);
            if random.once_in(2) {
                text.insert(at, b'\t');
            } else {
                text.remove(at - 1);
            }
        }
        4 | 5 => {
            let new = other_line(random, columns);
            text.splice(line..line, new);
        }
        6 => {
            // A line less, or once more at another place.
            let part: Vec<u8> = text[line..line_end(&text, line)].to_vec();
            if random.once_in(2) {
                text.drain(line..line + part.len());
            } else {
                let to = random.pick(&lines);
                text.splice(to..to, part);
            }
        }
        7 => {
            // A part of another text in place of a part of this one.
            if !other.is_empty() {
                let (from, at) = (random.below(other.len()), random.below(text.len() + 1));
                let to = (from + 1 + random.below(20)).min(other.len());
                let end = (at + random.below(20)).min(text.len());
                text.splice(at..end, other[from..to].iter().copied());
            }
        }
        8 if random.once_in(4) => {
            // As an editor may put it.
            text.splice(0..0, *b"\xef\xbb\xbf");
        }
        8 => text.truncate(random.below(text.len() + 1)),
        _ => {
            for _ in 0..1 + random.below(3) {
                mutate(random, &mut text);
            }
        }
    }
    text
}

fn mutate(random: &mut Random, text: &mut Vec<u8>) {
    if text.is_empty() {
        text.push(random.byte());
        return;
    }
    let at = random.below(text.len());
    match random.below(5) {
        0 => {
            text.remove(at);
        }
        1 => text.insert(at, random.byte()),
        2 => text.insert(at, random.pick(TEMPTING)),
        3 => text[at] ^= 1 << random.below(8),
        _ => text[at] = random.byte(),
    }
}

/// Bytes that mean something in a text.
pub const TEMPTING: &[u8] = b"\t\t\n\r !\"'\\uby{}0129-+.eEtfBIFS#\x00\x1f\x7f\x80\xc3\xe2\xed\xff";

/// A length for a part whose exact one is this.
pub fn room(random: &mut Random, exact: usize) -> usize {
    match random.below(10) {
        0..=3 => exact,
        4 => exact.saturating_sub(1),
        5 => exact.saturating_sub(3),
        6 => random.below(exact + 9),
        7 if random.once_in(4) => 0,
        _ => exact + random.below(50),
    }
}
