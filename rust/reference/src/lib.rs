//! J8 strings, J8 Lines in [`lines`], JSON8 in [`json8`] and TSV8 in [`tsv8`],
//! written from the rules alone and from none of the library's code, so that the
//! two can be compared. It is also a contestant of the benchmark.
//!
//! Every function on strings fills the lent room from its start and answers the
//! length, or refuses and leaves the room as it was.

pub mod json8;
pub mod lines;
pub mod tsv8;

/// The longest text that is read.
pub const TEXT_MAX: usize = 32_768;

/// Why a text was refused, and where.
#[derive(Clone, Copy, Debug, PartialEq, Eq)]
pub struct Refusal {
    pub number: u32,
    pub place: usize,
}

const UNFIT: u32 = 1;
const TOO_LONG: u32 = 2;
const NO_OPENING: u32 = 3;
const CUT_OFF: u32 = 4;
const CONTROL: u32 = 6;
const ESCAPE: u32 = 7;
const SURROGATE: u32 = 8;
const TOO_LARGE: u32 = 9;
const BYTE_ESCAPE: u32 = 10;
const TRAILING: u32 = 11;
const NO_ROOM: u32 = 12;
const UTF8_BAD_ENCODING: u32 = 23;
const UTF8_INCOMPLETE: u32 = 24;
const UTF8_OVERLONG: u32 = 25;
const UTF8_SURROGATE: u32 = 26;
const UTF8_TOO_LARGE: u32 = 27;

fn refuse<T>(number: u32, place: usize) -> Result<T, Refusal> {
    Err(Refusal { number, place })
}

/// How many bytes stand before the first quote, backslash or control.
fn run_length(bytes: &[u8], quote: u8) -> usize {
    let stops = |b: u8| b == quote || b == b'\\' || b < 0x20;
    // No early exit, so that all the bytes are compared at once.
    let any_stops = |block: &[u8]| block.iter().fold(false, |seen, &b| seen | stops(b));

    let mut length = 0;
    // Runs are long or very short: blocks only pay for the long ones.
    if bytes.len() >= 32 && !any_stops(&bytes[..8]) {
        for block in bytes.chunks_exact(32) {
            if any_stops(block) {
                break;
            }
            length += block.len();
        }
    }
    let rest = &bytes[length..];
    length + rest.iter().position(|&b| stops(b)).unwrap_or(rest.len())
}

/// Where result bytes go.
trait Sink {
    fn put(&mut self, bytes: &[u8]);
}

/// Counts only.
struct Count(usize);

impl Sink for Count {
    fn put(&mut self, bytes: &[u8]) {
        // Data has no cap: a length past all counting is past any room too.
        self.0 = self.0.saturating_add(bytes.len());
    }
}

/// Fills a room that is known to suffice.
struct Fill<'a> {
    out: &'a mut [u8],
    at: usize,
}

impl Sink for Fill<'_> {
    fn put(&mut self, bytes: &[u8]) {
        let end = self.at + bytes.len();
        self.out[self.at..end].copy_from_slice(bytes);
        self.at = end;
    }
}

// ---------------------------------------------------------------- reading

#[derive(Clone, Copy, PartialEq, Eq)]
enum Style {
    /// `""`
    Json,
    /// `u''` and `''`
    Unicode,
    /// `b''`
    Bytes,
}

impl Style {
    fn quote(self) -> u8 {
        match self {
            Style::Json => b'"',
            Style::Unicode | Style::Bytes => b'\'',
        }
    }
}

/// The style that the opening mark names, and the mark's length.
fn opening(text: &[u8]) -> Option<(Style, usize)> {
    match text {
        [b'"', ..] => Some((Style::Json, 1)),
        [b'\'', ..] => Some((Style::Unicode, 1)),
        [b'u', b'\'', ..] => Some((Style::Unicode, 2)),
        [b'b', b'\'', ..] => Some((Style::Bytes, 2)),
        _ => None,
    }
}

/// The value of hex digits of either case, or nothing if one is not.
fn hex(digits: &[u8]) -> Option<u32> {
    digits.iter().try_fold(0, |value, &digit| {
        Some(value << 4 | (digit as char).to_digit(16)?)
    })
}

/// Takes the escape at the start of `rest`, which begins with a backslash:
/// puts what it gives and answers how long it is, or the refusal's number.
fn escape(style: Style, rest: &[u8], sink: &mut impl Sink) -> Result<usize, u32> {
    let letter = *rest.get(1).ok_or(ESCAPE)?;
    let byte = match letter {
        b'"' | b'\\' | b'/' => letter,
        b'\'' if style != Style::Json => letter,
        b'b' => 0x08,
        b'f' => 0x0c,
        b'n' => b'\n',
        b'r' => b'\r',
        b't' => b'\t',
        b'u' if style == Style::Json => return json_unit(rest, sink),
        b'u' => return braced(rest, sink),
        b'y' if style == Style::Unicode => return Err(BYTE_ESCAPE),
        b'y' if style == Style::Bytes => {
            let value = rest.get(2..4).and_then(hex).ok_or(ESCAPE)?;
            sink.put(&[value as u8]);
            return Ok(4);
        }
        _ => return Err(ESCAPE),
    };
    sink.put(&[byte]);
    Ok(2)
}

fn put_char(c: char, sink: &mut impl Sink) {
    sink.put(c.encode_utf8(&mut [0; 4]).as_bytes());
}

/// `\u` and four digits, or a pair of them that is one character.
fn json_unit(rest: &[u8], sink: &mut impl Sink) -> Result<usize, u32> {
    let unit = four_digits(rest).ok_or(ESCAPE)?;
    if let Some(c) = char::from_u32(unit) {
        put_char(c, sink);
        return Ok(6);
    }
    if (0xd800..=0xdbff).contains(&unit) {
        if let Some(low @ 0xdc00..=0xdfff) = four_digits(&rest[6..]) {
            let code = 0x10000 + ((unit - 0xd800) << 10) + (low - 0xdc00);
            put_char(char::from_u32(code).expect("a pair is a character"), sink);
            return Ok(12);
        }
    }
    // A half alone goes by the ordinary three-byte pattern, which `char` won't
    // encode.
    sink.put(&[
        0xe0 | (unit >> 12) as u8,
        0x80 | (unit >> 6 & 0x3f) as u8,
        0x80 | (unit & 0x3f) as u8,
    ]);
    Ok(6)
}

/// The number of a `\uhhhh` that `rest` begins with, if it does.
fn four_digits(rest: &[u8]) -> Option<u32> {
    hex(rest.strip_prefix(b"\\u")?.get(..4)?)
}

/// `\u{h}` with one to six digits.
fn braced(rest: &[u8], sink: &mut impl Sink) -> Result<usize, u32> {
    let inside = rest.strip_prefix(b"\\u{").ok_or(ESCAPE)?;
    let digits = inside.iter().take(7).take_while(|b| b.is_ascii_hexdigit());
    let count = digits.count();
    if !(1..=6).contains(&count) || inside.get(count) != Some(&b'}') {
        return Err(ESCAPE);
    }
    let code = hex(&inside[..count]).ok_or(ESCAPE)?;
    match char::from_u32(code) {
        Some(c) => put_char(c, sink),
        None if code > 0x10ffff => return Err(TOO_LARGE),
        None => return Err(SURROGATE),
    }
    Ok(4 + count)
}

/// Refuses a text that is valid UTF-8 just up to `valid`, the text itself at a place.
/// A character goes to the text's end at most: what isn't in the text, as the bytes
/// behind a stripped line, a cell or a comment, can't make it whole.
fn refuse_character<T>(text: &[u8], at: usize, valid: usize) -> Result<T, Refusal> {
    refuse(character_fault(&text[valid..]), at + valid)
}

/// Which fault it is that the bytes begin with: "Byte 80 to bf or f8 to ff at the start
/// is bad encoding; else too few continuation bytes is incomplete; else by value
/// overlong first (f0 8d a0 80 too), then surrogate, or above 10ffff."
fn character_fault(bytes: &[u8]) -> u32 {
    // What the start gives of the value, the least value that needs so many bytes, and
    // how many continuation bytes there must be.
    let (bits, least, wanted) = match bytes[0] {
        0x80..=0xbf | 0xf8..=0xff => return UTF8_BAD_ENCODING,
        start @ 0xc0..=0xdf => (start & 0x1f, 0x80, 1),
        start @ 0xe0..=0xef => (start & 0x0f, 0x800, 2),
        start @ 0xf0..=0xf7 => (start & 0x07, 0x1_0000, 3),
        0x00..=0x7f => unreachable!("ASCII is a character"),
    };
    let mut value = u32::from(bits);
    for at in 1..=wanted {
        match bytes.get(at) {
            Some(byte @ 0x80..=0xbf) => value = value << 6 | u32::from(byte & 0x3f),
            _ => return UTF8_INCOMPLETE,
        }
    }
    match value {
        _ if value < least => UTF8_OVERLONG,
        0xd800..=0xdfff => UTF8_SURROGATE,
        0x11_0000.. => UTF8_TOO_LARGE,
        _ => unreachable!("this is a character"),
    }
}

/// Decodes from `at`, right behind the opening mark, and answers where the
/// text goes on behind the closing quote.
fn decode(
    text: &[u8],
    mut at: usize,
    style: Style,
    sink: &mut impl Sink,
) -> Result<usize, Refusal> {
    let quote = style.quote();
    loop {
        let rest = &text[at..];
        let run = &rest[..run_length(rest, quote)];
        if !run.is_ascii() {
            if let Err(fault) = std::str::from_utf8(run) {
                return refuse_character(rest, at, fault.valid_up_to());
            }
        }
        sink.put(run);
        at += run.len();
        match text.get(at) {
            None => return refuse(CUT_OFF, at),
            Some(b'\\') => match escape(style, &text[at..], sink) {
                Ok(length) => at += length,
                Err(number) => return refuse(number, at),
            },
            Some(&b) if b == quote => return Ok(at + 1),
            Some(_) => return refuse(CONTROL, at),
        }
    }
}

/// Reads a J8 string's text into `out`.
pub fn read(text: &[u8], out: &mut [u8]) -> Result<usize, Refusal> {
    if text.len() > TEXT_MAX {
        return refuse(TOO_LONG, 0);
    }
    let Some((style, start)) = opening(text) else {
        return refuse(NO_OPENING, 0);
    };

    // A fault may come late, so the text is judged whole before a byte is put.
    let mut count = Count(0);
    let end = decode(text, start, style, &mut count)?;
    let length = count.0;
    if end < text.len() {
        return refuse(TRAILING, end);
    }
    if length > out.len() {
        return refuse(NO_ROOM, 0);
    }

    // As long as what stands between the marks: there is no escape, for each
    // gives fewer bytes than it has.
    let body = &text[start..end - 1];
    if length == body.len() {
        out[..length].copy_from_slice(body);
    } else {
        decode(text, start, style, &mut Fill { out, at: 0 })?;
    }
    Ok(length)
}

// ---------------------------------------------------------------- writing

fn digit(value: u8) -> u8 {
    b"0123456789abcdef"[value as usize]
}

/// `\yhh`
fn byte_escape(b: u8) -> [u8; 4] {
    [b'\\', b'y', digit(b >> 4), digit(b & 15)]
}

/// Well-formed characters, escaped where quote, backslash or control.
fn put_characters(characters: &[u8], style: Style, sink: &mut impl Sink) {
    let mut rest = characters;
    loop {
        let run = run_length(rest, style.quote());
        sink.put(&rest[..run]);
        let Some(&b) = rest.get(run) else { return };
        match b {
            0x08 => sink.put(b"\\b"),
            0x0c => sink.put(b"\\f"),
            b'\n' => sink.put(b"\\n"),
            b'\r' => sink.put(b"\\r"),
            b'\t' => sink.put(b"\\t"),
            0..=0x1f if style == Style::Bytes => sink.put(&byte_escape(b)),
            0..=0x1f => sink.put(&[b'\\', b'u', b'0', b'0', digit(b >> 4), digit(b & 15)]),
            _ => sink.put(&[b'\\', b]),
        }
        rest = &rest[run + 1..];
    }
}

fn put_json(data: &[u8], sink: &mut impl Sink) {
    sink.put(b"\"");
    put_characters(data, Style::Json, sink);
    sink.put(b"\"");
}

fn put_bytes(data: &[u8], sink: &mut impl Sink) {
    sink.put(b"b'");
    for chunk in data.utf8_chunks() {
        put_characters(chunk.valid().as_bytes(), Style::Bytes, sink);
        // No character starts inside an ill-formed part, so each byte of it
        // goes by itself.
        for &b in chunk.invalid() {
            sink.put(&byte_escape(b));
        }
    }
    sink.put(b"'");
}

/// Writes data as a J8 string: `""` if it is valid UTF-8, `b''` otherwise.
pub fn write(data: &[u8], out: &mut [u8]) -> Result<usize, Refusal> {
    if std::str::from_utf8(data).is_err() {
        return write_bytes(data, out);
    }
    // A byte takes six at most. Where the room has that, there is no need
    // to measure first.
    if data.len().saturating_mul(6).saturating_add(2) > out.len() {
        let mut count = Count(0);
        put_json(data, &mut count);
        if count.0 > out.len() {
            return refuse(NO_ROOM, 0);
        }
    }
    let mut sink = Fill { out, at: 0 };
    put_json(data, &mut sink);
    Ok(sink.at)
}

/// Writes data in the `b''` form, valid UTF-8 or not.
pub fn write_bytes(data: &[u8], out: &mut [u8]) -> Result<usize, Refusal> {
    // Here a byte takes four at most.
    if data.len().saturating_mul(4).saturating_add(3) > out.len() {
        let mut count = Count(0);
        put_bytes(data, &mut count);
        if count.0 > out.len() {
            return refuse(NO_ROOM, 0);
        }
    }
    let mut sink = Fill { out, at: 0 };
    put_bytes(data, &mut sink);
    Ok(sink.at)
}

#[cfg(test)]
mod tests;
