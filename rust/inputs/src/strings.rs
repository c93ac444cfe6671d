//! Texts of J8 strings, made by the grammar and damaged, and bytes to be written
//! as one.

use crate::characters::{self, character};
use crate::random::Random;

/// The four opening marks.
pub const MARKS: [&str; 4] = ["\"", "'", "u'", "b'"];

/// Which of the four marks a text begins with.
pub fn mark_of(text: &[u8]) -> Option<usize> {
    MARKS.iter().position(|m| text.starts_with(m.as_bytes()))
}

fn plain_run(random: &mut Random) -> Vec<u8> {
    // Lengths about the sizes of words and vectors are the tempting ones.
    let length = if random.once_in(4) {
        random.below(80)
    } else {
        random.below(6)
    };
    let mut run = Vec::new();
    for _ in 0..length {
        let b = random.from(0x20, 0x7f) as u8;
        run.push(if b"\"'\\".contains(&b) { b'/' } else { b });
    }
    run
}

fn any_case(random: &mut Random, digits: String) -> String {
    match random.below(3) {
        0 => digits.to_uppercase(),
        _ => digits,
    }
}

fn unit_escape(random: &mut Random, low: u32, high: u32) -> String {
    let unit = random.from(low, high);
    let digits = format!("{unit:04x}");
    format!("\\u{}", any_case(random, digits))
}

fn json_escape(random: &mut Random) -> String {
    match random.below(6) {
        0 => unit_escape(random, 0, 0x7f),
        1 => unit_escape(random, 0x80, 0xffff),
        2 => unit_escape(random, 0xd800, 0xdbff),
        3 => unit_escape(random, 0xdc00, 0xdfff),
        _ => unit_escape(random, 0xd800, 0xdbff) + &unit_escape(random, 0xdc00, 0xdfff),
    }
}

fn braced_escape(random: &mut Random, ranges: &[(u32, u32)]) -> String {
    let (low, high) = random.pick(ranges);
    let code = match random.below(4) {
        0 => low,
        1 => high,
        _ => random.from(low, high),
    };
    let width = random.below(7);
    let digits = format!("{code:0width$x}");
    format!("\\u{{{}}}", any_case(random, digits))
}

fn byte_escape(random: &mut Random) -> String {
    let digits = format!("{:02x}", random.byte());
    format!("\\y{}", any_case(random, digits))
}

/// A piece that may stand in this style.
fn right_piece(random: &mut Random, mark: usize) -> Vec<u8> {
    match random.below(10) {
        0..=2 => plain_run(random),
        3 | 4 => character(random),
        5 | 6 => {
            let letter = random.pick(b"\"\\/bfnrt");
            vec![b'\\', letter]
        }
        7 => vec![if mark == 0 { b'\'' } else { b'"' }],
        _ if mark == 0 => json_escape(random).into_bytes(),
        _ => match random.below(4) {
            0 => b"\\'".to_vec(),
            1 if mark == 3 => byte_escape(random).into_bytes(),
            _ => braced_escape(
                random,
                &[
                    (0, 0x7f),
                    (0x80, 0x7ff),
                    (0x800, 0xd7ff),
                    (0xe000, 0xffff),
                    (0x10000, 0x10ffff),
                ],
            )
            .into_bytes(),
        },
    }
}

/// A piece that is wrong in this style, or in another one.
fn damaged_piece(random: &mut Random) -> Vec<u8> {
    match random.below(15) {
        0..=2 => characters::damaged(random),
        3 => vec![random.from(0, 0x1f) as u8],
        4 => vec![b'\\', random.byte()],
        5 => b"\\".to_vec(),
        6 => json_escape(random).into_bytes(),
        7 | 8 => byte_escape(random).into_bytes(),
        9 => braced_escape(random, &[(0xd800, 0xdfff)]).into_bytes(),
        10 => braced_escape(random, &[(0x110000, 0xffffff)]).into_bytes(),
        11 => braced_escape(random, &[(0x1000000, 0xfffffff)]).into_bytes(),
        12 => random
            .pick(&[
                r"\u{}",
                r"\u{",
                r"\u",
                r"\u{0000041}",
                r"\u{00dc00",
                r"\u{g}",
                r"\u{ 41}",
            ])
            .as_bytes()
            .to_vec(),
        13 => random
            .pick(&[
                r"\y", r"\yf", r"\yg0", r"\y0g", r"\Yff", r"\U0041", r"\N{A}", r"\'", r"\x41",
            ])
            .as_bytes()
            .to_vec(),
        _ => {
            // A right escape with its end cut off.
            let mut escape = match random.below(3) {
                0 => json_escape(random),
                1 => byte_escape(random),
                _ => braced_escape(random, &[(0, 0x10ffff)]),
            };
            escape.truncate(1 + random.below(escape.len()));
            escape.into_bytes()
        }
    }
}

fn mutate(random: &mut Random, text: &mut Vec<u8>) {
    if text.is_empty() {
        text.push(random.byte());
        return;
    }
    let at = random.below(text.len());
    match random.below(6) {
        0 => {
            text.remove(at);
        }
        1 => {
            let b = random.byte();
            text.insert(at, b);
        }
        2 => {
            let b = random.pick(b"\"'\\uby{}09afAF/\x00\x1f\x7f\x80\xff");
            text.insert(at, b);
        }
        3 => text[at] ^= 1 << random.below(8),
        4 => text.truncate(at),
        _ => {
            let end = (at + 1 + random.below(8)).min(text.len());
            let part = text[at..end].to_vec();
            text.splice(at..at, part);
        }
    }
}

/// A string's text, right or damaged.
pub fn text(random: &mut Random) -> Vec<u8> {
    let mark = random.below(MARKS.len());
    let mut text = MARKS[mark].as_bytes().to_vec();
    let start = text.len();
    // Half of the texts are right, so that acceptance is tried as hard.
    let damaged = random.once_in(2);
    for _ in 0..random.below(8) {
        let piece = if damaged && random.once_in(5) {
            damaged_piece(random)
        } else {
            right_piece(random, mark)
        };
        text.extend(piece);
    }
    if !(damaged && random.once_in(6)) {
        text.push(if mark == 0 { b'"' } else { b'\'' });
    }
    if damaged && random.once_in(6) {
        let junk = random.pick(&[" ", "x", "\"", "'", "\n", "\u{e9}", " # x"]);
        text.extend(junk.bytes());
    }
    if random.once_in(400) {
        // About the cap. What stands behind the run is then late in the text.
        let target = random.from(32_764, 32_770) as usize;
        let fill = random.pick(b"ab/~ ");
        if text.len() < target {
            let missing = target - text.len();
            text.splice(start..start, std::iter::repeat(fill).take(missing));
        }
    }
    if damaged && random.once_in(2) {
        for _ in 0..1 + random.below(3) {
            mutate(random, &mut text);
        }
    }
    if random.once_in(100) {
        // No text of ours at all.
        text = (0..random.below(20)).map(|_| random.byte()).collect();
    }
    text
}

/// Bytes to be written, valid UTF-8 or not.
pub fn data(random: &mut Random) -> Vec<u8> {
    let mut data = Vec::new();
    let valid = random.once_in(2);
    for _ in 0..random.below(8) {
        let piece = match random.below(10) {
            0..=2 => plain_run(random),
            3 | 4 => character(random),
            5 => vec![random.pick(b"\"'\\/\x7f")],
            6 => vec![random.from(0, 0x1f) as u8],
            7 if !valid => (0..random.below(6)).map(|_| random.byte()).collect(),
            8 if !valid => characters::damaged(random),
            9 if !valid => vec![0xed, random.from(0xa0, 0xbf) as u8, 0x80],
            _ => json_escape(random).into_bytes(),
        };
        data.extend(piece);
    }
    if random.once_in(400) {
        // Texts about the cap, and some well past it.
        let target = random.pick(&[32_765, 32_766, 32_767, 40_000]);
        let at = random.below(data.len() + 1);
        let missing = target - data.len();
        data.splice(at..at, std::iter::repeat(b'a').take(missing));
    }
    data
}

/// A room for a result of `exact` bytes.
pub fn room(random: &mut Random, exact: usize) -> usize {
    match random.below(5) {
        0 => exact,
        1 => exact.saturating_sub(1),
        2 => 0,
        3 => random.below(exact + 2),
        _ => exact + random.below(200),
    }
}
