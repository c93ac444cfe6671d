//! UTF-8 characters, and ill-formed bytes with each fault that these can have.

use crate::random::Random;

/// A number from a range, its ends more often than others.
fn edged(random: &mut Random, low: u32, high: u32) -> u32 {
    match random.below(4) {
        0 => low,
        1 => high,
        _ => random.from(low, high),
    }
}

/// A character of two bytes or more.
pub fn character(random: &mut Random) -> Vec<u8> {
    let (low, high) = random.pick(&[
        (0x80, 0x7ff),
        (0x800, 0xfff),
        (0x1000, 0xd7ff),
        (0xd700, 0xd7ff),
        (0xe000, 0xffff),
        (0x10000, 0x3ffff),
        (0x40000, 0xfffff),
        (0x100000, 0x10ffff),
    ]);
    let code = edged(random, low, high);
    let c = char::from_u32(code).expect("the ranges hold characters");
    c.to_string().into_bytes()
}

/// A start byte and continuation bytes, so many in all, for any value that they have
/// room for: the form that a character has, or would have if it were one.
fn form(length: usize, value: u32) -> Vec<u8> {
    let start = [0xc0, 0xe0, 0xf0][length - 2];
    let mut bytes = vec![start | (value >> (6 * (length - 1))) as u8];
    for left in (0..length - 1).rev() {
        bytes.push(0x80 | (value >> (6 * left) & 0x3f) as u8);
    }
    bytes
}

/// Forms that are longer than they need be, of surrogates too.
const OVERLONG: [(usize, u32, u32); 5] = [
    (2, 0, 0x7f),
    (3, 0, 0x7f),
    (3, 0x80, 0x7ff),
    (4, 0, 0xffff),
    (4, 0xd800, 0xdfff),
];
const SURROGATES: [(usize, u32, u32); 2] = [(3, 0xd800, 0xdbff), (3, 0xdc00, 0xdfff)];
const TOO_LARGE: [(usize, u32, u32); 2] = [(4, 0x110000, 0x13ffff), (4, 0x140000, 0x1fffff)];

fn form_of(random: &mut Random, ranges: &[(usize, u32, u32)]) -> Vec<u8> {
    let (length, low, high) = random.pick(ranges);
    let value = edged(random, low, high);
    form(length, value)
}

/// Ill-formed bytes with each of the five faults, or nearly so.
pub fn damaged(random: &mut Random) -> Vec<u8> {
    match random.below(9) {
        0 => {
            // No start, and continuation bytes behind it or not.
            let (low, high) = random.pick(&[(0x80, 0xbf), (0xf8, 0xff)]);
            let mut bytes = vec![edged(random, low, high) as u8];
            for _ in 0..random.pick(&[0, 0, 1, 2, 3, 4]) {
                bytes.push(edged(random, 0x80, 0xbf) as u8);
            }
            bytes
        }
        1 | 2 => {
            // Cut off, whatever it would be; and perhaps another behind it.
            let mut bytes = match random.below(5) {
                0 => form_of(random, &OVERLONG),
                1 => form_of(random, &SURROGATES),
                2 => form_of(random, &TOO_LARGE),
                _ => character(random),
            };
            bytes.truncate(1 + random.below(bytes.len() - 1));
            if random.once_in(4) {
                bytes.extend(character(random));
            }
            bytes
        }
        3 | 4 => form_of(random, &OVERLONG),
        5 => form_of(random, &SURROGATES),
        6 => form_of(random, &TOO_LARGE),
        7 => {
            // A continuation byte too many.
            let mut bytes = character(random);
            bytes.push(edged(random, 0x80, 0xbf) as u8);
            bytes
        }
        _ => {
            let mut bytes = character(random);
            let at = random.below(bytes.len());
            bytes[at] = random.byte();
            bytes
        }
    }
}
