//! Texts of J8 Lines, good and damaged, cut into calls; states made by hand; lists of
//! records.

use crate::characters;
use crate::random::Random;
use j8::raw::j8_upload;
use j8_reference::lines::{Call, LINE_MAX, UPLOAD_MAX};

const PLAIN: [&str; 12] = [
    "a", "scans/in", "2024", " ", "\u{7f}", "é", "€", "🤦", "#", "/", "u", "b",
];
const BARE: [&str; 5] = ["\t", "\"", "'", "\\", "\\yff"];
const COMMON: [&str; 8] = [r#"\""#, r"\\", r"\/", r"\b", r"\f", r"\n", r"\r", r"\t"];
const JSON: [&str; 7] = [
    "'",
    r"\u0041",
    r"\u00E9",
    r"\ud83e\udd26",
    r"\ud83e",
    r"\udd26",
    r"\u0000",
];
const SINGLE: [&str; 6] = ["\"", r"\'", r"\u{41}", r"\u{10ffff}", r"\u{0}", r"\u{E9}"];
const BYTES: [&str; 4] = [r"\yff", r"\yc3\ya9", r"\y00", r"\yED\ya0\y80"];

/// Each wrong in some style, or bare.
const WRONG: [&[u8]; 24] = [
    b"\x01",
    b"\x00",
    b"\x1f",
    b"\r",
    b"\t",
    b"\xff",
    b"\xe2\x82",
    b"\xed\xa0\x80",
    b"\xc0\x80",
    b"\xf4\x90\x80\x80",
    b"\\q",
    b"\\",
    b"\\u12",
    b"\\u{",
    b"\\u{0000041}",
    b"\\u{dc00}",
    b"\\u{DFFF}",
    b"\\u{110000}",
    b"\\u{ffffff}",
    b"\\yfe",
    b"\\y",
    b"\"",
    b"'",
    b"\" x",
];

/// One of these, or a damaged character.
fn wrong(random: &mut Random) -> Vec<u8> {
    match random.below(5) {
        0 => characters::damaged(random),
        _ => random.pick(&WRONG).to_vec(),
    }
}

fn blanks(random: &mut Random, damaged: bool) -> Vec<u8> {
    let count = random.pick(&[0, 0, 0, 1, 2]);
    // The other bytes look like blanks and aren't.
    let bytes: &[u8] = if damaged && random.once_in(4) {
        b" \t\r\x0b\x0c\x00\x1f\xa0"
    } else {
        b" \t\r"
    };
    (0..count).map(|_| random.pick(bytes)).collect()
}

/// One line without its LF; nearly always right unless `damaged`.
pub fn line(random: &mut Random, damaged: bool) -> Vec<u8> {
    let mut line = blanks(random, damaged);
    if random.once_in(8) {
        return line;
    }
    // One of four marks, or bare.
    let style = random.below(6);
    let mark = ["\"", "'", "u'", "b'"].get(style).copied();
    line.extend(mark.unwrap_or("").bytes());
    let start = line.len();
    for _ in 0..random.below(6) {
        let piece = if damaged && random.once_in(4) {
            wrong(random)
        } else {
            let right: &[&str] = match (style, random.below(4)) {
                (4.., 0) => &BARE,
                (0..4, 0) => &COMMON,
                (0, 1) => &JSON,
                (1..4, 1) => &SINGLE,
                (3, 2) => &BYTES,
                _ => &PLAIN,
            };
            random.pick(right).as_bytes().to_vec()
        };
        line.extend(piece);
    }
    if let Some(mark) = mark {
        if !(damaged && random.once_in(6)) {
            line.extend(mark.bytes().last());
        }
    }
    line.extend(blanks(random, damaged));
    if random.once_in(80) {
        // About the longest that is read.
        let target = LINE_MAX - 2 + random.below(4);
        let missing = target.saturating_sub(line.len());
        let fill = random.pick(b"a/ ");
        line.splice(start..start, std::iter::repeat(fill).take(missing));
    }
    if damaged && random.once_in(12) {
        let at = random.below(line.len() + 1);
        line.insert(at, random.byte());
    }
    line
}

/// Many lines, to come near the longest upload.
fn filler(random: &mut Random, length: usize) -> Vec<u8> {
    let mut line = match random.below(3) {
        0 => Vec::new(),
        1 => vec![b' '; random.below(LINE_MAX)],
        _ => vec![b'n'; 1 + random.below(LINE_MAX)],
    };
    line.push(b'\n');
    let mut text = line.repeat(length / line.len());
    text.resize(length, b'\n');
    text
}

/// A text of some lines, now and then about the longest upload.
pub fn text(random: &mut Random) -> Vec<u8> {
    let mut text = Vec::new();
    if random.once_in(600) {
        // The longest upload ends among the lines below, or right behind a
        // line of the greatest length.
        let short = match random.below(3) {
            0 => LINE_MAX,
            _ => random.pick(&[0, 1, 5, 30, LINE_MAX - 1, LINE_MAX + 1]),
        };
        text = filler(random, UPLOAD_MAX - short);
        if short > 30 {
            text.extend([b'n'; LINE_MAX]);
        }
    }
    let damaged = random.once_in(2);
    for _ in 0..random.below(7) {
        let damaged = damaged && random.once_in(2);
        text.extend(line(random, damaged));
        text.push(b'\n');
    }
    if random.once_in(2) {
        // The last line has no LF.
        let damaged = damaged && random.once_in(2);
        text.extend(line(random, damaged));
    }
    text
}

/// A room for a result of `exact` bytes.
pub fn room(random: &mut Random, exact: usize) -> usize {
    match random.below(6) {
        0 => exact,
        1 => exact.saturating_sub(1),
        2 => random.below(exact + 2),
        3 => random.below(5),
        _ => exact + random.below(60),
    }
}

/// The text cut into feeds, with finishes in any places.
pub fn calls<'a>(random: &mut Random, text: &'a [u8], way: usize) -> Vec<Call<'a>> {
    let mut calls = Vec::new();
    let most = match way {
        0 => text.len().max(1),
        1 if text.len() < 400 => 1,
        // Some ten pieces of a long text, and any of a short one.
        _ => 1 + random.below(text.len() / 5 + 8),
    };
    let mut rest = text;
    while !rest.is_empty() {
        let length = match way {
            0 | 1 => most,
            _ => random.below(most + 1),
        };
        let (piece, behind) = rest.split_at(length.min(rest.len()));
        calls.push(Call::Feed(piece));
        rest = behind;
    }
    if !random.once_in(4) {
        calls.push(Call::Finish);
    }
    while random.once_in(3) {
        let at = random.below(calls.len() + 1);
        let extra = random.pick(&[Call::Finish, Call::Feed(b""), Call::Feed(b"x\n")]);
        // Half of them at the end.
        let at = if random.once_in(2) { calls.len() } else { at };
        calls.insert(at, extra);
    }
    calls
}

// ------------------------------------------------- states made by hand

/// Each number of a state about its limits, or anything.
pub fn hand_made(random: &mut Random, room: usize) -> j8_upload {
    let most = usize::MAX;
    let taken = match random.below(8) {
        0 => UPLOAD_MAX,
        1 => UPLOAD_MAX - random.below(12),
        2 if random.once_in(4) => random.pick(&[UPLOAD_MAX + 1, UPLOAD_MAX + 2, most]),
        _ => random.below(3_000),
    };
    let lfs = match random.below(8) {
        0 => taken,
        1 if random.once_in(4) => random.pick(&[taken.saturating_add(1), most]),
        _ => random.below(taken.min(UPLOAD_MAX) + 1),
    };
    let held = match random.below(8) {
        0 => LINE_MAX - random.below(8),
        1 if random.once_in(4) => random.pick(&[LINE_MAX + 1, LINE_MAX + 2, most]),
        _ => random.below(40),
    };
    let used = match random.below(8) {
        0 => room,
        1 if random.once_in(4) => random.pick(&[room + 1, room + 2, most]),
        _ => random.below(room + 1),
    };
    j8_upload {
        taken,
        lfs,
        held,
        used,
        ended: match random.below(10) {
            0 => random.pick(&[1, 2, u32::MAX]),
            _ => 0,
        },
        refusal: match random.below(10) {
            0 if random.once_in(2) => random.below(30) as u32,
            0 => random.pick(&[1, 2, 5, 12, 13, 17, 18, 99, u32::MAX]),
            _ => 0,
        },
        line: random.pick(&[0, 0, 1, 7, most]),
        place: random.pick(&[0, 0, 1, 1_024, most]),
    }
}

// ---------------------------------------------------------------- records

fn payload(random: &mut Random) -> Vec<u8> {
    let mut payload = Vec::new();
    let valid = random.once_in(2);
    for _ in 0..random.below(6) {
        match random.below(5) {
            0 => payload.push(random.pick(b"\"'\\/\x08\x0c\n\r\t\x00\x1f\x7f")),
            1 if !valid => payload.push(random.byte()),
            2 if !valid => payload.extend(wrong(random)),
            _ => payload.extend(random.pick(&PLAIN).bytes()),
        }
    }
    if random.once_in(60) {
        // Lines about the longest that is read, and some well past it.
        let target = random.pick(&[1_019, 1_020, 1_021, 1_022, 1_023, 1_024, 3_000, 65_535]);
        let missing = target - payload.len();
        let at = random.below(payload.len() + 1);
        payload.splice(at..at, std::iter::repeat(b'n').take(missing));
    }
    payload
}

fn right_kind(payload: &[u8]) -> u16 {
    match std::str::from_utf8(payload) {
        Ok(_) => 1,
        Err(_) => 2,
    }
}

/// Records that are right.
pub fn records(random: &mut Random) -> Vec<u8> {
    let mut records = Vec::new();
    for _ in 0..random.below(6) {
        let payload = payload(random);
        records.extend(record(right_kind(&payload), &payload));
    }
    records
}

/// Damages a list of records.
pub fn damage(random: &mut Random, records: &mut Vec<u8>) {
    match random.below(5) {
        0 => records.truncate(random.below(records.len() + 1)),
        1 => {
            let payload = payload(random);
            let kind = random.pick(&[0, 1, 2, 3, 256, 257, 258, 513, 0xffff]);
            records.extend(record(kind, &payload));
        }
        2 => records.extend((0..1 + random.below(6)).map(|_| random.byte())),
        3 => {
            // A length that is one too long or too short, or any other byte.
            if let Some(first) = records.first_mut() {
                *first = random.pick(&[first.wrapping_add(1), first.wrapping_sub(1)]);
            }
        }
        _ => {
            if !records.is_empty() {
                let at = random.below(records.len());
                records[at] = random.byte();
            }
        }
    }
}

/// A record of this kind, right or wrong.
pub fn record(kind: u16, payload: &[u8]) -> Vec<u8> {
    let length = u16::try_from(payload.len()).expect("a payload for a record");
    [&length.to_le_bytes(), &kind.to_le_bytes(), payload].concat()
}
