//! Random values with any bytes in their strings, what must be written of them,
//! and tables damaged in every way.

use crate::made::{self, text, Tree};
use crate::random::Random;
use j8::{Json8, Table, Value};

/// A table with the text and the store that it speaks of.
#[derive(Clone, Debug, PartialEq, Eq)]
pub struct Parts {
    pub table: Vec<u32>,
    pub text: Vec<u8>,
    pub store: Vec<u8>,
}

// ----------------------------------------------------------------- values

/// Pieces of strings: plain ones, such as are escaped, and such as are no UTF-8,
/// alone or by what comes before or behind.
const PIECES: [&[u8]; 30] = [
    b"a",
    b"scans/in",
    b" ",
    b"\x7f",
    b"/",
    b"#,:[]{}",
    "é".as_bytes(),
    "€".as_bytes(),
    "🤦".as_bytes(),
    b"a name that is longer than a block of bytes, of thirty-two or of sixty-four",
    b"\"",
    b"'",
    b"\\",
    b"\\yff",
    b"\x08\x0c\n\r\t",
    b"\0",
    b"\x01",
    b"\x1f",
    b"\xff",
    b"\xe9",
    b"\xc3",
    b"\xa9",
    b"\xe2\x82",
    b"\xf0\x9f\xa4",
    b"\xed\xa0\x80",
    b"\xed\xb4\xa6",
    b"\xc0\x80",
    b"\xf4\x90\x80\x80",
    b"\xf4\x8f\xbf\xbf",
    b"\xef\xbb\xbf",
];

pub fn string(random: &mut Random) -> Vec<u8> {
    let mut pieces = random.below(4);
    if random.once_in(300) {
        pieces = random.below(400);
    }
    let plain = random.once_in(3);
    let mut bytes = Vec::new();
    for _ in 0..pieces {
        match random.below(4) {
            0 if !plain => bytes.push(random.byte()),
            _ if plain => bytes.extend(random.pick(&PIECES[..10])),
            _ => bytes.extend(random.pick(&PIECES)),
        }
    }
    bytes
}

fn digits(random: &mut Random, most: usize) -> String {
    let count = 1 + random.below(most);
    let mut digit = || char::from(b'0' + random.below(10) as u8);
    (0..count).map(|_| digit()).collect()
}

pub fn number(random: &mut Random) -> String {
    let mut token = random.pick(&["", "", "-"]).to_string();
    match random.below(3) {
        0 => token.push('0'),
        _ => {
            token.push(random.pick(&['1', '4', '9']));
            let most = random.pick(&[2, 2, 20]);
            token += &digits(random, most);
        }
    }
    if random.once_in(3) {
        token.push('.');
        token += &digits(random, 4);
    }
    if random.once_in(4) {
        token += random.pick(&["e", "E", "e+", "E-", "e-"]);
        token += &digits(random, 3);
    }
    token
}

/// A value of at most so many nodes, but for a key or the deep ones; a wide one
/// uses them all. So many lists or dicts stand in each other at least.
pub fn value(random: &mut Random, nodes: usize, wide: bool, deep: usize) -> Value {
    let mut left = nodes;
    if wide || deep > 0 || !random.once_in(6) {
        branch(random, &mut left, wide, deep)
    } else {
        leaf(random, &mut left)
    }
}

fn leaf(random: &mut Random, left: &mut usize) -> Value {
    *left = left.saturating_sub(1);
    match random.below(8) {
        0 => Value::Null,
        1 => Value::Bool(false),
        2 => Value::Bool(true),
        3 | 4 => Value::Number(number(random)),
        _ => Value::String(string(random)),
    }
}

fn branch(random: &mut Random, left: &mut usize, wide: bool, deep: usize) -> Value {
    *left = left.saturating_sub(1);
    let dict = random.once_in(2);
    let most = if wide { usize::MAX } else { random.below(6) };
    let (mut members, mut pairs) = (Vec::new(), Vec::new());
    let mut count = 0;
    while (count == 0 && deep > 1) || (count < most && *left > usize::from(dict)) {
        *left = left.saturating_sub(usize::from(dict));
        let value = match random.below(4) {
            _ if count == 0 && deep > 1 => branch(random, left, false, deep - 1),
            0 => branch(random, left, false, 0),
            _ => leaf(random, left),
        };
        if dict {
            pairs.push((string(random), value));
        } else {
            members.push(value);
        }
        count += 1;
    }
    if dict {
        Value::Dict(pairs)
    } else {
        Value::List(members)
    }
}

/// The nodes of a value, keys with them, and how many lists and dicts stand in
/// each other.
pub fn size(value: &Value) -> (usize, usize) {
    let inside: Vec<(usize, usize)> = match value {
        Value::List(members) => members.iter().map(size).collect(),
        Value::Dict(pairs) => pairs.iter().map(|(_, value)| size(value)).collect(),
        _ => return (1, 0),
    };
    let keys = usize::from(matches!(value, Value::Dict(_))) * inside.len();
    let nodes: usize = inside.iter().map(|size| size.0).sum();
    let deepest = inside.iter().map(|size| size.1).max().unwrap_or(0);
    (1 + keys + nodes, 1 + deepest)
}

/// The text that must be written of a value.
pub fn form(value: &Value) -> Vec<u8> {
    let joined = |parts: Vec<Vec<u8>>, open, close| {
        let inside = parts.join(&b","[..]);
        [&[open], &inside[..], &[close]].concat()
    };
    match value {
        Value::Null => b"null".to_vec(),
        Value::Bool(false) => b"false".to_vec(),
        Value::Bool(true) => b"true".to_vec(),
        Value::Number(token) => token.clone().into_bytes(),
        Value::String(bytes) => quoted(bytes),
        Value::List(members) => joined(members.iter().map(form).collect(), b'[', b']'),
        Value::Dict(pairs) => {
            let pair = |(key, value): &(Vec<u8>, _)| [quoted(key), form(value)].join(&b':');
            joined(pairs.iter().map(pair).collect(), b'{', b'}')
        }
    }
}

fn quoted(bytes: &[u8]) -> Vec<u8> {
    let mut out = vec![0; 6 * bytes.len() + 2];
    let length = j8_reference::write(bytes, &mut out).expect("the room suffices");
    out.truncate(length);
    out
}

/// A size about the limits now and then: nodes, whether all are used, and depth.
fn sizes(random: &mut Random) -> (usize, bool, usize) {
    let wide = random.once_in(80);
    let nodes = match wide {
        true => 1_020 + random.below(9),
        false => 2 + random.below(25),
    };
    let deep = match random.below(30) {
        0 => 29 + random.below(7),
        1 => random.below(12),
        _ => 0,
    };
    (nodes, wide, deep)
}

/// A value of some size, now and then with a string about the longest.
pub fn sized(random: &mut Random) -> Value {
    let (nodes, wide, deep) = sizes(random);
    let value = value(random, nodes, wide, deep);
    if !random.once_in(500) {
        return value;
    }
    let piece = random.pick(&[b"a".as_slice(), b"\\"]);
    let count = (32_700 + random.below(80)) / if piece == b"a" { 1 } else { 2 };
    Value::List(vec![value, Value::String(piece.repeat(count))])
}

/// A value whose text has the length of the longest that is read back, or nearly.
pub fn longest(random: &mut Random) -> Value {
    let value = value(random, 10, false, 0);
    let target = 32_768 - 2 + random.below(5);
    // The brackets of the list, its comma and the string's quotes.
    let missing = target - form(&value).len().min(target - 5) - 5;
    Value::List(vec![value, Value::String(vec![b'a'; missing])])
}

/// What a text of the generator says.
pub fn meaning(tree: &Tree) -> Value {
    match tree {
        Tree::Null => Value::Null,
        Tree::False => Value::Bool(false),
        Tree::True => Value::Bool(true),
        Tree::Integer(token) | Tree::Number(token) => Value::Number(token.clone()),
        Tree::String(bytes) => Value::String(bytes.clone()),
        Tree::List(members) => Value::List(members.iter().map(meaning).collect()),
        Tree::Dict(pairs) => {
            let pair = |(key, tree): &(Vec<u8>, _)| (key.clone(), meaning(tree));
            Value::Dict(pairs.iter().map(pair).collect())
        }
    }
}

// ----------------------------------------------------------------- tables

/// Whether a value is within the limits of nodes and brackets.
fn is_within(value: &Value) -> bool {
    let (nodes, depth) = size(value);
    nodes <= 1_024 && depth <= 32
}

/// Parts that are sound but for the limits, where they come from, and whether
/// they are within the limits.
pub fn sound(random: &mut Random) -> (Parts, &'static str, bool) {
    match random.below(3) {
        0 => {
            let value = sized(random);
            let table = Table::new(&value);
            let parts = Parts {
                table: table.numbers().to_vec(),
                text: table.text().to_vec(),
                store: table.store().to_vec(),
            };
            (parts, "value", is_within(&value))
        }
        1 => {
            let made = text(random);
            let parts = Parts {
                table: made.table.concat(),
                text: made.text,
                store: made.store,
            };
            (parts, "made", is_within(&meaning(&made.tree)))
        }
        _ => loop {
            let (made, other) = (text(random), text(random));
            let bytes = match random.below(20) {
                0 => made::probe(random, 1, 2),
                1..=9 => made::damage(random, &made, &other),
                _ => made.text,
            };
            if let Ok(read) = Json8::read(bytes) {
                let nodes = read.nodes();
                let parts = Parts {
                    table: nodes.table().to_vec(),
                    text: nodes.text().to_vec(),
                    store: nodes.store().to_vec(),
                };
                break (parts, "read", true);
            }
        },
    }
}

/// Bytes before those that the table speaks of.
pub fn shift(random: &mut Random, parts: &mut Parts) {
    let (text, store) = (random.below(40), random.below(40));
    for row in parts.table.chunks_exact_mut(4) {
        row[2] += match row[0] {
            6 => store,
            _ => text,
        } as u32;
    }
    parts.text.splice(0..0, vec![random.byte(); text]);
    parts.store.splice(0..0, vec![random.byte(); store]);
}

/// Strings that share their ranges, or have any range of either buffer.
pub fn overlap(random: &mut Random, parts: &mut Parts) {
    let Parts { table, text, store } = parts;
    for row in table.chunks_exact_mut(4) {
        if !matches!(row[0], 5 | 6) || !random.once_in(2) {
            continue;
        }
        row[0] = 5 + random.below(2) as u32;
        let length = if row[0] == 5 { text.len() } else { store.len() };
        let place = random.below(length + 1);
        let bytes = random.below((length - place).min(40) + 1);
        (row[2], row[3]) = (place as u32, bytes as u32);
    }
}

/// What is done to a table.
#[derive(Clone, Copy, Debug, PartialEq, Eq, PartialOrd, Ord)]
pub enum Damage {
    Kind,
    Count,
    Place,
    Length,
    /// Two nodes change places.
    Swapped,
    /// A node is left out or comes twice.
    Moved,
    /// Numbers are missing at the end.
    Cut,
    /// Numbers stand behind the root's.
    Longer,
    /// The text or the store is cut short.
    Buffer,
    /// A byte of the text is another one.
    Byte,
}

pub const DAMAGES: [Damage; 10] = [
    Damage::Kind,
    Damage::Count,
    Damage::Place,
    Damage::Length,
    Damage::Swapped,
    Damage::Moved,
    Damage::Cut,
    Damage::Longer,
    Damage::Buffer,
    Damage::Byte,
];

/// A number about the old one, about a limit, about 2^32 minus another, or
/// anything.
pub fn changed(random: &mut Random, old: u32, limit: usize, other: u32) -> u32 {
    let limit = limit as u32;
    match random.below(14) {
        0 => 0,
        1 => 1,
        2 => u32::MAX,
        3 => u32::MAX - random.below(3) as u32,
        4 | 5 => old.wrapping_add(1),
        6 | 7 => old.wrapping_sub(1),
        8 => old.wrapping_add(random.below(9) as u32).wrapping_sub(4),
        9 => limit.wrapping_add(random.below(3) as u32).wrapping_sub(1),
        // The sum with the other is small again if it is taken in 32 bits.
        10 => other.wrapping_neg().wrapping_add(random.below(9) as u32),
        11 => old ^ 1 << random.below(32),
        12 => random.below(12) as u32,
        _ => random.below(limit as usize + 2) as u32,
    }
}

/// Damages a table of one node or more.
pub fn damage(random: &mut Random, parts: &mut Parts, damage: Damage) {
    let Parts { table, text, store } = parts;
    let nodes = table.len() / 4;
    // The root and the last node are the tempting ones.
    let node = match random.below(6) {
        0 => 0,
        1 => nodes - 1,
        _ => random.below(nodes),
    };
    let other = random.below(nodes);
    let [kind, count, place, length] = [0, 1, 2, 3].map(|i| table[4 * node + i]);
    let buffer = if kind == 6 { store.len() } else { text.len() };
    let row = &mut table[4 * node..4 * node + 4];
    match damage {
        Damage::Kind => {
            row[0] = match random.below(5) {
                0 => kind | 256 << random.below(24),
                1 => random.pick(&[9, 255, u32::MAX, kind ^ 1 << 31]),
                _ => random.below(10) as u32,
            }
        }
        Damage::Count => row[1] = changed(random, count, nodes - node, node as u32),
        Damage::Place => row[2] = changed(random, place, buffer, length),
        Damage::Length if kind > 6 => row[3] = changed(random, length, nodes, 0),
        Damage::Length => row[3] = changed(random, length, buffer, place),
        Damage::Swapped => (0..4).for_each(|i| table.swap(4 * node + i, 4 * other + i)),
        Damage::Moved if nodes > 1 && random.once_in(2) => {
            table.drain(4 * node..4 * node + 4);
        }
        Damage::Moved => {
            table.splice(4 * other..4 * other, [kind, count, place, length]);
        }
        Damage::Cut => {
            let most = if random.once_in(2) { 5 } else { table.len() };
            let gone = 1 + random.below(most);
            table.truncate(table.len().saturating_sub(gone));
        }
        Damage::Longer => table.extend((0..1 + random.below(9)).map(|i| i as u32)),
        Damage::Buffer => {
            let buffer = if random.once_in(2) { text } else { store };
            let most = if random.once_in(2) {
                2
            } else {
                buffer.len() + 1
            };
            let gone = random.below(most);
            buffer.truncate(buffer.len().saturating_sub(gone));
        }
        Damage::Byte => {
            if !text.is_empty() {
                // Where a number may stand.
                let at = (place as usize + random.below(3)).min(text.len() - 1);
                text[at] = match random.below(3) {
                    0 => random.byte(),
                    _ => random.pick(b"0123456789+-.eE \"\\"),
                };
            }
        }
    }
}
