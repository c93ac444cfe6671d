//! Writing JSON8: the library against the reference on sound and on damaged
//! tables, and there and back with random values and with texts that were read,
//! with a fixed seed. J8_CASES asks for more than 100,000 of each, and as much
//! more of the rest; J8_SEED for another seed.

#[path = "json8/written.rs"]
mod written;

use j8::raw::j8_result;
use j8::{Json8, Table, Unfit, Value};
use j8_inputs::made::{self, text};
use j8_inputs::random::{self, Random};
use j8_inputs::trees::{self, form, meaning, size, sized, sound, Damage, Parts, DAMAGES};
use j8_inputs::Lent;
use std::collections::BTreeMap;
use written::{done, library, reference, refused};

fn cases() -> u64 {
    random::cases(100_000)
}

/// How often each thing was seen.
type Seen = BTreeMap<String, u64>;

fn see(seen: &mut Seen, what: impl ToString) {
    *seen.entry(what.to_string()).or_default() += 1;
}

/// A generator that no longer reaches something must not pass unnoticed.
fn assert_seen<T: ToString>(seen: &Seen, all: &[T]) {
    println!("{seen:?}");
    for what in all {
        let what = what.to_string();
        let count = seen.get(&what).copied().unwrap_or(0);
        assert!(count >= 20, "{what}: {count} times");
    }
}

/// For messages: a long text would bury them.
fn brief(text: &[u8]) -> String {
    let head = &text[..text.len().min(400)];
    format!("{} bytes: {}", text.len(), head.escape_ascii())
}

// ----------------------------------------------------------- both sides

/// Writes a table by both sides in the same room; what they answer and leave
/// must be the same.
fn compare(parts: &Parts, room: usize, flip: bool, what: &str) -> (j8_result, Lent<u8>) {
    let (before, mut ours) = (parts.clone(), Lent::new(room, flip));
    let mut theirs = ours.clone();
    let answer = library(parts, ours.part());
    let expected = reference(parts, theirs.part());
    assert_eq!(answer, expected, "{what}, room {room}: {parts:?}");
    assert!(ours == theirs, "buffer, {what}, room {room}: {parts:?}");
    if answer.number != 0 {
        assert!(ours.holds(&[]), "touched, {what}, room {room}: {parts:?}");
    }
    assert!(*parts == before, "parts, {what}");
    (answer, ours)
}

/// With room for everything, exact room, one byte less and any. Gives the
/// refusal's number, or 0.
fn compare_rooms(random: &mut Random, parts: &Parts, what: &str) -> u32 {
    let flip = random.once_in(2);
    let mut room = 64;
    let (answer, mut out) = loop {
        let (answer, out) = compare(parts, room, flip, what);
        if answer.number != 12 {
            break (answer, out);
        }
        room *= 2;
    };
    if answer.number != 0 {
        assert_eq!(answer, refused(1), "{what}: {parts:?}");
        let room = random.below(64);
        assert_eq!(compare(parts, room, !flip, what).0, answer, "{what}");
        return 1;
    }
    let length = answer.length;
    let (exact, tight) = compare(parts, length, !flip, what);
    assert_eq!(exact, done(length), "{what}: {parts:?}");
    let text = out.part()[..length].to_vec();
    assert!(tight.holds(&text), "{what}: {parts:?}");
    assert!(out.holds(&text), "past the text, {what}: {parts:?}");
    for room in [length - 1, random.below(length)] {
        let (short, _) = compare(parts, room, flip, what);
        assert_eq!(short, refused(12), "{what}, room {room}: {parts:?}");
    }
    0
}

#[test]
fn tables() {
    let mut random = Random::new();
    let mut seen = Seen::new();
    for case in 0..cases() {
        let (mut parts, from, is_fit) = sound(&mut random);
        match random.below(8) {
            0 => trees::shift(&mut random, &mut parts),
            1 => trees::overlap(&mut random, &mut parts),
            _ => {}
        }
        let what = format!("case {case}, {from}");
        if random.once_in(3) {
            let number = compare_rooms(&mut random, &parts, &what);
            assert_eq!(number, u32::from(!is_fit), "{what}: {parts:?}");
            see(&mut seen, format!("{from} {number}"));
            continue;
        }
        let damage = random.pick(&DAMAGES);
        trees::damage(&mut random, &mut parts, damage);
        let number = compare_rooms(&mut random, &parts, &format!("{what}, {damage:?}"));
        if is_fit {
            see(&mut seen, format!("{damage:?} {number}"));
        }
        // More of it, on what is left.
        while random.once_in(2) && !parts.table.is_empty() {
            let damage = random.pick(&DAMAGES);
            if parts.table.len() >= 4 {
                trees::damage(&mut random, &mut parts, damage);
            }
            let number = compare_rooms(&mut random, &parts, &what);
            see(&mut seen, format!("more {number}"));
        }
    }
    let mut all: Vec<String> = ["value 0", "value 1", "made 0", "made 1", "read 0"]
        .map(String::from)
        .to_vec();
    for damage in DAMAGES {
        all.extend((damage != Damage::Cut).then(|| format!("{damage:?} 0")));
        all.extend((damage != Damage::Longer).then(|| format!("{damage:?} 1")));
    }
    all.extend(["more 0", "more 1"].map(String::from));
    assert_seen(&seen, &all);
}

/// Each number of a table in turn, each cut, and each two nodes swapped.
#[test]
fn every_number() {
    let mut random = Random::new();
    let (mut fit, mut unfit) = (0_u64, 0_u64);
    for case in 0..cases() / 1_000 {
        let value = trees::value(&mut random, 12, true, 3);
        let table = Table::new(&value);
        let right = Parts {
            table: table.numbers().to_vec(),
            text: table.text().to_vec(),
            store: table.store().to_vec(),
        };
        let room = form(&value).len() + 50;
        let (text, store) = (right.text.len() as u32, right.store.len() as u32);
        let mut judge = |parts: &Parts| {
            let what = format!("case {case}");
            match compare(parts, room, false, &what).0.number {
                1 => unfit += 1,
                _ => fit += 1,
            }
        };
        for at in 0..right.table.len() {
            let old = right.table[at];
            let near = [old.wrapping_sub(1), old.wrapping_add(1), old ^ 256];
            let far = [text, text + 1, store, store + 1, u32::MAX, u32::MAX - 1];
            let wrapping = (0..4).map(|i: u32| (1_u32 << 31).wrapping_sub(i));
            let small = 0..10;
            for new in small.chain(near).chain(far).chain(wrapping) {
                let mut parts = right.clone();
                parts.table[at] = new;
                judge(&parts);
            }
            // With its neighbour, a range whose end is past 2^32.
            if let (2, length) = (at % 4, right.table[at - at % 4 + 3]) {
                for more in 0..4 {
                    let mut parts = right.clone();
                    parts.table[at] = length.wrapping_neg().wrapping_add(more);
                    judge(&parts);
                    parts.table[at + 1] = u32::MAX - more;
                    judge(&parts);
                }
            }
            let mut parts = right.clone();
            parts.table.truncate(at);
            judge(&parts);
        }
        let nodes = right.table.len() / 4;
        for (one, other) in (0..nodes).flat_map(|i| (0..i).map(move |j| (i, j))) {
            let mut parts = right.clone();
            (0..4).for_each(|i| parts.table.swap(4 * one + i, 4 * other + i));
            judge(&parts);
        }
    }
    println!("fit: {fit}, unfit: {unfit}");
    assert!(fit >= 1_000 && unfit >= 1_000);
}

// -------------------------------------------------------- there and back

/// The text that is written of a value is read to the value again, and then
/// written the same. Gives what was read, if it isn't too long for that.
fn comes_back(value: &Value, text: &[u8], what: &str) -> Option<Json8> {
    let read = match Json8::read(text) {
        Err(refusal) if text.len() > j8::TEXT_MAX => {
            assert_eq!((refusal.number(), refusal.place), (2, 0), "{what}");
            return None;
        }
        read => read.unwrap_or_else(|refusal| panic!("{what}, {refusal}: {}", brief(text))),
    };
    assert!(text.len() <= j8::TEXT_MAX, "{what}");
    assert_eq!(&read.root().to_value(), value, "{what}: {}", brief(text));
    assert!(
        read.write_to_vec() == text,
        "again, {what}: {}",
        brief(text)
    );
    Some(read)
}

/// The bytes of all strings and numbers of a table.
fn bytes_of(table: &[u32]) -> usize {
    let ranges = table.chunks_exact(4).filter(|row| (3..7).contains(&row[0]));
    ranges.map(|row| row[3] as usize).sum()
}

#[test]
fn values_come_back() {
    let mut random = Random::new();
    let mut seen = Seen::new();
    let mut back = 0;
    while back < cases() {
        let value = sized(&mut random);
        let table = Table::new(&value);
        let (nodes, depth) = size(&value);
        let what = format!("case {back}");
        if depth <= j8::DEPTH_MAX {
            assert_eq!(table.numbers().len(), 4 * nodes, "{what}");
        }

        let text = match table.write_to_vec() {
            Ok(text) => text,
            Err(refusal) => {
                assert_eq!((refusal.number(), refusal.place), (1, 0), "{what}");
                assert!(nodes > 1_024 || depth > 32, "{what}: {value:?}");
                let why = if depth > 32 {
                    Unfit::TooDeep
                } else {
                    Unfit::TooManyNodes
                };
                assert_eq!(refusal.unfit, Some(why), "{what}");
                see(&mut seen, if nodes > 1_024 { "wide" } else { "deep" });
                continue;
            }
        };
        assert!(nodes <= 1_024 && depth <= 32, "{what}: {value:?}");
        assert!(text == form(&value), "{what}: {}", brief(&text));
        let most = 6 * (nodes + bytes_of(table.numbers()));
        assert!(text.len() <= most, "{what}: {}", brief(&text));

        let Some(read) = comes_back(&value, &text, &what) else {
            see(&mut seen, "long");
            continue;
        };
        // The same kinds, counts and lengths, for the builder stores what the
        // reader would.
        let rows = |table: &[u32]| -> Vec<[u32; 3]> {
            let length = |row: &[u32]| if row[0] < 3 { 0 } else { row[3] };
            let rows = table.chunks_exact(4);
            rows.map(|row| [row[0], row[1], length(row)]).collect()
        };
        let nodes_read = read.nodes();
        assert_eq!(rows(nodes_read.table()), rows(table.numbers()), "{what}");
        assert_eq!(nodes_read.store(), table.store(), "{what}");
        back += 1;
        if nodes == 1_024 {
            see(&mut seen, "1,024 nodes");
        }
        if depth == 32 {
            see(&mut seen, "32 deep");
        }
        if text.windows(2).any(|two| two == b"b'") {
            see(&mut seen, "b''");
        }
    }
    let all = ["1,024 nodes", "32 deep", "b''", "wide", "deep", "long"];
    assert_seen(&seen, &all);
}

/// What is read is fit, is written in twice its length at most, and is read to
/// the same value.
#[test]
fn texts_come_back() {
    let mut random = Random::new();
    let mut seen = Seen::new();
    let mut taken = 0;
    while taken < cases() {
        let (made, other) = (text(&mut random), text(&mut random));
        let what = format!("case {taken}");
        let is_right = random.once_in(2);
        let bytes = match random.below(30) {
            _ if is_right => made.text.clone(),
            0 => made::probe(&mut random, 1, 2),
            _ => made::damage(&mut random, &made, &other),
        };
        let Ok(read) = Json8::read(bytes.as_slice()) else {
            assert!(!is_right || made.refusal().is_some(), "{what}");
            see(&mut seen, "refused");
            continue;
        };
        taken += 1;
        let (nodes, room) = (read.nodes(), j8::write_json8_room(bytes.len()));
        let mut out: Lent<u8> = Lent::new(room, is_right);
        let length = nodes.write(out.part());
        let length =
            length.unwrap_or_else(|refusal| panic!("{what}, {refusal}: {}", brief(&bytes)));
        let written = &out.part()[..length].to_vec();
        assert!(out.holds(written), "past the text, {what}");
        assert!(
            *written == form(&nodes.root().to_value()),
            "{what}: {}",
            brief(written)
        );
        if is_right {
            assert_eq!(nodes.root().to_value(), meaning(&made.tree), "{what}");
            see(&mut seen, "right");
        } else {
            see(&mut seen, "damaged");
        }
        match comes_back(&nodes.root().to_value(), written, &what) {
            Some(_) => see(&mut seen, "back"),
            None => see(&mut seen, "too long"),
        }
        if length > bytes.len() {
            see(&mut seen, "longer than it was");
        }
    }
    let all = ["right", "damaged", "refused", "back", "longer than it was"];
    assert_seen(&seen, &all);
}
