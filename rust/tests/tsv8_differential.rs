//! TSV8: the library against the reference, and against what the generator knows,
//! on generated and damaged texts and logs, with a fixed seed. J8_CASES asks for
//! more texts than 150,000, J8_SEED for another seed.

mod tsv8;

use j8::raw::j8_sheet;
use j8::{Cell, Tsv8};
use j8_inputs::random::{self, Random};
use j8_inputs::tsv8::{damage, room, text, LOGS, TEMPTING};
use std::collections::BTreeMap;
use tsv8::{done, refused, Parts, LIBRARY, REFERENCE};

/// How often each thing was seen.
type Seen = BTreeMap<u32, u64>;

/// A generator that no longer reaches something must not pass unnoticed.
fn assert_seen(what: &str, seen: &Seen, numbers: &[u32]) {
    println!("{what}: {seen:?}");
    for number in numbers {
        let count = seen.get(number).copied().unwrap_or(0);
        assert!(count >= 5, "{what}, number {number}: {count} times");
    }
}

/// For messages: a text of 32 KiB would bury them.
fn brief(text: &[u8]) -> String {
    let shown = &text[..text.len().min(400)];
    format!("{} bytes: {}", text.len(), shown.escape_ascii())
}

/// Reads a text by both sides in the same rooms; what they answer and leave must be
/// the same.
fn compare(text: &[u8], lengths: [usize; 4], flip: bool, what: &str) -> (j8_sheet, Parts) {
    let mut ours = Parts::new(lengths, flip);
    let before = ours.clone();
    let mut theirs = ours.clone();
    let what = || format!("{what}, rooms {lengths:?}, {}", brief(text));
    let answer = LIBRARY(text, &mut ours);
    assert_eq!(answer, REFERENCE(text, &mut theirs), "{}", what());
    assert!(ours == theirs, "{}", what());
    assert!(answer.number == 0 || ours == before, "touched, {}", what());
    (answer, ours)
}

/// The crate's own types say what the numbers do.
fn compare_types(text: &[u8], parts: &Parts, answer: &j8_sheet) {
    let log = Tsv8::read(text).expect("an accepted text");
    let sheet = log.sheet();
    let numbers = |part: &[u32], count: usize| part[..count].to_vec();
    assert_eq!(
        sheet.names(),
        numbers(parts.names.items(), 3 * answer.columns)
    );
    assert_eq!(sheet.types(), numbers(parts.types.items(), answer.columns));
    assert_eq!(
        sheet.numbers(),
        numbers(parts.cells.items(), 3 * answer.cells)
    );
    assert_eq!(sheet.store(), &parts.store.items()[..answer.stored]);
    assert_eq!(sheet.width() * sheet.height(), answer.cells);
    let mut rest = sheet.numbers().chunks_exact(3);
    for row in sheet.rows() {
        for (column, cell) in sheet.columns().zip(row) {
            assert_eq!(cell.kind(), column.kind());
            let Some(&[kind, place, length]) = rest.next() else {
                panic!("a cell without its numbers");
            };
            let buffer = if kind == 6 { sheet.store() } else { text };
            let bytes = &buffer[place as usize..(place + length) as usize];
            match cell {
                Cell::Bool(is_true) => {
                    assert_eq!(kind, 1 + u32::from(is_true));
                    assert_eq!(bytes, is_true.to_string().as_bytes());
                }
                Cell::Int(token) => assert_eq!((kind, token.as_bytes()), (3, bytes)),
                Cell::Float(token) => assert_eq!((kind, token.as_bytes()), (4, bytes)),
                Cell::Str(string) => assert_eq!((kind > 4, string), (true, bytes)),
            }
        }
    }
    assert_eq!(rest.next(), None);
}

#[test]
fn texts() {
    let mut random = Random::new();
    let (mut seen, mut rooms, mut limits) = (Seen::new(), Seen::new(), Seen::new());
    let mut other = text(&mut random);
    for case in 0..random::cases(150_000) {
        let made = text(&mut random);
        let is_right = random.once_in(3);
        let bytes = match random.below(20) {
            _ if is_right => made.text.clone(),
            0 => (0..random.below(20))
                .map(|_| random.pick(TEMPTING))
                .collect(),
            1..=5 => {
                let log = random.pick(&LOGS).as_bytes();
                damage(&mut random, log, &other.text)
            }
            _ => damage(&mut random, &made.text, &other.text),
        };
        let what = format!("case {case}");

        // With room for everything, then with less.
        let flip = random.once_in(2);
        let tabs = bytes.iter().filter(|&&b| b == b'\t').count();
        let lengths = [3 * tabs, tabs, 3 * tabs, bytes.len()];
        let (answer, parts) = compare(&bytes, lengths, flip, &what);
        *seen.entry(answer.number).or_default() += 1;
        if is_right {
            let expected = match made.refusal() {
                Some((number, place)) => refused(number, place),
                None => done(made.names.len(), made.cells.len(), made.store.len()),
            };
            assert_eq!(answer, expected, "{what}: {}", brief(&bytes));
            *limits.entry(answer.number).or_default() += 1;
            if answer.number == 0 {
                let holds = parts.names.holds(&made.names.concat())
                    && parts.types.holds(&made.types)
                    && parts.cells.holds(&made.cells.concat())
                    && parts.store.holds(&made.store);
                assert!(holds, "{what}: {}", brief(&bytes));
            }
        }
        if answer.number == 0 {
            if random.once_in(4) {
                compare_types(&bytes, &parts, &answer);
            }
            let exact = [
                3 * answer.columns,
                answer.columns,
                3 * answer.cells,
                answer.stored,
            ];
            let lengths = exact.map(|length| room(&mut random, length));
            let (answer, _) = compare(&bytes, lengths, !flip, &what);
            *rooms.entry(answer.number).or_default() += 1;
        }
        other = made;
    }
    assert_seen(
        "texts",
        &seen,
        &[
            0, 2, 4, 6, 7, 8, 9, 10, 11, 19, 20, 21, 22, 23, 24, 25, 26, 27,
        ],
    );
    assert_seen("rooms", &rooms, &[0, 12]);
    assert_seen("right texts", &limits, &[0, 2, 19]);
}
