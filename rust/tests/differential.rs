//! The library against the reference on generated and damaged inputs, with a
//! fixed seed. J8_CASES asks for more cases than 100,000 of each kind, J8_SEED
//! for another seed.

mod common;

use common::{lend, library_read, library_write, reference_read, reference_write, Call, MARGIN};
use j8_inputs::random::{self, Random};
use j8_inputs::strings::{data, mark_of, room, text, MARKS};
use std::collections::BTreeMap;

fn cases() -> u64 {
    random::cases(100_000)
}

/// One case on both; what they answer and leave must be the same. Gives the
/// number and, where done, the result.
fn compare(
    ours: Call,
    theirs: Call,
    input: &[u8],
    room: usize,
    flip: bool,
    case: u64,
) -> (u32, Vec<u8>) {
    let (our_answer, our_buffer) = lend(ours, input, room, flip);
    let (their_answer, their_buffer) = lend(theirs, input, room, flip);
    assert!(
        our_answer == their_answer && our_buffer == their_buffer,
        "case {case}: {} in a room of {room}\nlibrary {our_answer:?}: {}\nreference {their_answer:?}: {}",
        input.escape_ascii(),
        our_buffer.escape_ascii(),
        their_buffer.escape_ascii(),
    );
    let result = our_buffer[MARGIN..MARGIN + our_answer.length].to_vec();
    (our_answer.number, result)
}

#[test]
fn texts() {
    let mut random = Random::new();
    let mut seen: BTreeMap<(Option<usize>, u32), u64> = BTreeMap::new();
    let (mut at_cap, mut over_cap) = (0, 0);
    for case in 0..cases() {
        let text = text(&mut random);
        let mut plenty = vec![0; text.len()];
        let exact = reference_read(&text, &mut plenty).length;
        let room = room(&mut random, exact);
        let flip = random.once_in(2);
        let (number, result) = compare(library_read, reference_read, &text, room, flip, case);
        let mark = mark_of(&text);
        if number == 0 && matches!(mark, Some(1 | 2)) {
            assert!(
                std::str::from_utf8(&result).is_ok(),
                "case {case}: {} gives no UTF-8",
                text.escape_ascii()
            );
        }
        *seen.entry((mark, number)).or_default() += 1;
        at_cap += u64::from(text.len() == j8::TEXT_MAX && number == 0);
        over_cap += u64::from(text.len() == j8::TEXT_MAX + 1);
    }

    // A generator that no longer reaches something must not pass unnoticed.
    for (mark, name) in MARKS.iter().enumerate() {
        let mut numbers = vec![0, 2, 4, 6, 7, 11, 12, 23, 24, 25, 26, 27];
        if mark != 0 {
            numbers.extend([8, 9]);
        }
        if mark == 1 || mark == 2 {
            numbers.push(10);
        }
        for number in numbers {
            let count = seen.get(&(Some(mark), number)).copied().unwrap_or(0);
            assert!(count >= 5, "{name} and number {number}: {count} times");
        }
    }
    let no_opening = seen.get(&(None, 3)).copied().unwrap_or(0);
    assert!(no_opening >= 5, "number 3: {no_opening} times");
    assert!(at_cap >= 3, "read at the cap: {at_cap} times");
    assert!(over_cap >= 3, "one over the cap: {over_cap} times");
    println!("read at the cap: {at_cap}, one over: {over_cap}");
    for ((mark, number), count) in &seen {
        println!(
            "{} number {number}: {count}",
            mark.map_or("none", |m| MARKS[m])
        );
    }
}

#[test]
fn byte_strings() {
    let mut random = Random::new();
    let mut seen: BTreeMap<(bool, &str), u64> = BTreeMap::new();
    for case in 0..cases() {
        let data = data(&mut random);
        let valid = std::str::from_utf8(&data).is_ok();
        let mut plenty = vec![0; 6 * data.len() + 2];
        let exact = reference_write(&data, &mut plenty).length;
        let room = room(&mut random, exact);
        let flip = random.once_in(2);
        let (number, _) = compare(library_write, reference_write, &data, room, flip, case);
        let kind = match number {
            0 => "written",
            12 => "no room",
            _ => panic!("case {case}: number {number} from a write"),
        };
        *seen.entry((valid, kind)).or_default() += 1;

        // Written in full, whatever the room above was, and read back.
        let answer = library_write(&data, &mut plenty);
        assert_eq!((answer.number, answer.length), (0, exact), "case {case}");
        let text = &plenty[..exact];
        let mut back = vec![0; exact];
        let answer = library_read(text, &mut back);
        let kind = if exact <= j8::TEXT_MAX {
            assert!(
                answer.number == 0 && back[..answer.length] == data,
                "case {case}: {} does not come back",
                data.escape_ascii()
            );
            "read back"
        } else {
            assert_eq!((answer.number, answer.place), (2, 0), "case {case}");
            "over the cap"
        };
        *seen.entry((valid, kind)).or_default() += 1;
        assert_eq!(
            mark_of(text),
            Some(if valid { 0 } else { 3 }),
            "case {case}"
        );
    }
    for valid in [true, false] {
        for kind in ["written", "no room", "read back", "over the cap"] {
            let count = seen.get(&(valid, kind)).copied().unwrap_or(0);
            assert!(count >= 5, "valid {valid}, {kind}: {count} times");
            println!("valid {valid}, {kind}: {count}");
        }
    }
}
