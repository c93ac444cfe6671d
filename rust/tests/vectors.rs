//! Every vector of tests/vectors, by this crate and by the reference. Each is run
//! over two patterns, and the whole buffer is compared.

mod common;

use common::{
    lend, library_read, library_write, patterned, reference_read, reference_write, Call, MARGIN,
};
use j8::raw::j8_result;

/// A field of bytes: `-`, or parts joined by `.`, each hex or `hh*n`.
fn bytes(field: &str) -> Vec<u8> {
    let mut out = Vec::new();
    if field == "-" {
        return out;
    }
    for part in field.split('.') {
        let (hex, times) = match part.split_once('*') {
            Some((hex, times)) => (hex, times.parse().expect("a count")),
            None => (part, 1),
        };
        assert!(hex.len() % 2 == 0 && !hex.is_empty(), "part {part}");
        let once: Vec<u8> = (0..hex.len())
            .step_by(2)
            .map(|i| u8::from_str_radix(&hex[i..i + 2], 16).expect("hex digits"))
            .collect();
        out.extend(once.repeat(times));
    }
    out
}

/// Runs one file's cases and answers how many there were.
fn run(file: &str, call: Call) -> usize {
    let path = format!("{}/../tests/vectors/{file}", env!("CARGO_MANIFEST_DIR"));
    let content = std::fs::read_to_string(&path).unwrap_or_else(|e| panic!("{path}: {e}"));
    let mut cases = 0;
    for (index, line) in content.lines().enumerate() {
        if line.starts_with('#') || line.is_empty() {
            continue;
        }
        let fields: Vec<&str> = line.split(' ').collect();
        let [input, room, number, place, output] = fields[..] else {
            panic!("{file} line {}: five fields", index + 1);
        };
        let (input, output) = (bytes(input), bytes(output));
        let room: usize = room.parse().expect("room");
        let expected = j8_result {
            number: number.parse().expect("number"),
            place: place.parse().expect("place"),
            length: output.len(),
        };
        for flip in [false, true] {
            let mut whole = patterned(room, flip);
            // Empty on a refusal, so the pattern stays as it is.
            whole[MARGIN..MARGIN + output.len()].copy_from_slice(&output);
            let before = input.clone();
            let (result, buffer) = lend(call, &input, room, flip);
            assert_eq!(result, expected, "{file} line {}: answer", index + 1);
            assert!(buffer == whole, "{file} line {}: buffer", index + 1);
            assert!(input == before, "{file} line {}: input", index + 1);
        }
        cases += 1;
    }
    println!("{file}: {cases} cases");
    cases
}

#[test]
fn library_reads() {
    assert_eq!(run("string_read.txt", library_read), 1_113);
}

#[test]
fn library_writes() {
    assert_eq!(run("string_write.txt", library_write), 271);
}

#[test]
fn reference_reads() {
    assert_eq!(run("string_read.txt", reference_read), 1_113);
}

#[test]
fn reference_writes() {
    assert_eq!(run("string_write.txt", reference_write), 271);
}
