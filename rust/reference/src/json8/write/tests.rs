use super::*;
use crate::json8::{read, Filled};

const SPARE: usize = 5;

/// Writes with plenty of room, with exact room and with one byte less; sees
/// that nothing else of the room was touched.
fn writing(table: &[u32], text: &[u8], store: &[u8]) -> Option<Vec<u8>> {
    let mut out = vec![0xaa; 6 * (table.len() + text.len() + store.len()) + SPARE];
    let length = match write(table, text, store, &mut out) {
        Ok(length) => length,
        Err(refusal) => {
            assert_eq!(refuse(UNFIT, 0), Err::<(), _>(refusal));
            assert!(out.iter().all(|&b| b == 0xaa));
            // An unfit table comes before short room.
            assert_eq!(write(table, text, store, &mut []), refuse(UNFIT, 0));
            return None;
        }
    };
    assert!(out[length..].iter().all(|&b| b == 0xaa));
    out.truncate(length);
    let mut exact = vec![0; length];
    assert_eq!(write(table, text, store, &mut exact), Ok(length));
    assert_eq!(exact, out);
    let mut short = vec![0xaa; length - 1];
    assert_eq!(write(table, text, store, &mut short), refuse(NO_ROOM, 0));
    assert!(short.iter().all(|&b| b == 0xaa));
    Some(out)
}

const TEXT: &[u8] = b"abc-12.5e3 07\"\x01\xff";
const STORE: &[u8] = b"d\ne";

fn gives(rows: &[[u32; NODE]], written: &str) {
    let table = rows.concat();
    assert_eq!(
        writing(&table, TEXT, STORE).as_deref(),
        Some(written.as_bytes()),
        "{rows:?}"
    );
    // What stands behind the root's count isn't looked at, whole node or not.
    for more in 1..6 {
        let longer = [&table[..], &vec![9; more]].concat();
        assert!(writing(&longer, TEXT, STORE).is_some(), "{rows:?} {more}");
    }
    for length in 0..table.len() {
        assert_eq!(writing(&table[..length], TEXT, STORE), None, "{rows:?}");
    }
}

fn unfit(rows: &[[u32; NODE]]) {
    assert_eq!(writing(&rows.concat(), TEXT, STORE), None, "{rows:?}");
}

/// A node whose place and length aren't looked at.
fn word(kind: u32) -> [u32; NODE] {
    [kind, 1, u32::MAX, u32::MAX]
}

#[test]
fn each_kind() {
    gives(&[word(NULL)], "null");
    gives(&[word(FALSE)], "false");
    gives(&[word(TRUE)], "true");
    gives(&[[WHOLE, 1, 3, 3]], "-12");
    gives(&[[WHOLE, 1, 11, 1]], "0");
    gives(&[[OTHER_NUMBER, 1, 3, 7]], "-12.5e3");
    gives(&[[OTHER_NUMBER, 1, 4, 4]], "12.5");
    gives(&[[PLAIN, 1, 0, 3]], "\"abc\"");
    gives(&[[PLAIN, 1, 13, 2]], r#""\"\u0001""#);
    gives(&[[PLAIN, 1, 12, 4]], r#"b'7"\y01\yff'"#);
    gives(&[[DECODED, 1, 0, 3]], r#""d\ne""#);
    gives(&[[LIST, 1, u32::MAX, 0]], "[]");
    gives(&[[DICT, 1, u32::MAX, 0]], "{}");
    for kind in [9, 10, 256, 261, 1 << 31, u32::MAX] {
        unfit(&[word(kind)]);
        unfit(&[[kind, 1, 0, 0]]);
    }
}

#[test]
fn parents_first() {
    gives(
        &[
            [DICT, 10, 0, 2],
            [PLAIN, 1, 0, 1],
            [LIST, 4, 0, 3],
            word(TRUE),
            [DICT, 1, 0, 0],
            [WHOLE, 1, 12, 1],
            [DECODED, 1, 1, 1],
            [LIST, 3, 0, 1],
            [LIST, 2, 0, 1],
            word(NULL),
        ],
        r#"{"a":[true,{},7],"\n":[[null]]}"#,
    );
    // Equal keys are kept, and ranges may overlap.
    let key = [PLAIN, 1, 0, 1];
    gives(
        &[[DICT, 5, 0, 2], key, key, key, [PLAIN, 1, 0, 2]],
        r#"{"a":"a","a":"ab"}"#,
    );
}

#[test]
fn ranges() {
    let (text, store) = (TEXT.len() as u32, STORE.len() as u32);
    gives(&[[PLAIN, 1, text, 0]], "\"\"");
    gives(&[[DECODED, 1, store, 0]], "\"\"");
    for (kind, length) in [(PLAIN, text), (DECODED, store)] {
        unfit(&[[kind, 1, length + 1, 0]]);
        unfit(&[[kind, 1, length, 1]]);
        unfit(&[[kind, 1, 1, length]]);
        unfit(&[[kind, 1, u32::MAX, 1]]);
        unfit(&[[kind, 1, 1, u32::MAX]]);
        unfit(&[[kind, 1, 2, u32::MAX]]);
        unfit(&[[kind, 1, u32::MAX, u32::MAX]]);
        unfit(&[[kind, 1, 1 << 31, 1 << 31]]);
    }
    unfit(&[[WHOLE, 1, u32::MAX, 2]]);
    unfit(&[[WHOLE, 1, text, 0]]);
    unfit(&[[WHOLE, 1, text - 1, 2]]);
}

#[test]
fn numbers_legal_for_their_kind() {
    let kinds = |token: &[u8]| {
        [WHOLE, OTHER_NUMBER].map(|kind| {
            let table = [kind, 1, 0, token.len() as u32];
            let written = writing(&table, token, b"");
            assert!(written.is_none() || written.as_deref() == Some(token));
            written.is_some()
        })
    };
    for token in ["0", "-0", "10", "-12345678901234567890"] {
        assert_eq!(kinds(token.as_bytes()), [true, false], "{token}");
    }
    for token in ["0.0", "1.50", "1e5", "1E+5", "-1.5e-05", "0e0"] {
        assert_eq!(kinds(token.as_bytes()), [false, true], "{token}");
    }
    for token in [
        "", "-", "01", "-01", "1.", ".5", "1e", "1e+", "+1", " 1", "1 ", "1x", "--1", "null", "1\n",
    ] {
        assert_eq!(kinds(token.as_bytes()), [false, false], "{token}");
    }
}

#[test]
fn counts() {
    // The root's own count.
    unfit(&[]);
    unfit(&[[NULL, 0, 0, 0]]);
    unfit(&[[NULL, u32::MAX, 0, 0]]);
    unfit(&[[LIST, 0, 0, 0]]);
    unfit(&[[LIST, 2, 0, 1]]);
    unfit(&[[LIST, u32::MAX, 0, 1], word(NULL)]);
    unfit(&[[LIST, (1 << 30) + 2, 0, 1], word(NULL)]);
    // A leaf's subtree is itself.
    unfit(&[[NULL, 2, 0, 0], word(NULL)]);
    unfit(&[[LIST, 3, 0, 2], [PLAIN, 2, 0, 0], word(NULL)]);
    unfit(&[[LIST, 3, 0, 2], [PLAIN, 0, 0, 0], word(NULL)]);
    unfit(&[[LIST, 2, 0, 1], [NULL, u32::MAX, 0, 0]]);
    // Subtrees end with their parent's.
    unfit(&[[LIST, 2, 0, 1], [LIST, 2, 0, 1], word(NULL)]);
    unfit(&[[LIST, 3, 0, 1], [LIST, 3, 0, 1], word(NULL), word(NULL)]);
    // The root holds all that is written: what comes behind isn't looked at.
    gives(&[[LIST, 2, 0, 1], word(NULL)], "[null]");
    assert!(writing(&[LIST, 1, 0, 0, NULL, 1, 0, 0], TEXT, STORE).is_some());
}

#[test]
fn members() {
    for length in [0, 1, 3, u32::MAX] {
        unfit(&[[LIST, 3, 0, length], word(NULL), word(NULL)]);
    }
    let key = [PLAIN, 1, 0, 1];
    gives(&[[DICT, 3, 0, 1], key, word(NULL)], "{\"a\":null}");
    for length in [0, 2, u32::MAX] {
        unfit(&[[DICT, 3, 0, length], key, word(NULL)]);
    }
    // A key without its value, whatever the length.
    for length in [0, 1, 2] {
        unfit(&[[DICT, 2, 0, length], key]);
        unfit(&[[DICT, 4, 0, length], key, key, key]);
    }
    for kind in [NULL, FALSE, TRUE, WHOLE, OTHER_NUMBER, LIST, DICT, 9] {
        unfit(&[[DICT, 3, 0, 1], [kind, 1, 3, 0], word(NULL)]);
    }
    unfit(&[[DICT, 3, 0, 1], [WHOLE, 1, 12, 1], word(NULL)]);
    unfit(&[[DICT, 4, 0, 1], [PLAIN, 2, 0, 1], word(NULL), word(NULL)]);
    unfit(&[[DICT, 3, 0, 1], [PLAIN, 1, 99, 1], word(NULL)]);
}

fn nest(depth: u32) -> Vec<[u32; NODE]> {
    let row = |open| [LIST, depth - open, 0, u32::from(open + 1 < depth)];
    (0..depth).map(row).collect()
}

#[test]
fn depth() {
    let brackets = |n| "[".repeat(n) + &"]".repeat(n);
    gives(&nest(32), &brackets(32));
    unfit(&nest(33));
    // A leaf opens no bracket.
    let mut rows = nest(33);
    rows[32] = word(NULL);
    gives(&rows, &brackets(32).replace("[]", "[null]"));
    rows[31][0] = DICT;
    unfit(&rows);
    // 33 brackets, but not open at once.
    let rows = [vec![[LIST, 63, 0, 2]], nest(31), nest(31)].concat();
    assert!(writing(&rows.concat(), b"", b"").is_some());
}

#[test]
fn nodes() {
    let wide = |count: u32| {
        let mut rows = vec![[LIST, count, 0, count - 1]];
        rows.resize(count as usize, word(NULL));
        rows.concat()
    };
    let written = writing(&wide(1_024), b"", b"").expect("1,024 nodes");
    assert_eq!(written.len(), 1_023 * 5 + 1);
    assert_eq!(writing(&wide(1_025), b"", b""), None);
}

#[test]
fn what_was_read_is_written() {
    let text = br#"# c
{ a: [1, -2.5e3,], 'b"': b'caf\ye9', u: "\ud83e", }"#;
    let (mut table, mut store) = ([0; 64], [0; 64]);
    let Filled { nodes, stored } = read(text, &mut table, &mut store).unwrap();
    let written = writing(&table[..NODE * nodes], text, &store[..stored]).unwrap();
    let form = br#"{"a":[1,-2.5e3],"b\"":b'caf\ye9',"u":b'\yed\ya0\ybe'}"#;
    assert_eq!(written, form);
    // Written once more it is the same.
    let Filled { nodes, stored } = read(form, &mut table, &mut store).unwrap();
    let again = writing(&table[..NODE * nodes], form, &store[..stored]);
    assert_eq!(again.as_deref(), Some(&form[..]));
}

#[test]
fn a_text_far_longer_than_its_buffers() {
    // The same 16 KiB, 1,023 times.
    let text = vec![1; 1 << 14];
    let mut rows = vec![[LIST, 1_024, 0, 1_023]];
    rows.resize(1_024, [PLAIN, 1, 0, 1 << 14]);
    let table = rows.concat();
    assert_eq!(write(&table, &text, b"", &mut [0; 9]), refuse(NO_ROOM, 0));
}

// ---------------------------------------------------------------- vectors

/// A field of bytes: `-`, or parts joined by `.`, each hex or `hh*n`.
fn bytes(field: &str) -> Vec<u8> {
    let hex = |i, part: &str| u8::from_str_radix(&part[i..i + 2], 16).expect("hex digits");
    let run = |part: &str| match part.split_once('*') {
        Some((byte, times)) => vec![hex(0, byte); times.parse().expect("a count")],
        None => (0..part.len()).step_by(2).map(|i| hex(i, part)).collect(),
    };
    match field {
        "-" => Vec::new(),
        _ => field.split('.').flat_map(run).collect(),
    }
}

#[test]
fn vectors() {
    let folder = concat!(env!("CARGO_MANIFEST_DIR"), "/../../tests/vectors");
    let file = format!("{folder}/json8_write.txt");
    let content = std::fs::read_to_string(&file).unwrap_or_else(|e| panic!("{file}: {e}"));
    let mut cases = 0;
    for line in content.lines().filter(|line| !line.starts_with('#')) {
        let fields: Vec<&str> = line.split(' ').collect();
        let [table, text, store, room, number, place, written] = fields[..] else {
            panic!("seven fields: {line}");
        };
        let numbers = table.split(',').filter(|n| *n != "-");
        let table: Vec<u32> = numbers.map(|n| n.parse().expect("a number")).collect();
        let (text, store, written) = (bytes(text), bytes(store), bytes(written));
        let expected = match number.parse().expect("number") {
            0 => Ok(written.len()),
            number => refuse(number, place.parse().expect("place")),
        };
        let mut out = vec![0xaa; room.parse().expect("room")];
        assert_eq!(write(&table, &text, &store, &mut out), expected, "{line}");
        assert_eq!(out[..written.len()], written, "{line}");
        assert!(out[written.len()..].iter().all(|&b| b == 0xaa), "{line}");
        cases += 1;
    }
    assert_eq!(cases, 405);
}
