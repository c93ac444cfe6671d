//! Writing JSON8: every vector of tests/vectors by this crate and by the
//! reference, buffers compared whole; values; the limits; empty parts.

mod cases;
#[path = "json8/written.rs"]
mod written;

use cases::{bytes, each_case};
use j8::raw::j8_result;
use j8::{Error, Json8, Refusal, Table, Unfit, Value};
use j8_inputs::trees::Parts;
use j8_inputs::Lent;
use std::hash::{DefaultHasher, Hash, Hasher};
use written::{done, library, reference, refused};

// --------------------------------------------------------- json8_write.txt

type Write = fn(&Parts, &mut [u8]) -> j8_result;

/// Writes to a patterned room, and compares the answer and the whole buffer.
fn runs(write: Write, parts: &Parts, room: usize, expected: &Result<Vec<u8>, u32>, what: &str) {
    let (answer, written) = match expected {
        Ok(written) => (done(written.len()), &written[..]),
        Err(number) => (refused(*number), &[][..]),
    };
    for flip in [false, true] {
        let (before, mut out) = (parts.clone(), Lent::new(room, flip));
        assert_eq!(write(parts, out.part()), answer, "{what}: answer");
        // Nothing is written on a refusal, so the pattern stays as it is.
        assert!(out.holds(written), "{what}: buffer");
        assert!(*parts == before, "{what}: parts");
    }
}

fn writes(write: Write) -> usize {
    each_case("json8_write.txt", |fields: [&str; 7], what| {
        let [table, text, store, room, number, place, written] = fields;
        let numbers = table.split(',').filter(|n| *n != "-");
        let parts = Parts {
            table: numbers.map(|n| n.parse().expect("a number")).collect(),
            text: bytes(text),
            store: bytes(store),
        };
        let room: usize = room.parse().expect("room");
        let expected = match number.parse().expect("number") {
            0 => Ok(bytes(written)),
            number => Err(number),
        };
        assert_eq!(place, "0", "{what}: every refusal is at place 0");
        runs(write, &parts, room, &expected, what);
        match &expected {
            // Room exact and one short, whatever the case has.
            Ok(written) => {
                runs(write, &parts, written.len(), &expected, what);
                runs(write, &parts, written.len() - 1, &Err(12), what);
            }
            // An unfit table comes before short room.
            Err(1) => runs(write, &parts, 0, &expected, what),
            Err(_) => runs(write, &parts, room / 2, &expected, what),
        }
    })
}

#[test]
fn library_writes() {
    assert_eq!(writes(library), 405);
}

#[test]
fn reference_writes() {
    assert_eq!(writes(reference), 405);
}

// ------------------------------------------------ the types of this crate

const BACKUP: &[u8] = br#"# settings
{
  name: "Front desk",
  'caf\u{e9}': [true, -1.50, 7, {}, null, b'\yff', false],
  "name": '"',
}
"#;
const WRITTEN: &str =
    r#"{"name":"Front desk","café":[true,-1.50,7,{},null,b'\yff',false],"name":"\""}"#;

#[test]
fn a_backup_is_written_back() {
    let backup = Json8::read(BACKUP).unwrap();
    assert_eq!(backup.write_to_vec(), WRITTEN.as_bytes());
    let mut out = vec![0xaa; WRITTEN.len() + 3];
    assert_eq!(backup.write(&mut out), Ok(WRITTEN.len()));
    assert_eq!(out, [WRITTEN.as_bytes(), &[0xaa; 3]].concat());

    let no_room = Error::new(Refusal::NoRoom, 0);
    out.fill(0xaa);
    assert_eq!(backup.write(&mut out[..WRITTEN.len() - 1]), Err(no_room));
    assert!(out.iter().all(|&b| b == 0xaa));

    let nodes = backup.nodes();
    assert_eq!(nodes.write(&mut out), Ok(WRITTEN.len()));
    assert_eq!(nodes.write_to_vec(), WRITTEN.as_bytes());
    let parts = (nodes.table(), nodes.text(), nodes.store());
    assert_eq!(
        j8::write_json8(parts.0, parts.1, parts.2, &mut out),
        Ok(WRITTEN.len())
    );
    let written = j8::write_json8_to_vec(parts.0, parts.1, parts.2);
    assert_eq!(written.as_deref(), Ok(WRITTEN.as_bytes()));

    // The same tree, and the same text once more.
    let again = Json8::read(WRITTEN).unwrap();
    assert_eq!(again.root().to_value(), nodes.root().to_value());
    assert_eq!(again.write_to_vec(), WRITTEN.as_bytes());
}

/// Texts that grow most, with the bytes that the room has left over.
#[test]
fn the_room_for_what_was_read() {
    for (text, left) in [
        (b"{a:0}".to_vec(), 3),
        (b"{a:[],b:[],c:[],}".to_vec(), 12),
        ([&b"'"[..], &[b'"'; 100], b"'"].concat(), 2),
        (br#""\ud83e\ud83e\udd26\udd26""#.to_vec(), 21),
        ([&b"\""[..], &br"\udd26".repeat(100), b"\""].concat(), 1),
        (b"b'\\y00'".to_vec(), 6),
    ] {
        let room = j8::write_json8_room(text.len());
        assert_eq!(room, 2 * text.len());
        let written = Json8::read(text.as_slice()).unwrap().write_to_vec();
        assert_eq!(written.len(), room - left, "{}", text.escape_ascii());
    }
}

fn text(value: &str) -> Value {
    Value::String(value.as_bytes().to_vec())
}

fn number(token: &str) -> Value {
    Value::Number(token.to_string())
}

#[test]
fn values_are_written() {
    let value = Value::Dict(vec![
        (b"tray".to_vec(), number("2")),
        (
            b"a\nb".to_vec(),
            Value::List(vec![
                Value::Null,
                Value::Bool(true),
                Value::Bool(false),
                number("-0.5E+1"),
                Value::String(b"\xff\"".to_vec()),
            ]),
        ),
        (b"tray".to_vec(), text("")),
        (b"".to_vec(), Value::List(Vec::new())),
        (b"d".to_vec(), Value::Dict(Vec::new())),
    ]);
    let form = r#"{"tray":2,"a\nb":[null,true,false,-0.5E+1,b'\yff"'],"tray":"","":[],"d":{}}"#;
    let table = Table::new(&value);
    assert_eq!(table.write_to_vec().as_deref(), Ok(form.as_bytes()));
    assert_eq!(value.write_to_vec().as_deref(), Ok(form.as_bytes()));
    assert_eq!(table.text(), b"tray2-0.5E+1trayd");
    assert_eq!(table.store(), b"a\nb\xff\"");
    assert_eq!(Json8::read(form).unwrap().root().to_value(), value);
}

#[test]
fn unfit_values() {
    let unfit = Error::new(Refusal::Unfit, 0);
    assert_eq!(
        unfit.to_string(),
        "refusal 1: what was lent for this is unfit"
    );
    let mut out = [0xaa; 64];
    for token in ["", "01", "1.", "+1", "NaN", "0x1", " 1", "1e", "-"] {
        let value = Value::List(vec![text("a"), number(token)]);
        let error = Table::new(&value).write(&mut out).unwrap_err();
        assert_eq!(
            (error.refusal, error.unfit),
            (Refusal::Unfit, Some(Unfit::Number)),
            "{token}"
        );
        assert_eq!(error.to_string(), "refusal 1: the text of a number is none");
        assert_eq!(value.write_to_vec(), Err(error), "{token}");
    }
    assert_eq!(out, [0xaa; 64]);
    // Of a table that no value made nothing more is known.
    assert_eq!(
        j8::write_json8(&[9, 1, 0, 0], b"", b"", &mut out),
        Err(unfit)
    );
}

// ----------------------------------------------------------------- limits

fn nest(depth: usize) -> Value {
    (1..depth).fold(Value::List(Vec::new()), |inner, level| match level % 2 {
        0 => Value::List(vec![inner]),
        _ => Value::Dict(vec![(b"k".to_vec(), inner)]),
    })
}

#[test]
fn brackets() {
    let written = nest(j8::DEPTH_MAX).write_to_vec().unwrap();
    assert_eq!(Json8::read(written).unwrap().root().to_value(), nest(32));
    let error = nest(j8::DEPTH_MAX + 1).write_to_vec().unwrap_err();
    assert_eq!((error.refusal, error.place), (Refusal::Unfit, 0));
    // A leaf opens none.
    let leaf = (0..32).fold(Value::Null, |inner, _| Value::List(vec![inner]));
    assert_eq!(leaf.write_to_vec().unwrap().len(), 64 + 4);
}

#[test]
fn nodes() {
    let wide = |count| Value::List(vec![Value::Bool(false); count - 1]);
    let written = wide(j8::NODES_MAX).write_to_vec().unwrap();
    assert_eq!(written.len(), 6 * 1_023 + 1);
    assert!(Json8::read(written).unwrap().root().to_value() == wide(1_024));
    let error = wide(j8::NODES_MAX + 1).write_to_vec().unwrap_err();
    assert_eq!((error.refusal, error.place), (Refusal::Unfit, 0));
}

/// There is no cap on what is written, but on what is read.
#[test]
fn long_texts() {
    let list = |bytes: usize| Value::List(vec![Value::String(vec![b'a'; bytes])]);
    let written = list(j8::TEXT_MAX - 4).write_to_vec().unwrap();
    assert_eq!(written.len(), j8::TEXT_MAX);
    assert!(Json8::read(written).unwrap().root().to_value() == list(j8::TEXT_MAX - 4));
    let written = list(j8::TEXT_MAX - 3).write_to_vec().unwrap();
    let too_long = Json8::read(written).unwrap_err();
    assert_eq!((too_long.refusal, too_long.place), (Refusal::TooLong, 0));
    let long = list(1_000_000).write_to_vec().unwrap();
    assert_eq!(long.len(), 1_000_004);
}

/// One range of the text for 1,023 strings: a text far longer than the buffers.
#[test]
fn overlapping_ranges() {
    let text = [b'"'; 1_000];
    let mut table = vec![7, 1_024, 0, 1_023];
    table.extend([5, 1, 0, 1_000].repeat(1_023));
    let written = j8::write_json8_to_vec(&table, &text, b"").unwrap();
    assert_eq!(written.len(), 1 + 1_023 * 2_003);
    let mut short = vec![0xaa; written.len() - 1];
    let error = j8::write_json8(&table, &text, b"", &mut short).unwrap_err();
    assert_eq!((error.refusal, error.place), (Refusal::NoRoom, 0));
    assert!(short.iter().all(|&b| b == 0xaa));
}

// ------------------------------------------------------------ empty parts

#[test]
fn empty_slices() {
    let mut parts = Parts {
        table: Vec::new(),
        text: Vec::new(),
        store: Vec::new(),
    };
    assert_eq!(library(&parts, &mut []), refused(1));
    parts.table = vec![5, 1, 0, 0];
    assert_eq!(library(&parts, &mut []), refused(12));
    assert_eq!(library(&parts, &mut [0; 2]), done(2));
    parts.table = vec![6, 1, 0, 1];
    assert_eq!(library(&parts, &mut []), refused(1));
}

/// So deep that a function which calls itself would run out of stack.
fn abyss(levels: usize, pairs: bool) -> Value {
    (0..levels).fold(Value::Null, |inner, _| match pairs {
        false => Value::List(vec![inner, Value::Bool(true)]),
        true => Value::Dict(vec![(b"k".to_vec(), inner)]),
    })
}

#[test]
fn a_value_of_any_depth_is_no_danger() {
    for pairs in [false, true] {
        let value = abyss(100_000, pairs);
        let error = value.write_to_vec().unwrap_err();
        assert_eq!(
            (error.refusal, error.unfit),
            (Refusal::Unfit, Some(Unfit::TooDeep))
        );
        assert_eq!(
            error.to_string(),
            "refusal 1: the value is over 32 brackets deep"
        );
        assert_eq!(Table::new(&value).write(&mut [0; 64]).unwrap_err(), error);

        // Cloned, compared, hashed, shown and dropped, on a stack as a thread's is at least.
        let other = value.clone();
        assert!(value == other);
        assert!(value != abyss(99_999, pairs));
        assert_eq!(hash_of(&value), hash_of(&other));
        assert_eq!(format!("{value:?}").matches("..").count(), 1);
    }
}

fn hash_of(value: &Value) -> u64 {
    let mut hasher = DefaultHasher::new();
    value.hash(&mut hasher);
    hasher.finish()
}

#[test]
fn what_is_unfit_of_a_value_is_told() {
    let told = |value: Value| value.write_to_vec().map_err(|error| error.unfit);
    assert_eq!(told(nest(33)), Err(Some(Unfit::TooDeep)));
    assert_eq!(told(Value::List(vec![nest(32)])), Err(Some(Unfit::TooDeep)));
    assert!(told(nest(32)).is_ok());
    assert_eq!(
        told(Value::List(vec![Value::Null; 1_024])),
        Err(Some(Unfit::TooManyNodes))
    );
    assert!(told(Value::List(vec![Value::Null; 1_023])).is_ok());
    for token in ["", "01", "1.", "-", "+1", "1e", "0x1", "Infinity", "1 "] {
        assert_eq!(
            told(Value::Number(token.to_string())),
            Err(Some(Unfit::Number)),
            "{token}"
        );
    }
    // Too deep is told before too many, and that before a bad number.
    let both = Value::List(vec![nest(32), Value::List(vec![number("01"); 1_024])]);
    assert_eq!(told(both), Err(Some(Unfit::TooDeep)));
    assert_eq!(
        told(Value::List(vec![number("01"); 1_024])),
        Err(Some(Unfit::TooManyNodes))
    );
    // A room that is too short is no matter of the value.
    let error = Table::new(&Value::Null).write(&mut [0; 3]).unwrap_err();
    assert_eq!((error.refusal, error.unfit), (Refusal::NoRoom, None));
}

#[test]
fn values_are_made_and_compared_by_what_they_hold() {
    let value = Value::from(vec![
        (b"tray".to_vec(), Value::from(2_u64)),
        (b"offset".to_vec(), Value::from(-3_i64)),
        (b"name".to_vec(), Value::from("Front desk")),
        (b"folder".to_vec(), Value::from(b"caf\xe9".as_slice())),
        (
            b"flags".to_vec(),
            Value::from(vec![Value::from(true), Value::default()]),
        ),
    ]);
    let text =
        br#"{"tray":2,"offset":-3,"name":"Front desk","folder":b'caf\ye9',"flags":[true,null]}"#;
    assert_eq!(value.write_to_vec().unwrap(), text);
    assert_eq!(
        value,
        Json8::read(text.as_slice()).unwrap().root().to_value()
    );
    assert_eq!(value, value.clone());
    assert_eq!(
        format!("{:?}", Value::from(vec![Value::from("a")])),
        "List([String([97])])"
    );

    // Order, keys, kinds and lengths all count.
    let list =
        |members: &[u64]| Value::from(members.iter().map(|n| Value::from(*n)).collect::<Vec<_>>());
    let dict = |key: &str| Value::from(vec![(key.as_bytes().to_vec(), Value::Null)]);
    let all = [
        Value::Null,
        Value::from(false),
        Value::from(true),
        Value::from(1_u64),
        Value::from("1"),
        Value::from("2"),
        list(&[]),
        list(&[1]),
        list(&[2]),
        list(&[1, 2]),
        list(&[2, 1]),
        Value::from(vec![list(&[1])]),
        dict("a"),
        dict("b"),
        Value::from(Vec::<(Vec<u8>, Value)>::new()),
    ];
    for (i, a) in all.iter().enumerate() {
        for (j, b) in all.iter().enumerate() {
            assert_eq!(a == b, i == j, "{a:?} and {b:?}");
            assert!(i == j || hash_of(a) != hash_of(b), "{a:?} and {b:?}");
        }
    }
}
