//! JSON8: every vector of tests/vectors by this crate and by the reference,
//! buffers compared whole; the types of this crate; empty parts.

mod cases;
mod json8;

use cases::{bytes, each_case};
use j8::raw::j8_shown;
use j8::{Error, Json8, Kind, Refusal};
use json8::{done, refused, Lent, Side, LIBRARY, NOT_SHOWN, REFERENCE};

/// The numbers of a field, divided by commas and colons.
fn numbers(field: &str) -> Vec<u32> {
    match field {
        "-" => Vec::new(),
        _ => field
            .split([',', ':'])
            .map(|n| n.parse().expect("a number"))
            .collect(),
    }
}

// --------------------------------------------------------- json8_read.txt

fn reads(side: &Side) -> usize {
    each_case("json8_read.txt", |fields: [&str; 7], what| {
        let [text, node_room, store_room, number, place, table, store] = fields;
        let (text, table, store) = (bytes(text), numbers(table), bytes(store));
        let node_room: usize = node_room.parse().expect("room in nodes");
        let store_room: usize = store_room.parse().expect("room in the store");
        let expected = match number.parse().expect("number") {
            0 => done(table.len() / 4, store.len()),
            number => refused(number, place.parse().expect("place")),
        };
        // Numbers that are no whole node make no room.
        for (flip, more) in [(false, 0), (true, 3)] {
            let before = text.clone();
            let mut our_table = Lent::new(4 * node_room + more, flip);
            let mut our_store = Lent::new(store_room, flip);
            let answer = (side.read)(&text, our_table.part(), our_store.part());
            assert_eq!(answer, expected, "{what}: answer");
            // Both are empty on a refusal, so the patterns stay as they are.
            assert!(our_table.holds(&table), "{what}: table");
            assert!(our_store.holds(&store), "{what}: store");
            assert!(text == before, "{what}: text");
        }
    })
}

#[test]
fn library_reads() {
    assert_eq!(reads(&LIBRARY), 1_091);
}

#[test]
fn reference_reads() {
    assert_eq!(reads(&REFERENCE), 1_091);
}

// --------------------------------------------------------- json8_show.txt

fn shows(side: &Side) -> usize {
    each_case("json8_show.txt", |fields: [&str; 6], what| {
        let [table, text, store, node, question, shown] = fields;
        let (table, text, store) = (numbers(table), bytes(text), bytes(store));
        let node = node.parse().expect("node");
        let (expected, question) = (bytes(shown), question.parse().expect("question"));
        let before = (table.clone(), text.clone(), store.clone());
        let found = (side.show)(&table, &text, &store, node);
        assert_eq!(found.number, question, "{what}: question");
        let buffer = match found.stored {
            0 => &text,
            1 => &store,
            other => panic!("{what}: stored {other}"),
        };
        assert_eq!(
            buffer.get(found.place..found.place + found.length),
            Some(&expected[..]),
            "{what}: bytes"
        );
        if question != 0 {
            assert_eq!(found, NOT_SHOWN, "{what}: the text's empty beginning");
        } else {
            // The node's own numbers say which part it is.
            let [kind, _, place, length] = table[4 * node..4 * node + 4] else {
                panic!("{what}: four numbers");
            };
            let told = j8_shown {
                number: 0,
                stored: kind - 5,
                place: place as usize,
                length: length as usize,
            };
            assert_eq!(found, told, "{what}: part");
        }
        assert!((table, text, store) == before, "{what}: parts");
    })
}

#[test]
fn library_shows() {
    assert_eq!(shows(&LIBRARY), 193);
}

#[test]
fn reference_shows() {
    assert_eq!(shows(&REFERENCE), 193);
}

// ------------------------------------------------ the types of this crate

const BACKUP: &[u8] = br#"# settings
{
  name: "Front desk",
  'caf\u{e9}': [true, -1.50, 7, {}, null, b'\yff', false],
  "name": "",
}
"#;

#[test]
fn a_backup_is_walked() {
    let (mut table, mut store) = ([77; 60], [0xaa; 10]);
    let nodes = j8::read_json8(BACKUP, &mut table, &mut store).unwrap();
    assert_eq!(nodes.len(), 14);
    assert_eq!(nodes.text(), BACKUP);
    assert_eq!(nodes.store(), b"caf\xc3\xa9\xff");
    assert_eq!(nodes.table().len(), 56);
    let root = nodes.root();
    assert_eq!(nodes.get(0), Some(root));
    assert_eq!(
        (root.index(), root.kind(), root.subtree()),
        (0, Kind::Dict, 14)
    );
    assert_eq!((root.place(), root.length()), (11, 3));
    let key = nodes.get(3).unwrap();
    assert_eq!(
        (key.index(), key.kind(), key.subtree()),
        (3, Kind::StoredString, 1)
    );
    assert_eq!((key.place(), key.length()), (0, 5));
    assert_eq!(nodes.get(14), None);
    assert_eq!(nodes.get(usize::MAX), None);

    let node = |index| nodes.get(index).unwrap();
    let children = |index| -> Vec<usize> { node(index).children().map(|n| n.index()).collect() };
    assert_eq!(children(0), [1, 2, 3, 4, 12, 13]);
    assert_eq!(children(4), [5, 6, 7, 8, 9, 10, 11]);
    for none in [1, 3, 5, 6, 8, 13] {
        assert_eq!(node(none).children().next(), None, "node {none}");
    }
    let pairs: Vec<(&[u8], usize)> = root
        .pairs()
        .map(|(key, value)| (key, value.index()))
        .collect();
    assert_eq!(
        pairs,
        [
            (b"name".as_slice(), 2),
            ("café".as_bytes(), 4),
            (b"name", 13)
        ]
    );
    // A list has members and no pairs, strings though they may be.
    assert_eq!(node(4).pairs().next(), None);
    let list = Json8::read("['a', 'b']").unwrap();
    assert_eq!(list.root().pairs().next(), None);

    let kinds: Vec<Kind> = nodes.iter().map(|node| node.kind()).collect();
    assert_eq!(
        kinds,
        [
            Kind::Dict,
            Kind::String,
            Kind::String,
            Kind::StoredString,
            Kind::List,
            Kind::True,
            Kind::Decimal,
            Kind::Integer,
            Kind::Dict,
            Kind::Null,
            Kind::StoredString,
            Kind::False,
            Kind::String,
            Kind::String,
        ]
    );
    assert_eq!(nodes.iter().len(), 14);
    assert!(nodes.into_iter().map(|node| node.index()).eq(0..14));
    assert_eq!(node(6).as_number(), Some("-1.50"));
    assert_eq!(node(7).as_number(), Some("7"));
    assert_eq!(node(5).as_number(), None);
    assert_eq!(node(7).as_bytes(), None);
    assert_eq!(
        (node(5).as_bool(), node(11).as_bool()),
        (Some(true), Some(false))
    );
    assert_eq!(node(6).as_bool(), None);
    assert!(node(9).is_null() && !node(8).is_null());
    assert_eq!(node(3).as_str(), Some("café"));
    assert_eq!(
        (node(10).as_str(), node(10).as_bytes()),
        (None, Some(b"\xff".as_slice()))
    );
    let strings = nodes
        .iter()
        .filter_map(|n| Some((n.index(), n.as_bytes()?)));
    assert_eq!(
        strings.collect::<Vec<_>>(),
        [
            (1, b"name".as_slice()),
            (2, b"Front desk"),
            (3, "café".as_bytes()),
            (10, b"\xff"),
            (12, b"name"),
            (13, b""),
        ]
    );
    assert!(format!("{nodes:?}").starts_with("[Node { index: 0, kind: Dict, subtree: 14,"));
    assert_eq!(table[56..], [77; 4]);
    assert_eq!(store[6..], [0xaa; 4]);
}

#[test]
fn a_backup_of_its_own() {
    let backup = Json8::read(BACKUP).unwrap();
    let (mut table, mut store) = ([0; 56], [0; 6]);
    assert_eq!(
        backup.nodes(),
        j8::read_json8(BACKUP, &mut table, &mut store).unwrap()
    );
    assert!(format!("{backup:?}").starts_with("Json8([Node { index: 0, kind: Dict,"));
    assert_eq!(backup.into_text(), BACKUP);

    let long = vec![b' '; j8::TEXT_MAX + 1];
    let too_long = Json8::read(long).unwrap_err();
    assert_eq!((too_long.refusal, too_long.place), (Refusal::TooLong, 0));
}

/// The text that needs the whole table and, with it, as much store as it can.
#[test]
fn the_greatest_rooms() {
    let mut text = b"[".to_vec();
    text.extend(b"0,".repeat(j8::NODES_MAX - 2));
    text.extend(b"'\\t");
    text.resize(j8::TEXT_MAX - 2, b'a');
    text.extend(b"']");
    assert_eq!(text.len(), j8::TEXT_MAX);
    let backup = Json8::read(text.as_slice()).unwrap();
    let nodes = backup.nodes();
    assert_eq!(nodes.len(), j8::NODES_MAX);
    assert_eq!(nodes.table().len(), j8::TABLE_ROOM);
    let stored = text.len() - 2 * j8::NODES_MAX - 1;
    assert_eq!(nodes.store().len(), stored);
    let last = nodes.get(j8::NODES_MAX - 1).unwrap();
    assert_eq!(last.as_bytes(), Some(nodes.store()));

    let (mut table, mut store) = (vec![0; j8::TABLE_ROOM], vec![0; stored]);
    let error = |refusal| Error::new(refusal, 0);
    for (numbers, bytes) in [(j8::TABLE_ROOM - 1, stored), (j8::TABLE_ROOM, stored - 1)] {
        assert_eq!(
            j8::read_json8(&text, &mut table[..numbers], &mut store[..bytes]),
            Err(error(Refusal::NoRoom))
        );
    }
    assert!(table.iter().all(|&n| n == 0) && store.iter().all(|&b| b == 0));
    assert!(j8::read_json8(&text, &mut table, &mut store).is_ok());
    text.push(b' ');
    assert_eq!(
        j8::read_json8(&text, &mut table, &mut store),
        Err(error(Refusal::TooLong))
    );
}

#[test]
fn refusals_say_what_and_where() {
    let said = |text: &[u8]| Json8::read(text).unwrap_err().to_string();
    assert_eq!(said(b"[,]"), "refusal 13 at byte 1: this can't stand here");
    assert_eq!(
        said(b"[-]"),
        "refusal 14 at byte 1: not a number as JSON has it"
    );
    assert_eq!(
        said(&[b'['; 33]),
        "refusal 15 at byte 32: more than 32 brackets are open"
    );
    let many = [b"[".as_slice(), &b"0,".repeat(1_024)].concat();
    assert_eq!(
        said(&many),
        "refusal 16 at byte 2047: more than 1,024 values and keys"
    );
    assert_eq!(
        said(b"{} x"),
        "refusal 11 at byte 3: there is more behind the end of the string or value"
    );
}

#[test]
fn kinds_have_their_numbers() {
    for number in 0..9 {
        let kind = Kind::try_from(number).unwrap();
        assert_eq!(kind as u32, number);
        assert_eq!(kind.is_number(), number == 3 || number == 4);
        assert_eq!(kind.is_string(), number == 5 || number == 6);
    }
    for number in [9, 256, 261, u32::MAX] {
        assert_eq!(Kind::try_from(number), Err(number));
    }
}

#[test]
fn strings_of_any_table() {
    let table = [9, 0, 0, 0, 6, 1, 1, 2, 5, 7, 4, 0];
    let (text, store) = (b"text".as_slice(), b"abc".as_slice());
    assert_eq!(j8::show_string(&table, text, store, 0), None);
    assert_eq!(
        j8::show_string(&table, text, store, 1),
        Some(b"bc".as_slice())
    );
    assert_eq!(
        j8::show_string(&table, text, store, 2),
        Some(b"".as_slice())
    );
    assert_eq!(j8::show_string(&table, text, store, 3), None);
    assert_eq!(j8::show_string(&table[..11], text, store, 2), None);
    assert_eq!(j8::show_string(&table, &text[..3], store, 2), None);
    assert_eq!(j8::show_string(&table, text, &store[..2], 1), None);
}

// ------------------------------------------------------------ empty parts

#[test]
fn empty_slices() {
    let read = |text: &[u8]| (LIBRARY.read)(text, &mut [], &mut []);
    assert_eq!(read(b""), refused(4, 0));
    assert_eq!(read(b"1"), refused(12, 0));
    assert_eq!((LIBRARY.show)(&[], b"", b"", 0), NOT_SHOWN);
    assert_eq!(
        (LIBRARY.show)(&[6, 1, 0, 0], b"", b"", 0),
        j8_shown {
            number: 0,
            stored: 1,
            place: 0,
            length: 0
        }
    );
}
