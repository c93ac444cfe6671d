//! JSON8: the library against the reference, and against what the generator
//! knows, on generated and damaged texts, with a fixed seed. J8_CASES asks for
//! more texts than 200,000, and as much more of the rest; J8_SEED for another
//! seed.

mod json8;

use j8::raw::j8_nodes;
use j8::{Json8, Kind, Node, Nodes};
use j8_inputs::made::{damage, make, probe, room, shape, table_room, text, Shape, Tree};
use j8_inputs::random::{self, Random};
use j8_inputs::tables;
use j8_inputs::trees::Parts;
use json8::{done, refused, Lent, LIBRARY, NOT_SHOWN, REFERENCE};
use std::collections::BTreeMap;

fn cases() -> u64 {
    random::cases(200_000)
}

/// How often each thing was seen.
type Seen = BTreeMap<u32, u64>;

fn see(seen: &mut Seen, number: u32) {
    *seen.entry(number).or_default() += 1;
}

/// A generator that no longer reaches something must not pass unnoticed.
fn assert_seen(what: &str, seen: &Seen, numbers: &[u32]) {
    println!("{what}: {seen:?}");
    for number in numbers {
        let count = seen.get(number).copied().unwrap_or(0);
        assert!(count >= 5, "{what}, number {number}: {count} times");
    }
}

/// For messages: a text of 32 KiB would bury them.
fn brief(text: &[u8]) -> String {
    match text.len() {
        0..=400 => text.escape_ascii().to_string(),
        length => {
            let (head, tail) = (&text[..200], &text[length - 200..]);
            let (head, tail) = (head.escape_ascii(), tail.escape_ascii());
            format!("{head} .. {length} bytes .. {tail}")
        }
    }
}

// ------------------------------------------------------------------ texts

/// Reads a text by both sides in the same rooms; what they answer and leave must
/// be the same.
fn compare(
    text: &[u8],
    table_room: usize,
    store_room: usize,
    flip: bool,
    what: &str,
) -> (j8_nodes, Lent<u32>, Lent<u8>) {
    let mut our_table: Lent<u32> = Lent::new(table_room, flip);
    let mut our_store: Lent<u8> = Lent::new(store_room, !flip);
    let (mut their_table, mut their_store) = (our_table.clone(), our_store.clone());
    let ours = (LIBRARY.read)(text, our_table.part(), our_store.part());
    let theirs = (REFERENCE.read)(text, their_table.part(), their_store.part());
    let what = || {
        format!(
            "{what}, rooms {table_room} and {store_room}: {}",
            brief(text)
        )
    };
    assert_eq!(ours, theirs, "{}", what());
    assert!(our_table == their_table, "table, {}", what());
    assert!(our_store == their_store, "store, {}", what());
    if ours.number != 0 {
        assert!(our_table.holds(&[]), "table touched, {}", what());
        assert!(our_store.holds(&[]), "store touched, {}", what());
    }
    (ours, our_table, our_store)
}

/// Every node of an accepted text, and the ones behind: the safe type's string
/// must be what the reference shows.
fn compare_strings(nodes: Nodes, what: &str) {
    let (text, store) = (nodes.text(), nodes.store());
    for node in 0..nodes.len() + 2 {
        let shown = (REFERENCE.show)(nodes.table(), text, store, node);
        let ours = (LIBRARY.show)(nodes.table(), text, store, node);
        assert_eq!(ours, shown, "{what}: node {node} of {}", brief(text));
        let buffer = if shown.stored == 0 { text } else { store };
        let bytes = &buffer[shown.place..shown.place + shown.length];
        let expected = (shown.number == 0).then_some(bytes);
        let ours = nodes.get(node).and_then(|node| node.as_bytes());
        assert_eq!(ours, expected, "{what}: node {node}");
    }
}

#[test]
fn texts() {
    let mut random = Random::new();
    let (mut seen, mut rooms, mut limits) = (Seen::new(), Seen::new(), Seen::new());
    let mut at_limit: BTreeMap<&str, u64> = BTreeMap::new();
    let mut other = text(&mut random);
    let (mut right, mut damaged) = (0, 0);
    for case in 0..cases() {
        let made = text(&mut random);
        let is_right = random.once_in(3);
        let bytes = match random.below(40) {
            _ if is_right => made.text.clone(),
            0 => {
                let brackets = random.pick(&[0, 1, 1, 2, 3, 30, 31, 32]);
                let nodes = random.pick(&[0, 3, 1_022, 1_023, 1_024, 1_024, 1_025]);
                probe(&mut random, brackets, nodes)
            }
            1 => (0..random.below(20)).map(|_| random.byte()).collect(),
            _ => damage(&mut random, &made, &other),
        };
        let what = format!("case {case}");

        // With room for everything, then with less.
        let flip = random.once_in(2);
        let (answer, table, store) = compare(&bytes, table_room(&bytes), bytes.len(), flip, &what);
        see(&mut seen, answer.number);
        if is_right {
            right += 1;
            let expected = match made.refusal() {
                Some((number, place)) => refused(number, place),
                None => done(made.table.len(), made.store.len()),
            };
            assert_eq!(answer, expected, "{what}: {}", brief(&bytes));
            see(&mut limits, answer.number);
            if answer.number == 0 {
                assert!(
                    table.holds(&made.table.concat()),
                    "{what}: {}",
                    brief(&bytes)
                );
                assert!(store.holds(&made.store), "{what}: {}", brief(&bytes));
                let mut reach = |name, reached| {
                    *at_limit.entry(name).or_default() += u64::from(reached);
                };
                reach("1,024 nodes", answer.nodes == 1_024);
                reach("32,768 bytes", bytes.len() == 32_768);
                reach("a stored string", answer.stored > 0);
            }
        } else {
            damaged += 1;
        }
        let (numbers, stored) = (4 * answer.nodes, answer.stored);
        let (numbers, stored) = (room(&mut random, numbers), room(&mut random, stored));
        let (less, _, _) = compare(&bytes, numbers, stored, !flip, &what);
        let fits = numbers >= 4 * answer.nodes && stored >= answer.stored;
        if answer.number == 0 && !fits {
            assert_eq!(less, refused(12, 0), "{what}: {}", brief(&bytes));
            see(&mut seen, 12);
            let table_short = u32::from(numbers < 4 * answer.nodes);
            see(
                &mut rooms,
                table_short + 2 * u32::from(stored < answer.stored),
            );
        } else {
            assert_eq!(less, answer, "{what}: {}", brief(&bytes));
        }

        if answer.number == 0 && (answer.nodes < 40 || random.once_in(20)) {
            let owned = Json8::read(bytes.as_slice()).expect("both sides took it");
            assert!(table.holds(owned.nodes().table()), "{what}");
            assert!(store.holds(owned.nodes().store()), "{what}");
            compare_strings(owned.nodes(), &what);
        }
        if !is_right && random.once_in(4) {
            other = made;
        }
    }
    println!("right: {right}, damaged: {damaged}, {at_limit:?}");
    let numbers = [
        0, 2, 4, 6, 7, 8, 9, 10, 11, 12, 13, 14, 15, 16, 23, 24, 25, 26, 27,
    ];
    assert_seen("answers", &seen, &numbers);
    assert_seen("short: 1 table, 2 store, 3 both", &rooms, &[1, 2, 3]);
    assert_seen("right texts", &limits, &[0, 2, 15, 16]);
    assert!(at_limit.values().all(|&count| count >= 5), "{at_limit:?}");
}

/// What stands behind 1,024 nodes, and behind 32 brackets.
#[test]
fn at_the_limits() {
    let mut random = Random::new();
    let (mut nodes, mut brackets, mut both) = (Seen::new(), Seen::new(), Seen::new());
    for case in 0..cases() / 30 {
        let (open, count, seen) = match case % 3 {
            0 => (1 + random.below(20), 1_024, &mut nodes),
            1 => (32, random.below(60), &mut brackets),
            _ => (32, 1_024, &mut both),
        };
        let text = probe(&mut random, open, count);
        let what = format!("case {case}");
        let (answer, _, _) = compare(
            &text,
            table_room(&text),
            text.len(),
            random.once_in(2),
            &what,
        );
        see(seen, answer.number);
    }
    assert_seen("1,024 nodes", &nodes, &[4, 13, 14, 16, 23, 24, 25, 26, 27]);
    assert_seen(
        "32 brackets",
        &brackets,
        &[4, 13, 14, 15, 23, 24, 25, 26, 27],
    );
    assert_seen("both", &both, &[4, 13, 14, 15, 16, 23, 24, 25, 26, 27]);
}

// ------------------------------------------------------------ plain JSON

/// What the nodes say, walked from the root by the safe type.
fn tree(node: Node) -> Tree {
    let number = || node.as_number().expect("a number").to_string();
    let tree = match node.kind() {
        Kind::Null => Tree::Null,
        Kind::False => Tree::False,
        Kind::True => Tree::True,
        Kind::Integer => Tree::Integer(number()),
        Kind::Decimal => Tree::Number(number()),
        Kind::String | Kind::StoredString => {
            Tree::String(node.as_bytes().expect("a string").to_vec())
        }
        Kind::List => Tree::List(node.children().map(tree).collect()),
        Kind::Dict => {
            let pairs = node.pairs();
            Tree::Dict(pairs.map(|(k, v)| (k.to_vec(), tree(v))).collect())
        }
    };
    let members = match &tree {
        Tree::List(members) => Some(members.len()),
        Tree::Dict(pairs) => Some(pairs.len()),
        _ => None,
    };
    if let Some(members) = members {
        assert_eq!(node.length(), members, "members of {node:?}");
    } else {
        assert_eq!(node.subtree(), 1, "nodes of leaf {node:?}");
    }
    tree
}

/// Every RFC 8259 text within the limits is accepted, and says what was meant.
#[test]
fn plain_json() {
    let mut random = Random::new();
    let (mut most_nodes, mut deepest, mut longest) = (0, 0, 0);
    for case in 0..cases() / 6 {
        let shape = shape(&mut random, true, 0);
        let mut made = make(&mut random, shape);
        if random.once_in(100) {
            made.pad(&mut random, true, 32_768);
        }
        if made.refusal().is_some() {
            continue;
        }
        let text = std::str::from_utf8(&made.text).expect("JSON is UTF-8");
        let read = Json8::read(text).unwrap_or_else(|refusal| panic!("case {case}: {refusal}"));
        assert_eq!(
            tree(read.root()),
            made.tree,
            "case {case}: {}",
            brief(&made.text)
        );
        most_nodes += u64::from(read.nodes().len() == 1_024);
        deepest += u64::from(shape.deep == 32);
        longest += u64::from(text.len() == 32_768);
    }
    println!("1,024 nodes: {most_nodes}, 32 deep: {deepest}, 32,768 bytes: {longest}");
    assert!(most_nodes >= 5 && deepest >= 5 && longest >= 5);
}

// ------------------------------------------------------ tables made by hand

#[test]
fn tables_made_by_hand() {
    let mut random = Random::new();
    let mut seen: BTreeMap<(u32, u32, bool), u64> = BTreeMap::new();
    let mut wrapped = 0;
    for case in 0..cases() {
        let Parts { table, text, store } = tables::by_hand(&mut random);
        let before = (table.clone(), text.clone(), store.clone());
        for node in tables::NODES {
            let ours = (LIBRARY.show)(&table, &text, &store, node);
            let theirs = (REFERENCE.show)(&table, &text, &store, node);
            let what = || format!("case {case}: node {node} of {table:?}, {text:?}, {store:?}");
            assert_eq!(ours, theirs, "{}", what());
            let buffer = if ours.stored == 0 { &text } else { &store };
            let shown = buffer.get(ours.place..ours.place.wrapping_add(ours.length));
            assert!(shown.is_some(), "{}", what());
            if ours.number != 0 {
                assert_eq!(ours, NOT_SHOWN, "{}", what());
            }
            *seen
                .entry((ours.number, ours.stored, ours.length == 0))
                .or_default() += 1;
            if let Some(&[5 | 6, _, place, length]) = table.chunks_exact(4).nth(node) {
                // Inside, if the sum is taken in 32 bits.
                let end = place.wrapping_add(length) as usize;
                wrapped += u64::from(place.checked_add(length).is_none() && end <= buffer.len());
            }
        }
        assert!(before == (table, text, store), "case {case}: parts");
    }
    println!("number, stored, empty: {seen:?}; past 32 bits: {wrapped}");
    for shown in [
        (0, 0, false),
        (0, 0, true),
        (0, 1, false),
        (0, 1, true),
        (1, 0, true),
    ] {
        let count = seen.get(&shown).copied().unwrap_or(0);
        assert!(count >= 1_000, "{shown:?}: {count} times");
    }
    assert!(wrapped >= 1_000, "past 32 bits: {wrapped} times");
}

/// A read table with each of its numbers damaged in turn.
#[test]
fn read_tables_damaged() {
    let mut random = Random::new();
    let (mut shown, mut hidden) = (0u64, 0u64);
    for case in 0..cases() / 300 {
        let shape = Shape {
            plain: false,
            nodes: 12,
            wide: true,
            deep: 0,
        };
        let made = make(&mut random, shape);
        let (text, store) = (&made.text, &made.store);
        let right = made.table.concat();
        for at in 0..right.len() {
            let mut table = right.clone();
            for new in [0, 1, 5, 6, text.len() as u32, store.len() as u32, u32::MAX] {
                table[at] = new;
                for node in 0..made.table.len() + 1 {
                    let ours = (LIBRARY.show)(&table, text, store, node);
                    let theirs = (REFERENCE.show)(&table, text, store, node);
                    assert_eq!(ours, theirs, "case {case}: node {node} of {table:?}");
                    shown += u64::from(ours.number == 0);
                    hidden += u64::from(ours.number != 0);
                }
            }
            // Cut off there.
            let node = at / 4;
            let cut = (LIBRARY.show)(&right[..at], text, store, node);
            assert_eq!(cut, NOT_SHOWN, "case {case}: {at} numbers of {right:?}");
        }
    }
    println!("shown: {shown}, not shown: {hidden}");
    assert!(shown >= 1_000 && hidden >= 1_000);
}
