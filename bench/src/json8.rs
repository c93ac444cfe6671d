//! Reading settings backups, plain JSON texts all, to a node table, beside the
//! reference, serde_json and the C and C++ peers.

use super::library::libraries;
use super::race::{keep, Call, Case, Plan};
use super::texts::{kind, texts_of, LIMIT};
use serde::de::IgnoredAny;
use serde_json::Value;
use std::hint::black_box;

/// Of the kinds that aren't dense.
pub const SIZES: [usize; 3] = [1_024, 8_192, LIMIT];

/// A dense text has a node in so many bytes or less; so 7 KiB have over 512.
const NODE_BYTES: usize = 11;

/// The nodes of a tree, keys with them.
fn nodes_of(value: &Value) -> usize {
    match value {
        Value::Array(list) => 1 + list.iter().map(nodes_of).sum::<usize>(),
        Value::Object(dict) => 1 + dict.values().map(|v| 1 + nodes_of(v)).sum::<usize>(),
        _ => 1,
    }
}

/// Reads a text, and counts its nodes if it shall.
type Peer = unsafe extern "C" fn(*const u8, usize, bool) -> usize;

#[cfg(peers)]
const PEERS: [Peer; 5] = {
    extern "C" {
        fn peer_yajl(text: *const u8, length: usize, count: bool) -> usize;
        fn peer_cjson(text: *const u8, length: usize, count: bool) -> usize;
        fn peer_rapidjson(text: *const u8, length: usize, count: bool) -> usize;
        fn peer_rapidjson_utf8(text: *const u8, length: usize, count: bool) -> usize;
        fn peer_simdjson(text: *const u8, length: usize, count: bool) -> usize;
    }
    [
        peer_yajl,
        peer_cjson,
        peer_rapidjson,
        peer_rapidjson_utf8,
        peer_simdjson,
    ]
};
#[cfg(not(peers))]
const PEERS: [Peer; 0] = [];

/// simdjson reads up to so many bytes behind a text.
const BEHIND: usize = 64;

/// The peers' names, in their order.
const PEER_NAMES: [&str; 5] = ["yajl", "cJSON", "RapidJSON", "RapidJSON+UTF-8", "simdjson"];

/// A text, with the bytes behind it that simdjson asks for.
struct Text {
    padded: Vec<u8>,
    length: usize,
}

impl Text {
    fn new(text: Vec<u8>) -> Text {
        let length = text.len();
        let padded = [text, vec![0; BEHIND]].concat();
        Text { padded, length }
    }

    fn bytes(&self) -> &[u8] {
        &self.padded[..self.length]
    }

    fn read_by(&self, peer: Peer, count: bool) -> usize {
        // SAFETY: the bytes behind the text may be read too.
        unsafe { peer(self.padded.as_ptr(), self.length, count) }
    }
}

/// Reads all texts, one behind another; the compiler knows none of them.
fn in_turn(texts: &'static [Text], mut read: impl FnMut(&Text) + 'static) -> Call {
    Box::new(move || {
        for text in black_box(texts) {
            read(text);
        }
    })
}

pub fn case(plan: Plan) -> Case {
    let texts = keep(
        texts_of(plan)
            .into_iter()
            .map(Text::new)
            .collect::<Vec<_>>(),
    )
    .as_slice();
    let bytes = texts.iter().map(|text| text.length).sum();
    let (mut table, mut store) = (vec![0; j8::TABLE_ROOM], vec![0; plan.size]);
    let (mut their_table, mut their_store) = (table.clone(), store.clone());

    // All must take the texts, and see the same nodes.
    let mut nodes = 0;
    for text in texts {
        their_table.fill(0);
        their_store.fill(0);
        let got = j8_reference::json8::read(text.bytes(), &mut their_table, &mut their_store)
            .expect("the reference takes the text");
        for (_, library) in libraries() {
            let filled = library.json8_read(text.bytes(), &mut table, &mut store);
            assert_eq!(
                (filled.number, filled.nodes, filled.stored),
                (0, got.nodes, got.stored)
            );
            assert!(table == their_table && store == their_store);
            table.fill(0);
            store.fill(0);
        }
        let value: Value = serde_json::from_slice(text.bytes()).expect("the text is JSON");
        assert_eq!(nodes_of(&value), got.nodes);
        for peer in PEERS {
            assert_eq!(text.read_by(peer, true), got.nodes);
        }
        nodes += got.nodes;
    }
    assert!(!kind(plan.kind).dense() || bytes <= NODE_BYTES * nodes);

    let mut calls: Vec<(&'static str, Call)> = Vec::new();
    for (who, library) in libraries() {
        let (mut table, mut store) = (table.clone(), store.clone());
        calls.push((
            who,
            in_turn(texts, move |text| {
                let (table, store) = (black_box(&mut table), black_box(&mut store));
                black_box(library.json8_read(text.bytes(), table, store));
            }),
        ));
    }
    calls.push((
        "Value",
        in_turn(texts, |text| {
            let _ = black_box(serde_json::from_slice::<Value>(text.bytes()));
        }),
    ));
    for (name, peer) in PEER_NAMES.into_iter().zip(PEERS) {
        calls.push((
            name,
            in_turn(texts, move |text| {
                black_box(text.read_by(peer, false));
            }),
        ));
    }
    calls.push((
        "IgnoredAny",
        in_turn(texts, |text| {
            let _ = black_box(serde_json::from_slice::<IgnoredAny>(text.bytes()));
        }),
    ));
    calls.push((
        "reference",
        in_turn(texts, move |text| {
            let _ = black_box(j8_reference::json8::read(
                text.bytes(),
                black_box(&mut their_table),
                black_box(&mut their_store),
            ));
        }),
    ));
    Case {
        plan,
        bytes,
        contestants: calls,
    }
}
