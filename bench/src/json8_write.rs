//! Writing the tables of the reader's settings backups, beside the reference,
//! serde_json and the C and C++ peers.

use super::library::{libraries, ARCHIVE};
use super::race::{keep, Call, Case, Plan};
use super::texts::texts_of;
use serde_json::Value;
use std::ffi::{c_char, c_void, CStr};
use std::hint::black_box;

// ------------------------------------------------------------------ peers

type Make = unsafe extern "C" fn(*const u8, usize) -> *mut c_void;
type Write = unsafe extern "C" fn(*mut c_void) -> *const c_char;
type Free = unsafe extern "C" fn(*mut c_void);

/// How a peer makes its tree, writes it and frees it.
type Peer = (Make, Write, Free);

#[cfg(peers)]
const PEERS: [Peer; 3] = {
    extern "C" {
        fn writer_rapidjson_make(text: *const u8, length: usize) -> *mut c_void;
        fn writer_rapidjson(tree: *mut c_void) -> *const c_char;
        fn writer_rapidjson_utf8(tree: *mut c_void) -> *const c_char;
        fn writer_rapidjson_free(tree: *mut c_void);
        fn writer_cjson_make(text: *const u8, length: usize) -> *mut c_void;
        fn writer_cjson(tree: *mut c_void) -> *const c_char;
        fn writer_cjson_free(tree: *mut c_void);
    }
    let (make, free): (Make, Free) = (writer_rapidjson_make, writer_rapidjson_free);
    [
        (make, writer_rapidjson, free),
        (make, writer_rapidjson_utf8, free),
        (writer_cjson_make, writer_cjson, writer_cjson_free),
    ]
};
#[cfg(not(peers))]
const PEERS: [Peer; 0] = [];

/// A peer's tree of a text.
struct Tree {
    tree: *mut c_void,
    write: Write,
    free: Free,
}

impl Tree {
    fn new((make, write, free): Peer, text: &[u8]) -> Tree {
        // SAFETY: the text is read only while the tree is made.
        let tree = unsafe { make(text.as_ptr(), text.len()) };
        Tree { tree, write, free }
    }

    /// Writes it; the text stays until the next time.
    fn write(&mut self) -> *const c_char {
        // SAFETY: the tree is its maker's.
        unsafe { (self.write)(self.tree) }
    }

    fn text(&mut self) -> Vec<u8> {
        let text = self.write();
        assert!(!text.is_null());
        // SAFETY: it is good until the next time, with a NUL behind it.
        unsafe { CStr::from_ptr(text) }.to_bytes().to_vec()
    }
}

impl Drop for Tree {
    fn drop(&mut self) {
        // SAFETY: as in `write`, and this is the last time.
        unsafe { (self.free)(self.tree) }
    }
}

// ------------------------------------------------------------------- race

/// What two texts say is the same, but for the last digit of a double: most
/// readers round by a short way.
fn same(one: &Value, other: &Value) -> bool {
    match (one, other) {
        (Value::Array(a), Value::Array(b)) => {
            a.len() == b.len() && a.iter().zip(b).all(|(a, b)| same(a, b))
        }
        (Value::Object(a), Value::Object(b)) => {
            let pair = |(key, a)| b.get(key).is_some_and(|b| same(a, b));
            a.len() == b.len() && a.iter().all(pair)
        }
        (Value::Number(a), Value::Number(b)) => match (a.as_f64(), b.as_f64()) {
            (Some(a), Some(b)) => (a - b).abs() <= a.abs() * 1e-15,
            _ => false,
        },
        _ => one == other,
    }
}

fn reference(nodes: j8::Nodes, out: &mut [u8]) -> usize {
    let (table, text, store) = (nodes.table(), nodes.text(), nodes.store());
    j8_reference::json8::write(table, text, store, out).expect("what was read is fit")
}

/// The peers' names, in their order.
const PEER_NAMES: [&str; 3] = ["RapidJSON", "RapidJSON+UTF-8", "cJSON"];

pub fn case(plan: Plan) -> Case {
    let text = keep(texts_of(plan))[0].as_slice();
    let nodes = keep(j8::Json8::read(text).expect("our reader takes the text")).nodes();
    let value: Value = serde_json::from_slice(text).expect("the text is JSON");
    // Six for each node and byte suffice for any table, so nobody has to measure.
    let room = 6 * (nodes.len() + text.len() + nodes.store().len());
    let mut out = vec![0; room];
    let mut serde_out = Vec::new();
    let mut trees = PEERS.map(|peer| Tree::new(peer, text));

    // All must write JSON that says the same.
    let length = reference(nodes, &mut out);
    let written = out[..length].to_vec();
    let mut exact_out = vec![0; written.len()];
    for (_, library) in libraries() {
        out.fill(0);
        exact_out.fill(0);
        for room in [&mut out, &mut exact_out] {
            let put = library.json8_write(nodes, room);
            assert_eq!((put.number, put.length), (0, length));
            assert!(room[..length] == written);
        }
    }
    serde_json::to_writer(&mut serde_out, &value).expect("a vector takes all");
    let mut texts = vec![written.clone(), serde_out.clone()];
    texts.extend(trees.iter_mut().map(Tree::text));
    for text in &texts {
        let theirs = serde_json::from_slice(text).expect("what is written is JSON");
        assert!(same(&value, &theirs), "{}", text.escape_ascii());
    }
    // Ours to the letter: read back it is the same tree, numbers as they stood.
    let back = j8::Json8::read(written.as_slice()).expect("our reader takes what we write");
    assert!(back.root().to_value() == nodes.root().to_value());

    let mut calls: Vec<(&'static str, Call)> = Vec::new();
    for (who, library) in libraries() {
        let mut out = out.clone();
        calls.push((
            who,
            Box::new(move || {
                black_box(library.json8_write(black_box(nodes), black_box(&mut out)));
            }),
        ));
    }
    calls.push((
        "Value",
        Box::new(move || {
            serde_out.clear();
            let _ = black_box(serde_json::to_writer(&mut serde_out, black_box(&value)));
            black_box(&serde_out);
        }),
    ));
    for (name, mut tree) in PEER_NAMES.into_iter().zip(trees) {
        calls.push((
            name,
            Box::new(move || {
                black_box(black_box(&mut tree).write());
            }),
        ));
    }
    calls.push((
        "reference",
        Box::new(move || {
            black_box(reference(black_box(nodes), black_box(&mut out)));
        }),
    ));
    calls.push((
        "j8 exact",
        Box::new(move || {
            black_box(ARCHIVE.json8_write(black_box(nodes), black_box(&mut exact_out)));
        }),
    ));
    Case {
        plan,
        bytes: written.len(),
        contestants: calls,
    }
}
