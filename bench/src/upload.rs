//! Feeding a backup of J8 Lines in pieces, beside the reference and a plain
//! loop over the whole text.

use super::library::{libraries, Library};
use super::race::{keep, Call, Case, Plan};
use j8_reference::lines;
use std::hint::black_box;

/// Lengths of a piece. The text for pieces of one byte is shorter, since a call
/// is made for each.
pub const PIECES: [(usize, usize); 4] = [
    (1, 65_536),
    (64, j8::UPLOAD_MAX),
    (PACKET, j8::UPLOAD_MAX),
    (65_536, j8::UPLOAD_MAX),
];

/// A packet's bytes.
pub const PACKET: usize = 1_460;

/// Bytes a name, and whether it is quoted. With its quotes and LF each stays
/// within a line.
const NAMES: [(&str, usize, bool); 4] = [
    ("40 bare", 40, false),
    ("1,000 bare", 1_000, false),
    ("40 quoted", 40, true),
    ("1,000 quoted", 1_000, true),
];

pub const KINDS: [&str; 4] = [NAMES[0].0, NAMES[1].0, NAMES[2].0, NAMES[3].0];

/// A text of about `size` bytes, whole lines only: names of `length` bytes, bare
/// or as the Lines writer has them.
fn backup(length: usize, quoted: bool, size: usize) -> Vec<u8> {
    let line = length + if quoted { 3 } else { 1 };
    let mut text = Vec::with_capacity(size);
    for number in 0..size / line {
        let mut name = format!("scans/2024/Marketing-Invoices_{number:06}/").into_bytes();
        while name.len() < length {
            name.extend(b"Incoming/Letters-and-Bills/");
        }
        name.truncate(length);
        if quoted {
            text.extend(j8::write_to_vec(&name));
        } else {
            text.extend(name);
        }
        text.push(b'\n');
    }
    assert!(text.len() <= size && text.len() + line > size);
    text
}

/// The two buffers that an upload is lent.
struct Buffers {
    line: Vec<u8>,
    out: Vec<u8>,
}

impl Buffers {
    fn new() -> Self {
        Buffers {
            line: vec![0; j8::LINE_ROOM],
            out: vec![0; j8::UPLOAD_OUTPUT_MAX],
        }
    }
}

/// A whole upload through the C interface itself. Gives the bytes used.
fn ours(library: &Library, text: &[u8], piece: usize, buffers: &mut Buffers) -> usize {
    library.upload(text, piece, &mut buffers.line, &mut buffers.out)
}

/// A whole upload by the reference.
fn reference(text: &[u8], piece: usize, buffers: &mut Buffers) -> usize {
    let Buffers { line, out } = buffers;
    let mut upload = lines::Upload::fresh();
    for piece in text.chunks(piece) {
        let (next, answer) = upload.feed(piece, line, out);
        assert_eq!(answer.number, 0);
        upload = next;
    }
    let (upload, answer) = upload.finish(line, out);
    assert_eq!(answer.number, 0);
    upload.used
}

/// What a program would do with the whole text at hand: split at LF, trim,
/// check the UTF-8, and copy with a length before it. Quotes stay as they are.
fn plain(text: &[u8], out: &mut Vec<u8>) {
    out.clear();
    for line in text.split(|&b| b == b'\n') {
        let line = line.trim_ascii();
        if !line.is_empty() && std::str::from_utf8(line).is_ok() {
            out.extend((line.len() as u32).to_le_bytes());
            out.extend(line);
        }
    }
}

/// Ours and the reference must give the same records, and their payloads what
/// the plain loop has where the names are bare.
fn agree(text: &[u8], quoted: bool, piece: usize) {
    let (mut ours_in, mut theirs_in) = (Buffers::new(), Buffers::new());
    let used = reference(text, PACKET, &mut theirs_in);
    for (_, library) in libraries() {
        for piece in [PACKET, piece] {
            ours_in.out.fill(0);
            assert_eq!(used, ours(&library, text, piece, &mut ours_in));
            assert!(ours_in.out[..used] == theirs_in.out[..used]);
        }
    }
    let mut copied = Vec::new();
    plain(text, &mut copied);
    let names = j8::Records::new(&ours_in.out[..used]);
    let more = if quoted { 2 * names.count() } else { 0 };
    assert_eq!(copied.len(), used + more);
}

pub fn case(plan: Plan) -> Case {
    let (_, length, quoted) = NAMES
        .into_iter()
        .find(|(kind, ..)| *kind == plan.kind)
        .expect("a kind of names");
    let text = keep(backup(length, quoted, plan.size));
    agree(text, quoted, plan.piece);
    let text = text.as_slice();
    let piece = plan.piece;
    let mut calls: Vec<(&'static str, Call)> = Vec::new();
    for (who, library) in libraries() {
        let mut lent = Buffers::new();
        calls.push((
            who,
            Box::new(move || {
                black_box(ours(&library, black_box(text), piece, black_box(&mut lent)));
            }),
        ));
    }
    let mut lent = Buffers::new();
    calls.push((
        "reference",
        Box::new(move || {
            black_box(reference(black_box(text), piece, black_box(&mut lent)));
        }),
    ));
    let mut copied = Vec::with_capacity(j8::UPLOAD_OUTPUT_MAX);
    calls.push((
        "loop",
        Box::new(move || {
            plain(black_box(text), &mut copied);
            black_box(&copied);
        }),
    ));
    Case {
        plan,
        bytes: text.len(),
        contestants: calls,
    }
}
