//! Reading and writing J8 strings, beside serde_json and the reference.

use super::library::libraries;
use super::race::{keep, Call, Case, Plan};
use std::hint::black_box;

pub const SIZES: [usize; 5] = [16, 64, 1_024, 8_192, LIMIT];

/// The longest text that is read.
pub const LIMIT: usize = 32_768;

/// Kinds of names, each made by repeating a part.
const PARTS: [(&str, &[u8]); 4] = [
    ("plain", b"scans/2024/Marketing-Invoices_04/"),
    ("accented", "Éléments reçus/Größe à côté/".as_bytes()),
    ("escapes", b"a\"b\\c\td\ne\rf\x0cg\x01h\""),
    ("odd bytes", b"caf\xe9/gr\xfc\xdfe/"),
];

pub const KINDS: [&str; 4] = [PARTS[0].0, PARTS[1].0, PARTS[2].0, PARTS[3].0];

/// `size` bytes of the part repeated. The end is filled up with `x` where a
/// character would be cut.
fn repeated(part: &[u8], size: usize) -> Vec<u8> {
    let mut name: Vec<u8> = part.iter().copied().cycle().take(size).collect();
    if let (Ok(_), Err(cut)) = (std::str::from_utf8(part), std::str::from_utf8(&name)) {
        name[cut.valid_up_to()..].fill(b'x');
    }
    name
}

/// A name of `size` bytes, or the longest whose text may be read.
fn name(part: &[u8], size: usize) -> Vec<u8> {
    let (mut fits, mut above) = (0, size + 1);
    while above - fits > 1 {
        let middle = (fits + above) / 2;
        if j8::write_to_vec(&repeated(part, middle)).len() <= LIMIT {
            fits = middle;
        } else {
            above = middle;
        }
    }
    repeated(part, fits)
}

pub fn case(plan: Plan) -> Case {
    let (_, part) = PARTS
        .into_iter()
        .find(|(kind, _)| *kind == plan.kind)
        .expect("a kind of name");
    let name = keep(name(part, plan.size));
    let text = keep(j8::write_to_vec(name));
    let contestants = match plan.job {
        "read" => read(name, text),
        _ => write(name, text),
    };
    Case {
        plan,
        bytes: text.len(),
        contestants,
    }
}

fn read(name: &'static [u8], text: &'static [u8]) -> Vec<(&'static str, Call)> {
    let mut out = vec![0; text.len()];
    let length = j8_reference::read(text, &mut out).expect("the reference takes the text");
    assert_eq!(&out[..length], name);

    let mut calls: Vec<(&'static str, Call)> = Vec::new();
    for (who, library) in libraries() {
        let got = library.string_read(text, &mut out);
        assert_eq!((got.number, &out[..got.length]), (0, name));
        let mut out = out.clone();
        calls.push((
            who,
            Box::new(move || {
                black_box(library.string_read(black_box(text), black_box(&mut out)));
            }),
        ));
    }
    calls.push((
        "reference",
        Box::new(move || {
            let out = black_box(&mut out[..]);
            let _ = black_box(j8_reference::read(black_box(text), out));
        }),
    ));
    if std::str::from_utf8(name).is_ok() {
        let theirs: String = serde_json::from_slice(text).expect("the text is JSON");
        assert_eq!(theirs.as_bytes(), name);
        calls.push((
            "serde_json",
            Box::new(move || {
                let _ = black_box(serde_json::from_slice::<String>(black_box(text)));
            }),
        ));
    }
    calls
}

fn write(name: &'static [u8], text: &'static [u8]) -> Vec<(&'static str, Call)> {
    let mut out = vec![0; j8::write_room(name.len())];
    let length = j8_reference::write(name, &mut out).expect("the room suffices");
    assert_eq!(&out[..length], text);

    let mut calls: Vec<(&'static str, Call)> = Vec::new();
    for (who, library) in libraries() {
        let put = library.string_write(name, &mut out);
        assert_eq!((put.number, &out[..put.length]), (0, text));
        let mut out = out.clone();
        calls.push((
            who,
            Box::new(move || {
                black_box(library.string_write(black_box(name), black_box(&mut out)));
            }),
        ));
    }
    calls.push((
        "reference",
        Box::new(move || {
            let out = black_box(&mut out[..]);
            let _ = black_box(j8_reference::write(black_box(name), out));
        }),
    ));
    if let Ok(name) = std::str::from_utf8(name) {
        let mut serde_out = Vec::new();
        serde_json::to_writer(&mut serde_out, name).expect("a vector takes all");
        assert_eq!(serde_out, text);
        // serde_json is handed a `str` and need not check the bytes; we do.
        calls.push((
            "serde_json",
            Box::new(move || {
                serde_out.clear();
                let _ = black_box(serde_json::to_writer(&mut serde_out, black_box(name)));
                black_box(&serde_out);
            }),
        ));
    }
    calls
}
