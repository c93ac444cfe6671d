//! J8 strings by this crate's functions; errors and refusals.

use j8::{Error, Refusal};
use std::collections::BTreeSet;

fn error(refusal: Refusal, place: usize) -> Error {
    Error::new(refusal, place)
}

#[test]
fn reads_and_writes() {
    let mut out = [0xaa; 8];
    assert_eq!(j8::read(br"'a\nb'", &mut out), Ok(3));
    assert_eq!(&out, b"a\nb\xaa\xaa\xaa\xaa\xaa");
    assert_eq!(j8::write(b"a\nb", &mut out), Ok(6));
    assert_eq!(&out, b"\"a\\nb\"\xaa\xaa");
}

#[test]
fn refusals_leave_the_room() {
    let mut out = [0xaa; 2];
    assert_eq!(j8::read(b"\"a", &mut out), Err(error(Refusal::CutOff, 2)));
    let no_room = error(Refusal::NoRoom, 0);
    assert_eq!(j8::read(b"\"abc\"", &mut out), Err(no_room));
    assert_eq!(j8::write(b"a", &mut out), Err(no_room));
    assert_eq!(out, [0xaa; 2]);
}

#[test]
fn empty_slices() {
    assert_eq!(j8::read(b"", &mut []), Err(error(Refusal::NoOpening, 0)));
    assert_eq!(j8::read(b"\"\"", &mut []), Ok(0));
    assert_eq!(j8::write(b"", &mut []), Err(error(Refusal::NoRoom, 0)));
    assert_eq!(j8::write(b"", &mut [0; 2]), Ok(2));
}

#[test]
fn vectors_of_their_own() {
    // From plain to all escapes, so that both rooms of `write_to_vec` are used.
    for data in [b"".as_slice(), b"plain", b"\x01\x02\x03\x04", &[0xff; 500]] {
        let text = j8::write_to_vec(data);
        assert!(text.len() <= j8::write_room(data.len()));
        assert_eq!(j8::read_to_vec(&text).unwrap(), data);
    }
    let long = vec![b'a'; j8::TEXT_MAX + 1];
    let too_long = j8::read_to_vec(&long).unwrap_err();
    assert_eq!(too_long, error(Refusal::TooLong, 0));
    assert_eq!(
        too_long.to_string(),
        "refusal 2: too long: a line may have 1,024 bytes, a string, JSON8 or TSV8 text 32,768"
    );
}

#[test]
fn refusals_have_their_numbers() {
    // From 1 to 27, but for 5, which stood for what 23 to 27 tell apart.
    let numbers: Vec<u32> = (1..=27).filter(|&number| number != 5).collect();
    let all = Refusal::ALL.iter();
    assert!(all.map(|refusal| refusal.number()).eq(numbers.clone()));
    for number in (0..=40).chain([255, 256, 257, 260, 65_541, u32::MAX]) {
        let Ok(refusal) = Refusal::try_from(number) else {
            assert_eq!(Refusal::try_from(number), Err(number));
            assert!(!numbers.contains(&number), "{number}");
            continue;
        };
        assert!(numbers.contains(&number), "{number}");
        assert_eq!((refusal.number(), u32::from(refusal)), (number, number));
        assert_eq!(refusal as u32, number);
        assert_eq!(error(refusal, 3).number(), number);
    }
}

/// Ill-formed characters, each with its fault.
const FAULTS: [(&[u8], Refusal); 15] = [
    (b"\x80", Refusal::Utf8BadEncoding),
    (b"\xbf\xbf", Refusal::Utf8BadEncoding),
    (b"\xf8\x88\x80\x80\x80", Refusal::Utf8BadEncoding),
    (b"\xff", Refusal::Utf8BadEncoding),
    (b"\xc1", Refusal::Utf8Incomplete),
    (b"\xe2\x82", Refusal::Utf8Incomplete),
    (b"\xed\xa0", Refusal::Utf8Incomplete),
    (b"\xf7\xbf\xbf", Refusal::Utf8Incomplete),
    (b"\xc1\xbf", Refusal::Utf8Overlong),
    (b"\xe0\x9f\xbf", Refusal::Utf8Overlong),
    (b"\xf0\x8d\xa0\x80", Refusal::Utf8Overlong),
    (b"\xed\xa0\x80", Refusal::Utf8Surrogate),
    (b"\xed\xbf\xbf", Refusal::Utf8Surrogate),
    (b"\xf4\x90\x80\x80", Refusal::Utf8TooLarge),
    (b"\xf7\xbf\xbf\xbf", Refusal::Utf8TooLarge),
];

#[test]
fn five_are_faults_of_utf8() {
    // It can be asked in a constant.
    const _: () = assert!(Refusal::Utf8Incomplete.is_utf8());
    for &refusal in Refusal::ALL {
        let is_one = FAULTS.iter().any(|&(_, fault)| fault == refusal);
        assert_eq!(refusal.is_utf8(), is_one, "{refusal:?}");
        assert_eq!(error(refusal, 0).is_utf8(), is_one, "{refusal:?}");
        assert_eq!(refusal.is_utf8(), (23..=27).contains(&refusal.number()));
    }
}

/// Each through every reader of a whole text, with its place.
#[test]
fn faults_of_utf8() {
    for (bytes, fault) in FAULTS {
        for mark in ["\"", "'", "u'", "b'", "\"caf\u{e9}/", "b'\\yff"] {
            for end in ["", "\"", "'", "\n", "x", "\\", "\u{10ffff}"] {
                let text = [mark.as_bytes(), bytes, end.as_bytes()].concat();
                let expected = error(fault, mark.len());
                assert_eq!(j8::read_to_vec(&text), Err(expected), "{text:?}");
                assert_eq!(j8::read(&text, &mut []), Err(expected), "{text:?}");
                let said = format!("refusal {} at byte {}: ", fault.number(), mark.len());
                assert!(expected.to_string().starts_with(&said), "{expected}");
            }
        }
        for before in [
            "'",
            "[1, \"a",
            "{a: b'",
            "{\"",
            "#",
            "[# c\t",
            "{a: 1, # ",
            "1 # c\n#",
        ] {
            for end in ["", "\n", "'", "\"]", " x"] {
                let text = [before.as_bytes(), bytes, end.as_bytes()].concat();
                let found = j8::Json8::read(text.clone()).map(|_| ());
                assert_eq!(found, Err(error(fault, before.len())), "{text:?}");
            }
        }
        // Outside strings and comments it is a byte that can't stand there.
        let outside = j8::Json8::read([b"[", bytes].concat()).map(|_| ());
        assert_eq!(outside, Err(error(Refusal::Misplaced, 1)));
        for before in [
            "!tsv8\t",
            "!tsv8\ta\t'",
            "!tsv8\ta\n\t x",
            "!tsv8\ta\n\tb'",
            "!tsv8\ta\n!type\tInt\n\t4",
            "!tsv8\ta\n!type\tBool\n\t\"",
        ] {
            for end in ["", " ", "\r\n", "'", "x"] {
                let text = [before.as_bytes(), bytes, end.as_bytes()].concat();
                let found = j8::Tsv8::read(text.clone()).map(|_| ());
                assert_eq!(found, Err(error(fault, before.len())), "{text:?}");
            }
        }
        // A tab and an LF end a cell, and with it the character.
        let text = [b"!tsv8\ta\tb\n\t", bytes, b"\t", bytes, b"\n"].concat();
        assert_eq!(j8::Tsv8::read(text).map(|_| ()), Err(error(fault, 11)));
    }
}

/// A line is read when it is whole: the answer doesn't hang on where it was cut.
#[test]
fn faults_of_utf8_in_pieces() {
    for (bytes, fault) in FAULTS {
        for (before, behind) in [
            ("", "\n"),
            (" \u{e9}", "\r\nx\n"),
            ("b'a", "'\n"),
            ("\"", ""),
        ] {
            let text = [b"a\n", before.as_bytes(), bytes, behind.as_bytes()].concat();
            let expected = error(fault, before.len()).in_line(2);
            for first in 0..=text.len() {
                for second in first..=text.len() {
                    let mut upload = j8::Upload::new();
                    // The finish repeats what a feed was refused with.
                    let pieces = [&text[..first], &text[first..second], &text[second..]];
                    for piece in pieces {
                        if let Err(error) = upload.feed(piece) {
                            assert_eq!(error, expected);
                        }
                    }
                    assert_eq!(
                        upload.finish(),
                        Err(expected),
                        "{text:?}, {first}, {second}"
                    );
                    assert_eq!(upload.state().refusal, Some(expected));
                    assert!(upload.records().eq([j8::Record::Text("a")]));
                }
            }
        }
    }
}

/// A state that an older version refused with 5 is none of today's.
#[test]
fn a_state_that_keeps_5() {
    let mut state = j8::raw::upload_fresh();
    state.refusal = 5;
    assert_eq!(j8::UploadState::try_from(state), Err(5));
    for number in 23..=27 {
        state.refusal = number;
        let kept = j8::UploadState::try_from(state).unwrap();
        assert_eq!(kept.refusal.map(|error| error.number()), Some(number));
        assert_eq!(j8::raw::j8_upload::from(kept), state);
    }
    // The library takes it all the same, and repeats the number.
    state.refusal = 5;
    let mut line = [0; j8::LINE_ROOM];
    let fed = j8::raw::upload_feed(state, b"a\n", &mut line, &mut [0; 9]);
    assert_eq!((fed.answer.number, fed.upload), (5, state));
}

/// The numbers, the rooms and the version are those of the header.
#[test]
fn the_header_says_the_same() {
    let path = concat!(env!("CARGO_MANIFEST_DIR"), "/../include/j8.h");
    let header = std::fs::read_to_string(path).unwrap();
    let defined = |line: &str| assert!(header.lines().any(|l| l == line), "{line}");
    defined(concat!(
        "#define J8_VERSION \"",
        env!("CARGO_PKG_VERSION"),
        "\""
    ));
    // The archive is asked for its version by a number.
    let mut version = 0;
    for (part, number) in ["MAJOR", "MINOR", "PATCH"]
        .iter()
        .zip(env!("CARGO_PKG_VERSION").split('.'))
    {
        defined(&format!("#define J8_VERSION_{part} {number}"));
        version = version * 1_000 + number.parse::<u32>().unwrap();
    }
    assert_eq!(j8::raw::version(), version);
    for (name, number) in [
        ("TEXT_MAX", j8::TEXT_MAX),
        ("LINE_ROOM", j8::LINE_ROOM),
        ("UPLOAD_MAX", j8::UPLOAD_MAX),
        ("UPLOAD_OUTPUT_MAX", j8::UPLOAD_OUTPUT_MAX),
        ("RECORD_HEAD", j8::RECORD_HEAD),
        ("KIND_TEXT", usize::from(j8::KIND_TEXT)),
        ("KIND_BYTES", usize::from(j8::KIND_BYTES)),
        ("NODES_MAX", j8::NODES_MAX),
        ("DEPTH_MAX", j8::DEPTH_MAX),
        ("NODE_ROOM", j8::NODE_ROOM),
        ("COLUMNS_MAX", j8::COLUMNS_MAX),
        ("CELL_ROOM", j8::CELL_ROOM),
        ("CELLS_ROOM", j8::CELLS_ROOM),
        ("SENTENCE_ROOM", j8::raw::SENTENCE_ROOM),
    ] {
        defined(&format!("#define J8_{name} {number}"));
    }
    // The name in the header's manner: NoRoom is J8_NO_ROOM.
    let name = |refusal: Refusal| {
        let mut name = "J8".to_string();
        for letter in format!("{refusal:?}").chars() {
            if letter.is_ascii_uppercase() {
                name.push('_');
            }
            name.push(letter.to_ascii_uppercase());
        }
        name
    };
    for &refusal in Refusal::ALL {
        defined(&format!("#define {} {}", name(refusal), refusal.number()));
    }
}

#[test]
fn errors_say_what_and_where() {
    let mut sentences = BTreeSet::new();
    for &refusal in Refusal::ALL {
        let plain = error(refusal, 5);
        let said = plain.to_string();
        let number = refusal.number();
        assert!(said.starts_with(&format!("refusal {number}")), "{said}");
        assert!(said.ends_with(&format!(": {refusal}")), "{said}");
        sentences.insert(refusal.to_string());

        let in_line = plain.in_line(7);
        let start = format!("refusal {number} in line 7 at byte 5: ");
        assert!(in_line.to_string().starts_with(&start), "{in_line}");
    }
    assert_eq!(sentences.len(), 26);
    assert!(error(Refusal::CutOff, 5)
        .to_string()
        .contains(" at byte 5: "));
}

/// The archive's sentences, in every room: whole, or 12 and the room as it was.
#[test]
fn sentences() {
    let mut told = BTreeSet::new();
    for number in (0..40).chain([255, 256, 65_536, u32::MAX]) {
        let mut room = [0xaa; j8::raw::SENTENCE_ROOM];
        let answer = j8::raw::sentence(number, &mut room);
        assert_eq!((answer.number, answer.place), (0, 0), "{number}");
        let sentence = room[..answer.length].to_vec();
        assert!(room[answer.length..].iter().all(|&byte| byte == 0xaa));
        assert!(sentence.iter().all(|byte| (0x20..0x7f).contains(byte)));
        match Refusal::try_from(number) {
            Ok(refusal) => {
                assert_eq!(refusal.to_string().as_bytes(), sentence);
                assert!(told.insert(sentence.clone()), "{number}");
            }
            Err(_) => assert_eq!(sentence, b"no refusal has this number"),
        }
        for length in 0..=sentence.len() {
            let mut room = vec![0xaa; length];
            let answer = j8::raw::sentence(number, &mut room);
            if length < sentence.len() {
                assert_eq!((answer.number, answer.place, answer.length), (12, 0, 0));
                assert!(room.iter().all(|&byte| byte == 0xaa));
            } else {
                assert_eq!((answer.number, answer.length), (0, length));
                assert_eq!(room, sentence);
            }
        }
    }
    assert!(!told.contains(b"no refusal has this number".as_slice()));
}

/// What is unfit of a value is told apart.
#[test]
fn unfit_values() {
    let mut deep = j8::Value::Null;
    for _ in 0..=j8::DEPTH_MAX {
        deep = j8::Value::List(vec![deep]);
    }
    let many = j8::Value::List(vec![j8::Value::Null; j8::NODES_MAX]);
    let number = j8::Value::List(vec![j8::Value::Number("01".to_string())]);
    for (value, reason, sentence) in [
        (
            deep,
            j8::Unfit::TooDeep,
            "the value is over 32 brackets deep",
        ),
        (
            many,
            j8::Unfit::TooManyNodes,
            "the value has over 1,024 nodes",
        ),
        (number, j8::Unfit::Number, "the text of a number is none"),
    ] {
        let error = value.write_to_vec().unwrap_err();
        assert_eq!((error.refusal, error.unfit), (Refusal::Unfit, Some(reason)));
        assert_eq!(reason.to_string(), sentence);
        assert_eq!(error.to_string(), format!("refusal 1: {sentence}"));
    }
}

#[test]
fn errors_are_errors() {
    let plain = error(Refusal::Control, 3);
    let boxed: Box<dyn std::error::Error + Send + Sync> = plain.into();
    assert_eq!(boxed.downcast_ref(), Some(&plain));
    let of_io = std::io::Error::from(plain);
    assert_eq!(of_io.kind(), std::io::ErrorKind::InvalidData);
    assert_eq!(of_io.to_string(), plain.to_string());
}

/// All of it may be handed to another thread.
#[test]
fn threads() {
    fn shared<T: Send + Sync + 'static>() {}
    shared::<j8::Upload>();
    shared::<j8::LentUpload<'static>>();
    shared::<j8::Json8>();
    shared::<j8::Nodes<'static>>();
    shared::<j8::Tsv8>();
    shared::<j8::Sheet<'static>>();
    shared::<j8::Value>();
    shared::<Error>();
    let texts = (0..8).map(|n| std::thread::spawn(move || j8::write_to_vec(&[n, 0xff])));
    let texts: Vec<_> = texts
        .collect::<Vec<_>>()
        .into_iter()
        .map(|t| t.join().unwrap())
        .collect();
    for (n, text) in texts.iter().enumerate() {
        assert_eq!(j8::read_to_vec(text).unwrap(), [n as u8, 0xff]);
    }
}
