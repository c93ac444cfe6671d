use super::*;

/// Reads with plenty of room, and sees that nothing else of it was touched.
fn reading(text: &[u8]) -> Result<Vec<u8>, (u32, usize)> {
    let mut out = vec![0xaa; text.len() + 8];
    match read(text, &mut out) {
        Ok(length) => {
            assert!(out[length..].iter().all(|&b| b == 0xaa));
            Ok(out[..length].to_vec())
        }
        Err(refusal) => {
            assert!(out.iter().all(|&b| b == 0xaa));
            Err((refusal.number, refusal.place))
        }
    }
}

fn writing(data: &[u8]) -> Vec<u8> {
    let mut out = vec![0xaa; 6 * data.len() + 9];
    let length = write(data, &mut out).unwrap();
    assert!(out[length..].iter().all(|&b| b == 0xaa));
    // Exact room will do, one short won't, and the shorter room is untouched.
    let mut exact = vec![0; length];
    assert_eq!(write(data, &mut exact), Ok(length));
    assert_eq!(exact, out[..length]);
    let mut short = vec![0xaa; length - 1];
    assert_eq!(write(data, &mut short), refuse(NO_ROOM, 0));
    assert!(short.iter().all(|&b| b == 0xaa));
    out.truncate(length);
    out
}

fn gives(text: &[u8], bytes: &[u8]) {
    assert_eq!(reading(text), Ok(bytes.to_vec()), "{}", text.escape_ascii());
}

fn refuses(text: &[u8], number: u32, place: usize) {
    assert_eq!(
        reading(text),
        Err((number, place)),
        "{}",
        text.escape_ascii()
    );
}

#[test]
fn example_strings() {
    gives(br#""""#, b"");
    gives(b"''", b"");
    gives(br#""\ud83e\udd26""#, b"\xf0\x9f\xa4\xa6");
    gives(br#""\udd26""#, b"\xed\xb4\xa6");
    gives(br#""\ud83eA""#, b"\xed\xa0\xbe\x41");
    gives(br"b'\yff'", b"\xff");
    gives(br"b'\yff\fe'", b"\xff\x0c\x65");
    refuses(br"u'\yff'", 10, 2);
    refuses(br"u'\u{dc00}'", 8, 2);
    refuses(br"u'\u{110000}'", 9, 2);
    refuses(br#""\'""#, 7, 1);
    refuses(br#""a"#, 4, 2);
    refuses(b"'a' x", 11, 3);
}

#[test]
fn limits() {
    gives(br"'\u{10ffff}'", b"\xf4\x8f\xbf\xbf");
    gives(br"'\u{0}'", b"\x00");
    refuses(br"'\u{0000041}'", 7, 1);
    let text = [b"\"".as_slice(), &[b'a'; TEXT_MAX - 2], b"\""].concat();
    let mut out = vec![0; TEXT_MAX - 2];
    assert_eq!(read(&text, &mut out), Ok(TEXT_MAX - 2));
    assert_eq!(
        read(&text, &mut out[..TEXT_MAX - 3]),
        refuse(NO_ROOM, 0),
        "one short"
    );
}

#[test]
fn openings() {
    refuses(b"", 3, 0);
    refuses(b"u", 3, 0);
    refuses(b"b", 3, 0);
    refuses(b"u\"a\"", 3, 0);
    refuses(b"U'a'", 3, 0);
    refuses(b" \"a\"", 3, 0);
    refuses(b"\"", 4, 1);
    refuses(b"b'", 4, 2);
}

#[test]
fn cut_off_escapes_and_characters() {
    refuses(br#""\"#, 7, 1);
    refuses(br#""a\u12"#, 7, 2);
    refuses(br"u'\u{1", 7, 2);
    refuses(b"\"a\xe2\x82", 24, 2);
    refuses(b"\"a\xe2\x82\"", 24, 2);
    refuses(b"'\xf0\x9f\xa4", 24, 1);
    refuses(b"\"a\xe2\x82\x01", 24, 2);
}

#[test]
fn halves() {
    refuses(br#""\ud83e\uzzzz""#, 7, 7);
    refuses(br#""\ud83e\ud""#, 7, 7);
    gives(br#""\ud83e\ud83e\udd26""#, b"\xed\xa0\xbe\xf0\x9f\xa4\xa6");
    gives(br#""\udd26\ud83e""#, b"\xed\xb4\xa6\xed\xa0\xbe");
    gives(br#""\ud83e\u0041""#, b"\xed\xa0\xbeA");
    gives(br#""\uD83E\uDD26""#, b"\xf0\x9f\xa4\xa6");
    gives(br#""\udbff\udfff""#, b"\xf4\x8f\xbf\xbf");
    gives(br#""\ud800\udc00""#, b"\xf0\x90\x80\x80");
    refuses(b"\"\\ud83e\xed\xb4\xa6\"", 26, 7);
    refuses(b"\"\xed\xa0\xbe\\udd26\"", 26, 1);
}

#[test]
fn braces_need_the_whole_escape() {
    refuses(br"'\u{dc00'", 7, 1);
    refuses(br"'\u{dc000'", 7, 1);
    refuses(br"'\u{}'", 7, 1);
    refuses(br"'\u{0110000}'", 7, 1);
    refuses(br"'\u{000dc00}'", 7, 1);
    refuses(br"'\u{00dc00}'", 8, 1);
    refuses(br"b'\u{d800}'", 8, 2);
    refuses(br"b'\u{dfff}'", 8, 2);
    refuses(br"b'\u{ffffff}'", 9, 2);
    gives(br"'\u{d7ff}\u{E000}'", b"\xed\x9f\xbf\xee\x80\x80");
}

#[test]
fn escapes_of_another_style() {
    refuses(br#""\yff""#, 7, 1);
    refuses(br#""\u{41}""#, 7, 1);
    refuses(br"'\u0041'", 7, 1);
    refuses(br"b'\u0041'", 7, 2);
    for letter in [b'U', b'Y', b'N', b'0', b'x', b'a', b'v'] {
        refuses(&[b'"', b'\\', letter, b'"'], 7, 1);
        refuses(&[b'b', b'\'', b'\\', letter, b'\''], 7, 2);
    }
    refuses(br"u'\y", 10, 2);
    refuses(br"'\yzz'", 10, 1);
    refuses(br"b'\y", 7, 2);
    refuses(br"b'\yf", 7, 2);
    refuses(br"b'\yf'", 7, 2);
    gives(br"b'\yFf\y00'", b"\xff\x00");
}

#[test]
fn common_escapes_and_bare_quotes() {
    let escapes = br#"\"\\\/\b\f\n\r\t"#;
    for (mark, quote) in [("\"", "\""), ("'", "'"), ("u'", "'"), ("b'", "'")] {
        let text = [mark.as_bytes(), escapes, quote.as_bytes()].concat();
        gives(&text, b"\"\\/\x08\x0c\n\r\t");
    }
    gives(br#"'"\''"#, b"\"'");
    gives(b"\"it's\"", b"it's");
}

#[test]
fn controls_and_delete() {
    gives(b"\"a\x7f\"", b"a\x7f");
    refuses(b"\"a\tb\"", 6, 2);
    refuses(b"b'\x1f'", 6, 2);
    refuses(b"'\x00", 6, 1);
}

#[test]
fn nothing_is_stripped() {
    refuses(b"\"a\" ", 11, 3);
    refuses(b"\"a\"\xff", 11, 3);
    refuses(b"''\x00", 11, 2);
}

#[test]
fn the_cap_comes_first_and_the_room_last() {
    refuses(&[b'x'; TEXT_MAX + 1], 2, 0);
    refuses(&[b'x'; TEXT_MAX], 3, 0);
    assert_eq!(read(b"\"a", &mut []), refuse(CUT_OFF, 2));
    assert_eq!(read(b"\"a\"x", &mut []), refuse(TRAILING, 3));
    assert_eq!(read(b"\"a\"", &mut []), refuse(NO_ROOM, 0));
    assert_eq!(read(b"\"\"", &mut []), Ok(0));
}

/// Ill-formed characters, whole or to their end, and their numbers: the first and the
/// last of each range, and both sides of each value where the answer changes.
pub(crate) const FAULTS: [(&[u8], u32); 39] = [
    (b"\x80", 23),
    (b"\xbf", 23),
    (b"\x80\x80\x80\x80", 23),
    (b"\xf8", 23),
    (b"\xf8\x88\x80\x80\x80", 23),
    (b"\xfe", 23),
    (b"\xff", 23),
    (b"\xff\xbf\xbf\xbf", 23),
    (b"\xc0", 24),
    (b"\xc1", 24),
    (b"\xc2", 24),
    (b"\xdf", 24),
    (b"\xe0", 24),
    (b"\xe0\x80", 24),
    (b"\xe2\x82", 24),
    (b"\xed\xa0", 24),
    (b"\xef\xbf", 24),
    (b"\xf0", 24),
    (b"\xf0\x8d\xa0", 24),
    (b"\xf4\x90", 24),
    (b"\xf5\x80\x80", 24),
    (b"\xf7\xbf\xbf", 24),
    (b"\xc0\x80", 25),
    (b"\xc1\xbf", 25),
    (b"\xe0\x80\x80", 25),
    (b"\xe0\x9f\xbf", 25),
    (b"\xf0\x80\x80\x80", 25),
    (b"\xf0\x82\x82\xac", 25),
    (b"\xf0\x8d\xa0\x80", 25),
    (b"\xf0\x8d\xbf\xbf", 25),
    (b"\xf0\x8f\xbf\xbf", 25),
    (b"\xed\xa0\x80", 26),
    (b"\xed\xaf\xbf", 26),
    (b"\xed\xb0\x80", 26),
    (b"\xed\xbf\xbf", 26),
    (b"\xf4\x90\x80\x80", 27),
    (b"\xf4\xbf\xbf\xbf", 27),
    (b"\xf5\x80\x80\x80", 27),
    (b"\xf7\xbf\xbf\xbf", 27),
];

#[test]
fn ill_formed_characters() {
    for (bytes, number) in FAULTS {
        // What stands behind a character is none of it: no quote, escape, control or
        // other character makes it whole, nor does the end of the text.
        for behind in [
            "",
            "\"",
            "'",
            "\\",
            "\\y80",
            "\n",
            "\t",
            "a",
            "é",
            "\u{10ffff}",
        ] {
            let behind = behind.as_bytes();
            refuses(&[b"\"ab", bytes, behind].concat(), number, 3);
            refuses(&[b"'", bytes, behind].concat(), number, 1);
            refuses(&[b"u'\\n", bytes, behind].concat(), number, 4);
            refuses(&[b"b'\xc3\xa9", bytes, behind].concat(), number, 4);
        }
        // The leftmost of two is told.
        for (other, _) in FAULTS.iter().filter(|(other, _)| other[0] >= 0xc0) {
            refuses(&[b"\"", bytes, *other, b"\""].concat(), number, 1);
        }
        let text = writing(bytes);
        assert!(text.starts_with(b"b'"));
        gives(&text, bytes);
    }
    let good = "\u{80}\u{7ff}\u{800}\u{d7ff}\u{e000}\u{ffff}\u{10000}\u{10ffff}";
    gives(format!("u'{good}'").as_bytes(), good.as_bytes());
}

#[test]
fn a_byte_more_makes_another_fault() {
    // Without its last byte a character is incomplete, whatever it would have been.
    for (bytes, number) in FAULTS.iter().filter(|(_, number)| *number >= 25) {
        for cut in 1..bytes.len() {
            refuses(&[b"'", &bytes[..cut]].concat(), 24, 1);
            refuses(&[b"'", &bytes[..cut], b"'"].concat(), 24, 1);
        }
        // One more continuation byte starts nothing: the fault before it is told.
        refuses(&[b"'", *bytes, b"\x80'"].concat(), *number, 1);
    }
    for whole in ["\u{80}", "\u{800}", "\u{ffff}", "\u{10000}", "\u{10ffff}"] {
        let bytes = whole.as_bytes();
        refuses(&[b"'", bytes, b"\xbf'"].concat(), 23, 1 + bytes.len());
        for cut in 1..bytes.len() {
            refuses(&[b"'", &bytes[..cut], b"'"].concat(), 24, 1);
        }
    }
}

/// Every value in every length that has room for it, and not only the shortest.
#[test]
fn every_value_in_every_length() {
    let tail = |value: u32, shift: u32| 0x80 | (value >> shift & 0x3f) as u8;
    for value in 0..0x20_0000 {
        let two = [0xc0 | (value >> 6) as u8, tail(value, 0)];
        let three = [0xe0 | (value >> 12) as u8, tail(value, 6), tail(value, 0)];
        let four = [
            0xf0 | (value >> 18) as u8,
            tail(value, 12),
            tail(value, 6),
            tail(value, 0),
        ];
        let forms: [(&[u8], u32, u32); 3] = [
            (&two, 0x80, 0x800),
            (&three, 0x800, 0x1_0000),
            (&four, 0x1_0000, 0x20_0000),
        ];
        for (form, least, end) in forms.into_iter().filter(|form| value < form.2) {
            let fault = match std::str::from_utf8(form) {
                Ok(_) => None,
                Err(_) => Some(character_fault(form)),
            };
            let expected = match value {
                _ if value < least => Some(25),
                0xd800..=0xdfff => Some(26),
                0x11_0000.. => Some(27),
                _ => None,
            };
            assert_eq!(fault, expected, "{value:x} below {end:x}");
        }
    }
}

#[test]
fn written_forms() {
    assert_eq!(writing(b""), b"\"\"");
    assert_eq!(writing(b"it's a/b\x7f"), b"\"it's a/b\x7f\"");
    assert_eq!(writing(b"\"\\"), br#""\"\\""#);
    assert_eq!(
        writing(b"\x08\x0c\n\r\t\x00\x1f"),
        br#""\b\f\n\r\t\u0000\u001f""#
    );
    assert_eq!(writing("é".as_bytes()), "\"é\"".as_bytes());
    assert_eq!(writing(b"\xff'\"\\/\n\x01"), br#"b'\yff\'"\\/\n\y01'"#);
    assert_eq!(writing(b"\xc3\xa9\xe9"), b"b'\xc3\xa9\\ye9'");
    assert_eq!(writing(b"\xed\xa0\xbe"), br"b'\yed\ya0\ybe'");
    assert_eq!(writing(b"\xe2\x82\""), br#"b'\ye2\y82"'"#);
}

#[test]
fn bytes_form_of_valid_data() {
    let mut out = [0xaa; 32];
    let length = write_bytes("é'\"\t\x01".as_bytes(), &mut out).unwrap();
    assert_eq!(&out[..length], "b'é\\'\"\\t\\y01'".as_bytes());
    assert_eq!(write_bytes(b"", &mut out), Ok(3));
    assert_eq!(&out[..3], b"b''");
    assert_eq!(write_bytes(b"", &mut out[..2]), refuse(NO_ROOM, 0));
}

#[test]
fn written_pairs_read_back() {
    for first in 0..=255 {
        for second in 0..=255 {
            let data = [first, second];
            gives(&writing(&data), &data);
            let mut out = [0; 16];
            let length = write_bytes(&data, &mut out).unwrap();
            gives(&out[..length], &data);
        }
    }
}
