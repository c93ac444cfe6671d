use super::*;
use crate::tests::FAULTS;

const SPARE: usize = 5;

type Found = Result<(Vec<[u32; NODE]>, Vec<u8>), (u32, usize)>;

/// Reads with plenty of room, with exact room, and with one number or byte
/// less; sees that nothing else of the buffers was touched.
fn reading(text: &[u8]) -> Found {
    let mut table = vec![7_777; NODE * NODES_MAX + SPARE];
    let mut store = vec![0xaa; text.len() + SPARE];
    let Filled { nodes, stored } = match read(text, &mut table, &mut store) {
        Ok(filled) => filled,
        Err(refusal) => {
            assert!(table.iter().all(|&n| n == 7_777));
            assert!(store.iter().all(|&b| b == 0xaa));
            return Err((refusal.number, refusal.place));
        }
    };
    let numbers = NODE * nodes;
    assert!(table[numbers..].iter().all(|&n| n == 7_777));
    assert!(store[stored..].iter().all(|&b| b == 0xaa));
    table.truncate(numbers);
    store.truncate(stored);

    let (mut exact_table, mut exact_store) = (vec![0; numbers], vec![0; stored]);
    let filled = read(text, &mut exact_table, &mut exact_store);
    assert_eq!(filled, Ok(Filled { nodes, stored }));
    assert_eq!((&exact_table, &exact_store), (&table, &store));

    let mut short_table = vec![7_777; numbers - 1];
    let refused = read(text, &mut short_table, &mut exact_store);
    assert_eq!(refused, refuse(NO_ROOM, 0));
    if stored > 0 {
        let mut short_store = vec![0xaa; stored - 1];
        let refused = read(text, &mut exact_table, &mut short_store);
        assert_eq!(refused, refuse(NO_ROOM, 0));
        assert!(short_store.iter().all(|&b| b == 0xaa));
    }
    assert!(short_table.iter().all(|&n| n == 7_777));
    assert_eq!((exact_table, exact_store), (table.clone(), store.clone()));

    let rows = table.chunks_exact(NODE);
    Ok((rows.map(|row| row.try_into().unwrap()).collect(), store))
}

fn gives(text: &[u8], rows: &[[u32; NODE]], store: &[u8]) {
    assert_eq!(
        reading(text),
        Ok((rows.to_vec(), store.to_vec())),
        "{}",
        text.escape_ascii()
    );
}

fn refuses(text: &[u8], number: u32, place: usize) {
    assert_eq!(
        reading(text),
        Err((number, place)),
        "{}",
        text.escape_ascii()
    );
}

#[test]
fn each_kind() {
    gives(b"null", &[[0, 1, 0, 4]], b"");
    gives(b" false ", &[[1, 1, 1, 5]], b"");
    gives(b"true#x", &[[2, 1, 0, 4]], b"");
    gives(b"-0", &[[3, 1, 0, 2]], b"");
    gives(b"1e5", &[[4, 1, 0, 3]], b"");
    gives(b"u'ab'", &[[5, 1, 2, 2]], b"");
    gives(br#""a\n""#, &[[6, 1, 0, 2]], b"a\n");
    gives(b"[ ]", &[[7, 1, 0, 0]], b"");
    gives(b"{#\n}", &[[8, 1, 0, 0]], b"");
}

#[test]
fn parents_first() {
    gives(
        br"{a:[1,'\t',[]], 'b' : {c:b'\yff'}}",
        &[
            [8, 10, 0, 2],
            [5, 1, 1, 1],
            [7, 4, 3, 3],
            [3, 1, 4, 1],
            [6, 1, 0, 1],
            [7, 1, 11, 0],
            [5, 1, 17, 1],
            [8, 3, 22, 1],
            [5, 1, 23, 1],
            [6, 1, 1, 1],
        ],
        b"\t\xff",
    );
}

#[test]
fn strings_without_a_backslash_stay_in_the_text() {
    gives(b"\"\"", &[[5, 1, 1, 0]], b"");
    gives(b"b''", &[[5, 1, 2, 0]], b"");
    gives(br#""\/""#, &[[6, 1, 0, 1]], b"/");
    gives(
        br"['\'', 'x', '\\']",
        &[[7, 4, 0, 3], [6, 1, 0, 1], [5, 1, 8, 1], [6, 1, 1, 1]],
        b"'\\",
    );
}

#[test]
fn equal_keys_are_kept() {
    gives(
        b"{a:1,a:2}",
        &[
            [8, 5, 0, 2],
            [5, 1, 1, 1],
            [3, 1, 3, 1],
            [5, 1, 5, 1],
            [3, 1, 7, 1],
        ],
        b"",
    );
}

#[test]
fn words() {
    refuses(b"nul", 13, 0);
    refuses(b"nullx", 13, 0);
    refuses(b"True", 13, 0);
    refuses(b"bu'x'", 13, 0);
    refuses(b"u 'x'", 13, 0);
    refuses(b"u\"a\"", 13, 0);
    refuses(b"true'x'", 11, 4);
    refuses(b"{u 'x':1}", 13, 3);
    gives(
        b"{true:true,u:1,u'x':2,_9:3}",
        &[
            [8, 9, 0, 4],
            [5, 1, 1, 4],
            [2, 1, 6, 4],
            [5, 1, 11, 1],
            [3, 1, 13, 1],
            [5, 1, 17, 1],
            [3, 1, 20, 1],
            [5, 1, 22, 2],
            [3, 1, 25, 1],
        ],
        b"",
    );
}

#[test]
fn numbers() {
    for text in ["0", "-0", "10", "-12345678901234567890"] {
        gives(text.as_bytes(), &[[3, 1, 0, text.len() as u32]], b"");
    }
    for text in ["0.0", "1.50", "1e5", "1E+5", "-1.5e-05", "0e0"] {
        gives(text.as_bytes(), &[[4, 1, 0, text.len() as u32]], b"");
    }
    for text in [
        "-", "01", "-01", "00", "1.", "1.e5", "1e", "1e+", "1e+-5", "1-2", "1.2.3", "--1", "1e5.0",
        "1else", "-a", "-.5", "1+", "0-",
    ] {
        refuses(text.as_bytes(), 14, 0);
    }
    refuses(b"+1", 13, 0);
    refuses(b".5", 13, 0);
    refuses(b"1x", 11, 1);
    refuses(b"[1x]", 13, 2);
    refuses(b"[0x1]", 13, 2);
}

#[test]
fn commas_and_colons() {
    gives(b"[1,]", &[[7, 2, 0, 1], [3, 1, 1, 1]], b"");
    gives(
        b"{a:1 , }",
        &[[8, 3, 0, 1], [5, 1, 1, 1], [3, 1, 3, 1]],
        b"",
    );
    refuses(b"[,]", 13, 1);
    refuses(b"{,}", 13, 1);
    refuses(b"[1,,]", 13, 3);
    refuses(b"{a:1,,}", 13, 5);
    refuses(b"[1 2]", 13, 3);
    refuses(b"[1:2]", 13, 2);
    refuses(b"[1}", 13, 2);
    refuses(b"{a}", 13, 2);
    refuses(b"{a 1}", 13, 3);
    refuses(b"{a:}", 13, 3);
    refuses(b"{a:1]", 13, 4);
    refuses(b"{1:2}", 13, 1);
    refuses(b"{[]:2}", 13, 1);
    refuses(b"]", 13, 0);
}

#[test]
fn ends() {
    for text in [
        "", " ", "#", "# c", "\n#\n", "[", "[1", "[1,", "[[]", "{", "{a", "{a:", "{a:1", "{a:1,",
        "[#", "{a #",
    ] {
        refuses(text.as_bytes(), 4, text.len());
    }
    refuses(b"\"a", 4, 2);
    refuses(b"[\"a]", 4, 4);
}

#[test]
fn after_the_value() {
    refuses(b"1 2", 11, 2);
    refuses(b"[1]]", 11, 3);
    refuses(b"null null", 11, 5);
    refuses(b"'a'\"b\"", 11, 3);
    refuses(b"1\xff", 11, 1);
    refuses(b"1\x00", 11, 1);
    refuses(b"1 # c\n,", 11, 6);
    refuses(b"1 #\xff", 23, 3);
    gives(b"1 # c\r\t\x00\xc3\xa9", &[[3, 1, 0, 1]], b"");
}

#[test]
fn comments_and_blanks() {
    refuses(b"# \xff", 23, 2);
    refuses(b"#\xe2\x82\n1", 24, 1);
    refuses(b"[1,#\xed\xa0\x80\n]", 26, 4);
    // A CR ends no comment, and no other blank is skipped.
    refuses(b"#\r1", 4, 3);
    refuses(b"\x0b1", 13, 0);
    refuses(b"\xc2\xa01", 13, 0);
    refuses(b"\xef\xbb\xbf1", 13, 0);
    refuses(b"[\xff]", 13, 1);
    refuses(b"// c\n1", 13, 0);
    gives(b"\t\r\n #x\n# y\n 1", &[[3, 1, 12, 1]], b"");
}

#[test]
fn strings_by_their_own_rules() {
    refuses(b"[\"\x01\"]", 6, 2);
    refuses(b"['\xff']", 23, 2);
    refuses(br#"["\'"]"#, 7, 2);
    refuses(br"['\u{dc00}']", 8, 2);
    refuses(br"[u'\u{110000}']", 9, 3);
    refuses(br"{'\yff':1}", 10, 2);
    refuses(br#"["\u12"]"#, 7, 2);
    // What stands behind a string is no part of it.
    refuses(br#"["\ud83e" \udd26]"#, 13, 10);
}

/// In strings and comments, before, inside and after the value. Everywhere else a byte
/// that isn't ASCII can't stand, or is behind the value.
#[test]
fn ill_formed_characters() {
    let strings = ["\"", "'", "u'", "b'", "[1, \"é", "{a: '\\n", "{b'"];
    let comments = [
        "#",
        "# é",
        "[# ",
        "{a #",
        "{a: # \r",
        "[1 #",
        "[1, #\t",
        "1 #",
        "[] # c\n#",
    ];
    for (bytes, number) in FAULTS {
        for before in strings.iter().chain(&comments) {
            for behind in ["", "\"", "'", "\n", "\r", "\t", "#", "\\", "a", "é", "]}"] {
                let text = [before.as_bytes(), bytes, behind.as_bytes()].concat();
                refuses(&text, number, before.len());
            }
        }
        for before in ["", " ", "[", "[1,", "[1", "{", "{a", "{a:", "[x", "#\n"] {
            let at = before.find('x').unwrap_or(before.len());
            refuses(&[before.as_bytes(), bytes].concat(), 13, at);
        }
        for before in ["1", "1 ", "''", "[]\n", "1 #\n"] {
            refuses(&[before.as_bytes(), bytes].concat(), 11, before.len());
        }
    }
}

#[test]
fn one_place_two_faults() {
    refuses(b"[1 01]", 13, 3);
    refuses(b"{01:2}", 13, 1);
    refuses(b"[1 [", 13, 3);
    let deep = b"[".repeat(32);
    refuses(&[&deep[..], b"1 ["].concat(), 13, 34);
    refuses(&[&deep[..], b"[\xff"].concat(), 15, 32);
    refuses(&[&deep[..], b"{"].concat(), 15, 32);
}

#[test]
fn depth() {
    let nest = |n: usize| [b"[".repeat(n), b"]".repeat(n)].concat();
    assert_eq!(reading(&nest(32)).unwrap().0.len(), 32);
    refuses(&nest(33), 15, 32);
    // 33 brackets, but not open at once.
    let text = [b"[".as_slice(), &nest(31), b",", &nest(31), b"]"].concat();
    assert_eq!(reading(&text).unwrap().0.len(), 63);
    let dicts = [b"{a:".repeat(32), b"{}".to_vec()].concat();
    refuses(&dicts, 15, 96);
}

/// A list that stands open with so many nodes, and what comes next.
fn open_list(nodes: usize, next: &[u8]) -> Vec<u8> {
    [b"[".as_slice(), &b"0,".repeat(nodes - 1), next].concat()
}

#[test]
fn nodes() {
    assert_eq!(reading(&open_list(1_023, b"0]")).unwrap().0.len(), 1_024);
    assert_eq!(reading(&open_list(1_024, b"]")).unwrap().0.len(), 1_024);
    let at = open_list(1_024, b"").len();
    for next in [
        "1", "''", "'\\q'", "\"\u{1}", "null", "[", "{", "u'", "-0.5",
    ] {
        refuses(&open_list(1_024, next.as_bytes()), 16, at);
    }
    for (next, number) in [
        ("nul", 13),
        (",", 13),
        ("}", 13),
        ("01", 14),
        ("-", 14),
        ("", 4),
    ] {
        refuses(&open_list(1_024, next.as_bytes()), number, at);
    }
    refuses(&open_list(1_024, b"#\xff"), 23, at + 1);

    // A key counts, and so does its value.
    let pairs = b"a:0,".repeat(511);
    let dict = |next: &[u8]| [b"[{", &pairs[..], next].concat();
    assert_eq!(reading(&dict(b"}]")).unwrap().0.len(), 1_024);
    refuses(&dict(b"a:0}]"), 16, 2 + pairs.len());
    refuses(&dict(b"'\\q':0}]"), 16, 2 + pairs.len());
    refuses(&dict(b"1:0}]"), 13, 2 + pairs.len());
    let dict = [b"{", &pairs[..], b"a:"].concat();
    refuses(&[&dict[..], b"0}"].concat(), 16, dict.len());
    refuses(&[&dict[..], b"}"].concat(), 13, dict.len());

    // A bracket that is too deep and too many.
    let deep = [b"[".repeat(31), open_list(993, b"[")].concat();
    refuses(&deep, 15, deep.len() - 1);
}

#[test]
fn the_cap_comes_first_and_the_room_last() {
    let mut text = vec![b' '; TEXT_MAX];
    refuses(&text, 4, TEXT_MAX);
    text[TEXT_MAX - 1] = b'1';
    gives(&text, &[[3, 1, TEXT_MAX as u32 - 1, 1]], b"");
    text.push(b'1');
    refuses(&text, 2, 0);
    assert_eq!(read(b"[1", &mut [], &mut []), refuse(CUT_OFF, 2));
    assert_eq!(read(b"1 1", &mut [], &mut []), refuse(TRAILING, 2));
    assert_eq!(read(b"1", &mut [0; 3], &mut []), refuse(NO_ROOM, 0));
    assert_eq!(
        read(b"1", &mut [0; 7], &mut []),
        Ok(Filled {
            nodes: 1,
            stored: 0
        })
    );
}

fn shown(stored: bool, place: usize, length: usize) -> Option<Shown> {
    Some(Shown {
        stored,
        place,
        length,
    })
}

#[test]
fn showing() {
    let (text, store) = (b"0123456789".as_slice(), b"abc".as_slice());
    let one = |row: [u32; NODE]| show(&row, text, store, 0);
    assert_eq!(one([5, 1, 2, 3]), shown(false, 2, 3));
    assert_eq!(one([6, 9, 1, 2]), shown(true, 1, 2));
    assert_eq!(one([5, 1, 10, 0]), shown(false, 10, 0));
    assert_eq!(one([5, 1, 0, 10]), shown(false, 0, 10));
    assert_eq!(one([5, 1, 0, 11]), None);
    assert_eq!(one([5, 1, 11, 0]), None);
    assert_eq!(one([6, 1, 3, 0]), shown(true, 3, 0));
    assert_eq!(one([6, 1, 4, 0]), None);
    assert_eq!(one([6, 1, 2, 2]), None);
    assert_eq!(one([5, 1, u32::MAX, 1]), None);
    assert_eq!(one([5, 1, 1, u32::MAX]), None);
    assert_eq!(one([6, 1, u32::MAX, u32::MAX]), None);
    for kind in [0, 1, 2, 3, 4, 7, 8, 9, 261, u32::MAX] {
        assert_eq!(one([kind, 1, 2, 3]), None);
    }

    let table = [7, 2, 0, 1, 5, 1, 1, 1, 5, 1, 1];
    assert_eq!(show(&table, text, store, 1), shown(false, 1, 1));
    for node in [2, 3, usize::MAX / 4 + 2, usize::MAX] {
        assert_eq!(show(&table, text, store, node), None);
    }
    assert_eq!(show(&[], text, store, 0), None);
}
