use super::*;
use crate::tests::FAULTS;

const SPARE: usize = 5;
const FILL: u32 = 7_777;

/// Names, types, cells and store.
type Found = (Vec<[u32; CELL]>, Vec<u32>, Vec<[u32; CELL]>, Vec<u8>);

/// Four parts of these lengths, in a pattern.
struct Parts {
    names: Vec<u32>,
    types: Vec<u32>,
    cells: Vec<u32>,
    store: Vec<u8>,
}

impl Parts {
    fn new(names: usize, types: usize, cells: usize, store: usize) -> Parts {
        Parts {
            names: vec![FILL; names],
            types: vec![FILL; types],
            cells: vec![FILL; cells],
            store: vec![0xaa; store],
        }
    }

    fn read(&mut self, text: &[u8]) -> Result<Filled, Refusal> {
        read(
            text,
            &mut self.names,
            &mut self.types,
            &mut self.cells,
            &mut self.store,
        )
    }

    fn are_untouched(&self) -> bool {
        let all = |part: &[u32]| part.iter().all(|&n| n == FILL);
        all(&self.names)
            && all(&self.types)
            && all(&self.cells)
            && self.store.iter().all(|&b| b == 0xaa)
    }
}

fn threes(numbers: &[u32]) -> Vec<[u32; CELL]> {
    let rows = numbers.chunks_exact(CELL);
    rows.map(|row| row.try_into().unwrap()).collect()
}

/// Reads with plenty of room, with exact room, with parts that aren't whole threes, and
/// with each part one short; sees that nothing else of them was touched.
fn reading(text: &[u8]) -> Result<Found, (u32, usize)> {
    let most = CELL * text.len() + SPARE;
    let mut ample = Parts::new(most, most, most, most);
    let filled = match ample.read(text) {
        Ok(filled) => filled,
        Err(refusal) => {
            assert!(ample.are_untouched());
            let mut none = Parts::new(0, 0, 0, 0);
            assert_eq!(none.read(text), Err(refusal));
            return Err((refusal.number, refusal.place));
        }
    };
    let Filled {
        columns,
        cells,
        stored,
    } = filled;
    let exact = [CELL * columns, columns, CELL * cells, stored];
    let [n, t, c, s] = exact;
    assert!(ample.names[n..].iter().all(|&n| n == FILL));
    assert!(ample.types[t..].iter().all(|&n| n == FILL));
    assert!(ample.cells[c..].iter().all(|&n| n == FILL));
    assert!(ample.store[s..].iter().all(|&b| b == 0xaa));
    ample.names.truncate(n);
    ample.types.truncate(t);
    ample.cells.truncate(c);
    ample.store.truncate(s);

    for more in [0, 1, 2] {
        let mut parts = Parts::new(n + more, t, c + more, s);
        assert_eq!(parts.read(text), Ok(filled));
        assert_eq!(parts.names[..n], ample.names);
        assert_eq!(parts.types, ample.types);
        assert_eq!(parts.cells[..c], ample.cells);
        assert_eq!(parts.store, ample.store);
        assert!(parts.names[n..].iter().all(|&n| n == FILL));
        assert!(parts.cells[c..].iter().all(|&n| n == FILL));
    }
    for short in 0..4 {
        let mut lengths = exact;
        if lengths[short] == 0 {
            continue;
        }
        lengths[short] -= 1;
        let mut parts = Parts::new(lengths[0], lengths[1], lengths[2], lengths[3]);
        assert_eq!(parts.read(text), refuse(NO_ROOM, 0), "part {short}");
        assert!(parts.are_untouched(), "part {short}");
    }
    Ok((
        threes(&ample.names),
        ample.types,
        threes(&ample.cells),
        ample.store,
    ))
}

fn gives(text: &[u8], names: &[[u32; CELL]], types: &[u32], cells: &[[u32; CELL]], store: &[u8]) {
    assert_eq!(
        reading(text),
        Ok((
            names.to_vec(),
            types.to_vec(),
            cells.to_vec(),
            store.to_vec()
        )),
        "{}",
        text.escape_ascii()
    );
}

fn refuses(text: &[u8], number: u32, place: usize) {
    assert_eq!(
        reading(text),
        Err((number, place)),
        "{}",
        text.escape_ascii()
    );
}

/// One column `a` of this type, and one cell.
fn one(column: &str, cell: &[u8]) -> Vec<u8> {
    let head = format!("!tsv8\ta\n!type\t{column}\n\t");
    [head.as_bytes(), cell, b"\n"].concat()
}

#[test]
fn a_whole_log() {
    gives(
        b"!tsv8\tname\tpages\tcolor\tkB\n!type\tStr\tInt\tBool\tFloat\n\tscans/in\t12\ttrue\t1.5e3\n\tb'caf\\ye9'\t0\tfalse\t7\n",
        &[[5, 6, 4], [5, 11, 5], [5, 17, 5], [5, 23, 2]],
        &[4, 2, 1, 3],
        &[
            [5, 52, 8],
            [3, 61, 2],
            [2, 64, 4],
            [4, 69, 5],
            [6, 0, 4],
            [3, 87, 1],
            [1, 89, 5],
            [4, 95, 1],
        ],
        b"caf\xe9",
    );
}

#[test]
fn first_lines() {
    for text in ["", "\n", " \r\n\r\n"] {
        refuses(text.as_bytes(), 19, 0);
    }
    refuses(b"\n\n!tsv8", 19, 2);
    refuses(b" !tsv8\ta", 19, 0);
    refuses(b"!tsv8 \ta", 19, 0);
    refuses(b"!tsv8\r\n", 19, 0);
    refuses(b"!type\tInt\n", 19, 0);
    refuses(b"\xef\xbb\xbf!tsv8\ta\n", 19, 0);
    refuses(b"!tsv8\t", 22, 6);
    refuses(b"!tsv8\ta\t\r\n", 22, 8);
    gives(b"!tsv8\ta", &[[5, 6, 1]], &[4], &[], b"");
    gives(b"\r\n!tsv8\t a \r\n", &[[5, 9, 1]], &[4], &[], b"");
    let columns = |n: usize| [b"!tsv8".as_slice(), &b"\tc".repeat(n)].concat();
    assert_eq!(reading(&columns(64)).unwrap().0.len(), 64);
    refuses(&columns(65), 19, 0);
    refuses(&[b"\n".as_slice(), &columns(65)].concat(), 19, 1);
}

#[test]
fn type_lines() {
    gives(
        b"!tsv8\ta\n\n!type\t Int \r\n",
        &[[5, 6, 1]],
        &[2],
        &[],
        b"",
    );
    for cell in ["", " ", "int", "\"Int\"", "\u{1}", "Int x"] {
        refuses(
            format!("!tsv8\ta\tb\n!type\tStr\t{cell}").as_bytes(),
            19,
            20,
        );
    }
    refuses(b"!tsv8\ta\n!type\t\xff", 19, 14);
    refuses(b"!tsv8\ta\n!type\t  int", 19, 14);
    refuses(b"!tsv8\ta\n!type", 20, 8);
    refuses(b"!tsv8\ta\n!type\tx\tx", 20, 8);
    refuses(b"!tsv8\ta\n!type\tInt\n!type\tInt", 19, 18);
    refuses(b"!tsv8\ta\n!type\tInt\n!type", 20, 18);
    refuses(b"!tsv8\ta\n!x\tx\n!type\tInt", 19, 13);
    refuses(b"!tsv8\ta\n\tx\n!type\tInt", 20, 11);
    // Its first cell isn't stripped.
    gives(
        b"!tsv8\ta\n!type \t?\n\tx",
        &[[5, 6, 1]],
        &[4],
        &[[5, 18, 1]],
        b"",
    );
}

#[test]
fn other_lines() {
    gives(
        b"!tsv8\ta\n!x\t\xff\n!tsv8\t\n\tx",
        &[[5, 6, 1]],
        &[4],
        &[[5, 21, 1]],
        b"",
    );
    refuses(b"!tsv8\ta\n!\n", 20, 8);
    refuses(b"!tsv8\ta\n!\t\t\n", 20, 8);
    refuses(b"!tsv8\ta\n\tx\n!y\tx", 20, 11);
    refuses(b"!tsv8\ta\nx\ty", 20, 8);
    refuses(b"!tsv8\ta\n \tx", 20, 8);
    refuses(b"!tsv8\ta\n\r\r\tx", 20, 8);
    refuses(b"!tsv8\ta\n\t", 22, 9);
    refuses(b"!tsv8\ta\n\t\t", 20, 8);
    // Nothing else is a blank.
    refuses(b"!tsv8\ta\n\x0b\n", 20, 8);
    refuses(b"!tsv8\ta\n\xc2\xa0\n", 20, 8);
    refuses(b"!tsv8\ta\tb\n\t\t", 22, 11);
}

#[test]
fn types() {
    let fits = |column: &str, cell: &str, kind: u32| {
        let text = one(column, cell.as_bytes());
        let place = text.len() - 1 - cell.len();
        let found = reading(&text).unwrap().2;
        assert_eq!(
            found,
            [[kind, place as u32, cell.len() as u32]],
            "{column} {cell}"
        );
    };
    let unfit = |column: &str, cell: &str| {
        let text = one(column, cell.as_bytes());
        refuses(&text, 21, text.len() - 1 - cell.len());
    };
    fits("Bool", "false", 1);
    fits("Bool", "true", 2);
    for cell in ["True", "1", "\"true\"", "truex", "#"] {
        unfit("Bool", cell);
    }
    for cell in ["0", "10", "18446744073709551616"] {
        fits("Int", cell, 3);
    }
    for cell in ["007", "-5", "-0", "1.0", "1e3", "\"1\"", "1 2", "x"] {
        unfit("Int", cell);
    }
    for cell in ["0", "12", "-1", "0.5", "1E+9", "-0.0e-0"] {
        fits("Float", cell, 4);
    }
    for cell in ["01", "1.", ".5", "+1", "''", "NaN", "1e"] {
        unfit("Float", cell);
    }
    for cell in ["true", "1", "#x", "!x", "u", "a\\n", "a\"b"] {
        fits("Str", cell, 5);
    }
}

#[test]
fn cells_by_their_own_rules() {
    let at = one("Str", b"").len() - 1;
    for column in ["Str", "Int", "Bool", "Float"] {
        for (cell, number, place) in [
            (b"  ".as_slice(), 22, 0),
            (b"\"tr ", 4, 3),
            (b" \"tr  ", 4, 4),
            (b"4\xff", 23, 1),
            (b"4\xe2\x82", 24, 1),
            (b" 4\x01", 6, 2),
            (b"4\r5", 6, 1),
            (b"'\\q'", 7, 1),
            (b"'\\u{dc00}'", 8, 1),
            (b"'\\u{110000}'", 9, 1),
            (b"'\\yff'", 10, 1),
            (b"'1' 2", 11, 3),
        ] {
            refuses(&one(column, cell), number, at + place - 3 + column.len());
        }
    }
    gives(
        b"!tsv8\t'\\t'\tb\n\t \"\\n\"\t u'x' \r\n",
        &[[6, 0, 1], [5, 11, 1]],
        &[4, 4],
        &[[6, 1, 1], [5, 23, 1]],
        b"\t\n",
    );
}

/// In names and in cells of every type, bare and quoted. Where a cell is stripped to
/// its end, so is a character.
#[test]
fn ill_formed_characters() {
    for (bytes, number) in FAULTS {
        for start in ["", " ", "4", "é", "tr", "\"", "'a", " u'", "b'\\yff"] {
            for behind in ["", " ", "\r", "\"", "'", "\\", "\x01", "4", "é", " 4"] {
                let cell = [start.as_bytes(), bytes, behind.as_bytes()].concat();
                for (before, after) in [
                    ("!tsv8\t", ""),
                    ("!tsv8\t", "\tb\n"),
                    ("!tsv8\ta\t", "\n\tx\ty"),
                    ("!tsv8\ta\n\t", ""),
                    ("!tsv8\ta\n\t", "\n\tx"),
                    ("!tsv8\ta\n!type\tStr\n\t", "\r\n"),
                    ("!tsv8\ta\n!type\tInt\n\t", ""),
                    ("!tsv8\ta\n!type\tBool\n\t", "\n"),
                    ("!tsv8\ta\tb\n!type\tFloat\tInt\n\t", "\tx"),
                    ("!tsv8\ta\tb\n!type\tFloat\tInt\n\t1\t", ""),
                ] {
                    let text = [before.as_bytes(), &cell, after.as_bytes()].concat();
                    refuses(&text, number, before.len() + start.len());
                }
            }
        }
        // 20 and a type's 19 come first, and lines that are skipped aren't read.
        refuses(&[b"!tsv8\ta\n\tx\t", bytes].concat(), 20, 8);
        refuses(&[b"!tsv8\ta\n!type\t", bytes].concat(), 19, 14);
        refuses(&[b"!tsv8\ta\n", bytes].concat(), 20, 8);
        refuses(&[b"!tsv8", bytes, b"\ta"].concat(), 19, 0);
        let skipped = [b"!tsv8\ta\n!", bytes, b"\t", bytes].concat();
        gives(&skipped, &[[5, 6, 1]], &[4], &[], b"");
    }
}

#[test]
fn tabs_and_line_ends_divide_first() {
    // A CR ends no line.
    gives(
        b"!tsv8\ta\r\tx\r",
        &[[5, 6, 1], [5, 9, 1]],
        &[4, 4],
        &[],
        b"",
    );
    refuses(b"!tsv8\ta\rx", 6, 7);
    refuses(b"!tsv8\ta\n\t\"x\ty\"", 20, 8);
    refuses(b"!tsv8\ta\tb\n\t\"x\ty\"", 4, 13);
    refuses(b"!tsv8\ta\n\t\"x\ny\"", 4, 11);
}

#[test]
fn the_left_one_wins() {
    refuses(b"!tsv8\ta\tb\n!type\tInt\tInt\n\tx\t\"", 21, 25);
    refuses(b"!tsv8\ta\tb\n!type\tInt\tInt\n\t1\t  '1'", 21, 27);
    refuses(b"!tsv8\ta\tb\n!type\tInt\tInt\n\t1\t \t\"", 20, 24);
    refuses(b"!tsv8\ta\t\"\n!type\tx\ty", 4, 9);
}

#[test]
fn the_cap_comes_first_and_the_room_last() {
    let head = b"!tsv8\ta\n\t";
    let mut text = [head.as_slice(), &vec![b'x'; TEXT_MAX - head.len()]].concat();
    let cell = [5, head.len() as u32, (TEXT_MAX - head.len()) as u32];
    gives(&text, &[[5, 6, 1]], &[4], &[cell], b"");
    text.push(b'x');
    refuses(&text, 2, 0);
    // As many cells as a text can have.
    let head = [b"!tsv8".as_slice(), &b"\ta".repeat(64), b"\n"].concat();
    let row = [b"\tx".repeat(64), b"\n".to_vec()].concat();
    let mut text = head;
    while text.len() + row.len() <= TEXT_MAX {
        text.extend(&row);
    }
    assert_eq!(reading(&text).unwrap().2.len() % 64, 0);
}
