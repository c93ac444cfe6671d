//! JSON8 texts made by the grammar, each with what must come of it, and the
//! same texts damaged.

use crate::characters;
use crate::random::Random;

/// What a text says.
#[derive(Clone, Debug, PartialEq, Eq)]
pub enum Tree {
    Null,
    False,
    True,
    Integer(String),
    Number(String),
    String(Vec<u8>),
    List(Vec<Tree>),
    Dict(Vec<(Vec<u8>, Tree)>),
}

/// Which texts are made.
#[derive(Clone, Copy)]
pub struct Shape {
    /// RFC 8259 alone: no comments, no trailing commas, keys and strings in `""`.
    pub plain: bool,
    /// The most nodes. A list or dict goes on until they are used up if `wide`.
    pub nodes: usize,
    pub wide: bool,
    /// How many brackets the text begins with, at least.
    pub deep: usize,
}

/// A text with the nodes that it has, whatever the limits.
pub struct Made {
    pub text: Vec<u8>,
    pub tree: Tree,
    pub table: Vec<[u32; 4]>,
    pub store: Vec<u8>,
    /// Where each node's token starts.
    pub tokens: Vec<usize>,
    /// The first bracket that is a 33rd one, as its node.
    too_deep: Option<usize>,
}

impl Made {
    /// The limit that the text is over first, with its place.
    pub fn refusal(&self) -> Option<(u32, usize)> {
        if self.text.len() > 32_768 {
            return Some((2, 0));
        }
        match (self.too_deep, self.tokens.get(1_024)) {
            // At one place 15 comes before 16.
            (Some(node), _) if node <= 1_024 => Some((15, self.tokens[node])),
            (_, Some(&place)) => Some((16, place)),
            _ => None,
        }
    }

    /// Blanks before and behind the value, so that the text has this length.
    pub fn pad(&mut self, random: &mut Random, plain: bool, length: usize) {
        let missing = length.saturating_sub(self.text.len());
        let before = match random.below(3) {
            0 => 0,
            1 => missing,
            _ => random.below(missing + 1),
        };
        let mut front = padding(random, plain, before);
        if let Some(last) = front.last_mut() {
            // Ends the comment if there is one.
            *last = b'\n';
        }
        let behind = padding(random, plain, missing - before);
        self.text.splice(0..0, front);
        self.text.extend(behind);
        for row in self.table.iter_mut().filter(|row| row[0] != 6) {
            row[2] += before as u32;
        }
        for place in &mut self.tokens {
            *place += before;
        }
    }
}

fn padding(random: &mut Random, plain: bool, length: usize) -> Vec<u8> {
    let mut bytes = vec![random.pick(b" \t\n\r"); length];
    if !plain && random.once_in(2) {
        bytes.fill(random.pick(b"c#'[\t\x01"));
        if let Some(first) = bytes.first_mut() {
            *first = b'#';
        }
    }
    bytes
}

/// A piece of a string, and the bytes that it gives.
pub(crate) type Piece = (&'static str, &'static [u8]);

pub(crate) const LITERAL: [&str; 16] = [
    "a",
    "scans/in",
    "2024",
    " ",
    "\u{7f}",
    "é",
    "€",
    "🤦",
    "#",
    "/",
    "[",
    "}",
    ",",
    ":",
    "null",
    "a name that is longer than a block of bytes, of thirty-two or of sixty-four",
];
pub(crate) const COMMON: [Piece; 8] = [
    (r#"\""#, b"\""),
    (r"\\", b"\\"),
    (r"\/", b"/"),
    (r"\b", b"\x08"),
    (r"\f", b"\x0c"),
    (r"\n", b"\n"),
    (r"\r", b"\r"),
    (r"\t", b"\t"),
];
/// A high half never stands last, or the next piece might make a pair of it.
pub(crate) const JSON: [Piece; 7] = [
    ("'", b"'"),
    (r"\u0041", b"A"),
    (r"\u00E9", b"\xc3\xa9"),
    (r"\ud83e\udd26", b"\xf0\x9f\xa4\xa6"),
    (r"\ud83ex", b"\xed\xa0\xbex"),
    (r"\udd26", b"\xed\xb4\xa6"),
    (r"\u0000", b"\0"),
];
pub(crate) const SINGLE: [Piece; 6] = [
    ("\"", b"\""),
    (r"\'", b"'"),
    (r"\u{41}", b"A"),
    (r"\u{10ffff}", b"\xf4\x8f\xbf\xbf"),
    (r"\u{0}", b"\0"),
    (r"\u{E9}", b"\xc3\xa9"),
];
pub(crate) const BYTES: [Piece; 4] = [
    (r"\yff", b"\xff"),
    (r"\yC3\ya9", b"\xc3\xa9"),
    (r"\y00", b"\0"),
    (r"\yed\ya0\y80", b"\xed\xa0\x80"),
];

struct Maker<'r> {
    random: &'r mut Random,
    plain: bool,
    /// Nodes that may still come.
    left: usize,
    /// How deep branches go by themselves.
    branches: usize,
    made: Made,
}

/// A text of this shape.
pub fn make(random: &mut Random, shape: Shape) -> Made {
    let branches = random.below(5);
    let mut maker = Maker {
        random,
        plain: shape.plain,
        left: shape.nodes,
        branches,
        made: Made {
            text: Vec::new(),
            tree: Tree::Null,
            table: Vec::new(),
            store: Vec::new(),
            tokens: Vec::new(),
            too_deep: None,
        },
    };
    maker.blanks();
    maker.made.tree = if shape.wide || shape.deep > 0 {
        maker.branch(0, shape.wide, shape.deep)
    } else {
        maker.value(0)
    };
    maker.blanks();
    maker.made
}

impl Maker<'_> {
    fn put(&mut self, bytes: &[u8]) {
        self.made.text.extend_from_slice(bytes);
    }

    fn blanks(&mut self) {
        for _ in 0..self.random.pick(&[0, 0, 0, 0, 1, 2]) {
            match self.random.below(6) {
                0 if !self.plain => {
                    let comment = self.random.pick(&[
                        "#\n",
                        "# c\n",
                        "#é€🤦\n",
                        "#\t\r\u{1}\u{7f}\n",
                        "##'\"[{\\\n",
                    ]);
                    self.put(comment.as_bytes());
                }
                n => self.put(&b" \n\t\r  "[n..=n]),
            }
        }
    }

    /// A node for the token that begins here, and its number.
    fn node(&mut self) -> usize {
        self.left = self.left.saturating_sub(1);
        self.made.tokens.push(self.made.text.len());
        self.made.table.push([0; 4]);
        self.made.table.len() - 1
    }

    fn word(&mut self, kind: u32, word: &str) {
        let node = self.node();
        let place = self.made.text.len();
        self.made.table[node] = [kind, 1, place as u32, word.len() as u32];
        self.put(word.as_bytes());
    }

    fn string(&mut self) -> Vec<u8> {
        let node = self.node();
        let style = if self.plain { 0 } else { self.random.below(4) };
        let mark = ["\"", "'", "u'", "b'"][style];
        self.put(mark.as_bytes());
        let start = self.made.text.len();
        let mut decoded = Vec::new();
        let mut pieces = self.random.below(5);
        if self.random.once_in(300) {
            pieces = self.random.below(100);
        }
        for _ in 0..pieces {
            let (source, bytes) = match (self.random.below(6), style) {
                (0, _) => self.random.pick(&COMMON),
                (1, 0) => self.random.pick(&JSON),
                (1, _) => self.random.pick(&SINGLE),
                (2, 3) => self.random.pick(&BYTES),
                _ => {
                    let literal = self.random.pick(&LITERAL);
                    (literal, literal.as_bytes())
                }
            };
            self.put(source.as_bytes());
            decoded.extend_from_slice(bytes);
        }
        let made = &mut self.made;
        let length = decoded.len() as u32;
        made.table[node] = if made.text[start..].contains(&b'\\') {
            let place = made.store.len() as u32;
            made.store.extend_from_slice(&decoded);
            [6, 1, place, length]
        } else {
            [5, 1, start as u32, length]
        };
        self.put(if style == 0 { b"\"" } else { b"'" });
        decoded
    }

    fn digits(&mut self, most: usize) -> String {
        let count = 1 + self.random.below(most);
        let mut digit = || char::from(b'0' + self.random.below(10) as u8);
        (0..count).map(|_| digit()).collect()
    }

    fn number(&mut self) -> Tree {
        let mut text = String::new();
        if self.random.once_in(3) {
            text.push('-');
        }
        if self.random.once_in(4) {
            text.push('0');
        } else {
            text.push(char::from(self.random.pick(b"123456789")));
            if self.random.once_in(2) {
                let most = self.random.pick(&[2, 2, 20]);
                text += &self.digits(most);
            }
        }
        if self.random.once_in(4) {
            text.push('.');
            text += &self.digits(4);
        }
        if self.random.once_in(4) {
            text += self.random.pick(&["e", "E", "e+", "E-", "e-"]);
            text += &self.digits(3);
        }
        if text.contains(['.', 'e', 'E']) {
            self.word(4, &text);
            Tree::Number(text)
        } else {
            self.word(3, &text);
            Tree::Integer(text)
        }
    }

    fn leaf(&mut self) -> Tree {
        match self.random.below(8) {
            0 => {
                self.word(0, "null");
                Tree::Null
            }
            1 => {
                self.word(1, "false");
                Tree::False
            }
            2 => {
                self.word(2, "true");
                Tree::True
            }
            3 | 4 => self.number(),
            _ => Tree::String(self.string()),
        }
    }

    /// A value where so many brackets are open.
    fn value(&mut self, open: usize) -> Tree {
        let branches = open < self.branches && self.random.below(4) < 2;
        if branches || (open == 0 && !self.random.once_in(6)) {
            self.branch(open, false, 0)
        } else {
            self.leaf()
        }
    }

    /// A list or a dict. The first member of a deep one is deep too, but for
    /// the deepest.
    fn branch(&mut self, open: usize, wide: bool, deep: usize) -> Tree {
        let node = self.node();
        let place = self.made.text.len();
        if open == 32 && self.made.too_deep.is_none() {
            self.made.too_deep = Some(node);
        }
        let dict = self.random.once_in(2);
        self.put(if dict { b"{" } else { b"[" });
        let (mut members, mut pairs) = (Vec::new(), Vec::new());
        let most = self.random.below(5);
        // A wide one also takes what the nodes below it leave over.
        let wide_here = wide && (deep <= 1 || self.random.once_in(8));
        loop {
            let count = members.len() + pairs.len();
            let goes_on = (count == 0 && deep > 1)
                || (self.left > usize::from(dict) && (wide_here || count < most));
            self.blanks();
            if !goes_on {
                break;
            }
            if count > 0 {
                self.put(b",");
                self.blanks();
            }
            let key = dict.then(|| self.key());
            let value = match count {
                0 if deep > 1 => self.branch(open + 1, wide, deep - 1),
                _ => self.value(open + 1),
            };
            match key {
                Some(key) => pairs.push((key, value)),
                None => members.push(value),
            }
        }
        let count = members.len() + pairs.len();
        if count > 0 && !self.plain && self.random.once_in(3) {
            self.put(b",");
            self.blanks();
        }
        self.put(if dict { b"}" } else { b"]" });
        let subtree = self.made.table.len() - node;
        let kind = if dict { 8 } else { 7 };
        self.made.table[node] = [kind, subtree as u32, place as u32, count as u32];
        if dict {
            Tree::Dict(pairs)
        } else {
            Tree::List(members)
        }
    }

    /// A key with its colon and the blanks behind it.
    fn key(&mut self) -> Vec<u8> {
        let key = if self.plain || self.random.once_in(2) {
            self.string()
        } else {
            let word = self.random.pick(&[
                "a", "u", "b", "_", "B9", "true", "null", "nul", "e5", "pin_code", "U0_u",
            ]);
            self.word(5, word);
            word.as_bytes().to_vec()
        };
        self.blanks();
        self.put(b":");
        self.blanks();
        key
    }
}

/// A shape that is small, or about one of the limits or two.
pub fn shape(random: &mut Random, plain: bool, over: usize) -> Shape {
    let wide = random.once_in(60);
    let deep = match random.below(30) {
        0 => 29 + random.below(4 + over),
        1 => random.below(12),
        _ => 0,
    };
    let nodes = if wide {
        1_020 + random.below(5 + over)
    } else {
        2 + random.below(30)
    };
    Shape {
        plain,
        nodes,
        wide,
        deep,
    }
}

/// A text of some shape, now and then about the longest.
pub fn text(random: &mut Random) -> Made {
    let plain = random.once_in(10);
    let shape = shape(random, plain, 4);
    let mut made = make(random, shape);
    if random.once_in(300) {
        let length = 32_764 + random.below(8);
        made.pad(random, plain, length);
    }
    made
}

/// A room for a result of `exact` items.
pub fn room(random: &mut Random, exact: usize) -> usize {
    match random.below(8) {
        0..=2 => exact,
        3 => exact.saturating_sub(1),
        4 => random.below(exact + 9),
        5 => exact.saturating_sub(4),
        6 if random.once_in(4) => 0,
        _ => exact + random.below(50),
    }
}

/// Numbers that suffice for any table of this text: two nodes never share a byte,
/// and a byte stands between them.
pub fn table_room(text: &[u8]) -> usize {
    4 * text.len().div_ceil(2).min(1_024)
}

// ---------------------------------------------------------------- damaged

/// Tokens and parts of them, right in some places and wrong in most.
pub const TOKENS: [&[u8]; 66] = [
    b",",
    b":",
    b"]",
    b"}",
    b"[",
    b"{",
    b"[]",
    b"{}",
    b"1",
    b"-0",
    b"01",
    b"-",
    b"1.",
    b"1e",
    b"1e+",
    b"1.e5",
    b"--1",
    b"1-2",
    b"+1",
    b".5",
    b"1x",
    b"0x1",
    b"1else",
    b"nul",
    b"nullx",
    b"True",
    b"NaN",
    b"null",
    b"true",
    b"u",
    b"u\"a\"",
    b"bu'x'",
    b"u 'x'",
    b"true'x'",
    b"\xff",
    b"\x01",
    b"\x00",
    b"\xe2\x82",
    b"\xef\xbb\xbf",
    b"\x0b",
    b"\x7f",
    b"\\",
    b"/",
    b"//x\n",
    b"#\xff",
    b"# \xe2\x82\n",
    b"#\xed\xa0\x80\n",
    b"#",
    b"# c\n",
    b"'",
    b"\"",
    b"'a'",
    b"u'a'",
    b"b'\\yff'",
    b"\"\\'\"",
    b"'\\q'",
    b"'\\u{dc00}'",
    b"u'\\u{110000}'",
    b"'\\yff'",
    b"b'\\yf'",
    b"'\\u{0000041}'",
    b"\"\x01\"",
    b"'a\nb'",
    b"\"\\ud83e\xed\xb4\xa6\"",
    b"'\xed\xa0\x80'",
    b"\"\\u12\"",
];

/// One of these; or a damaged character, which has a number of its own in a string
/// and in a comment alone.
fn token(random: &mut Random) -> Vec<u8> {
    if !random.once_in(8) {
        return random.pick(&TOKENS).to_vec();
    }
    let (before, behind) = random.pick(&[
        ("", ""),
        ("'", "'"),
        ("\"a", "\""),
        ("b'é", ""),
        ("#", ""),
        ("# c", "\n"),
        ("#é", " \n"),
    ]);
    let bytes = characters::damaged(random);
    [before.as_bytes(), &bytes, behind.as_bytes()].concat()
}

/// Damages a text, mostly at its tokens.
pub fn damage(random: &mut Random, made: &Made, other: &Made) -> Vec<u8> {
    let mut text = made.text.clone();
    // The tokens about the last node that is taken are the tempting ones.
    let token = match made.tokens.len() {
        n @ 1_000.. if random.once_in(2) => made.tokens[(1_020 + random.below(8)).min(n - 1)],
        n => made.tokens[random.below(n)],
    };
    match random.below(8) {
        0 => {
            let new = self::token(random);
            text.splice(token..token, new);
        }
        1 | 2 => {
            // In place of a token, or of its beginning.
            let behind = made.tokens.iter().find(|&&place| place > token);
            let most = behind.map_or(text.len(), |&place| place) - token;
            let gone = most.min(1 + random.below(most));
            let new = self::token(random);
            text.splice(token..token + gone, new);
        }
        3 => text.truncate(random.below(text.len() + 1)),
        4 => {
            // A part of another text in place of a part of this one.
            let (from, at) = (random.below(other.text.len()), random.below(text.len()));
            let to = (from + 1 + random.below(20)).min(other.text.len());
            let end = (at + random.below(20)).min(text.len());
            text.splice(at..end, other.text[from..to].iter().copied());
        }
        5 => {
            let junk = self::token(random);
            text.extend(junk);
        }
        _ => {
            for _ in 0..1 + random.below(3) {
                mutate(random, &mut text);
            }
        }
    }
    text
}

fn mutate(random: &mut Random, text: &mut Vec<u8>) {
    if text.is_empty() {
        text.push(random.byte());
        return;
    }
    let at = random.below(text.len());
    match random.below(5) {
        0 => {
            text.remove(at);
        }
        1 => text.insert(at, random.byte()),
        2 => text.insert(
            at,
            random.pick(b"\"'\\uby{}[],:#09-+.eE \n\r\t\x00\x1f\x7f\x80\xc3\xff"),
        ),
        3 => text[at] ^= 1 << random.below(8),
        _ => text[at] = random.byte(),
    }
}

/// A text that stands open with so many brackets and, if they are no more, so
/// many nodes; a token there, and perhaps something behind it.
pub fn probe(random: &mut Random, brackets: usize, nodes: usize) -> Vec<u8> {
    let mut text = Vec::new();
    let mut count = 0;
    for at in 1..=brackets {
        // A dict's first member costs a key too.
        if at < brackets && random.once_in(4) {
            text.extend(b"{a:");
            count += 2;
        } else {
            text.push(random.pick(if at < brackets { b"[[" } else { b"[{" }));
            count += 1;
        }
    }
    let missing = nodes.saturating_sub(count);
    match text.last() {
        Some(b'[') => {
            for _ in 0..missing {
                text.extend(random.pick(&[b"0,".as_slice(), b"'\\t',", b"null ,", b"-1.5,"]));
            }
        }
        Some(_) => {
            text.extend(b"k:'',".repeat(missing / 2));
            if missing % 2 == 1 {
                // The token stands for a value, else for a key.
                text.extend(b"k:");
            }
        }
        None => {}
    }
    text.extend(token(random));
    if random.once_in(2) {
        text.extend(random.pick(&[b":0}]".as_slice(), b"]]]", b",1]", b" ", b":[", b"\xff"]));
    }
    text
}
