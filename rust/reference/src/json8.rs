//! JSON8: a text read to a node table and a store, a string of a table shown,
//! and a table written.

use crate::{decode, opening, refuse, Refusal, Sink, TEXT_MAX};
use crate::{refuse_character, CUT_OFF, NO_ROOM, TOO_LONG, TRAILING};

mod write;
pub use write::write;

/// The most nodes of a text, keys with them.
pub const NODES_MAX: usize = 1_024;
/// The most brackets that are open at once.
pub const DEPTH_MAX: usize = 32;
/// The numbers of a node in the table.
pub const NODE: usize = 4;

const MISPLACED: u32 = 13;
const NUMBER: u32 = 14;
const TOO_DEEP: u32 = 15;
const TOO_MANY: u32 = 16;

// Kinds of nodes.
const NULL: u32 = 0;
const FALSE: u32 = 1;
const TRUE: u32 = 2;
const WHOLE: u32 = 3;
const OTHER_NUMBER: u32 = 4;
const PLAIN: u32 = 5;
const DECODED: u32 = 6;
const LIST: u32 = 7;
const DICT: u32 = 8;

/// How much a text filled: nodes of the table and bytes of the store.
#[derive(Clone, Copy, Debug, PartialEq, Eq)]
pub struct Filled {
    pub nodes: usize,
    pub stored: usize,
}

/// Where a string's bytes stand: in the store, or else in the text.
#[derive(Clone, Copy, Debug, PartialEq, Eq)]
pub struct Shown {
    pub stored: bool,
    pub place: usize,
    pub length: usize,
}

impl Sink for Vec<u8> {
    fn put(&mut self, bytes: &[u8]) {
        self.extend_from_slice(bytes);
    }
}

/// What stands at a place that is neither blank nor in a comment. Lengths are
/// the token's.
enum Token {
    End,
    /// A string's opening mark.
    Mark,
    Word(usize),
    Number(usize),
    /// `[` or `{`
    Open(u8),
    /// Anything else: it may be right there, but never begins a value or a key.
    Other,
}

struct Reader<'a> {
    text: &'a [u8],
    at: usize,
    nodes: Vec<[u32; NODE]>,
    store: Vec<u8>,
}

impl Reader<'_> {
    fn rest(&self) -> &[u8] {
        &self.text[self.at..]
    }

    /// How many bytes from here on are of one sort.
    fn run(&self, sort: impl Fn(u8) -> bool) -> usize {
        let rest = self.rest();
        rest.iter().position(|&b| !sort(b)).unwrap_or(rest.len())
    }

    fn token(&self) -> Token {
        let rest = self.rest();
        if opening(rest).is_some() {
            return Token::Mark;
        }
        match rest.first() {
            None => Token::End,
            Some(b'a'..=b'z' | b'A'..=b'Z' | b'_') => {
                Token::Word(self.run(|b| b.is_ascii_alphanumeric() || b == b'_'))
            }
            Some(b'-' | b'0'..=b'9') => {
                Token::Number(self.run(|b| b.is_ascii_digit() || b"+-.eE".contains(&b)))
            }
            Some(&b @ (b'[' | b'{')) => Token::Open(b),
            Some(_) => Token::Other,
        }
    }

    /// Whitespace and comments.
    fn skip(&mut self) -> Result<(), Refusal> {
        loop {
            match self.rest().first() {
                Some(b' ' | b'\t' | b'\n' | b'\r') => self.at += 1,
                Some(b'#') => {
                    let comment = &self.rest()[..self.run(|b| b != b'\n')];
                    if let Err(fault) = std::str::from_utf8(comment) {
                        return refuse_character(comment, self.at, fault.valid_up_to());
                    }
                    self.at += comment.len();
                }
                _ => return Ok(()),
            }
        }
    }

    /// What stands here can't, or nothing stands here.
    fn misplaced<T>(&self) -> Result<T, Refusal> {
        match self.token() {
            Token::End => refuse(CUT_OFF, self.at),
            _ => refuse(MISPLACED, self.at),
        }
    }

    /// Takes this byte if it stands here.
    fn takes(&mut self, byte: u8) -> bool {
        let here = self.rest().first() == Some(&byte);
        self.at += usize::from(here);
        here
    }

    /// A node for the token here, and its number.
    fn node(&mut self, kind: u32, length: usize) -> Result<usize, Refusal> {
        if self.nodes.len() == NODES_MAX {
            return refuse(TOO_MANY, self.at);
        }
        self.nodes.push([kind, 1, self.at as u32, length as u32]);
        Ok(self.nodes.len() - 1)
    }

    /// A node for a token that is its own text.
    fn leaf(&mut self, kind: u32, length: usize) -> Result<(), Refusal> {
        self.node(kind, length)?;
        self.at += length;
        Ok(())
    }

    fn string(&mut self) -> Result<(), Refusal> {
        let number = self.node(PLAIN, 0)?;
        let Some((style, mark)) = opening(self.rest()) else {
            unreachable!("called at a mark");
        };
        let (start, stored) = (self.at + mark, self.store.len());
        self.at = decode(self.text, start, style, &mut self.store)?;
        let body = &self.text[start..self.at - 1];
        let (kind, place, length) = if body.contains(&b'\\') {
            (DECODED, stored, self.store.len() - stored)
        } else {
            self.store.truncate(stored);
            (PLAIN, start, body.len())
        };
        self.nodes[number] = [kind, 1, place as u32, length as u32];
        Ok(())
    }

    /// A value, where so many brackets are open.
    fn value(&mut self, open: usize) -> Result<(), Refusal> {
        match self.token() {
            Token::Mark => self.string(),
            Token::Word(length) => match &self.rest()[..length] {
                b"null" => self.leaf(NULL, length),
                b"false" => self.leaf(FALSE, length),
                b"true" => self.leaf(TRUE, length),
                _ => refuse(MISPLACED, self.at),
            },
            Token::Number(length) => match number_kind(&self.rest()[..length]) {
                Some(kind) => self.leaf(kind, length),
                None => refuse(NUMBER, self.at),
            },
            Token::Open(_) if open == DEPTH_MAX => refuse(TOO_DEEP, self.at),
            Token::Open(b'[') => self.members(LIST, b']', |reader| reader.value(open + 1)),
            Token::Open(_) => self.members(DICT, b'}', |reader| reader.pair(open + 1)),
            Token::End | Token::Other => self.misplaced(),
        }
    }

    /// A list or a dict: its bracket, members with a comma behind each but
    /// perhaps the last, and the closing bracket.
    fn members(
        &mut self,
        kind: u32,
        close: u8,
        member: impl Fn(&mut Self) -> Result<(), Refusal>,
    ) -> Result<(), Refusal> {
        let number = self.node(kind, 0)?;
        self.at += 1;
        let mut count = 0;
        self.skip()?;
        while !self.takes(close) {
            member(self)?;
            count += 1;
            self.skip()?;
            if self.takes(b',') {
                self.skip()?;
            } else if self.rest().first() != Some(&close) {
                return self.misplaced();
            }
        }
        let subtree = self.nodes.len() - number;
        self.nodes[number][1] = subtree as u32;
        self.nodes[number][3] = count;
        Ok(())
    }

    /// A key, a colon and a value.
    fn pair(&mut self, open: usize) -> Result<(), Refusal> {
        match self.token() {
            Token::Mark => self.string()?,
            Token::Word(length) => self.leaf(PLAIN, length)?,
            _ => return self.misplaced(),
        }
        self.skip()?;
        if !self.takes(b':') {
            return self.misplaced();
        }
        self.skip()?;
        self.value(open)
    }

    fn whole_text(&mut self) -> Result<(), Refusal> {
        self.skip()?;
        self.value(0)?;
        self.skip()?;
        match self.token() {
            Token::End => Ok(()),
            _ => refuse(TRAILING, self.at),
        }
    }
}

/// What is left behind one digit or more.
fn digits(text: &[u8]) -> Option<&[u8]> {
    let count = text.iter().take_while(|b| b.is_ascii_digit()).count();
    (count > 0).then(|| &text[count..])
}

/// The kind of a number by RFC 8259, or nothing if it is malformed.
pub(crate) fn number_kind(token: &[u8]) -> Option<u32> {
    let unsigned = token.strip_prefix(b"-").unwrap_or(token);
    // No digit stands behind a leading 0.
    let mut rest = match unsigned {
        [b'0', behind @ ..] => behind,
        _ => digits(unsigned)?,
    };
    if let [b'.', behind @ ..] = rest {
        rest = digits(behind)?;
    }
    if let [b'e' | b'E', b'+' | b'-', behind @ ..] | [b'e' | b'E', behind @ ..] = rest {
        rest = digits(behind)?;
    }
    let whole = !token.iter().any(|b| b".eE".contains(b));
    rest.is_empty()
        .then_some(if whole { WHOLE } else { OTHER_NUMBER })
}

/// Reads a JSON8 text to the start of `table` and of `store`, or refuses it and
/// leaves both as they were.
pub fn read(text: &[u8], table: &mut [u32], store: &mut [u8]) -> Result<Filled, Refusal> {
    if text.len() > TEXT_MAX {
        return refuse(TOO_LONG, 0);
    }
    let mut reader = Reader {
        text,
        at: 0,
        nodes: Vec::new(),
        store: Vec::new(),
    };
    reader.whole_text()?;
    let numbers = reader.nodes.concat();
    let (Some(nodes), Some(stored)) = (
        table.get_mut(..numbers.len()),
        store.get_mut(..reader.store.len()),
    ) else {
        return refuse(NO_ROOM, 0);
    };
    nodes.copy_from_slice(&numbers);
    stored.copy_from_slice(&reader.store);
    Ok(Filled {
        nodes: reader.nodes.len(),
        stored: stored.len(),
    })
}

/// Where the bytes of a string node stand. Nothing for a node outside the
/// table, no string, or a range outside its buffer.
pub fn show(table: &[u32], text: &[u8], store: &[u8], node: usize) -> Option<Shown> {
    let &[kind, _, place, length] = table.chunks_exact(NODE).nth(node)? else {
        unreachable!("a node has four numbers");
    };
    let (stored, buffer) = match kind {
        PLAIN => (false, text),
        DECODED => (true, store),
        _ => return None,
    };
    // In 64 bits the sum of two numbers can't wrap around.
    let end = u64::from(place) + u64::from(length);
    (end <= buffer.len() as u64).then_some(Shown {
        stored,
        place: place as usize,
        length: length as usize,
    })
}

#[cfg(test)]
mod tests;
