//! Values apart from any text, and node tables made from them.

use super::{write_json8, write_json8_to_vec, Kind, Node, DEPTH_MAX, NODES_MAX, NODE_ROOM};
use crate::{Error, Refusal, Unfit};
use std::hash::{Hash, Hasher};
use std::{fmt, mem, slice};

/// A value by itself: what nodes say, or what shall be written.
///
/// ```
/// use j8::{Json8, Value};
///
/// // A backup is read, changed and written.
/// let backup = Json8::read(b"{ name: 'Front desk', tray: 2, } # second floor")?;
/// let mut settings = backup.root().to_value();
/// if let Value::Dict(pairs) = &mut settings {
///     pairs[1].1 = Value::Number("3".to_string());
///     pairs.push((b"folder".to_vec(), Value::String(b"caf\xe9".to_vec())));
/// }
/// assert_eq!(
///     settings.write_to_vec()?,
///     br#"{"name":"Front desk","tray":3,"folder":b'caf\ye9'}"#
/// );
/// # Ok::<(), j8::Error>(())
/// ```
///
/// A value may be nested to any depth: it is cloned, compared, hashed and dropped without recursion. (Debug shows the
/// first [`DEPTH_MAX`] brackets.) So it has a `Drop` of its own, and what it holds is moved out by [`std::mem::take`]:
///
/// ```
/// use j8::Value;
///
/// let mut ports = Value::from(vec![Value::from(9100_u64), Value::Null]);
/// if let Value::List(members) = &mut ports {
///     assert_eq!(std::mem::take(members).len(), 2);
/// }
/// ```
#[derive(Default)]
pub enum Value {
    /// `null`.
    #[default]
    Null,
    /// `true` or `false`.
    Bool(bool),
    /// A number's text, as JSON has it. Nothing is rounded.
    Number(String),
    /// A string's bytes, any at all.
    String(Vec<u8>),
    /// The members of a list.
    List(Vec<Value>),
    /// Keys and values in their order. Equal keys are all kept.
    Dict(Vec<(Vec<u8>, Value)>),
}

impl Value {
    /// Writes it as a JSON8 text into a vector of its own.
    ///
    /// # Errors
    /// [`Unfit`](crate::Refusal::Unfit), as of [`Table::write`].
    pub fn write_to_vec(&self) -> Result<Vec<u8>, Error> {
        Table::new(self).write_to_vec()
    }
}

/// The values right below one: those of a list, or of a dict's pairs.
enum Below<'a> {
    None,
    Members(slice::Iter<'a, Value>),
    Pairs(slice::Iter<'a, (Vec<u8>, Value)>),
}

impl<'a> Iterator for Below<'a> {
    type Item = &'a Value;

    fn next(&mut self) -> Option<&'a Value> {
        match self {
            Below::None => None,
            Below::Members(members) => members.next(),
            Below::Pairs(pairs) => pairs.next().map(|(_, value)| value),
        }
    }
}

impl Value {
    fn below(&self) -> Below<'_> {
        match self {
            Value::List(members) => Below::Members(members.iter()),
            Value::Dict(pairs) => Below::Pairs(pairs.iter()),
            _ => Below::None,
        }
    }

    /// Whether two values are alike but for the values below them.
    fn is_like(&self, other: &Value) -> bool {
        match (self, other) {
            (Value::Null, Value::Null) => true,
            (Value::Bool(a), Value::Bool(b)) => a == b,
            (Value::Number(a), Value::Number(b)) => a == b,
            (Value::String(a), Value::String(b)) => a == b,
            (Value::List(a), Value::List(b)) => a.len() == b.len(),
            (Value::Dict(a), Value::Dict(b)) => {
                a.len() == b.len() && a.iter().zip(b).all(|((j, _), (k, _))| j == k)
            }
            _ => false,
        }
    }

    /// Takes the lists and dicts right below it away.
    fn give_up(&mut self, groups: &mut Vec<Value>) {
        let is_group = |value: &Value| matches!(value, Value::List(_) | Value::Dict(_));
        match self {
            Value::List(members) => groups.extend(members.drain(..).filter(is_group)),
            Value::Dict(pairs) => {
                groups.extend(pairs.drain(..).map(|(_, value)| value).filter(is_group));
            }
            _ => {}
        }
    }
}

/// Without recursion, however deep it is.
impl Drop for Value {
    fn drop(&mut self) {
        let mut groups = Vec::new();
        self.give_up(&mut groups);
        while let Some(mut group) = groups.pop() {
            group.give_up(&mut groups);
        }
    }
}

/// A list or dict that is being cloned: what is left of the old one, and what
/// stands in the new one. A dict's last key waits for its value.
enum Open<'a> {
    List(slice::Iter<'a, Value>, Vec<Value>),
    Dict(slice::Iter<'a, (Vec<u8>, Value)>, Vec<(Vec<u8>, Value)>),
}

impl<'a> Open<'a> {
    /// The next value to be cloned.
    fn next(&mut self) -> Option<&'a Value> {
        match self {
            Open::List(rest, _) => rest.next(),
            Open::Dict(rest, new) => rest.next().map(|(key, value)| {
                new.push((key.clone(), Value::Null));
                value
            }),
        }
    }

    fn take(&mut self, value: Value) {
        match self {
            Open::List(_, new) => new.push(value),
            Open::Dict(_, new) => new.last_mut().expect("its key stands there").1 = value,
        }
    }

    fn close(self) -> Value {
        match self {
            Open::List(_, new) => Value::List(new),
            Open::Dict(_, new) => Value::Dict(new),
        }
    }
}

impl Clone for Value {
    fn clone(&self) -> Value {
        let mut open: Vec<Open> = Vec::new();
        let mut old = self;
        loop {
            let mut new = match old {
                Value::Null => Value::Null,
                Value::Bool(is_true) => Value::Bool(*is_true),
                Value::Number(token) => Value::Number(token.clone()),
                Value::String(bytes) => Value::String(bytes.clone()),
                Value::List(members) => {
                    open.push(Open::List(
                        members.iter(),
                        Vec::with_capacity(members.len()),
                    ));
                    Value::Null
                }
                Value::Dict(pairs) => {
                    open.push(Open::Dict(pairs.iter(), Vec::with_capacity(pairs.len())));
                    Value::Null
                }
            };
            let mut is_opened = matches!(old, Value::List(_) | Value::Dict(_));
            // What is whole goes into what is open around it; the next value of that is cloned then.
            old = loop {
                let Some(group) = open.last_mut() else {
                    return new;
                };
                if !mem::take(&mut is_opened) {
                    group.take(new);
                }
                match group.next() {
                    Some(value) => break value,
                    None => new = open.pop().expect("the group").close(),
                }
            };
        }
    }
}

impl PartialEq for Value {
    fn eq(&self, other: &Value) -> bool {
        let mut pairs = vec![(self, other)];
        while let Some((a, b)) = pairs.pop() {
            if !a.is_like(b) {
                return false;
            }
            pairs.extend(a.below().zip(b.below()));
        }
        true
    }
}

impl Eq for Value {}

impl Hash for Value {
    fn hash<H: Hasher>(&self, state: &mut H) {
        let mut values = vec![self];
        while let Some(value) = values.pop() {
            mem::discriminant(value).hash(state);
            match value {
                Value::Null => {}
                Value::Bool(is_true) => is_true.hash(state),
                Value::Number(token) => token.hash(state),
                Value::String(bytes) => bytes.hash(state),
                Value::List(members) => members.len().hash(state),
                Value::Dict(pairs) => {
                    pairs.len().hash(state);
                    pairs.iter().for_each(|(key, _)| key.hash(state));
                }
            }
            values.extend(value.below());
        }
    }
}

/// A value with so many brackets that may still be shown.
struct Shown<'a>(&'a Value, usize);

impl fmt::Debug for Shown<'_> {
    fn fmt(&self, f: &mut fmt::Formatter<'_>) -> fmt::Result {
        let Shown(value, left) = *self;
        match value {
            Value::Null => f.write_str("Null"),
            Value::Bool(is_true) => f.debug_tuple("Bool").field(is_true).finish(),
            Value::Number(token) => f.debug_tuple("Number").field(token).finish(),
            Value::String(bytes) => f.debug_tuple("String").field(bytes).finish(),
            Value::List(_) | Value::Dict(_) if left == 0 => f.write_str(".."),
            Value::List(members) => {
                let shown: Vec<Shown> =
                    members.iter().map(|value| Shown(value, left - 1)).collect();
                f.debug_tuple("List").field(&shown).finish()
            }
            Value::Dict(pairs) => {
                let shown = |(key, value)| (key, Shown(value, left - 1));
                let shown: Vec<(&Vec<u8>, Shown)> =
                    pairs.iter().map(|(k, v)| shown((k, v))).collect();
                f.debug_tuple("Dict").field(&shown).finish()
            }
        }
    }
}

impl fmt::Debug for Value {
    fn fmt(&self, f: &mut fmt::Formatter<'_>) -> fmt::Result {
        Shown(self, DEPTH_MAX).fmt(f)
    }
}

impl From<bool> for Value {
    fn from(is_true: bool) -> Value {
        Value::Bool(is_true)
    }
}

impl From<&str> for Value {
    fn from(text: &str) -> Value {
        Value::String(text.as_bytes().to_vec())
    }
}

impl From<String> for Value {
    fn from(text: String) -> Value {
        Value::String(text.into_bytes())
    }
}

impl From<&[u8]> for Value {
    fn from(bytes: &[u8]) -> Value {
        Value::String(bytes.to_vec())
    }
}

impl From<Vec<u8>> for Value {
    fn from(bytes: Vec<u8>) -> Value {
        Value::String(bytes)
    }
}

impl From<Vec<Value>> for Value {
    fn from(members: Vec<Value>) -> Value {
        Value::List(members)
    }
}

impl From<Vec<(Vec<u8>, Value)>> for Value {
    fn from(pairs: Vec<(Vec<u8>, Value)>) -> Value {
        Value::Dict(pairs)
    }
}

impl From<u64> for Value {
    fn from(number: u64) -> Value {
        Value::Number(number.to_string())
    }
}

impl From<i64> for Value {
    fn from(number: i64) -> Value {
        Value::Number(number.to_string())
    }
}

/// A node table made from a value, with the text and the store that it speaks
/// of.
///
/// Numbers are in the text. A string is there too, unless it would be written
/// with an escape: then it is in the store. So its kind is what reading the
/// written text gives.
///
/// ```
/// use j8::{Table, Value};
///
/// let folders = Value::List(vec![
///     Value::String(b"scans/in".to_vec()),
///     Value::String(b"caf\xe9".to_vec()),
///     Value::Number("1.50".to_string()),
/// ]);
/// let table = Table::new(&folders);
/// assert_eq!(table.text(), b"scans/in1.50");
/// assert_eq!(table.store(), b"caf\xe9");
/// assert_eq!(table.numbers()[4..8], [5, 1, 0, 8]);
///
/// let mut out = [0; 64];
/// let length = table.write(&mut out)?;
/// assert_eq!(&out[..length], br#"["scans/in",b'caf\ye9',1.50]"#);
/// # Ok::<(), j8::Error>(())
/// ```
#[derive(Clone, Debug, Default, PartialEq, Eq)]
pub struct Table {
    numbers: Vec<u32>,
    text: Vec<u8>,
    store: Vec<u8>,
    is_deep: bool,
}

/// A number of the table.
fn number(count: usize) -> u32 {
    u32::try_from(count).expect("a table's numbers have 32 bits")
}

/// Whether a string is written as it stands.
fn is_literal(bytes: &[u8]) -> bool {
    let escaped = |b: &u8| *b < 0x20 || matches!(b, b'"' | b'\\');
    std::str::from_utf8(bytes).is_ok() && !bytes.iter().any(escaped)
}

impl Table {
    /// Makes the table of a value, fit or not: it is judged when it is written.
    /// What is deeper than [`DEPTH_MAX`] brackets is left out of it, and it is
    /// unfit then.
    ///
    /// # Panics
    /// If the value has 4 GiB or more of strings and numbers, or as many nodes.
    pub fn new(value: &Value) -> Table {
        let mut table = Table::default();
        table.push(value, DEPTH_MAX);
        table
    }

    /// The numbers of all nodes, four a node.
    pub fn numbers(&self) -> &[u32] {
        &self.numbers
    }

    /// The bytes that strings and numbers of the text have.
    pub fn text(&self) -> &[u8] {
        &self.text
    }

    /// The bytes of the stored strings.
    pub fn store(&self) -> &[u8] {
        &self.store
    }

    /// Writes it as a JSON8 text at the start of `out`, as
    /// [`write_json8`] does, and answers the text's length.
    ///
    /// # Errors
    /// [`Unfit`](crate::Refusal::Unfit) if the value is over
    /// [`DEPTH_MAX`](crate::DEPTH_MAX) deep or has over
    /// [`NODES_MAX`](crate::NODES_MAX) nodes, or a number's text is none, which
    /// [`Error::unfit`] tells; then [`NoRoom`](crate::Refusal::NoRoom).
    pub fn write(&self, out: &mut [u8]) -> Result<usize, Error> {
        let written = write_json8(&self.numbers, &self.text, &self.store, out);
        written.map_err(|error| self.told(error))
    }

    /// The error of writing it, with what is unfit of the value. A table of a
    /// value is unfit for three reasons alone.
    fn told(&self, error: Error) -> Error {
        let unfit = match error.refusal {
            Refusal::Unfit if self.is_deep => Some(Unfit::TooDeep),
            Refusal::Unfit if self.numbers.len() > NODES_MAX * NODE_ROOM => {
                Some(Unfit::TooManyNodes)
            }
            Refusal::Unfit => Some(Unfit::Number),
            _ => None,
        };
        Error { unfit, ..error }
    }

    /// Writes it as a JSON8 text into a vector of its own.
    ///
    /// # Errors
    /// [`Unfit`](crate::Refusal::Unfit), as of [`Table::write`].
    pub fn write_to_vec(&self) -> Result<Vec<u8>, Error> {
        let written = write_json8_to_vec(&self.numbers, &self.text, &self.store);
        written.map_err(|error| self.told(error))
    }

    /// The nodes of a value that stands inside, with so many brackets that may still be opened.
    fn push(&mut self, value: &Value, left: usize) {
        match value {
            Value::Null => self.leaf(Kind::Null, 0, 0),
            Value::Bool(false) => self.leaf(Kind::False, 0, 0),
            Value::Bool(true) => self.leaf(Kind::True, 0, 0),
            Value::Number(token) => {
                let place = self.text.len();
                self.text.extend(token.bytes());
                let kind = match token.contains(['.', 'e', 'E']) {
                    true => Kind::Decimal,
                    false => Kind::Integer,
                };
                self.leaf(kind, place, token.len());
            }
            Value::String(bytes) => self.string(bytes),
            Value::List(members) => self.branch(Kind::List, members.len(), left, |table, left| {
                members.iter().for_each(|member| table.push(member, left));
            }),
            Value::Dict(pairs) => self.branch(Kind::Dict, pairs.len(), left, |table, left| {
                for (key, value) in pairs {
                    table.string(key);
                    table.push(value, left);
                }
            }),
        }
    }

    fn leaf(&mut self, kind: Kind, place: usize, length: usize) {
        let row = [kind as u32, 1, number(place), number(length)];
        self.numbers.extend(row);
    }

    fn string(&mut self, bytes: &[u8]) {
        let (kind, buffer) = match is_literal(bytes) {
            true => (Kind::String, &mut self.text),
            false => (Kind::StoredString, &mut self.store),
        };
        let place = buffer.len();
        buffer.extend(bytes);
        self.leaf(kind, place, bytes.len());
    }

    /// A list or dict, whose nodes `members` puts behind its own, with a bracket less to open.
    fn branch(
        &mut self,
        kind: Kind,
        length: usize,
        left: usize,
        members: impl FnOnce(&mut Table, usize),
    ) {
        let at = self.numbers.len();
        self.leaf(kind, 0, length);
        match left.checked_sub(1) {
            Some(left) => members(self, left),
            None => self.is_deep = true,
        }
        self.numbers[at + 1] = number((self.numbers.len() - at) / NODE_ROOM);
    }
}

impl Node<'_> {
    /// What it says, with all below it, apart from the text.
    ///
    /// ```
    /// use j8::Value;
    ///
    /// let backup = j8::Json8::read("{ ports: [9100, null] }")?;
    /// let ports = Value::List(vec![Value::Number("9100".to_string()), Value::Null]);
    /// let (key, value) = backup.root().pairs().next().unwrap();
    /// assert_eq!(value.to_value(), ports);
    /// assert_eq!(backup.root().to_value(), Value::Dict(vec![(key.to_vec(), ports)]));
    /// # Ok::<(), j8::Error>(())
    /// ```
    #[must_use]
    pub fn to_value(&self) -> Value {
        match self.kind() {
            Kind::Null => Value::Null,
            Kind::False => Value::Bool(false),
            Kind::True => Value::Bool(true),
            Kind::Integer | Kind::Decimal => {
                Value::Number(self.as_number().expect("a number").to_string())
            }
            Kind::String | Kind::StoredString => {
                Value::String(self.as_bytes().expect("a string").to_vec())
            }
            Kind::List => Value::List(self.children().map(|node| node.to_value()).collect()),
            Kind::Dict => {
                let pair = |(key, value): (&[u8], Node)| (key.to_vec(), value.to_value());
                Value::Dict(self.pairs().map(pair).collect())
            }
        }
    }
}
