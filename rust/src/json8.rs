//! JSON8: a text read to a node table, its strings, and the table written.

use crate::{raw, Error, TEXT_MAX};
use std::fmt;
use std::iter::FusedIterator;

mod value;
mod write;

pub use value::{Table, Value};
pub use write::{write_json8, write_json8_room, write_json8_to_vec};

/// The most nodes of a text, keys with them.
pub const NODES_MAX: usize = 1_024;
/// The most brackets that are open at once.
pub const DEPTH_MAX: usize = 32;
/// The numbers of a node in the table.
pub const NODE_ROOM: usize = 4;
/// Numbers that always suffice for a node table.
pub const TABLE_ROOM: usize = NODES_MAX * NODE_ROOM;

/// What a node is.
#[derive(Clone, Copy, Debug, PartialEq, Eq, Hash)]
#[repr(u32)]
pub enum Kind {
    /// `null`.
    Null = 0,
    /// `false`.
    False = 1,
    /// `true`.
    True = 2,
    /// A number with no `.`, `e` or `E`.
    Integer = 3,
    /// Any other number.
    Decimal = 4,
    /// A string without a backslash, or an unquoted key. Its bytes stand in the
    /// text.
    String = 5,
    /// A string with a backslash. Its decoded bytes stand in the store.
    StoredString = 6,
    /// A list.
    List = 7,
    /// A dict.
    Dict = 8,
}

impl Kind {
    const ALL: [Kind; 9] = [
        Kind::Null,
        Kind::False,
        Kind::True,
        Kind::Integer,
        Kind::Decimal,
        Kind::String,
        Kind::StoredString,
        Kind::List,
        Kind::Dict,
    ];

    /// Whether it is a string, of the text or of the store.
    pub fn is_string(self) -> bool {
        matches!(self, Kind::String | Kind::StoredString)
    }

    /// Whether it is a number, integer or decimal.
    pub fn is_number(self) -> bool {
        matches!(self, Kind::Integer | Kind::Decimal)
    }
}

/// The kind with this number, or the number back if there is none.
impl TryFrom<u32> for Kind {
    type Error = u32;

    fn try_from(number: u32) -> Result<Kind, u32> {
        let kind = usize::try_from(number).ok().and_then(|n| Kind::ALL.get(n));
        kind.copied().ok_or(number)
    }
}

/// Reads a JSON8 text to the start of the lent `table` and `store`; nothing is
/// allocated.
///
/// A refused text leaves both as they were, and numbers and bytes past the
/// result are never touched. [`TABLE_ROOM`] numbers and as many bytes as the
/// text has always suffice. At most 16,384 bytes of the stack are taken, whatever
/// the text.
///
/// ```
/// let text = br"{ tray: 2, folders: ['scans/in', b'caf\ye9'], } # backup";
/// let (mut table, mut store) = ([0; 64], [0; 64]);
/// let nodes = j8::read_json8(text, &mut table, &mut store)?;
/// assert_eq!(nodes.len(), 7);
/// let (key, folders) = nodes.root().pairs().nth(1).unwrap();
/// assert_eq!(key, b"folders");
/// let names: Vec<&[u8]> = folders.children().filter_map(|node| node.as_bytes()).collect();
/// assert_eq!(names, [b"scans/in".as_slice(), b"caf\xe9"]);
/// # Ok::<(), j8::Error>(())
/// ```
///
/// A bad text gets one refusal with its place:
///
/// ```
/// let error = j8::read_json8(b"{ tray: 02 }", &mut [], &mut []).unwrap_err();
/// assert_eq!(error.to_string(), "refusal 14 at byte 8: not a number as JSON has it");
/// ```
///
/// # Errors
/// Refusals 2, 4, 6 to 11, 13 to 16 and 23 to 27 of the text, then
/// [`NoRoom`](crate::Refusal::NoRoom).
pub fn read_json8<'a>(
    text: &'a [u8],
    table: &'a mut [u32],
    store: &'a mut [u8],
) -> Result<Nodes<'a>, Error> {
    let (nodes, stored) = read(text, table, store)?;
    Ok(Nodes {
        text,
        table: &table[..nodes * NODE_ROOM],
        store: &store[..stored],
    })
}

/// The nodes and the stored bytes of a text.
fn read(text: &[u8], table: &mut [u32], store: &mut [u8]) -> Result<(usize, usize), Error> {
    let answer = raw::json8_read(text, table, store);
    Error::check(answer.number, 0, answer.place).map(|()| (answer.nodes, answer.stored))
}

/// The bytes of the string at a node of any table, also of one that no reader
/// made. They are a part of `text` or of `store`. Nothing if there is no such
/// node, if it is no string, or if its range is not inside its buffer.
///
/// ```
/// let table = [5, 1, 2, 3]; // a string of the text, three bytes at 2
/// assert_eq!(j8::show_string(&table, b"u'abc'", b"", 0), Some(b"abc".as_slice()));
/// assert_eq!(j8::show_string(&table, b"u'a", b"", 0), None);
/// ```
#[must_use]
pub fn show_string<'a>(
    table: &[u32],
    text: &'a [u8],
    store: &'a [u8],
    node: usize,
) -> Option<&'a [u8]> {
    let shown = raw::json8_show(table, text, store, node);
    if shown.number != 0 {
        return None;
    }
    let buffer = if shown.stored == 0 { text } else { store };
    // The range is promised to be inside.
    Some(&buffer[shown.place..shown.place + shown.length])
}

/// The nodes of a text that was read, in the buffers that were lent for it.
///
/// A parent comes before its children, and these come in order, in a dict key,
/// value, key, value. So each node has an index, and node 0 is the value itself.
///
/// ```
/// let mut table = [0; j8::TABLE_ROOM];
/// let mut store = [0; 32];
/// let nodes = j8::read_json8(br"[true, -1.50, {a: 'x', 'b\n': null}]", &mut table, &mut store)?;
///
/// let kinds: Vec<j8::Kind> = nodes.root().children().map(|node| node.kind()).collect();
/// assert_eq!(kinds, [j8::Kind::True, j8::Kind::Decimal, j8::Kind::Dict]);
/// assert_eq!(nodes.get(2).unwrap().as_number(), Some("-1.50"));
///
/// let strings: Vec<&[u8]> = nodes.iter().filter_map(|node| node.as_bytes()).collect();
/// assert_eq!(strings, [b"a".as_slice(), b"x", b"b\n"]);
/// # Ok::<(), j8::Error>(())
/// ```
///
/// Two are equal if their buffers are; what they say is compared by
/// [`Node::to_value`].
// Only a reader makes one, so its table is as the reader promises: at least one
// node, kinds from 0 to 8, subtrees nested exactly.
#[derive(Clone, Copy, PartialEq, Eq)]
pub struct Nodes<'a> {
    text: &'a [u8],
    table: &'a [u32],
    store: &'a [u8],
}

impl<'a> Nodes<'a> {
    /// How many nodes there are; at least one.
    #[allow(clippy::len_without_is_empty)]
    pub fn len(&self) -> usize {
        self.table.len() / NODE_ROOM
    }

    /// The text that was read.
    pub fn text(&self) -> &'a [u8] {
        self.text
    }

    /// The numbers of all nodes, four a node: kind, subtree, place and length.
    pub fn table(&self) -> &'a [u32] {
        self.table
    }

    /// The decoded bytes of all strings with a backslash.
    pub fn store(&self) -> &'a [u8] {
        self.store
    }

    /// The node of the value itself.
    #[must_use]
    pub fn root(&self) -> Node<'a> {
        self.at(0)
    }

    /// The node with this index, if there is one.
    pub fn get(&self, index: usize) -> Option<Node<'a>> {
        (index < self.len()).then(|| self.at(index))
    }

    /// All nodes, parents first.
    pub fn iter(&self) -> Iter<'a> {
        Iter {
            nodes: *self,
            next: 0,
        }
    }

    fn at(&self, index: usize) -> Node<'a> {
        Node {
            nodes: *self,
            index,
        }
    }
}

/// The nodes; the buffers would bury them.
impl fmt::Debug for Nodes<'_> {
    fn fmt(&self, f: &mut fmt::Formatter<'_>) -> fmt::Result {
        f.debug_list().entries(self.iter()).finish()
    }
}

impl<'a> IntoIterator for &Nodes<'a> {
    type Item = Node<'a>;
    type IntoIter = Iter<'a>;

    fn into_iter(self) -> Iter<'a> {
        self.iter()
    }
}

impl<'a> IntoIterator for Nodes<'a> {
    type Item = Node<'a>;
    type IntoIter = Iter<'a>;

    fn into_iter(self) -> Iter<'a> {
        self.iter()
    }
}

/// One node of a text that was read: a value, or a dict's key.
///
/// ```
/// let backup = j8::Json8::read(br#"{ name: "Front desk", tray: 2, duplex: true, folder: b'caf\ye9' }"#)?;
/// for (key, value) in backup.root().pairs() {
///     match key {
///         b"name" => assert_eq!(value.as_str(), Some("Front desk")),
///         b"tray" => assert_eq!(value.as_number().map(str::parse), Some(Ok(2))),
///         b"duplex" => assert_eq!(value.as_bool(), Some(true)),
///         _ => assert_eq!(value.as_bytes(), Some(b"caf\xe9".as_slice())),
///     }
/// }
/// # Ok::<(), j8::Error>(())
/// ```
#[derive(Clone, Copy)]
pub struct Node<'a> {
    nodes: Nodes<'a>,
    index: usize,
}

impl<'a> Node<'a> {
    /// One of the node's four numbers.
    fn number(&self, column: usize) -> u32 {
        self.nodes.table[self.index * NODE_ROOM + column]
    }

    /// Its index among the nodes.
    pub fn index(&self) -> usize {
        self.index
    }

    /// What it is.
    pub fn kind(&self) -> Kind {
        Kind::try_from(self.number(0)).expect("a reader's kinds are from 0 to 8")
    }

    /// Nodes in its subtree, itself with them. So what comes behind it has the
    /// index [`index`](Node::index) plus this.
    pub fn subtree(&self) -> usize {
        self.number(1) as usize
    }

    /// A stored string's place in the store. Else a place in the text: behind a
    /// string's opening mark, at the bracket of a list or dict, at the first
    /// byte of everything else.
    pub fn place(&self) -> usize {
        self.number(2) as usize
    }

    /// A list's members or a dict's pairs, else bytes from the place on.
    pub fn length(&self) -> usize {
        self.number(3) as usize
    }

    /// Whether it is `null`.
    pub fn is_null(&self) -> bool {
        self.kind() == Kind::Null
    }

    /// Which of `true` and `false` it is, if it is one.
    pub fn as_bool(&self) -> Option<bool> {
        match self.kind() {
            Kind::False => Some(false),
            Kind::True => Some(true),
            _ => None,
        }
    }

    /// A number's text as it stands, if it is a number. `parse` makes any of
    /// Rust's numbers of it, as far as it fits.
    pub fn as_number(&self) -> Option<&'a str> {
        if !self.kind().is_number() {
            return None;
        }
        let token = &self.nodes.text[self.place()..self.place() + self.length()];
        std::str::from_utf8(token).ok()
    }

    /// A string's bytes, if it is a string.
    pub fn as_bytes(&self) -> Option<&'a [u8]> {
        let Nodes { text, table, store } = self.nodes;
        show_string(table, text, store, self.index)
    }

    /// A string's text, if it is a string and valid UTF-8.
    pub fn as_str(&self) -> Option<&'a str> {
        std::str::from_utf8(self.as_bytes()?).ok()
    }

    /// Its children, in order: a list's members, or a dict's keys and values in
    /// turn. Other nodes have none.
    pub fn children(&self) -> Children<'a> {
        Children {
            nodes: self.nodes,
            next: self.index + 1,
            end: self.index + self.subtree(),
        }
    }

    /// A dict's keys, which are any bytes, with their values, in order. Equal keys
    /// are all there. Nodes of other kinds have no pairs.
    ///
    /// ```
    /// let backup = j8::Json8::read("{ tray: 2, 'tray': null }")?;
    /// let pairs: Vec<_> = backup.root().pairs().map(|(key, value)| (key, value.as_number())).collect();
    /// assert_eq!(pairs, [(b"tray".as_slice(), Some("2")), (b"tray", None)]);
    /// # Ok::<(), j8::Error>(())
    /// ```
    pub fn pairs(&self) -> Pairs<'a> {
        let mut children = self.children();
        if self.kind() != Kind::Dict {
            children.next = children.end;
        }
        Pairs { children }
    }
}

/// The same node of the same nodes. What two nodes say is compared by
/// [`to_value`](Node::to_value).
impl PartialEq for Node<'_> {
    fn eq(&self, other: &Node<'_>) -> bool {
        self.index == other.index && std::ptr::eq(self.nodes.table, other.nodes.table)
    }
}

impl Eq for Node<'_> {}

/// Its index and its numbers.
impl fmt::Debug for Node<'_> {
    fn fmt(&self, f: &mut fmt::Formatter<'_>) -> fmt::Result {
        f.debug_struct("Node")
            .field("index", &self.index)
            .field("kind", &self.kind())
            .field("subtree", &self.subtree())
            .field("place", &self.place())
            .field("length", &self.length())
            .finish()
    }
}

/// See [`Node::children`].
#[derive(Clone, Debug)]
#[must_use = "it does nothing until it is gone through"]
pub struct Children<'a> {
    nodes: Nodes<'a>,
    next: usize,
    end: usize,
}

impl<'a> Iterator for Children<'a> {
    type Item = Node<'a>;

    fn next(&mut self) -> Option<Node<'a>> {
        if self.next >= self.end {
            return None;
        }
        let child = self.nodes.at(self.next);
        self.next += child.subtree();
        Some(child)
    }
}

impl FusedIterator for Children<'_> {}

/// See [`Node::pairs`].
#[derive(Clone, Debug)]
#[must_use = "it does nothing until it is gone through"]
pub struct Pairs<'a> {
    children: Children<'a>,
}

impl<'a> Iterator for Pairs<'a> {
    type Item = (&'a [u8], Node<'a>);

    fn next(&mut self) -> Option<(&'a [u8], Node<'a>)> {
        let key = self.children.next()?;
        Some((key.as_bytes()?, self.children.next()?))
    }
}

impl FusedIterator for Pairs<'_> {}

/// See [`Nodes::iter`].
#[derive(Clone, Debug)]
#[must_use = "it does nothing until it is gone through"]
pub struct Iter<'a> {
    nodes: Nodes<'a>,
    next: usize,
}

impl<'a> Iterator for Iter<'a> {
    type Item = Node<'a>;

    fn next(&mut self) -> Option<Node<'a>> {
        let node = self.nodes.get(self.next)?;
        self.next += 1;
        Some(node)
    }

    fn size_hint(&self) -> (usize, Option<usize>) {
        let left = self.nodes.len() - self.next;
        (left, Some(left))
    }
}

impl ExactSizeIterator for Iter<'_> {}
impl FusedIterator for Iter<'_> {}

/// A JSON8 text that was read, with its table and store, in memory of its own.
///
/// ```
/// let backup = j8::Json8::read(br#"{"name": "Front desk", "pin": "\u0034"}"#)?;
/// let (_, pin) = backup.root().pairs().nth(1).unwrap();
/// assert_eq!(pin.as_str(), Some("4"));
/// # Ok::<(), j8::Error>(())
/// ```
#[derive(Clone)]
pub struct Json8 {
    text: Vec<u8>,
    table: Vec<u32>,
    store: Vec<u8>,
}

impl Json8 {
    /// Reads a text, with room for every table and store.
    ///
    /// The library takes at most 16,384 bytes of the stack for it, whatever the
    /// text: brackets are read to a depth of 32. The room is allocated.
    ///
    /// # Errors
    /// Refusals 2, 4, 6 to 11, 13 to 16 and 23 to 27 with their place.
    pub fn read(text: impl Into<Vec<u8>>) -> Result<Json8, Error> {
        let text = text.into();
        // A text over the cap is refused anyway and needs no room.
        let mut store = vec![0; text.len().min(TEXT_MAX)];
        let mut table = vec![0; TABLE_ROOM];
        let (nodes, stored) = read(&text, &mut table, &mut store)?;
        // It may be kept for long, so the spare room is given back.
        table.truncate(nodes * NODE_ROOM);
        table.shrink_to_fit();
        store.truncate(stored);
        store.shrink_to_fit();
        Ok(Json8 { text, table, store })
    }

    /// Its nodes.
    #[must_use]
    pub fn nodes(&self) -> Nodes<'_> {
        Nodes {
            text: &self.text,
            table: &self.table,
            store: &self.store,
        }
    }

    /// The node of the value itself.
    #[must_use]
    pub fn root(&self) -> Node<'_> {
        self.nodes().root()
    }

    /// The text, as it was handed in.
    #[must_use]
    pub fn into_text(self) -> Vec<u8> {
        self.text
    }
}

impl fmt::Debug for Json8 {
    fn fmt(&self, f: &mut fmt::Formatter<'_>) -> fmt::Result {
        f.debug_tuple("Json8").field(&self.nodes()).finish()
    }
}
