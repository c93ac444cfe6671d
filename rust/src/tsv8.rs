//! TSV8: a text read to names, types and a table of cells.

use crate::{raw, Error, TEXT_MAX};
use std::fmt;
use std::iter::FusedIterator;
use std::ops::Range;

/// The most columns of a text.
pub const COLUMNS_MAX: usize = 64;
/// The numbers of a name or cell: kind, place and length.
pub const CELL_ROOM: usize = 3;
/// Numbers that always suffice for the names of a text.
pub const NAMES_ROOM: usize = COLUMNS_MAX * CELL_ROOM;
/// Numbers that always suffice for the types of a text.
pub const TYPES_ROOM: usize = COLUMNS_MAX;
/// Numbers that always suffice for the cells of a text: 16,182 cells of one byte
/// fill the longest, in 62 columns.
pub const CELLS_ROOM: usize = 16_182 * CELL_ROOM;

/// What a column holds.
#[derive(Clone, Copy, Debug, PartialEq, Eq, Hash)]
#[repr(u32)]
pub enum Type {
    /// `true` and `false`.
    Bool = 1,
    /// Numbers of digits only.
    Int = 2,
    /// Any JSON numbers.
    Float = 3,
    /// Strings, bare or quoted. Columns without a type are so too.
    Str = 4,
}

impl Type {
    const ALL: [Type; 4] = [Type::Bool, Type::Int, Type::Float, Type::Str];
}

/// The type with this number, or the number back if there is none.
impl TryFrom<u32> for Type {
    type Error = u32;

    fn try_from(number: u32) -> Result<Type, u32> {
        let index = usize::try_from(number).ok().and_then(|n| n.checked_sub(1));
        let kind = index.and_then(|n| Type::ALL.get(n));
        kind.copied().ok_or(number)
    }
}

/// As a `!type` line has it.
impl fmt::Display for Type {
    fn fmt(&self, f: &mut fmt::Formatter<'_>) -> fmt::Result {
        f.pad(match self {
            Type::Bool => "Bool",
            Type::Int => "Int",
            Type::Float => "Float",
            Type::Str => "Str",
        })
    }
}

/// What a cell holds. Numbers are their texts as they stand: `parse` makes any of
/// Rust's numbers of them, as far as it fits.
///
/// ```
/// use j8::Cell;
///
/// let log = j8::Tsv8::read("!tsv8\tdesk\tscans\n!type\tStr\tInt\n\tFront desk\t41\n")?;
/// let row = log.sheet().rows().next().unwrap();
/// assert_eq!(row.get(0), Some(Cell::Str(b"Front desk")));
/// match row.get(1) {
///     Some(Cell::Int(text)) => assert_eq!(text.parse(), Ok(41)),
///     other => panic!("{other:?}"),
/// }
/// # Ok::<(), j8::Error>(())
/// ```
#[derive(Clone, Copy, PartialEq, Eq, Hash)]
pub enum Cell<'a> {
    /// `true` or `false`.
    Bool(bool),
    /// A number of digits only, of any size.
    Int(&'a str),
    /// A JSON number; it may be of digits only.
    Float(&'a str),
    /// The bytes of a string.
    Str(&'a [u8]),
}

impl<'a> Cell<'a> {
    /// The type that it fits.
    pub fn kind(&self) -> Type {
        match self {
            Cell::Bool(_) => Type::Bool,
            Cell::Int(_) => Type::Int,
            Cell::Float(_) => Type::Float,
            Cell::Str(_) => Type::Str,
        }
    }

    /// Which of `true` and `false` it is, if it is one.
    pub fn as_bool(&self) -> Option<bool> {
        match self {
            Cell::Bool(is_true) => Some(*is_true),
            _ => None,
        }
    }

    /// A number's text as it stands, if it is a number.
    pub fn as_number(&self) -> Option<&'a str> {
        match self {
            Cell::Int(text) | Cell::Float(text) => Some(text),
            _ => None,
        }
    }

    /// A string's bytes, if it is a string.
    pub fn as_bytes(&self) -> Option<&'a [u8]> {
        match self {
            Cell::Str(bytes) => Some(bytes),
            _ => None,
        }
    }

    /// A string's text, if it is a string and valid UTF-8.
    pub fn as_str(&self) -> Option<&'a str> {
        std::str::from_utf8(self.as_bytes()?).ok()
    }
}

/// A string by its letters, as far as it has any.
impl fmt::Debug for Cell<'_> {
    fn fmt(&self, f: &mut fmt::Formatter<'_>) -> fmt::Result {
        match self {
            Cell::Bool(is_true) => f.debug_tuple("Bool").field(is_true).finish(),
            Cell::Int(text) => write!(f, "Int({text})"),
            Cell::Float(text) => write!(f, "Float({text})"),
            Cell::Str(bytes) => write!(f, "Str(b\"{}\")", bytes.escape_ascii()),
        }
    }
}

/// Reads a TSV8 text to the start of the lent `names`, `types`, `cells` and `store`;
/// nothing is allocated.
///
/// A refused text leaves all four as they were, and numbers and bytes past the
/// result are never touched. [`NAMES_ROOM`], [`TYPES_ROOM`] and [`CELLS_ROOM`]
/// numbers and as many bytes as the text has always suffice. At most 2,048 bytes
/// of the stack are taken, whatever the text.
///
/// ```
/// let text = b"!tsv8\tdesk\tscans\n!type\tStr\tInt\n\tb'caf\\ye9'\t41\n";
/// let (mut names, mut types) = ([0; j8::NAMES_ROOM], [0; j8::TYPES_ROOM]);
/// let (mut cells, mut store) = ([0; 30], [0; 64]);
/// let sheet = j8::read_tsv8(text, &mut names, &mut types, &mut cells, &mut store)?;
/// assert_eq!(sheet.column(1).unwrap().name(), b"scans");
/// assert_eq!(sheet.cell(0, 0), Some(j8::Cell::Str(b"caf\xe9")));
/// # Ok::<(), j8::Error>(())
/// ```
///
/// A bad text gets one refusal with its place:
///
/// ```
/// let text = b"!tsv8\tscans\n!type\tInt\n\t4l\n";
/// let error = j8::read_tsv8(text, &mut [], &mut [], &mut [], &mut []).unwrap_err();
/// assert_eq!((error.refusal, error.place), (j8::Refusal::WrongType, 23));
/// ```
///
/// # Errors
/// Refusals 2, 4, 6 to 11 and 19 to 27 of the text, then
/// [`NoRoom`](crate::Refusal::NoRoom) if any of the four is short.
pub fn read_tsv8<'a>(
    text: &'a [u8],
    names: &'a mut [u32],
    types: &'a mut [u32],
    cells: &'a mut [u32],
    store: &'a mut [u8],
) -> Result<Sheet<'a>, Error> {
    let lengths = read(text, names, types, cells, store)?;
    Ok(Sheet {
        text,
        names: &names[..lengths.names],
        types: &types[..lengths.types],
        cells: &cells[..lengths.cells],
        store: &store[..lengths.store],
    })
}

/// What a text filled of each part, in numbers, and in bytes of the store.
struct Lengths {
    names: usize,
    types: usize,
    cells: usize,
    store: usize,
}

fn read(
    text: &[u8],
    names: &mut [u32],
    types: &mut [u32],
    cells: &mut [u32],
    store: &mut [u8],
) -> Result<Lengths, Error> {
    let answer = raw::tsv8_read(text, names, types, cells, store);
    Error::check(answer.number, 0, answer.place).map(|()| Lengths {
        names: answer.columns * CELL_ROOM,
        types: answer.columns,
        cells: answer.cells * CELL_ROOM,
        store: answer.stored,
    })
}

/// The columns and rows of a text that was read, in the buffers that were lent for
/// it.
///
/// ```
/// let log = j8::Tsv8::read(concat!(
///     "!tsv8\tdesk\tscans\tduplex\n",
///     "!type\tStr\tInt\tBool\n",
///     "\tFront desk\t41\ttrue\n",
///     "\t\"Caf\\u00e9\"\t7\tfalse\n",
/// ))?;
/// let sheet = log.sheet();
/// for column in sheet.columns() {
///     println!("{}: {}", column.name().escape_ascii(), column.kind());
/// }
/// for row in sheet.rows() {
///     println!("{:?}", row.cells().collect::<Vec<j8::Cell>>());
/// }
/// let scans = sheet.find(b"scans").unwrap();
/// let sum: u64 = scans.cells().filter_map(|cell| cell.as_number()?.parse::<u64>().ok()).sum();
/// assert_eq!(sum, 48);
/// # Ok::<(), j8::Error>(())
/// ```
///
/// Two are equal if their buffers are.
// Only a reader makes one, so its numbers are as the reader promises: 1 to 64
// columns, whole rows, kinds that fit their types, ranges inside.
#[derive(Clone, Copy, PartialEq, Eq)]
pub struct Sheet<'a> {
    text: &'a [u8],
    names: &'a [u32],
    types: &'a [u32],
    cells: &'a [u32],
    store: &'a [u8],
}

impl<'a> Sheet<'a> {
    /// The text that was read.
    pub fn text(&self) -> &'a [u8] {
        self.text
    }

    /// The numbers of all names, three each: kind, place and length.
    pub fn names(&self) -> &'a [u32] {
        self.names
    }

    /// The numbers of the types, one for each name.
    pub fn types(&self) -> &'a [u32] {
        self.types
    }

    /// The numbers of all cells, three each, row by row.
    pub fn numbers(&self) -> &'a [u32] {
        self.cells
    }

    /// The decoded bytes of all strings with a backslash between quotes.
    pub fn store(&self) -> &'a [u8] {
        self.store
    }

    /// How many columns there are, from 1 to [`COLUMNS_MAX`].
    pub fn width(&self) -> usize {
        self.types.len()
    }

    /// How many rows there are.
    pub fn height(&self) -> usize {
        self.cells.len() / CELL_ROOM / self.width()
    }

    /// The column with this index, if there is one.
    pub fn column(&self, index: usize) -> Option<Column<'a>> {
        (index < self.width()).then_some(Column {
            sheet: *self,
            index,
        })
    }

    /// The first column with this name.
    pub fn find(&self, name: &[u8]) -> Option<Column<'a>> {
        self.columns().find(|column| column.name() == name)
    }

    /// All columns, from left to right.
    pub fn columns(&self) -> Columns<'a> {
        Columns {
            sheet: *self,
            places: 0..self.width(),
        }
    }

    /// The row with this index, if there is one.
    pub fn row(&self, index: usize) -> Option<Row<'a>> {
        (index < self.height()).then_some(Row {
            sheet: *self,
            index,
        })
    }

    /// All rows, in order.
    pub fn rows(&self) -> Rows<'a> {
        Rows {
            sheet: *self,
            places: 0..self.height(),
        }
    }

    /// The cell in this row and column, if there is one.
    pub fn cell(&self, row: usize, column: usize) -> Option<Cell<'a>> {
        self.row(row)?.get(column)
    }

    /// A part of the text.
    fn token(&self, place: u32, length: u32) -> &'a str {
        let bytes = &self.text[place as usize..][..length as usize];
        std::str::from_utf8(bytes).expect("a reader's numbers are ASCII")
    }

    /// What three numbers say.
    fn shown(&self, numbers: &[u32], index: usize) -> Cell<'a> {
        let [kind, place, length] = numbers[index * CELL_ROOM..][..CELL_ROOM] else {
            unreachable!("a cell has three numbers");
        };
        match kind {
            1 => Cell::Bool(false),
            2 => Cell::Bool(true),
            3 => Cell::Int(self.token(place, length)),
            4 => Cell::Float(self.token(place, length)),
            5 => Cell::Str(&self.text[place as usize..][..length as usize]),
            6 => Cell::Str(&self.store[place as usize..][..length as usize]),
            _ => unreachable!("a reader's kinds are from 1 to 6"),
        }
    }
}

/// The columns and the rows; the buffers would bury them.
impl fmt::Debug for Sheet<'_> {
    fn fmt(&self, f: &mut fmt::Formatter<'_>) -> fmt::Result {
        f.debug_struct("Sheet")
            .field("columns", &self.columns().collect::<Vec<_>>())
            .field("rows", &self.rows().collect::<Vec<_>>())
            .finish()
    }
}

/// A column: its name, its type and its cells.
#[derive(Clone, Copy, PartialEq, Eq)]
pub struct Column<'a> {
    sheet: Sheet<'a>,
    index: usize,
}

impl<'a> Column<'a> {
    /// Its index among the columns.
    pub fn index(&self) -> usize {
        self.index
    }

    /// Its name, which is any bytes. Names may be equal.
    pub fn name(&self) -> &'a [u8] {
        let name = self.sheet.shown(self.sheet.names, self.index);
        name.as_bytes().expect("a reader's names are strings")
    }

    /// Its type.
    pub fn kind(&self) -> Type {
        Type::try_from(self.sheet.types[self.index]).expect("a reader's types are from 1 to 4")
    }

    /// Its cells, one for each row.
    pub fn cells(&self) -> Cells<'a> {
        Cells {
            sheet: self.sheet,
            at: self.index,
            left: self.sheet.height(),
            step: self.sheet.width(),
        }
    }
}

/// Its name and its type.
impl fmt::Debug for Column<'_> {
    fn fmt(&self, f: &mut fmt::Formatter<'_>) -> fmt::Result {
        let name = self.sheet.shown(self.sheet.names, self.index);
        f.debug_struct("Column")
            .field("index", &self.index)
            .field("name", &name)
            .field("kind", &self.kind())
            .finish()
    }
}

/// A row: one cell for each column.
#[derive(Clone, Copy, PartialEq, Eq)]
pub struct Row<'a> {
    sheet: Sheet<'a>,
    index: usize,
}

impl<'a> Row<'a> {
    /// Its index among the rows.
    pub fn index(&self) -> usize {
        self.index
    }

    /// The cell in this column, if there is one.
    pub fn get(&self, column: usize) -> Option<Cell<'a>> {
        let Sheet { cells, .. } = self.sheet;
        let width = self.sheet.width();
        (column < width).then(|| self.sheet.shown(cells, self.index * width + column))
    }

    /// Its cells, one for each column.
    pub fn cells(&self) -> Cells<'a> {
        let width = self.sheet.width();
        Cells {
            sheet: self.sheet,
            at: self.index * width,
            left: width,
            step: 1,
        }
    }
}

impl<'a> IntoIterator for Row<'a> {
    type Item = Cell<'a>;
    type IntoIter = Cells<'a>;

    fn into_iter(self) -> Cells<'a> {
        self.cells()
    }
}

/// Its cells.
impl fmt::Debug for Row<'_> {
    fn fmt(&self, f: &mut fmt::Formatter<'_>) -> fmt::Result {
        f.debug_list().entries(self.cells()).finish()
    }
}

/// See [`Row::cells`] and [`Column::cells`].
#[derive(Clone, Debug)]
#[must_use = "it does nothing until it is gone through"]
pub struct Cells<'a> {
    sheet: Sheet<'a>,
    at: usize,
    left: usize,
    step: usize,
}

impl<'a> Iterator for Cells<'a> {
    type Item = Cell<'a>;

    fn next(&mut self) -> Option<Cell<'a>> {
        self.left = self.left.checked_sub(1)?;
        let cell = self.sheet.shown(self.sheet.cells, self.at);
        self.at += self.step;
        Some(cell)
    }

    fn size_hint(&self) -> (usize, Option<usize>) {
        (self.left, Some(self.left))
    }
}

impl ExactSizeIterator for Cells<'_> {}
impl FusedIterator for Cells<'_> {}

/// See [`Sheet::columns`].
#[derive(Clone, Debug)]
#[must_use = "it does nothing until it is gone through"]
pub struct Columns<'a> {
    sheet: Sheet<'a>,
    places: Range<usize>,
}

impl<'a> Iterator for Columns<'a> {
    type Item = Column<'a>;

    fn next(&mut self) -> Option<Column<'a>> {
        let index = self.places.next()?;
        Some(Column {
            sheet: self.sheet,
            index,
        })
    }

    fn size_hint(&self) -> (usize, Option<usize>) {
        self.places.size_hint()
    }
}

impl ExactSizeIterator for Columns<'_> {}
impl FusedIterator for Columns<'_> {}

/// See [`Sheet::rows`].
#[derive(Clone, Debug)]
#[must_use = "it does nothing until it is gone through"]
pub struct Rows<'a> {
    sheet: Sheet<'a>,
    places: Range<usize>,
}

impl<'a> Iterator for Rows<'a> {
    type Item = Row<'a>;

    fn next(&mut self) -> Option<Row<'a>> {
        let index = self.places.next()?;
        Some(Row {
            sheet: self.sheet,
            index,
        })
    }

    fn size_hint(&self) -> (usize, Option<usize>) {
        self.places.size_hint()
    }
}

impl ExactSizeIterator for Rows<'_> {}
impl FusedIterator for Rows<'_> {}

/// A TSV8 text that was read, with its names, types, cells and store, in memory of
/// its own.
///
/// ```
/// let log = j8::Tsv8::read("!tsv8\tfolder\n\tscans/in\n\tb'caf\\ye9'\n")?;
/// let folders: Vec<_> = log.sheet().rows().filter_map(|row| row.get(0)?.as_bytes()).collect();
/// assert_eq!(folders, [b"scans/in".as_slice(), b"caf\xe9"]);
/// # Ok::<(), j8::Error>(())
/// ```
#[derive(Clone)]
pub struct Tsv8 {
    text: Vec<u8>,
    names: Vec<u32>,
    types: Vec<u32>,
    cells: Vec<u32>,
    store: Vec<u8>,
}

impl Tsv8 {
    /// Reads a text, with room for all that it can hold. The room is allocated.
    ///
    /// # Errors
    /// Refusals 2, 4, 6 to 11 and 19 to 27 with their place.
    pub fn read(text: impl Into<Vec<u8>>) -> Result<Tsv8, Error> {
        let text = text.into();
        // A text over the cap is refused anyway and needs no room. Else there is a
        // tab for each cell.
        let tabs = match text.len() {
            0..=TEXT_MAX => text.iter().filter(|&&b| b == b'\t').count(),
            _ => 0,
        };
        let mut names = vec![0; NAMES_ROOM];
        let mut types = vec![0; TYPES_ROOM];
        let mut cells = vec![0; tabs * CELL_ROOM];
        let mut store = vec![0; text.len().min(TEXT_MAX)];
        let lengths = read(&text, &mut names, &mut types, &mut cells, &mut store)?;
        // It may be kept for long, so the spare room is given back.
        for (part, length) in [
            (&mut names, lengths.names),
            (&mut types, lengths.types),
            (&mut cells, lengths.cells),
        ] {
            part.truncate(length);
            part.shrink_to_fit();
        }
        store.truncate(lengths.store);
        store.shrink_to_fit();
        Ok(Tsv8 {
            text,
            names,
            types,
            cells,
            store,
        })
    }

    /// Its columns and rows.
    #[must_use]
    pub fn sheet(&self) -> Sheet<'_> {
        Sheet {
            text: &self.text,
            names: &self.names,
            types: &self.types,
            cells: &self.cells,
            store: &self.store,
        }
    }

    /// The text, as it was handed in.
    #[must_use]
    pub fn into_text(self) -> Vec<u8> {
        self.text
    }
}

impl fmt::Debug for Tsv8 {
    fn fmt(&self, f: &mut fmt::Formatter<'_>) -> fmt::Result {
        f.debug_tuple("Tsv8").field(&self.sheet()).finish()
    }
}
