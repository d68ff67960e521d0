//! Tables: the rows of a text, each column read into a slice of its own by one call.

use crate::format::ByteShown;
use crate::table_column::call_on_rows;
use crate::{row_place, Error, Position, TableColumn, TableFault};
use core::fmt;
use core::marker::PhantomData;
use core::ptr::null;
use jadvolni_sys as sys;

/// How a table is written: what separates two cells, and how it differs from plain lines.
#[derive(Copy, Clone)]
pub struct Dialect<'a>(pub(crate) sys::jadvolni_table, PhantomData<&'a [u8]>);

// SAFETY: its pointers are those of slices that it has borrowed, and are read alone.
unsafe impl Send for Dialect<'_> {}
unsafe impl Sync for Dialect<'_> {}

impl<'a> Dialect<'a> {
    /// Lines of one cell each, without separators: a column of numbers.
    pub const LINES: Self = Self::separated_by(b'\n');

    /// Cells with a separator between them, in lines that end with a line feed, which ends a line even if it is the
    /// separator. No line ends with a carriage return alone.
    pub const fn separated_by(separator: u8) -> Self {
        let table = sys::jadvolni_table {
            separator,
            has_returns: 0,
            has_quotes: 0,
            allows_blanks: 0,
            skips_empty_rows: 0,
            is_records: 0,
            allows_returns: 0,
            reserved: [0; 9],
            missing: null(),
            missing_len: 0,
            widths: null(),
            width_count: 0,
        };
        Dialect(table, PhantomData)
    }

    /// Cells of fixed widths in bytes, with nothing between them: a width for each column. If there is none at all, the
    /// cells have NULs between them. A line whose last blanks were trimmed has too few cells: pad it.
    ///
    /// ```
    /// use jadvolni::{parse_table, Dialect, Table, TableColumn};
    /// let (mut days, mut cents) = ([0u16; 2], [0i32; 2]);
    /// let mut columns = [TableColumn::of(&mut days), TableColumn::UNREAD, TableColumn::of(&mut cents)];
    /// let fixed = Dialect::of_widths(&[3, 4, 6]).allows_blanks(true);
    /// let read = parse_table("365rent-80000\n 36bank  1250\n", &fixed, &mut columns);
    /// assert_eq!(read, Ok(Table { rows: 2, stop: 28 }));
    /// let read = parse_table("  1rent    -5  2bank     7", &fixed.is_records(true), &mut columns);
    /// assert_eq!(read, Ok(Table { rows: 2, stop: 26 }));
    /// assert_eq!((days, cents), ([1, 2], [-5, 7]));
    /// ```
    pub const fn of_widths(widths: &'a [usize]) -> Self {
        let mut dialect = Self::separated_by(0);
        dialect.0.widths = widths.as_ptr();
        dialect.0.width_count = widths.len();
        dialect
    }

    /// Whether a row is a record: as many bytes as the sum of the widths, but at least one, with nothing between two
    /// rows. A line feed at the end of a file belongs to a further record.
    pub const fn is_records(mut self, flag: bool) -> Self {
        self.0.is_records = flag as u8;
        self
    }

    /// Whether the line feed that ends a row has a carriage return before it. Any other carriage return is a byte of its
    /// cell, even at the end of the text; if neither this nor [`Dialect::allows_returns`] is set, each is.
    pub const fn has_returns(mut self, flag: bool) -> Self {
        self.0.has_returns = flag as u8;
        self
    }

    /// Whether the line feed that ends a row may have a carriage return before it, which then isn't a byte of the row.
    /// No effect if [`Dialect::has_returns`] is set.
    pub const fn allows_returns(mut self, flag: bool) -> Self {
        self.0.allows_returns = flag as u8;
        self
    }

    /// Whether a cell may be enclosed in quotes, `"`, and may then contain separators and line feeds. Its width, if it
    /// has one, includes the quotes. Don't combine this with a quote as the separator: after an odd number of them in a
    /// row a line feed doesn't end it.
    pub const fn has_quotes(mut self, flag: bool) -> Self {
        self.0.has_quotes = flag as u8;
        self
    }

    /// Whether spaces and tabs may surround a number, or what stands for a missing one: within its quotes if it has
    /// them, and not in a text, where they are bytes like any other.
    pub const fn allows_blanks(mut self, flag: bool) -> Self {
        self.0.allows_blanks = flag as u8;
        self
    }

    /// Whether rows without a byte before their end are skipped: they have no number, and are no missing cells. With
    /// [`Dialect::has_returns`] such a row may end with a line feed alone. A row of blanks isn't empty. Otherwise an
    /// empty row has one empty cell, or with widths those of width 0 before all others.
    pub const fn skips_empty_rows(mut self, flag: bool) -> Self {
        self.0.skips_empty_rows = flag as u8;
        self
    }

    /// What stands for a missing number or text, byte for byte, in columns that have bits: all that a cell holds, within
    /// its quotes if it has them, and for a number without its blanks. By default it is an empty cell, and `""` too if
    /// the dialect has quotes.
    pub const fn missing(mut self, mark: &'a [u8]) -> Self {
        self.0.missing = mark.as_ptr().cast();
        self.0.missing_len = mark.len();
        self
    }
}

impl<'a> Dialect<'a> {
    /// The widths of cells; none if there are separators between them.
    pub(crate) fn widths(&self) -> &'a [usize] {
        if self.0.width_count == 0 {
            return &[];
        }
        // SAFETY: they are those of the slice that was borrowed, which isn't empty.
        unsafe { core::slice::from_raw_parts(self.0.widths, self.0.width_count) }
    }

    /// What stands for a missing number or text.
    fn missing_mark(&self) -> &'a [u8] {
        if self.0.missing_len == 0 {
            return &[];
        }
        // SAFETY: it is that of the slice that was borrowed, which isn't empty.
        unsafe { core::slice::from_raw_parts(self.0.missing.cast(), self.0.missing_len) }
    }
}

impl fmt::Debug for Dialect<'_> {
    /// What was set, with the bytes of what stands for a missing number.
    fn fmt(&self, f: &mut fmt::Formatter<'_>) -> fmt::Result {
        let (how, flag) = (&self.0, |byte: u8| byte != 0);
        let mut shown = f.debug_struct("Dialect");
        shown.field("separator", &ByteShown(how.separator));
        shown.field("has_returns", &flag(how.has_returns));
        shown.field("allows_returns", &flag(how.allows_returns));
        shown.field("has_quotes", &flag(how.has_quotes));
        shown.field("allows_blanks", &flag(how.allows_blanks));
        shown.field("skips_empty_rows", &flag(how.skips_empty_rows));
        shown.field("missing", &format_args!("b\"{}\"", self.missing_mark().escape_ascii()));
        shown.field("widths", &self.widths()).field("is_records", &flag(how.is_records)).finish()
    }
}

/// How far a table was read.
#[derive(Debug, Copy, Clone, PartialEq, Eq)]
pub struct Table {
    /// How many rows were read.
    pub rows: usize,
    /// Where reading stopped: the text's end, or the start of the first row that had no room in a slice.
    pub stop: usize,
}

/// Why a table isn't read to its end: the first wrong cell in reading order, or a column that can't be read.
#[derive(Debug, Copy, Clone, PartialEq, Eq)]
pub struct TableError {
    /// The row, from 0: as many rows were read.
    pub row: usize,
    /// The column, from 0: as many cells of the row were read.
    pub column: usize,
    /// What is wrong. A fault of a format has no place, and comes before all rows.
    pub error: Error,
}

impl fmt::Display for TableError {
    /// The fault, and where it is, with rows and columns from 1: `overflow at byte 5, in row 2, column 1`.
    fn fmt(&self, f: &mut fmt::Formatter<'_>) -> fmt::Result {
        let (row, column) = (self.row.saturating_add(1), self.column.saturating_add(1));
        match self.error {
            Error::InvalidTable => self.error.fmt(f),
            error if error.place().is_none() => write!(f, "{error}, in column {column}"),
            error => write!(f, "{error}, in row {row}, column {column}"),
        }
    }
}

impl TableError {
    /// This fault of a part of a text, as one of the whole text, which has `rows` rows and `bytes` bytes before the
    /// part.
    ///
    /// ```
    /// use jadvolni::{Error, TableError};
    /// let in_part = TableError { row: 1, column: 2, error: Error::InvalidDigit(18) };
    /// let in_text = TableError { row: 11, column: 2, error: Error::InvalidDigit(118) };
    /// assert_eq!(in_part.behind(10, 100), in_text);
    /// ```
    pub fn behind(self, rows: usize, bytes: usize) -> Self {
        TableError { row: self.row.saturating_add(rows), error: self.error.moved(bytes), ..self }
    }

    /// The fault with its line, its row, and its cell. `text` is the one in which its rows and places count.
    ///
    /// It takes the time to scan the text up to the row.
    pub fn in_text(&self, text: impl AsRef<[u8]>, dialect: &Dialect<'_>) -> TableFault {
        let text = text.as_ref();
        let start = row_place(text, dialect, self.row).unwrap_or_default().start;
        TableFault::in_text(*self, start, text, dialect)
    }

    /// The line and the column of the fault's byte in the text, as by [`Error::position`].
    pub fn position(&self, text: impl AsRef<[u8]>) -> Option<Position> {
        self.error.position(text)
    }
}

impl core::error::Error for TableError {}

/// Reads the rows of a text, each column into a slice of its own, as long as all of these have room.
///
/// A row has one cell more than separators, and needs one for each column. After a fault the numbers of all cells
/// before the wrong one are in the slices, and the rest of these is unchanged. A byte order mark isn't skipped, except
/// before a header: it belongs to the first cell.
///
/// ```
/// use jadvolni::{parse_table, Dialect, Error, Table, TableColumn, TableError};
/// let (mut days, mut cents) = ([0u16; 3], [0i64; 3]);
/// let ledger = Dialect::separated_by(b';').has_returns(true);
/// let mut columns = [TableColumn::of(&mut days), TableColumn::UNREAD, TableColumn::of(&mut cents)];
/// let read = parse_table("1;rent;-80000\r\n365;;7\r\n", &ledger, &mut columns);
/// assert_eq!(read, Ok(Table { rows: 2, stop: 23 }));
/// let error = parse_table("1;rent;-80000\r\n2;;x\r\n", &ledger, &mut columns).unwrap_err();
/// assert_eq!(error, TableError { row: 1, column: 2, error: Error::InvalidDigit(18) });
/// assert_eq!(error.to_string(), "invalid digit at byte 18, in row 2, column 3");
/// assert_eq!((days, cents), ([1, 2, 0], [-80000, 7, 0]));
/// ```
pub fn parse_table(
    text: impl AsRef<[u8]>,
    dialect: &Dialect<'_>,
    columns: &mut [TableColumn<'_>],
) -> Result<Table, TableError> {
    parse_table_part(text, true, dialect, columns)
}

/// Reads the rows of a part of a text, such as a block of a file: the whole rows, or all if it is the last part.
///
/// Put the bytes from `stop` on in front of the next part: then all parts give the rows of the whole text. Rows and
/// places count from the start of the part.
///
/// ```
/// use jadvolni::{parse_table_part, Dialect, Table, TableColumn};
/// let mut numbers = [0u8; 3];
/// let comma = Dialect::separated_by(b',');
/// let mut columns = [TableColumn::UNREAD, TableColumn::of(&mut numbers)];
/// let part = parse_table_part("a,1\nb,", false, &comma, &mut columns);
/// assert_eq!((part, numbers[0]), (Ok(Table { rows: 1, stop: 4 }), 1));
/// ```
pub fn parse_table_part(
    text: impl AsRef<[u8]>,
    is_last: bool,
    dialect: &Dialect<'_>,
    columns: &mut [TableColumn<'_>],
) -> Result<Table, TableError> {
    let text = text.as_ref();
    // SAFETY: the pointers are those of slices with their lengths, and of a borrowed dialect. Each array is a slice
    // that its column has borrowed alone, and a column is the library's struct.
    let answer = unsafe { call_on_rows!(jadvolni_parse_table(text, is_last, dialect, columns)) };
    match Error::of(sys::jadvolni_result { status: answer.status, place: answer.place }) {
        None => Ok(Table { rows: answer.rows, stop: answer.place }),
        Some(error) => Err(TableError { row: answer.rows, column: answer.column, error }),
    }
}
