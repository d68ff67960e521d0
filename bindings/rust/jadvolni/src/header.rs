//! The columns of a table by their names, with the feature `std`.

extern crate std;

use crate::cell_text::folded;
use crate::cells::{cell_of, put_cells, CellPlace};
use crate::row_ends::RowEnds;
use crate::{
    parse_table, parse_table_skipping, row_place, BadRow, Dialect, Skipping, Table, TableColumn,
    TableError, TableFault,
};
use core::fmt;
use core::ops::{Deref, DerefMut};
use std::borrow::{Cow, ToOwned};
use std::string::String;
use std::vec;
use std::vec::Vec;

/// A byte order mark, which may come before a text in UTF-8 and isn't part of it.
pub(crate) const BYTE_ORDER_MARK: &[u8] = b"\xEF\xBB\xBF";

/// How many names of a header a message lists, and how many characters of each.
const NAMES_SHOWN: usize = 40;
const NAME_SHOWN: usize = 40;

/// Why columns can't be found by their names.
#[derive(Debug, Clone, PartialEq, Eq)]
#[non_exhaustive]
pub enum HeaderError {
    /// The text has no row.
    NoHeader,
    /// The first row isn't one of the table: for instance, a quote is misplaced.
    Invalid(TableError),
    /// No column has the name.
    Missing {
        /// The name that was asked for.
        name: String,
        /// The names in the header.
        header: Vec<String>,
    },
    /// More than one column has the name.
    Doubled {
        /// The name that was asked for.
        name: String,
        /// The names in the header.
        header: Vec<String>,
    },
    /// The name was asked for twice.
    AskedTwice(String),
}

impl HeaderError {
    /// This fault of a part of a text, as one of the whole text, which has `bytes` bytes before the part.
    pub(crate) fn behind(self, bytes: usize) -> Self {
        match self {
            HeaderError::Invalid(error) => HeaderError::Invalid(error.behind(0, bytes)),
            other => other,
        }
    }
}

/// Names as a message lists them: each in quotes, and cut if they are long or too many.
fn listed(f: &mut fmt::Formatter<'_>, names: &[String]) -> fmt::Result {
    for (index, name) in names.iter().take(NAMES_SHOWN).enumerate() {
        f.write_str(if index > 0 { ", " } else { "" })?;
        put_name(f, name)?;
    }
    match names.len().saturating_sub(NAMES_SHOWN) {
        0 => Ok(()),
        more => write!(f, " and {more} more"),
    }
}

/// A name in quotes, cut if it is long.
pub(crate) fn put_name(f: &mut fmt::Formatter<'_>, name: &str) -> fmt::Result {
    match name.char_indices().nth(NAME_SHOWN) {
        Some((end, _)) => write!(f, "{:?} ..", &name[..end]),
        None => write!(f, "{name:?}"),
    }
}

impl fmt::Display for HeaderError {
    /// What is wrong, and for a name, which names there are: `no column "cent": the header has "id", "cents"`.
    fn fmt(&self, f: &mut fmt::Formatter<'_>) -> fmt::Result {
        match self {
            HeaderError::NoHeader => f.write_str("the table has no header"),
            HeaderError::Invalid(error) => write!(f, "the header is no row: {error}"),
            HeaderError::Missing { name, header } => {
                f.write_str("no column ")?;
                put_name(f, name)?;
                f.write_str(": the header has ")?;
                listed(f, header)
            }
            HeaderError::Doubled { name, header } => {
                f.write_str("more than one column ")?;
                put_name(f, name)?;
                f.write_str(": the header has ")?;
                listed(f, header)
            }
            HeaderError::AskedTwice(name) => {
                f.write_str("the column ")?;
                put_name(f, name)?;
                f.write_str(" is asked for twice")
            }
        }
    }
}

impl core::error::Error for HeaderError {}

/// The names of a table's columns, from its first row.
///
/// That row follows the rules of the table: a name may be enclosed in quotes, and may then contain separators, line
/// feeds and doubled quotes; blanks around it, within its quotes if it has them, are ignored if the table allows them.
#[derive(Clone, PartialEq, Eq)]
pub struct Header {
    names: Vec<Vec<u8>>,
    stop: usize,
}

impl fmt::Debug for Header {
    /// The names as texts, and where the header stops.
    fn fmt(&self, f: &mut fmt::Formatter<'_>) -> fmt::Result {
        let names: Vec<_> = self.names().collect();
        f.debug_struct("Header").field("names", &names).field("stop", &self.stop).finish()
    }
}

impl Header {
    /// The header at the beginning of a text. A byte order mark before it is skipped, and so are empty rows if the
    /// table skips them.
    ///
    /// ```
    /// use jadvolni::{Dialect, Header};
    /// let header = Header::of("id;\"what;for\";cents\r\n1;rent;-80000\r\n",
    ///     &Dialect::separated_by(b';').has_quotes(true).has_returns(true))?;
    /// assert_eq!(header.names().collect::<Vec<_>>(), ["id", "what;for", "cents"]);
    /// assert_eq!(header.stop(), 21);
    /// # Ok::<(), jadvolni::HeaderError>(())
    /// ```
    pub fn of(text: impl AsRef<[u8]>, dialect: &Dialect<'_>) -> Result<Header, HeaderError> {
        let text = text.as_ref();
        let mut start = if text.starts_with(BYTE_ORDER_MARK) { BYTE_ORDER_MARK.len() } else { 0 };
        let mut ends = RowEnds::new(dialect);
        loop {
            let rest = &text[start..];
            let stop = ends.stop_in(rest).unwrap_or(rest.len());
            if stop == 0 || !is_skipped(&rest[..stop], dialect) {
                let header = Header::of_row(&rest[..stop], dialect);
                let header = header.map_err(|error| error.behind(start))?;
                return Ok(Header { stop: start + stop, ..header });
            }
            start += stop;
            ends.begin();
        }
    }

    /// The header that a row is, with its line end.
    pub(crate) fn of_row(row: &[u8], dialect: &Dialect<'_>) -> Result<Header, HeaderError> {
        if row.is_empty() {
            return Err(HeaderError::NoHeader);
        }
        let mut cells = vec![CellPlace::default(); put_cells(row, dialect, 0, &mut [])];
        put_cells(row, dialect, 0, &mut cells);
        let columns = match dialect.0.width_count {
            0 => cells.len(),
            widths => widths,
        };
        let mut unread: Vec<_> = (0..columns).map(|_| TableColumn::UNREAD).collect();
        // The library judges the row by its own rules.
        parse_table(row, dialect, &mut unread).map_err(HeaderError::Invalid)?;
        let name = |cell| name_of(cell_of(row, cell), dialect);
        let names = cells.into_iter().map(name).collect();
        Ok(Header { names, stop: row.len() })
    }

    /// The place after the header, where the first row starts.
    pub fn stop(&self) -> usize {
        self.stop
    }

    /// The names, column by column. Bytes that aren't UTF-8 are replaced.
    pub fn names(&self) -> impl ExactSizeIterator<Item = Cow<'_, str>> {
        self.names.iter().map(|name| String::from_utf8_lossy(name))
    }

    /// The name of a column, from 0, as in [`TableError::column`].
    pub fn name(&self, column: usize) -> Option<Cow<'_, str>> {
        self.names.get(column).map(|name| String::from_utf8_lossy(name))
    }

    /// The only column that has a name, from 0.
    pub fn column(&self, name: &str) -> Result<usize, HeaderError> {
        let mut found = self.names.iter().enumerate().filter(|(_, it)| it[..] == *name.as_bytes());
        let header = || self.names().map(Cow::into_owned).collect();
        match (found.next(), found.next()) {
            (Some((column, _)), None) => Ok(column),
            (None, _) => Err(HeaderError::Missing { name: name.to_owned(), header: header() }),
            _ => Err(HeaderError::Doubled { name: name.to_owned(), header: header() }),
        }
    }

    /// A fault of the rows after this header, with its line, row and cell, as by [`TableError::in_text`], and the name
    /// of its column.
    ///
    /// Rows count from the end of the header, and places from the start of the text, as for [`Columns::read`].
    pub fn fault(
        &self,
        error: impl Into<TableError>,
        text: impl AsRef<[u8]>,
        dialect: &Dialect<'_>,
    ) -> TableFault {
        let (error, text) = (error.into(), text.as_ref());
        let rows = text.get(self.stop..).unwrap_or(&[]);
        let start = self.stop + row_place(rows, dialect, error.row).unwrap_or_default().start;
        TableFault::in_text(error, start, text, dialect).named(self.name(error.column))
    }

    /// The columns of the table, of which those with these names are read.
    ///
    /// ```
    /// use jadvolni::{parse_table, Dialect, Header, TableColumn};
    /// let (text, comma) = ("day,what,cents\n1,rent,-80000\n", Dialect::separated_by(b','));
    /// let header = Header::of(text, &comma)?;
    /// let mut cents = [0i64; 9];
    /// let mut columns = header.columns([("cents", TableColumn::of(&mut cents))])?;
    /// assert_eq!(parse_table(&text[header.stop()..], &comma, &mut columns)?.rows, 1);
    /// assert_eq!(cents[0], -80000);
    /// let error = header.columns([("cent", TableColumn::UNREAD)]).unwrap_err();
    /// assert_eq!(error.to_string(), r#"no column "cent": the header has "day", "what", "cents""#);
    /// # Ok::<(), Box<dyn std::error::Error>>(())
    /// ```
    pub fn columns<'a, N: AsRef<str>>(
        &self,
        wanted: impl IntoIterator<Item = (N, TableColumn<'a>)>,
    ) -> Result<Vec<TableColumn<'a>>, HeaderError> {
        let mut columns: Vec<_> = self.names.iter().map(|_| TableColumn::UNREAD).collect();
        let mut is_taken = vec![false; columns.len()];
        for (name, column) in wanted {
            let index = self.column(name.as_ref())?;
            if core::mem::replace(&mut is_taken[index], true) {
                return Err(HeaderError::AskedTwice(name.as_ref().to_owned()));
            }
            columns[index] = column;
        }
        Ok(columns)
    }
}

/// The columns of a table, of which those are read whose names were asked for. It is a slice of all columns.
#[derive(Debug)]
pub struct Columns<'a> {
    header: Header,
    columns: Vec<TableColumn<'a>>,
}

impl<'a> Columns<'a> {
    /// The columns of a text that begins with a header, as by [`Header::of`] and [`Header::columns`].
    ///
    /// ```
    /// use jadvolni::{Columns, Dialect, Error, Table, TableColumn, TableError};
    /// let (text, comma) = ("day,what,cents\n1,rent,-80000\n2,food,7x\n", Dialect::separated_by(b','));
    /// let (mut days, mut cents) = ([0u16; 9], [0i64; 9]);
    /// let wanted = [("cents", TableColumn::of(&mut cents)), ("day", TableColumn::of(&mut days))];
    /// let mut columns = Columns::by_header(text, &comma, wanted)?;
    /// let error = columns.read(text, &comma).unwrap_err();
    /// assert_eq!(error, TableError { row: 1, column: 2, error: Error::InvalidDigit(37) });
    /// let fault = columns.header().fault(error, text, &comma);
    /// assert_eq!(fault.to_string(), r#"line 3, "cents": "7x": invalid digit at byte 1 of the cell"#);
    /// assert_eq!((fault.line, fault.name(), fault.text()), (2, Some("cents"), Some(&b"7x"[..])));
    /// assert_eq!((days[0], cents[0]), (1, -80000));
    /// # Ok::<(), jadvolni::HeaderError>(())
    /// ```
    pub fn by_header<N: AsRef<str>>(
        text: impl AsRef<[u8]>,
        dialect: &Dialect<'_>,
        wanted: impl IntoIterator<Item = (N, TableColumn<'a>)>,
    ) -> Result<Columns<'a>, HeaderError> {
        let header = Header::of(text, dialect)?;
        let columns = header.columns(wanted)?;
        Ok(Columns { header, columns })
    }

    /// The header.
    pub fn header(&self) -> &Header {
        &self.header
    }

    /// Reads the rows after the header of a text, as [`parse_table`] does. Places count from the start of the text, and
    /// so do those of texts.
    pub fn read(
        &mut self,
        text: impl AsRef<[u8]>,
        dialect: &Dialect<'_>,
    ) -> Result<Table, TableError> {
        let (text, start) = (text.as_ref(), self.header.stop);
        match parse_table(text.get(start..).unwrap_or(&[]), dialect, &mut self.columns) {
            Ok(table) => {
                self.move_texts(table.rows, 0);
                Ok(Table { stop: start + table.stop, ..table })
            }
            Err(error) => {
                if error.error.place().is_some() {
                    self.move_texts(error.row, error.column);
                }
                Err(error.behind(0, start))
            }
        }
    }

    /// Reads the rows after the header of a text, but skips the bad ones and counts them, as [`parse_table_skipping`]
    /// does. Places count from the start of the text, and so do those of texts.
    pub fn read_skipping<'b>(
        &mut self,
        text: impl AsRef<[u8]>,
        dialect: &Dialect<'_>,
        bad: &'b mut [BadRow],
    ) -> Result<Skipping<'b>, TableError> {
        let (start, rows) = (self.header.stop, text.as_ref().get(self.header.stop..));
        let read = parse_table_skipping(rows.unwrap_or(&[]), dialect, &mut self.columns, bad)?;
        let Skipping { rows, bad_rows, stop, .. } = read;
        self.move_texts(rows, 0);
        let room = bad_rows.min(bad.len());
        let bad = &mut bad[..room];
        bad.iter_mut().for_each(|row| *row = row.behind(0, start));
        Ok(Skipping { rows, bad_rows, bad, stop: start + stop })
    }

    /// Makes the places of the texts that were read count from the start of the text: those of `rows` rows, and of
    /// `cells` cells after them.
    fn move_texts(&mut self, rows: usize, cells: usize) {
        let start = self.header.stop;
        for (index, column) in self.columns.iter_mut().enumerate() {
            column.move_texts(rows + usize::from(index < cells), start);
        }
    }
}

impl<'a> Deref for Columns<'a> {
    type Target = [TableColumn<'a>];

    fn deref(&self) -> &[TableColumn<'a>] {
        &self.columns
    }
}

impl<'a> DerefMut for Columns<'a> {
    fn deref_mut(&mut self) -> &mut [TableColumn<'a>] {
        &mut self.columns
    }
}

// ---- a row's cells

/// Whether a row, with its line end, is an empty one that the table skips.
pub(crate) fn is_skipped(row: &[u8], dialect: &Dialect<'_>) -> bool {
    !row.is_empty() && row_place(row, dialect, 0).is_ok_and(|found| found.start == row.len())
}

/// What a cell holds, without its quotes and blanks.
fn name_of(cell: &[u8], dialect: &Dialect<'_>) -> Vec<u8> {
    let quoted = cell.strip_prefix(b"\"").and_then(|rest| rest.strip_suffix(b"\""));
    let mut name = match quoted.filter(|_| dialect.0.has_quotes != 0) {
        Some(held) => folded(held),
        None => cell.to_vec(),
    };
    if dialect.0.allows_blanks != 0 {
        let is_no_blank = |byte: &u8| !matches!(byte, b' ' | b'\t');
        let stop = name.iter().rposition(is_no_blank).map_or(0, |last| last + 1);
        name.truncate(stop);
        name.drain(..name.iter().position(is_no_blank).unwrap_or(0));
    }
    name
}
