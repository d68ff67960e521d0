//! A fault of a table, and where it is in the text: its line, its row, and its cell.

#[cfg(feature = "std")]
extern crate std;

use crate::cells::{cell_of, put_cells, CellPlace};
use crate::row_ends::RowEnds;
use crate::{Dialect, Error, Excerpt, Position, TableError};
use core::fmt;
#[cfg(feature = "std")]
use std::{boxed::Box, string::String};

/// Why a table isn't read to its end, or why a row was skipped, and where that is in the text. It may outlive the text.
///
/// [`TableError::in_text`] and [`crate::BadRow::in_text`] make one. With the feature `std`, `Header::fault` and
/// `TableReader` do, and add the column's name.
///
/// ```
/// use jadvolni::{parse_table, Dialect, Error, TableColumn};
/// let (text, comma) = ("1,\"a\nb\",7\n2,c,12x\n", Dialect::separated_by(b',').has_quotes(true));
/// let (mut ids, mut cents) = ([0u8; 9], [0i64; 9]);
/// let mut columns = [TableColumn::of(&mut ids), TableColumn::UNREAD, TableColumn::of(&mut cents)];
/// let fault = parse_table(text, &comma, &mut columns).unwrap_err().in_text(text, &comma);
/// assert_eq!(fault.to_string(), r#"line 3, column 3: "12x": invalid digit at byte 2 of the cell"#);
/// assert_eq!((fault.row, fault.line, fault.column, fault.place()), (1, 2, 2, Some(16)));
/// assert_eq!(&text[fault.row_start..fault.row_stop], "2,c,12x\n");
/// assert_eq!((fault.text(), fault.error.message()), (Some(&b"12x"[..]), "invalid digit"));
/// ```
#[derive(Debug, Clone, PartialEq, Eq)]
#[non_exhaustive]
pub struct TableFault {
    /// The row, from 0. A header isn't a row.
    pub row: usize,
    /// The column, from 0: as many cells of the row are good.
    pub column: usize,
    /// What is wrong. A fault of the table or of a format has no place: then the line and both places of the row are 0,
    /// and there is no cell.
    pub error: Error,
    /// The line of the place, from 0: the number of line feeds before it.
    pub line: usize,
    /// The place where the row starts.
    pub row_start: usize,
    /// The place after the row and its line end.
    pub row_stop: usize,
    is_record: bool,
    cell: Option<Cell>,
    hint: Option<Hint>,
    #[cfg(feature = "std")]
    name: Option<Box<str>>,
}

/// What a message adds about a row.
#[derive(Debug, Copy, Clone, PartialEq, Eq)]
enum Hint {
    /// It is only a line end.
    LineEnd,
    /// It has `size` bytes before its line end, and needs `width` by the widths of its cells.
    Short { size: usize, width: usize },
}

impl Hint {
    /// What may be said of a row, with its line end, that has the error.
    fn of(error: Error, row: &[u8], dialect: &Dialect<'_>) -> Option<Hint> {
        let takes_return = (dialect.0.has_returns | dialect.0.allows_returns) != 0;
        let (is_record, width) = (dialect.0.is_records != 0, RowEnds::width(dialect));
        let is_short = matches!(error, Error::TooFewCells(_)) && !dialect.widths().is_empty();
        match row {
            b"\n" | b"\r\n" if is_record && row.len() < width => Some(Hint::LineEnd),
            b"\n" if !is_record => Some(Hint::LineEnd),
            b"\r\n" if !is_record && takes_return => Some(Hint::LineEnd),
            _ if is_short => {
                Some(Hint::Short { size: size_without_end(row, takes_return, dialect), width })
            }
            _ => None,
        }
    }
}

/// How many bytes a row has before its line end. A record has none.
fn size_without_end(row: &[u8], takes_return: bool, dialect: &Dialect<'_>) -> usize {
    match RowEnds::new(dialect).stop_in(row) {
        Some(stop) if dialect.0.is_records == 0 => {
            let line = &row[..stop - 1];
            line.strip_suffix(b"\r").filter(|_| takes_return).unwrap_or(line).len()
        }
        _ => row.len(),
    }
}

/// A wrong cell: its text, and the place of the fault in it.
#[derive(Debug, Clone, PartialEq, Eq)]
struct Cell {
    text: Excerpt,
    place: usize,
}

impl Cell {
    /// The cell of the column in a row that has the error, if the place in the row is in it.
    fn of(error: &TableError, row: &[u8], place: usize, dialect: &Dialect<'_>) -> Option<Cell> {
        if matches!(error.error, Error::TooFewCells(_) | Error::MissingReturn(_)) {
            return None;
        }
        let mut found = [CellPlace::default()];
        if put_cells(row, dialect, error.column, &mut found) <= error.column {
            return None;
        }
        let text = cell_of(row, found[0]);
        let place = place.checked_sub(found[0].start).filter(|place| *place <= text.len())?;
        Some(Cell { text: Excerpt::of(text), place })
    }
}

impl TableFault {
    /// That of an error in the first row of some bytes, which start at a place of the text, after `lines` line feeds.
    pub(crate) fn in_first_row(
        error: TableError,
        start: usize,
        rows: &[u8],
        lines: usize,
        dialect: &Dialect<'_>,
    ) -> TableFault {
        let Some(place) = error.error.place() else { return TableFault::without_place(error) };
        let (row, at) = (RowEnds::first_row(rows, dialect), place.saturating_sub(start));
        TableFault {
            line: lines + Position::of(row, at).line,
            row_start: start,
            row_stop: start + row.len(),
            is_record: dialect.0.is_records != 0,
            cell: Cell::of(&error, row, at, dialect),
            hint: Hint::of(error.error, row, dialect),
            ..TableFault::without_place(error)
        }
    }

    /// That of an error of the table or of a format.
    fn without_place(error: TableError) -> TableFault {
        TableFault {
            row: error.row,
            column: error.column,
            error: error.error,
            line: 0,
            row_start: 0,
            row_stop: 0,
            is_record: false,
            cell: None,
            hint: None,
            #[cfg(feature = "std")]
            name: None,
        }
    }

    /// That of an error in a row that starts at a place of a text.
    pub(crate) fn in_text(
        error: TableError,
        start: usize,
        text: &[u8],
        dialect: &Dialect<'_>,
    ) -> TableFault {
        let rows = text.get(start..).unwrap_or(&[]);
        TableFault::in_first_row(error, start, rows, Position::of(text, start).line, dialect)
    }

    /// The place of a fault of the text, and `None` for a fault of a format or of the table.
    pub fn place(&self) -> Option<usize> {
        self.error.place()
    }

    /// The cell as it is in the text, with quotes and blanks, cut at 40 bytes. There is none if a row has too few cells
    /// or lacks its carriage return.
    pub fn text(&self) -> Option<&[u8]> {
        self.cell.as_ref().map(|cell| cell.text.as_bytes())
    }

    /// The line of the row as an editor shows it, or its number if rows aren't lines.
    fn put_row(&self, f: &mut fmt::Formatter<'_>) -> fmt::Result {
        match self.is_record {
            true => write!(f, "row {}", self.row.saturating_add(1)),
            false => write!(f, "line {}", self.line.saturating_add(1)),
        }
    }

    /// The column by its name, or by its number.
    fn put_column(&self, f: &mut fmt::Formatter<'_>) -> fmt::Result {
        #[cfg(feature = "std")]
        if let Some(name) = &self.name {
            return crate::header::put_name(f, name);
        }
        write!(f, "column {}", self.column.saturating_add(1))
    }

    /// The column with its wrong cell, and what is wrong there.
    fn put_cell(&self, f: &mut fmt::Formatter<'_>, cell: &Cell) -> fmt::Result {
        f.write_str(", ")?;
        self.put_column(f)?;
        f.write_str(": ")?;
        cell.text.put_quoted(f)?;
        write!(f, ": {}", self.error.message())?;
        match self.error {
            Error::TooManyCells(_) => Ok(()),
            _ => write!(f, " at byte {} of the cell", cell.place),
        }
    }

    /// What is wrong with a row of which no cell is known that is wrong.
    fn put_without_cell(&self, f: &mut fmt::Formatter<'_>) -> fmt::Result {
        write!(f, ": {}", self.error.message())?;
        match self.error {
            Error::TooFewCells(_) => f.write_str(", none for ").and_then(|()| self.put_column(f)),
            _ => Ok(()),
        }
    }

    /// What may have to be done about an empty row, and how much there is of one that ends before its widths do.
    fn put_hint(&self, f: &mut fmt::Formatter<'_>) -> fmt::Result {
        match self.hint {
            None => Ok(()),
            Some(Hint::LineEnd) if self.is_record => {
                f.write_str("; the row is only a line end, and records have none")
            }
            Some(Hint::LineEnd) => {
                f.write_str("; the row is empty: skips_empty_rows may have to be set")
            }
            Some(Hint::Short { size, width }) => {
                let more = match self.is_record {
                    true => "",
                    false => ": pad it if its last blanks were trimmed",
                };
                write!(f, "; the row has {size} of the {width} bytes of its widths{more}")
            }
        }
    }

    /// A fault of the table, or of the format of a column.
    fn put_without_place(&self, f: &mut fmt::Formatter<'_>) -> fmt::Result {
        if self.error != Error::InvalidTable {
            self.put_column(f)?;
            f.write_str(": ")?;
        }
        f.write_str(self.error.message())
    }
}

#[cfg(feature = "std")]
impl TableFault {
    /// This fault with the name of its column.
    pub(crate) fn named(self, name: Option<impl Into<String>>) -> TableFault {
        TableFault { name: name.map(|name| name.into().into_boxed_str()), ..self }
    }

    /// This fault of a part of a text, as one of the whole text, which has `rows` rows, `lines` line feeds and `bytes`
    /// bytes before the part.
    pub(crate) fn behind(self, rows: usize, lines: usize, bytes: usize) -> TableFault {
        if self.place().is_none() {
            return self;
        }
        TableFault {
            row: self.row.saturating_add(rows),
            error: self.error.moved(bytes),
            line: self.line.saturating_add(lines),
            row_start: self.row_start.saturating_add(bytes),
            row_stop: self.row_stop.saturating_add(bytes),
            ..self
        }
    }

    /// The name of the column, if a header with it was read.
    pub fn name(&self) -> Option<&str> {
        self.name.as_deref()
    }
}

impl fmt::Display for TableFault {
    /// The fault as a message, with lines and columns from 1:
    /// `line 5, "amount": "12,5x": invalid digit at byte 4 of the cell`. For records it has the number of the row.
    fn fmt(&self, f: &mut fmt::Formatter<'_>) -> fmt::Result {
        if self.place().is_none() {
            return self.put_without_place(f);
        }
        self.put_row(f)?;
        match &self.cell {
            Some(cell) => self.put_cell(f, cell)?,
            None => self.put_without_cell(f)?,
        }
        self.put_hint(f)
    }
}

impl core::error::Error for TableFault {}
