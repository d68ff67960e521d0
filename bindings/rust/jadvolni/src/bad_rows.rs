//! Bad rows: where one is, and tables whose bad rows are skipped.

use crate::table_column::call_on_rows;
use crate::{Dialect, Error, TableColumn, TableError, TableFault};
use core::fmt;
use core::ops::Range;
use jadvolni_sys as sys;

/// A bad row: its number, its first fault, and where the row is.
///
/// Displayed, it is the message of a [`TableError`]. [`BadRow::in_text`] also finds its line and its cell.
#[derive(Copy, Clone, PartialEq, Eq)]
#[repr(transparent)]
pub struct BadRow(sys::jadvolni_bad_row);

impl BadRow {
    /// The value of an element of a slice before a call has written to it.
    pub const NONE: BadRow = BadRow(sys::jadvolni_bad_row {
        status: 0,
        reserved: [0; 20],
        row: 0,
        column: 0,
        place: 0,
        start: 0,
        stop: 0,
    });

    /// The number of the row among all, good and bad, from 0.
    pub fn row(&self) -> usize {
        self.0.row
    }

    /// The column of the fault, from 0: as many cells of the row are good.
    pub fn column(&self) -> usize {
        self.0.column
    }

    /// What is wrong, with its place in the text. For [`BadRow::NONE`] it is [`Error::Unknown`].
    pub fn error(&self) -> Error {
        let outcome = sys::jadvolni_result { status: self.0.status, place: self.0.place };
        Error::of(outcome).unwrap_or(Error::Unknown(0))
    }

    /// The place where the row starts.
    pub fn start(&self) -> usize {
        self.0.start
    }

    /// The place after the row, its line end, and the empty rows after it that are skipped.
    pub fn stop(&self) -> usize {
        self.0.stop
    }

    /// This row of a part of a text, as one of the whole text, which has `rows` rows and `bytes` bytes before the part.
    pub fn behind(mut self, rows: usize, bytes: usize) -> BadRow {
        self.0.row = self.0.row.saturating_add(rows);
        for place in [&mut self.0.place, &mut self.0.start, &mut self.0.stop] {
            *place = place.saturating_add(bytes);
        }
        self
    }

    /// The fault with its line and its cell. `text` is the one in which its places count.
    pub fn in_text(&self, text: impl AsRef<[u8]>, dialect: &Dialect<'_>) -> TableFault {
        TableFault::in_text(TableError::from(*self), self.start(), text.as_ref(), dialect)
    }
}

impl Default for BadRow {
    fn default() -> BadRow {
        BadRow::NONE
    }
}

impl From<BadRow> for TableError {
    fn from(bad: BadRow) -> TableError {
        TableError { row: bad.row(), column: bad.column(), error: bad.error() }
    }
}

impl fmt::Debug for BadRow {
    fn fmt(&self, f: &mut fmt::Formatter<'_>) -> fmt::Result {
        let mut shown = f.debug_struct("BadRow");
        shown.field("row", &self.row()).field("column", &self.column());
        shown.field("error", &self.error()).field("start", &self.start());
        shown.field("stop", &self.stop()).finish()
    }
}

impl fmt::Display for BadRow {
    fn fmt(&self, f: &mut fmt::Formatter<'_>) -> fmt::Result {
        TableError::from(*self).fmt(f)
    }
}

/// How far a table was read, if bad rows were skipped.
#[derive(Debug, Copy, Clone, PartialEq, Eq)]
pub struct Skipping<'b> {
    /// How many good rows were read.
    pub rows: usize,
    /// How many bad rows were skipped, including those that had no room.
    pub bad_rows: usize,
    /// The bad rows, in order, as long as there was room.
    pub bad: &'b [BadRow],
    /// Where reading stopped: the text's end, or the start of the row after the last good one that had room.
    pub stop: usize,
}

/// Reads the rows of a text, but skips the bad ones and counts them. They are described in a slice, as long as it has
/// room.
///
/// All good rows are stored, and no others, without gaps. If the dialect has quotes, a stray one takes the lines up to
/// the next stray one, or to the end of the text, into its row: if that is bad, they are all skipped, as one row. A bad
/// row is read up to its fault, into the elements of the next good one: so if there is room after the last row, the
/// element there, and its bit, may have changed in each slice. The error is a fault of the table or of a column.
///
/// ```
/// use jadvolni::{parse_table_skipping, BadRow, Dialect, Error, TableColumn};
/// let (mut days, mut cents, mut bad) = ([0u16; 9], [0i64; 9], [BadRow::NONE; 9]);
/// let ledger = Dialect::separated_by(b';');
/// let mut columns = [TableColumn::of(&mut days), TableColumn::UNREAD, TableColumn::of(&mut cents)];
/// let text = "365;rent;-80000\n366;x\n367;;7\n";
/// let read = parse_table_skipping(text, &ledger, &mut columns, &mut bad)?;
/// assert_eq!((read.rows, read.bad_rows, read.stop), (2, 1, text.len()));
/// let [row] = read.bad else { panic!() };
/// assert_eq!((row.row(), row.column(), row.error()), (1, 2, Error::TooFewCells(21)));
/// assert_eq!(&text[row.start()..row.stop()], "366;x\n");
/// assert_eq!(row.in_text(text, &ledger).to_string(), "line 2: too few cells, none for column 3");
/// assert_eq!(days[..2], [365, 367]);
/// assert_eq!(cents[..2], [-80000, 7]);
/// # Ok::<(), jadvolni::TableError>(())
/// ```
pub fn parse_table_skipping<'b>(
    text: impl AsRef<[u8]>,
    dialect: &Dialect<'_>,
    columns: &mut [TableColumn<'_>],
    bad: &'b mut [BadRow],
) -> Result<Skipping<'b>, TableError> {
    parse_table_part_skipping(text, true, dialect, columns, bad)
}

/// Reads the rows of a part of a text, such as a block of a file, but skips the bad ones and counts them: the whole
/// rows, or all if it is the last part.
///
/// Put the bytes from `stop` on in front of the next part. Rows and places count from the start of the part;
/// [`BadRow::behind`] makes them those of the text.
pub fn parse_table_part_skipping<'b>(
    text: impl AsRef<[u8]>,
    is_last: bool,
    dialect: &Dialect<'_>,
    columns: &mut [TableColumn<'_>],
    bad: &'b mut [BadRow],
) -> Result<Skipping<'b>, TableError> {
    let text = text.as_ref();
    // SAFETY: as of `parse_table_part`, and `bad` is a slice that is this call's alone, of the library's structs.
    let answer = unsafe {
        let (first, room) = (bad.as_mut_ptr().cast(), bad.len());
        call_on_rows!(jadvolni_parse_table_skipping(text, is_last, dialect, columns, first, room))
    };
    match Error::of(sys::jadvolni_result { status: answer.status, place: answer.place }) {
        None => Ok(Skipping {
            rows: answer.rows,
            bad_rows: answer.bad_rows,
            bad: &bad[..answer.bad_rows.min(bad.len())],
            stop: answer.place,
        }),
        Some(error) => Err(TableError { row: answer.rows, column: answer.column, error }),
    }
}

/// Where the row with a number, from 0, is, with its line end and the empty rows after it that are skipped.
///
/// If the text has no such row, the range is empty, at the text's end. A quote that is never closed extends to the end,
/// and so does its row. It takes the time to scan the text up to the row. The error is a fault of the table.
///
/// ```
/// use jadvolni::{row_place, Dialect};
/// let (text, comma) = ("1,2\nx,4\n5,6", Dialect::separated_by(b','));
/// assert_eq!(&text[row_place(text, &comma, 1)?], "x,4\n");
/// assert!(row_place(text, &comma, 3)?.is_empty());
/// # Ok::<(), jadvolni::Error>(())
/// ```
pub fn row_place(
    text: impl AsRef<[u8]>,
    dialect: &Dialect<'_>,
    row: usize,
) -> Result<Range<usize>, Error> {
    let text = text.as_ref();
    // SAFETY: the pointers are those of a slice with its length, and of a borrowed dialect.
    let answer =
        unsafe { sys::jadvolni_row_place(text.as_ptr().cast(), text.len(), &dialect.0, row) };
    match Error::of(sys::jadvolni_result { status: answer.status, place: 0 }) {
        None => Ok(answer.start..answer.stop),
        Some(error) => Err(error),
    }
}
