//! Why a reader gives no further row of a table, with the feature `std`.

extern crate std;

use crate::{HeaderError, TableError, TableFault};
use core::fmt;
use std::boxed::Box;
use std::io;

/// Why a reader gives no further row. Rows and places count from where reading began.
#[derive(Debug)]
#[non_exhaustive]
pub enum TableReadError {
    /// A read failed. The rows before it were given, and the next call continues there.
    Io(io::Error),
    /// A cell is wrong, or a column can't be read. No row follows. Numbers before the wrong cell that weren't given yet
    /// are in the slices: those of `rows` rows and of a part of one.
    #[non_exhaustive]
    Table {
        /// How many rows of the slices were filled by the call.
        rows: usize,
        /// What is wrong, and where.
        error: TableError,
        /// What is wrong, with its line, row and cell in the text, and with the column's name, if the header was read.
        fault: Box<TableFault>,
    },
    /// The row that starts at this place has more bytes than a block. No row follows.
    LongRow(usize),
    /// A row has more bytes than a block, and a quote in it isn't closed. No row follows.
    OpenQuote {
        /// The place where the row starts.
        row_start: usize,
        /// The place of the quote.
        quote: usize,
    },
    /// The first row isn't a header with the columns that were asked for.
    Header(HeaderError),
}

impl fmt::Display for TableReadError {
    fn fmt(&self, f: &mut fmt::Formatter<'_>) -> fmt::Result {
        match self {
            TableReadError::Io(error) => error.fmt(f),
            TableReadError::Table { fault, .. } => fault.fmt(f),
            TableReadError::LongRow(start) => {
                write!(f, "the row at byte {start} has more bytes than a block")
            }
            TableReadError::OpenQuote { row_start, quote } => write!(
                f,
                "the quote at byte {quote} isn't closed, and its row, which starts at byte \
                {row_start}, has more bytes than a block"
            ),
            TableReadError::Header(error) => error.fmt(f),
        }
    }
}

impl core::error::Error for TableReadError {
    /// Why a read failed, as for [`crate::ReadError`].
    fn source(&self) -> Option<&(dyn core::error::Error + 'static)> {
        match self {
            TableReadError::Io(error) => error.source(),
            _ => None,
        }
    }
}
