//! Columns of any size from a reader, with the feature `std`.

extern crate std;

use crate::block::{grow, read_once, Block};
use crate::format::ByteShown;
use crate::{field_start, parse_column_with_format, ColumnError, ColumnInteger, Format};
use core::any::type_name;
use core::fmt;
use std::io::{self, Read};
use std::vec::Vec;

/// Why a reader gives no further number. Fields and places count from where reading began.
#[derive(Debug)]
#[non_exhaustive]
pub enum ReadError {
    /// A read failed. All numbers before it were given, and the next call continues there.
    Io(io::Error),
    /// A field isn't a number of the type, or the format is invalid. No number follows.
    Column(ColumnError),
    /// The field that starts at this place has more bytes than a block. No number follows.
    LongField(usize),
}

impl fmt::Display for ReadError {
    fn fmt(&self, f: &mut fmt::Formatter<'_>) -> fmt::Result {
        match self {
            ReadError::Io(error) => error.fmt(f),
            ReadError::Column(error) => error.fmt(f),
            ReadError::LongField(start) => {
                write!(f, "the field at byte {start} has more bytes than a block")
            }
        }
    }
}

impl core::error::Error for ReadError {
    /// Why a read failed. An error that is shown in the message isn't a source too: it would be shown twice.
    fn source(&self) -> Option<&(dyn core::error::Error + 'static)> {
        match self {
            ReadError::Io(error) => error.source(),
            ReadError::Column(_) | ReadError::LongField(_) => None,
        }
    }
}

/// The numbers of a reader's fields, in turn, with a separator between two fields; one at the end starts no further
/// field. It holds one block of the text and its numbers, however long the text is.
///
/// An interrupted read is tried again. After a fault of a field no number follows. A reader that gives single bytes
/// costs no more than one that gives blocks, except for its calls.
///
/// ```
/// use jadvolni::{ColumnError, ColumnReader, Error, Format, ReadError};
/// let mut numbers = ColumnReader::<_, u8>::new(&b"12\n7\n256\n"[..], b'\n', Format::STANDARD);
/// assert_eq!((numbers.next().unwrap().unwrap(), numbers.next().unwrap().unwrap()), (12, 7));
/// let Some(Err(ReadError::Column(fault))) = numbers.next() else { panic!() };
/// assert_eq!(fault, ColumnError::InvalidField { field: 2, start: 5, error: Error::Overflow(7) });
/// assert!(numbers.next().is_none());
/// ```
pub struct ColumnReader<R, T> {
    reader: R,
    separator: u8,
    format: Format,
    /// Bytes that were read, of which the first `filled` aren't parsed.
    block: Block,
    filled: usize,
    /// The place of the block's first byte, and how many fields stand before it.
    start: usize,
    field: usize,
    /// Numbers that were parsed, of which those from `given` to before `count` are still to be given.
    numbers: Vec<T>,
    given: usize,
    count: usize,
    /// The error to report behind them.
    fault: Option<ReadError>,
    has_ended: bool,
}

impl<R: Read, T: ColumnInteger> ColumnReader<R, T> {
    /// A reader of fields, in blocks of 64 KiB.
    pub fn new(reader: R, separator: u8, format: Format) -> Self {
        Self::with_capacity(1 << 16, reader, separator, format)
    }

    /// A reader of fields of at most `size` bytes, and at least one, in blocks of that size.
    ///
    /// A block of more than 1 MiB is only allocated if a field needs it. If there is no memory for it, that is
    /// [`ReadError::Io`].
    pub fn with_capacity(size: usize, reader: R, separator: u8, format: Format) -> Self {
        ColumnReader {
            reader,
            separator,
            format,
            block: Block::of(size),
            filled: 0,
            start: 0,
            field: 0,
            numbers: Vec::new(),
            given: 0,
            count: 0,
            fault: None,
            has_ended: false,
        }
    }

    /// Reads once, and parses the fields that are whole then. None is where no separator came, since those that are
    /// left have none.
    fn fill(&mut self) -> Result<(), ReadError> {
        if self.block.is_full(self.filled) {
            self.has_ended = true;
            return Err(ReadError::LongField(self.start));
        }
        let room = self.block.room(self.filled).map_err(ReadError::Io)?;
        // Where the format requires no digit, a separator alone is a number.
        let most = self.filled + room.len();
        grow(&mut self.numbers, most, T::number(T::Kept::default())).map_err(ReadError::Io)?;
        let count = read_once(&mut self.reader, room).map_err(ReadError::Io)?;
        self.has_ended = count == 0;
        let read = field_start(&room[..count], self.separator);
        let before = self.filled;
        self.filled += count;
        match (count, read) {
            (0, _) => self.parse(self.filled),
            (_, 0) => Ok(()),
            _ => self.parse(before + read),
        }
    }

    /// Parses the first `whole` bytes, which are whole fields, and keeps the others.
    fn parse(&mut self, whole: usize) -> Result<(), ReadError> {
        let text = &self.block[..whole];
        let read = parse_column_with_format(text, self.separator, &self.format, &mut self.numbers);
        self.given = 0;
        self.count = match read {
            Ok(column) => column.count,
            Err(ColumnError::InvalidField { field, start, error }) => {
                self.has_ended = true;
                self.fault = Some(ReadError::Column(ColumnError::InvalidField {
                    field: self.field + field,
                    start: self.start + start,
                    error: error.moved(self.start),
                }));
                field
            }
            Err(invalid) => {
                self.has_ended = true;
                return Err(ReadError::Column(invalid));
            }
        };
        self.field += self.count;
        self.start += whole;
        self.block.copy_within(whole..self.filled, 0);
        self.filled -= whole;
        Ok(())
    }
}

impl<R, T> fmt::Debug for ColumnReader<R, T> {
    /// The reader's type, how many bytes of the block are left, and how far it was parsed: neither what the reader has,
    /// which may be all of a text, nor what the block has.
    fn fmt(&self, f: &mut fmt::Formatter<'_>) -> fmt::Result {
        let mut shown = f.debug_struct("ColumnReader");
        shown.field("reader", &format_args!("{}", type_name::<R>()));
        shown.field("separator", &ByteShown(self.separator)).field("format", &self.format);
        shown.field("block", &format_args!("{}/{}", self.filled, self.block.len()));
        shown.field("field", &self.field);
        shown.field("start", &self.start).field("has_ended", &self.has_ended);
        shown.finish_non_exhaustive()
    }
}

impl<R: Read, T: ColumnInteger> Iterator for ColumnReader<R, T> {
    type Item = Result<T, ReadError>;

    fn next(&mut self) -> Option<Self::Item> {
        loop {
            if self.given < self.count {
                self.given += 1;
                return Some(Ok(self.numbers[self.given - 1]));
            }
            if let Some(fault) = self.fault.take() {
                return Some(Err(fault));
            }
            if self.has_ended {
                return None;
            }
            if let Err(fault) = self.fill() {
                return Some(Err(fault));
            }
        }
    }
}
