//! Tables of any size from a reader, with the feature `std`.

extern crate std;

use crate::block::{grow, read_once, Block};
use crate::header::{is_skipped, BYTE_ORDER_MARK};
use crate::row_ends::RowEnds;
use crate::table_column::capacity;
use crate::{
    parse_table_part, parse_table_part_skipping, BadRow, Dialect, Header, TableColumn, TableError,
    TableFault, TableReadError,
};
use core::any::type_name;
use core::fmt;
use std::boxed::Box;
use std::io::Read;
use std::vec::Vec;

/// The rows of a reader's table. It holds one block of the text, however long that is.
///
/// An interrupted read is tried again. After a wrong cell no row follows. A reader that gives single bytes costs no
/// more than one that gives blocks, except for its calls.
///
/// ```
/// use jadvolni::{Dialect, TableColumn, TableReader};
/// let mut rows = TableReader::new(&b"1,a\n2,b\n3,c\n"[..], Dialect::separated_by(b','));
/// let (mut numbers, mut sum) = ([0u32; 2], 0);
/// loop {
///     let count = rows.read(&mut [TableColumn::of(&mut numbers), TableColumn::UNREAD]).unwrap();
///     if count == 0 {
///         break;
///     }
///     sum += numbers[..count].iter().sum::<u32>();
/// }
/// assert_eq!(sum, 6);
/// ```
pub struct TableReader<'a, R> {
    reader: R,
    dialect: Dialect<'a>,
    /// Bytes that were read, of which those from `parsed` to before `filled` aren't parsed.
    block: Block,
    parsed: usize,
    filled: usize,
    /// Where the last call has begun to parse.
    first: usize,
    /// How many bytes were left when they last had no whole row, and what finds a row's end in more.
    tried: usize,
    ends: RowEnds,
    /// The place of the block's first byte, and how many rows were given or skipped, bad ones too.
    start: usize,
    row: usize,
    bad_rows: usize,
    /// How many line feeds stand before the bytes that are left.
    lines: usize,
    /// The names of the columns, where they were asked for.
    header: Option<Header>,
    /// Room for the bad rows of a block.
    bad: Vec<BadRow>,
    /// Whether the reader has no byte more, and whether no row follows.
    is_last: bool,
    has_ended: bool,
}

impl<'a, R: Read> TableReader<'a, R> {
    /// A reader of rows, in blocks of 64 KiB.
    pub fn new(reader: R, dialect: Dialect<'a>) -> Self {
        Self::with_capacity(1 << 16, reader, dialect)
    }

    /// A reader of rows of at most `size` bytes, and at least one, in blocks of that size.
    ///
    /// A block of more than 1 MiB is only allocated if a row needs it. If there is no memory for it, that is
    /// [`TableReadError::Io`].
    pub fn with_capacity(size: usize, reader: R, dialect: Dialect<'a>) -> Self {
        TableReader {
            reader,
            dialect,
            block: Block::of(size),
            parsed: 0,
            filled: 0,
            first: 0,
            tried: 0,
            ends: RowEnds::new(&dialect),
            start: 0,
            row: 0,
            bad_rows: 0,
            lines: 0,
            header: None,
            bad: Vec::new(),
            is_last: false,
            has_ended: false,
        }
    }

    /// Reads the first row as the names of the columns. It isn't a row of the table; call this before the other calls.
    ///
    /// ```
    /// use jadvolni::{Dialect, TableColumn, TableReader};
    /// let text = &b"\"what\",cents,id\nrent,-80000,1\n"[..];
    /// let mut rows = TableReader::new(text, Dialect::separated_by(b',').has_quotes(true));
    /// let header = rows.header()?;
    /// let (mut ids, mut cents) = ([0u32; 9], [0i64; 9]);
    /// let wanted = [("id", TableColumn::of(&mut ids)), ("cents", TableColumn::of(&mut cents))];
    /// assert_eq!(rows.read(&mut header.columns(wanted)?)?, 1);
    /// assert_eq!((ids[0], cents[0]), (1, -80000));
    /// # Ok::<(), Box<dyn std::error::Error>>(())
    /// ```
    pub fn header(&mut self) -> Result<Header, TableReadError> {
        while self.filled < BYTE_ORDER_MARK.len()
            && !self.is_last
            && !self.block.is_full(self.filled)
        {
            self.fill()?;
        }
        if self.start + self.parsed == 0 && self.block[..self.filled].starts_with(BYTE_ORDER_MARK) {
            self.pass(BYTE_ORDER_MARK.len());
        }
        loop {
            let row = &self.block[self.parsed..self.filled];
            let stop = self.ends.stop_in(row).or(self.is_last.then_some(row.len()));
            match stop {
                None => self.fill()?,
                Some(stop) if stop > 0 && is_skipped(&row[..stop], &self.dialect) => {
                    self.pass(stop)
                }
                Some(stop) => {
                    let header = Header::of_row(&row[..stop], &self.dialect)
                        .map_err(|error| error.behind(self.start + self.parsed));
                    self.pass(stop);
                    self.header = header.as_ref().ok().cloned();
                    return header.map_err(TableReadError::Header);
                }
            }
        }
    }

    /// Reads rows into the columns' slices, from their beginning, and returns how many: 0 at the table's end.
    ///
    /// These are as many as the slices have room for or a block holds, and at least one if there is room. The places of
    /// texts count within [`TableReader::block`].
    pub fn read(&mut self, columns: &mut [TableColumn<'_>]) -> Result<usize, TableReadError> {
        while !self.has_ended && capacity(columns) > 0 {
            if !self.may_have_row() {
                self.fill()?;
                continue;
            }
            self.first = self.parsed;
            let text = &self.block[self.parsed..self.filled];
            match parse_table_part(text, self.is_last, &self.dialect, columns) {
                Ok(table) => {
                    // Empty rows that are skipped are read, and no row.
                    self.pass(table.stop);
                    self.row += table.rows;
                    if table.rows > 0 {
                        return Ok(table.rows);
                    }
                    self.fill_or_end()?;
                }
                Err(error) => return Err(self.failed(error)),
            }
        }
        Ok(0)
    }

    /// Reads rows as [`TableReader::read`] does, but skips the bad ones, and reports each of them.
    ///
    /// The good rows are stored without gaps. [`TableReader::bad_rows`] counts the others.
    ///
    /// ```
    /// use jadvolni::{Dialect, TableColumn, TableReader};
    /// let mut rows = TableReader::new(&b"id,cents\n1,5\nx,6\n3,7\n4\n"[..], Dialect::separated_by(b','));
    /// let header = rows.header()?;
    /// let (mut cents, mut faults) = ([0i64; 9], vec![]);
    /// let (mut sum, most) = (0, 1);
    /// loop {
    ///     let mut columns = header.columns([("cents", TableColumn::of(&mut cents))])?;
    ///     let count = rows.read_skipping(&mut columns, |fault| {
    ///         if faults.len() < most {
    ///             faults.push(fault);
    ///         }
    ///     })?;
    ///     if count == 0 {
    ///         break;
    ///     }
    ///     sum += cents[..count].iter().sum::<i64>();
    /// }
    /// assert_eq!((sum, rows.bad_rows()), (18, 1));
    /// assert_eq!(faults[0].to_string(), r#"line 5: too few cells, none for "cents""#);
    /// # Ok::<(), Box<dyn std::error::Error>>(())
    /// ```
    pub fn read_skipping(
        &mut self,
        columns: &mut [TableColumn<'_>],
        mut tell: impl FnMut(TableFault),
    ) -> Result<usize, TableReadError> {
        while !self.has_ended && capacity(columns) > 0 {
            if !self.may_have_row() {
                self.fill()?;
                continue;
            }
            let rows = self.parse_skipping(columns, &mut tell)?;
            if rows > 0 {
                return Ok(rows);
            }
            self.fill_or_end()?;
        }
        Ok(0)
    }

    /// The bytes from which the last call has read its rows. The places of their texts count from its start: use them
    /// before the next call.
    ///
    /// ```
    /// use jadvolni::{CellText, Dialect, TableColumn, TableReader};
    /// let mut rows = TableReader::with_capacity(9, &b"1,rent\n2,food\n"[..], Dialect::separated_by(b','));
    /// let (mut purposes, mut texts) = ([CellText::NONE; 9], vec![]);
    /// loop {
    ///     let mut columns = [TableColumn::UNREAD, TableColumn::of_texts(&mut purposes)];
    ///     let count = rows.read(&mut columns)?;
    ///     if count == 0 {
    ///         break;
    ///     }
    ///     texts.extend(purposes[..count].iter().map(|purpose| purpose.of(rows.block()).to_vec()));
    /// }
    /// assert_eq!(texts, [b"rent", b"food"]);
    /// # Ok::<(), jadvolni::TableReadError>(())
    /// ```
    pub fn block(&self) -> &[u8] {
        &self.block[self.first..self.filled]
    }

    /// How many bad rows were skipped.
    pub fn bad_rows(&self) -> usize {
        self.bad_rows
    }

    /// Parses the bytes that are left, reports the bad rows, and returns how many right ones there are.
    fn parse_skipping(
        &mut self,
        columns: &mut [TableColumn<'_>],
        tell: &mut impl FnMut(TableFault),
    ) -> Result<usize, TableReadError> {
        self.first = self.parsed;
        let text = &self.block[self.parsed..self.filled];
        let (is_last, dialect) = (self.is_last, &self.dialect);
        let (rows, bad_rows, stop) = loop {
            let read = parse_table_part_skipping(text, is_last, dialect, columns, &mut self.bad);
            match read.map(|read| (read.rows, read.bad_rows, read.stop)) {
                Ok(read) if read.1 <= self.bad.len() => break read,
                // Once there is room for all of them, the same call gives the same rows.
                Ok(read) => {
                    let room = read.1.max(self.bad.len().saturating_mul(2));
                    grow(&mut self.bad, room, BadRow::NONE).map_err(TableReadError::Io)?;
                }
                Err(error) => return Err(self.failed(error)),
            }
        };
        self.tell_bad_rows(bad_rows, tell);
        self.pass(stop);
        self.row += rows + bad_rows;
        self.bad_rows += bad_rows;
        Ok(rows)
    }

    /// Reports the bad rows found in the remaining bytes.
    fn tell_bad_rows(&self, count: usize, tell: &mut impl FnMut(TableFault)) {
        let text = &self.block[self.parsed..self.filled];
        let (mut lines, mut counted) = (0, 0);
        for bad in &self.bad[..count] {
            lines += line_feeds(&text[counted..bad.start()]);
            counted = bad.start();
            let row = &text[bad.start()..bad.stop()];
            let fault =
                TableFault::in_first_row((*bad).into(), bad.start(), row, lines, &self.dialect);
            tell(self.in_whole(fault));
        }
    }

    /// What is reported of an error in the bytes that are left, behind which no row follows.
    fn failed(&mut self, error: TableError) -> TableReadError {
        self.has_ended = true;
        let text = &self.block[self.parsed..self.filled];
        TableReadError::Table {
            rows: error.row,
            error: error.behind(self.row, self.start + self.parsed),
            fault: Box::new(self.in_whole(error.in_text(text, &self.dialect))),
        }
    }

    /// A fault of the bytes that are left as one of all that was read.
    fn in_whole(&self, fault: TableFault) -> TableFault {
        let name = self.header.as_ref().and_then(|header| header.name(fault.column));
        fault.behind(self.row, self.lines, self.start + self.parsed).named(name)
    }

    /// Whether the bytes that are left may have a whole row: one ends there, or they are twice as many as had none.
    fn may_have_row(&mut self) -> bool {
        let text = &self.block[self.parsed..self.filled];
        self.is_last || text.len() / 2 >= self.tried || self.ends.stop_in(text).is_some()
    }

    /// Passes the next bytes, which are whole rows.
    fn pass(&mut self, size: usize) {
        self.lines += line_feeds(&self.block[self.parsed..self.parsed + size]);
        self.parsed += size;
        if size > 0 {
            self.tried = 0;
            self.ends.begin();
        }
    }

    /// Reads once, behind the bytes that are left, which have no whole row. Where nothing follows them, that is the
    /// end.
    fn fill_or_end(&mut self) -> Result<(), TableReadError> {
        self.tried = self.filled - self.parsed;
        if self.is_last {
            self.has_ended = true;
            return Ok(());
        }
        self.fill()
    }

    /// Reads once, behind the bytes that are left.
    fn fill(&mut self) -> Result<(), TableReadError> {
        if self.parsed > 0 {
            self.block.copy_within(self.parsed..self.filled, 0);
        }
        self.start += self.parsed;
        self.filled -= self.parsed;
        self.parsed = 0;
        self.first = 0;
        if self.block.is_full(self.filled) {
            self.has_ended = true;
            return Err(self.long_row());
        }
        let room = self.block.room(self.filled).map_err(TableReadError::Io)?;
        let count = read_once(&mut self.reader, room).map_err(TableReadError::Io)?;
        self.is_last = count == 0;
        self.filled += count;
        Ok(())
    }

    /// The fault of a row that no block holds.
    fn long_row(&mut self) -> TableReadError {
        self.ends.stop_in(&self.block[..self.filled]);
        match self.ends.open_quote() {
            Some(place) => {
                TableReadError::OpenQuote { row_start: self.start, quote: self.start + place }
            }
            None => TableReadError::LongRow(self.start),
        }
    }
}

impl<R> fmt::Debug for TableReader<'_, R> {
    /// The reader's type, how many bytes of the block are left, and how far it was parsed: neither what the reader has,
    /// which may be all of a text, nor what the block has.
    fn fmt(&self, f: &mut fmt::Formatter<'_>) -> fmt::Result {
        let mut shown = f.debug_struct("TableReader");
        shown.field("reader", &format_args!("{}", type_name::<R>()));
        shown.field("dialect", &self.dialect);
        let left = self.filled - self.parsed;
        shown.field("block", &format_args!("{left}/{}", self.block.len()));
        shown.field("row", &self.row).field("bad_rows", &self.bad_rows);
        shown.field("start", &(self.start + self.parsed)).field("has_ended", &self.has_ended);
        shown.finish_non_exhaustive()
    }
}

/// How many line feeds a text has. They are summed up in bytes, as far as one has room, since so they are counted at
/// once.
fn line_feeds(text: &[u8]) -> usize {
    let in_part = |part: &[u8]| part.iter().map(|byte| u8::from(*byte == b'\n')).sum::<u8>();
    text.chunks(usize::from(u8::MAX)).map(|part| usize::from(in_part(part))).sum()
}
