//! Readers of single bytes, of rows and fields of megabytes, and of blocks that no machine has.
#![cfg(feature = "std")]

use jadvolni::{
    parse_table, ColumnReader, Dialect, Format, ReadError, TableColumn, TableReadError, TableReader,
};
use std::io::{self, ErrorKind, Read};

/// Gives a byte at a time, and in front of each one a failure, if it is asked for.
struct Bytes<'a> {
    text: &'a [u8],
    fails: bool,
    is_next_given: bool,
    calls: usize,
}

impl Read for &mut Bytes<'_> {
    fn read(&mut self, block: &mut [u8]) -> io::Result<usize> {
        self.calls += 1;
        self.is_next_given = !self.is_next_given;
        if self.fails && self.is_next_given {
            return Err(ErrorKind::WouldBlock.into());
        }
        self.text.read(&mut block[..1])
    }
}

fn bytes(text: &[u8], fails: bool) -> Bytes<'_> {
    Bytes { text, fails, is_next_given: false, calls: 0 }
}

const LONG: usize = 1 << 18;

/// What looked at a byte for each one that follows would need hours.
#[test]
fn rows_of_megabytes() {
    let quoted = Dialect::separated_by(b',').has_quotes(true);
    let widths = [LONG, 1];
    let records = Dialect::of_widths(&widths).is_records(true);
    let fill = |byte: u8| [&b"\""[..], &vec![byte; LONG], b"\",7\nx,8\n"].concat();
    let cases = [
        (fill(b'x'), quoted, vec![7, 8]),
        (fill(b'\n'), quoted, vec![7, 8]),
        (fill(b'"'), quoted, vec![7, 8]),
        ([&vec![b'x'; LONG][..], b",7\n"].concat(), Dialect::separated_by(b','), vec![7]),
        ([&vec![b'\n'; LONG][..], b"x,7"].concat(), quoted.skips_empty_rows(true), vec![7]),
        ([&vec![b'\n'; LONG][..], b"7"].concat(), records, vec![7]),
    ];
    for (text, dialect, wanted) in cases {
        for fails in [false, true] {
            let mut source = bytes(&text, fails);
            let mut reader = TableReader::with_capacity(usize::MAX, &mut source, dialect);
            let (mut numbers, mut all) = ([0u8; 4], vec![]);
            loop {
                match reader.read(&mut [TableColumn::UNREAD, TableColumn::of(&mut numbers)]) {
                    Ok(0) => break,
                    Ok(count) => all.extend_from_slice(&numbers[..count]),
                    Err(TableReadError::Io(error)) => {
                        assert_eq!(error.kind(), ErrorKind::WouldBlock)
                    }
                    Err(error) => panic!("{error}"),
                }
            }
            assert_eq!(all, wanted);
        }
    }
}

#[test]
fn fields_of_megabytes() {
    let text = [&vec![b'0'; LONG][..], b"7,8"].concat();
    for fails in [false, true] {
        let mut source = bytes(&text, fails);
        let reader: ColumnReader<_, u8> =
            ColumnReader::with_capacity(usize::MAX, &mut source, b',', Format::STANDARD);
        let numbers: Vec<u8> = reader.filter_map(Result::ok).collect();
        assert_eq!(numbers, [7, 8]);
    }
}

/// A row is given as soon as it ends: none waits for bytes that may be far away.
#[test]
fn a_row_is_given_at_once() {
    let text = b"a,1\n\"b\n\"\"\",2\ncccccccc,3\n";
    let mut source = bytes(text, false);
    let dialect = Dialect::separated_by(b',').has_quotes(true);
    let mut numbers = [0u8; 4];
    for (row, stop) in [(1, 4), (2, 13), (3, 24)] {
        let mut reader = TableReader::new(&mut source, dialect);
        let count = reader.read(&mut [TableColumn::UNREAD, TableColumn::of(&mut numbers)]).unwrap();
        assert_eq!((count, numbers[0], source.calls), (1, row, stop));
    }
}

#[test]
fn an_open_quote_is_told_by_its_place() {
    let quoted = Dialect::separated_by(b',').has_quotes(true);
    let told = |text: &'static str, size| {
        let mut reader = TableReader::with_capacity(size, text.as_bytes(), quoted);
        let (mut numbers, mut rows) = ([0u8; 4], 0);
        loop {
            match reader.read(&mut [TableColumn::UNREAD, TableColumn::of(&mut numbers)]) {
                Ok(0) => panic!("no fault of {text}"),
                Ok(count) => rows += count,
                Err(error) => break (rows, error.to_string()),
            }
        }
    };
    let text = "the quote at byte 4 isn't closed, and its row, which starts at byte 4, has more bytes than a block";
    assert_eq!(told("x,1\n\"abc,2\nd,3\ne,4\nf,5\n", 12), (1, text.into()));
    assert!(told("x,1\nabc,\"2\nd,3\ne,4\n", 12).1.starts_with("the quote at byte 8 isn't closed"));
    assert!(told("x,1\n\"\",\"\"\"a\"\"\nb\nccccccccccccccc", 12)
        .1
        .starts_with("the quote at byte 7 "));
    assert_eq!(
        told("\"a\"bcdefghijklm,1\n", 12).1,
        "the row at byte 0 has more bytes than a block"
    );
}

/// Gives bytes without an end.
struct Endless;

impl Read for Endless {
    fn read(&mut self, block: &mut [u8]) -> io::Result<usize> {
        block.fill(b'1');
        Ok(block.len())
    }
}

/// A block of any size may be asked for: what isn't needed isn't taken, and where there is no memory, that is reported.
#[test]
fn blocks_of_any_size() {
    for size in [usize::MAX, usize::MAX - 1, isize::MAX as usize, 1 << 46] {
        let mut numbers = [0u8; 4];
        let mut reader =
            TableReader::with_capacity(size, &b"1\n2"[..], Dialect::separated_by(b','));
        assert_eq!(reader.read(&mut [TableColumn::of(&mut numbers)]).unwrap(), 1);
        assert_eq!(reader.read(&mut [TableColumn::of(&mut numbers)]).unwrap(), 1);
        let column =
            ColumnReader::<_, u8>::with_capacity(size, &b"1,2"[..], b',', Format::STANDARD);
        assert_eq!(column.map(Result::unwrap).sum::<u8>(), 3);
    }
    let long = Dialect::separated_by(b',');
    let told = TableReader::with_capacity(3 << 20, Endless, long).read(&mut [TableColumn::UNREAD]);
    assert!(matches!(told, Err(TableReadError::LongRow(0))));
    let told =
        ColumnReader::<_, u8>::with_capacity(3 << 20, Endless, b',', Format::STANDARD).next();
    assert!(matches!(told, Some(Err(ReadError::LongField(0)))));
}

/// Draws numbers.
struct Random(u64);

impl Random {
    fn below(&mut self, end: usize) -> usize {
        self.0 = self.0.wrapping_mul(6364136223846793005).wrapping_add(1442695040888963407);
        (self.0 >> 33) as usize % end
    }
}

/// Gives a few bytes at a time, and fails now and then.
struct Moody<'a>(&'a [u8], Random);

impl Read for Moody<'_> {
    fn read(&mut self, block: &mut [u8]) -> io::Result<usize> {
        match self.1.below(4) {
            0 => Err(ErrorKind::WouldBlock.into()),
            _ => (&mut self.0).take(1 + self.1.below(7) as u64).read(block),
        }
    }
}

/// The numbers of a text's first column, and what ended them.
fn in_blocks(
    text: &[u8],
    how: Dialect<'_>,
    size: usize,
    seed: u64,
) -> (Vec<u16>, Option<TableReadError>) {
    let mut reader = TableReader::with_capacity(size, Moody(text, Random(seed)), how);
    let (mut numbers, mut all) = ([0; 2], vec![]);
    loop {
        match reader.read(&mut [TableColumn::of(&mut numbers), TableColumn::UNREAD]) {
            Ok(0) => return (all, None),
            Ok(count) => all.extend_from_slice(&numbers[..count]),
            Err(TableReadError::Io(_)) => {}
            Err(error) => {
                if let TableReadError::Table { rows, .. } = error {
                    all.extend_from_slice(&numbers[..rows]);
                }
                return (all, Some(error));
            }
        }
    }
}

#[test]
fn random_tables_are_read_in_blocks_as_whole() {
    let pieces = ["1", "7", "300", "x", ",", ",", ",", "\n", "\n", "\"", "\"", "\"\"", "\r\n", " "];
    let (mut random, mut ends) = (Random(1), [0; 4]);
    for _ in 0..30_000 {
        let text: String =
            (0..random.below(20)).map(|_| pieces[random.below(pieces.len())]).collect();
        let (flags, size, widths) =
            (random.below(64), 1 + random.below(24), [1 + random.below(3), random.below(3)]);
        let layout = match flags >> 4 {
            0 => Dialect::of_widths(&widths),
            1 => Dialect::of_widths(&widths).is_records(true),
            _ => Dialect::separated_by(if size == 24 { b'"' } else { b',' }),
        };
        let how = layout.has_returns(flags & 1 != 0).has_quotes(flags & 2 != 0);
        let how = how.allows_blanks(flags & 4 != 0).skips_empty_rows(flags & 8 != 0);
        let mut whole = [9; 32];
        let told =
            parse_table(&text, &how, &mut [TableColumn::of(&mut whole), TableColumn::UNREAD]);
        let (rows, end) = in_blocks(text.as_bytes(), how, size, random.0);
        assert!(whole.starts_with(&rows), "{text:?} by {size}");
        let is_as_whole = match (told, end) {
            (Ok(table), None) => (0, rows.len() == table.rows),
            (Err(fault), Some(TableReadError::Table { error, .. })) => (1, fault == error),
            (_, Some(TableReadError::LongRow(start))) => (2, text.len() - start >= size),
            (_, Some(TableReadError::OpenQuote { row_start, quote })) => {
                (3, text.len() - row_start >= size && text.as_bytes()[quote] == b'"')
            }
            _ => (0, false),
        };
        ends[is_as_whole.0] += 1;
        assert!(is_as_whole.1, "{text:?} by {size}");
    }
    assert!(ends.iter().all(|count| *count > 300), "{ends:?}");
}
