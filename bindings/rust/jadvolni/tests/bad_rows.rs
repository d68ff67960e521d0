//! Rows at fault: where they are, tables without them, and the same from readers of any kind.
#![cfg(feature = "std")]

#[allow(dead_code)]
#[path = "../examples/bad_rows.rs"]
mod program;

use jadvolni::{
    parse_table, parse_table_part_skipping, parse_table_skipping, row_place, BadRow, Columns,
    Dialect, Error, Format, Skipping, TableColumn, TableError, TableFault, TableReadError,
    TableReader,
};
use std::io::ErrorKind;

mod device;
use device::{device, Device};

fn comma() -> Dialect<'static> {
    Dialect::separated_by(b',')
}

/// The numbers of the first of two columns, and the rows that are bad.
fn skipping(text: impl AsRef<[u8]>, dialect: &Dialect<'_>) -> (Vec<u16>, Vec<BadRow>) {
    let text = text.as_ref();
    let (mut numbers, mut bad) = ([9; 64], [BadRow::NONE; 64]);
    let mut columns = [TableColumn::of(&mut numbers), TableColumn::UNREAD];
    let read = parse_table_skipping(text, dialect, &mut columns, &mut bad).unwrap();
    let Skipping { rows, bad_rows, bad, stop } = read;
    assert_eq!((bad.len(), stop), (bad_rows, text.len()));
    (numbers[..rows].to_vec(), bad.to_vec())
}

/// A bad row by what is known of it.
fn known(bad: &BadRow) -> (usize, usize, Error, usize, usize) {
    (bad.row(), bad.column(), bad.error(), bad.start(), bad.stop())
}

#[test]
fn where_rows_are() {
    let quotes = comma().has_quotes(true);
    let skips = comma().has_returns(true).skips_empty_rows(true);
    let at = |text: &str, dialect: &Dialect<'_>, row| row_place(text, dialect, row).unwrap();
    assert_eq!(at("1,2\nx,4\n5,6", &comma(), 0), 0..4);
    assert_eq!(at("1,2\nx,4\n5,6", &comma(), 2), 8..11);
    assert_eq!(at("1,2\nx,4\n5,6", &comma(), 3), 11..11);
    assert_eq!(at("1,2\n", &comma(), usize::MAX), 4..4);
    assert_eq!(at("", &comma(), 0), 0..0);
    assert_eq!(at("\r\nx,2\r\n\r\n\r\n3,4", &skips, 0), 2..11);
    assert_eq!(at("1,2\n3,\"4\n5,6\n", &quotes, 1), 4..13);
    let widths = [1, 2];
    let records = Dialect::of_widths(&widths).is_records(true);
    assert_eq!(at("12345", &records, 1), 3..5);
    assert_eq!(row_place("1\n2", &comma().is_records(true), 1), Err(Error::InvalidTable));
}

#[test]
fn the_first_a_middle_and_the_last_row() {
    let (rows, bad) = skipping("x,a\n1,b\n2\n3,c\n4,d,e", &comma());
    assert_eq!(rows, [1, 3]);
    let known: Vec<_> = bad.iter().map(known).collect();
    let first = (0, 0, Error::InvalidDigit(0), 0, 4);
    let middle = (2, 1, Error::TooFewCells(9), 8, 10);
    assert_eq!(known, [first, middle, (4, 2, Error::TooManyCells(18), 14, 19)]);
    assert_eq!(bad[1].to_string(), "too few cells at byte 9, in row 3, column 2");
    let shown = "BadRow { row: 2, column: 1, error: TooFewCells(9), start: 8, stop: 10 }";
    assert_eq!(format!("{:?}", bad[1]), shown);
    assert_eq!(TableError::from(bad[1]).behind(10, 100), bad[1].behind(10, 100).into());
    // Of a text that isn't its own it reports what that has, and no call panics.
    let far = bad[1].behind(usize::MAX, usize::MAX).in_text("1,2\n", &comma());
    assert_eq!(far.to_string(), "line 2: too few cells, none for column 2");
    assert_eq!((far.row, far.row_start, far.row_stop), (usize::MAX, usize::MAX, usize::MAX));
}

#[test]
fn hostile_texts() {
    let none = (vec![], vec![]);
    assert_eq!(skipping("", &comma()), none);
    assert_eq!(skipping("\n\n\n", &comma().skips_empty_rows(true)), none);
    let (rows, bad) = skipping(b"1\x00,a\n2,\x00\n\x00", &comma());
    assert_eq!((rows, bad.len()), (vec![2], 2));
    assert_eq!(known(&bad[0]), (0, 0, Error::InvalidDigit(1), 0, 5));
    assert_eq!(known(&bad[1]), (2, 0, Error::InvalidDigit(9), 9, 10));
    // All are bad, and one has nothing but its line feed.
    let (rows, bad) = skipping("x\n\n,\n70000,\n", &comma());
    assert_eq!((rows.len(), bad.len()), (0, 4));
    let faults = [Error::InvalidDigit(0), Error::Empty(2), Error::Empty(3), Error::Overflow(9)];
    assert_eq!([0, 1, 2, 3].map(|row| bad[row].error()), faults);
    // A quote that nothing closes takes the rest with it.
    let (rows, bad) = skipping("1,a\n2,\"b\n3,c\n", &comma().has_quotes(true));
    assert_eq!((rows, bad.len()), (vec![1], 1));
    assert_eq!(known(&bad[0]), (1, 1, Error::MisplacedQuote(6), 4, 13));
    let (rows, bad) = skipping("1,a\r\n2,b\n3,c\r\n", &comma().has_returns(true));
    assert_eq!((rows, known(&bad[0])), (vec![1, 3], (1, 2, Error::MissingReturn(8), 5, 9)));
    let widths = [2, 1];
    let (rows, bad) = skipping("12axyb34c5", &Dialect::of_widths(&widths).is_records(true));
    assert_eq!((rows, bad.len()), (vec![12, 34], 2));
    assert_eq!(known(&bad[1]), (3, 0, Error::TooFewCells(10), 9, 10));
}

#[test]
fn room_for_few_rows_or_none() {
    let (mut numbers, mut bits, mut bad) = ([9u8; 3], [0], [BadRow::default(); 2]);
    let columns = &mut [TableColumn::of(&mut numbers).with_bits(&mut bits), TableColumn::UNREAD];
    let text = "x,\n1,\ny,\n,\nz,\n2,\n3,\n";
    let read = parse_table_skipping(text, &comma(), columns, &mut []);
    assert_eq!(read, Ok(Skipping { rows: 3, bad_rows: 3, bad: &[], stop: 17 }));
    let read = parse_table_skipping(text, &comma(), columns, &mut bad).unwrap();
    assert_eq!((read.bad_rows, read.bad.len(), read.bad[1].row()), (3, 2, 2));
    // What is behind the last right row is left for the next call.
    let next = parse_table_skipping(&text[17..], &comma(), columns, &mut bad).unwrap();
    assert_eq!((next.rows, next.bad_rows, next.stop), (1, 0, 3));
    let part = parse_table_part_skipping("x,\n7,\ny", false, &comma(), columns, &mut bad).unwrap();
    assert_eq!((part.rows, part.bad_rows, part.stop), (1, 1, 6));
    assert_eq!((numbers, bits), ([7, 0, 2], [0b101]));
    let mut empty: [u8; 0] = [];
    let columns = &mut [TableColumn::of(&mut empty), TableColumn::UNREAD];
    let read = parse_table_skipping(text, &comma(), columns, &mut bad).unwrap();
    assert_eq!((read.rows, read.bad_rows, read.stop), (0, 0, 0));
    assert_eq!(BadRow::NONE.error(), Error::Unknown(0));
}

#[test]
fn a_table_or_a_column_that_is_wrong() {
    let (mut numbers, mut bad) = ([9u8; 3], [BadRow::NONE; 2]);
    let invalid = Format::STANDARD.mantissa_radix(1);
    let columns = &mut [TableColumn::UNREAD, TableColumn::with_format(&mut numbers, &invalid)];
    let told = parse_table_skipping("x,x", &comma(), columns, &mut bad).unwrap_err();
    assert_eq!(told, TableError { row: 0, column: 1, error: Error::InvalidMantissaRadix });
    let told = parse_table_skipping("x", &comma().is_records(true), columns, &mut bad).unwrap_err();
    assert_eq!(told.error, Error::InvalidTable);
    let mut reader = TableReader::new(&b"x,x"[..], comma());
    let told = reader.read_skipping(columns, |_| panic!("no row is bad")).unwrap_err();
    assert_eq!(told.to_string(), "column 2: the radix has to be 2 to 36");
    let after = reader.read_skipping(columns, |_| panic!("no row is bad"));
    assert_eq!((after.unwrap(), reader.bad_rows()), (0, 0));
    assert_eq!((bad, numbers), ([BadRow::NONE; 2], [9; 3]));
}

#[test]
fn by_a_header() {
    let text = "\u{FEFF}id,cents\n1,5\nx,6\n2,7\n3\n";
    let (mut cents, mut ids, mut bad) = ([9i64; 9], [9u8; 9], [BadRow::NONE; 9]);
    let wanted = [("cents", TableColumn::of(&mut cents)), ("id", TableColumn::of(&mut ids))];
    let mut columns = Columns::by_header(text, &comma(), wanted).unwrap();
    let read = columns.read_skipping(text, &comma(), &mut bad).unwrap();
    assert_eq!((read.rows, read.bad_rows, read.stop), (2, 2, text.len()));
    assert_eq!(known(&read.bad[0]), (1, 0, Error::InvalidDigit(16), 16, 20));
    let told = [0, 1].map(|row| columns.header().fault(read.bad[row], text, &comma()).to_string());
    assert_eq!(told[0], r#"line 3, "id": "x": invalid digit at byte 0 of the cell"#);
    assert_eq!(told[1], r#"line 5: too few cells, none for "cents""#);
    assert!(columns.read_skipping("", &comma(), &mut bad).unwrap().bad.is_empty());
    assert_eq!((cents[..2].to_vec(), ids[..2].to_vec()), (vec![5, 7], vec![1, 2]));
}

// ---- readers

/// The numbers of a device's first column, the faults, and how often reading failed; or what ended it.
fn by_reader(
    device: Device<'_>,
    dialect: Dialect<'_>,
    size: usize,
    room: usize,
) -> (Vec<u16>, Vec<TableFault>, usize, Option<TableReadError>) {
    let (mut rows, mut faults, mut failures) = (vec![], vec![], 0);
    let mut reader = TableReader::with_capacity(size, device, dialect);
    let end = loop {
        let mut numbers = vec![9; room];
        let mut columns = [TableColumn::of(&mut numbers), TableColumn::UNREAD];
        match reader.read_skipping(&mut columns, |fault| faults.push(fault)) {
            Ok(0) => break None,
            Ok(count) => rows.extend_from_slice(&numbers[..count]),
            Err(TableReadError::Io(_)) => failures += 1,
            Err(error) => break Some(error),
        }
        assert_eq!(reader.bad_rows(), faults.len());
    };
    (rows, faults, failures, end)
}

const HOSTILE: [&str; 8] = [
    "",
    "x",
    "1,a\n22,b\n",
    "x,a\n22,b\n\nz,c\n3,d",
    "x\ny\nz\n",
    "\n\n\n",
    "1,a\r\n\0,b\n22\n3,c,d\n4,e",
    "70000,\n-1,\n1,\n",
];

#[test]
fn readers_of_any_steps_tell_the_rows_and_places_of_the_whole() {
    for text in HOSTILE {
        let (rows, bad) = skipping(text, &comma());
        let faults: Vec<_> = bad.iter().map(|bad| bad.in_text(text, &comma())).collect();
        for (size, most, room) in (7..12).flat_map(|size| {
            (1..9).flat_map(move |most| (1..4).map(move |room| (size, most, room)))
        }) {
            let failures = [most % 3, 2 * most, 5 * most].map(|at| (at, ErrorKind::TimedOut));
            let failing = device(text.as_bytes(), most, failures);
            let (read, told, failed, end) = by_reader(failing, comma(), size, room);
            assert_eq!((&read, &told), (&rows, &faults), "{text:?} by {most} of {size}");
            assert!(end.is_none() && failed <= 3);
            let whole = device(text.as_bytes(), most, None);
            let (read, told, failed, _) = by_reader(whole, comma(), size, room);
            assert_eq!((&read, &told, failed), (&rows, &faults, 0), "{text:?} by {most} of {size}");
        }
    }
}

/// More bad rows than a block was ever seen to have, and rows that no block holds.
#[test]
fn many_bad_rows_and_long_ones() {
    let text = "x\n".repeat(5000) + "7,a\n" + &"y,b\n".repeat(3000);
    let device = |text| device(text, usize::MAX, None);
    let (rows, faults, _, end) = by_reader(device(text.as_bytes()), comma(), 1 << 16, 4);
    assert!(rows == [7] && faults.len() == 8000 && end.is_none());
    assert!(faults.iter().enumerate().all(|(index, fault)| {
        let row = if index < 5000 { index } else { index + 1 };
        fault.row == row && fault.line == row
    }));
    let (rows, faults, _, end) = by_reader(device(b"x\n1,a\n2,bbbbbbbbbb\n"), comma(), 8, 4);
    assert_eq!((rows, faults.len()), (vec![1], 1));
    assert!(matches!(end, Some(TableReadError::LongRow(6))));
    let quotes = comma().has_quotes(true);
    let (rows, faults, _, end) = by_reader(device(b"x\n1,a\n2,\"\nx\nx\nx\nx\n"), quotes, 8, 4);
    assert_eq!((rows, faults.len()), (vec![1], 1));
    assert!(matches!(end, Some(TableReadError::OpenQuote { row_start: 6, quote: 8 })));
}

#[test]
fn both_ways_to_read_go_on_from_each_other() {
    let text = &b"id,what\nx,a\n1,b\n2,c\ny,d\n3,e\nz,f\n"[..];
    let mut reader = TableReader::new(text, comma());
    reader.header().unwrap();
    let (mut one, mut told) = ([0u16; 1], vec![]);
    let mut columns = [TableColumn::of(&mut one), TableColumn::UNREAD];
    assert_eq!(reader.read_skipping(&mut columns, |fault| told.push(fault)).unwrap(), 1);
    assert_eq!(reader.read(&mut columns).unwrap(), 1);
    assert_eq!(reader.read_skipping(&mut columns, |fault| told.push(fault)).unwrap(), 1);
    let error = reader.read(&mut columns).unwrap_err();
    assert_eq!(error.to_string(), r#"line 7, "id": "z": invalid digit at byte 0 of the cell"#);
    let TableReadError::Table { rows, error, fault, .. } = error else { panic!("{error}") };
    assert_eq!(error, TableError { row: 5, column: 0, error: Error::InvalidDigit(28) });
    assert_eq!((rows, fault.row, fault.row_start, fault.row_stop), (0, 5, 28, 32));
    assert_eq!((one, reader.bad_rows()), ([3], 2));
    let rows: Vec<_> = told.iter().map(|fault| (fault.row, fault.line, fault.row_start)).collect();
    assert_eq!(rows, [(0, 1, 8), (3, 4, 20)]);
}

#[test]
fn the_program() {
    let run = |name: &str, input: &[u8]| {
        let (mut said, mut told) = (vec![], vec![]);
        let ended = program::run(name, input, &mut said, &mut told).map_err(|it| it.to_string());
        ended.map(|bad_rows| (bad_rows, String::from_utf8([told, said].concat()).unwrap()))
    };
    assert_eq!(run("b", b"a,b\n1,2\n,-5"), Ok((0, "-3\n".into())));
    let text = b"\xEF\xBB\xBFa,\"b\"\n1,2\n\"x\ny\",7x\nc\n1,3\n";
    let told = "line 4, \"b\": \"7x\": invalid digit at byte 1 of the cell\n\
        line 5: too few cells, none for \"b\"\nbad rows: 2\n5\n";
    assert_eq!(run("b", text), Ok((2, told.into())));
    let (_, many) = run("a", &[&b"a\n"[..], &b"x\n".repeat(20)].concat()).unwrap();
    assert!(many.lines().count() == 12 && many.ends_with("\nbad rows: 20\n0\n"), "{many}");
    assert_eq!(run("c", b"a,b\n"), Err(r#"no column "c": the header has "a", "b""#.into()));
    assert_eq!(run("c", b""), Err("the table has no header".into()));
    let full = std::fs::File::create("/dev/full").unwrap();
    let told = program::run("b", &b"b\n"[..], full, vec![]).unwrap_err().to_string();
    assert_eq!(told, "standard output: No space left on device (os error 28)");
    let folder = std::fs::File::open("/").unwrap();
    let told = program::run("b", folder, vec![], vec![]).unwrap_err().to_string();
    assert_eq!(told, "standard input: Is a directory (os error 21)");
}

// ---- random tables

/// Draws numbers.
struct Random(u64);

impl Random {
    fn below(&mut self, end: usize) -> usize {
        self.0 = self.0.wrapping_mul(6364136223846793005).wrapping_add(1442695040888963407);
        (self.0 >> 33) as usize % end
    }
}

/// A row is skipped where it is no table by itself, and each fault is that of the table that begins with it.
#[test]
fn random_tables_row_by_row_and_in_blocks() {
    let pieces = ["1", "7", "300", "x", ",", ",", ",", "\n", "\n", "\"", "\"", "\"\"", "\r\n", " "];
    let (mut random, mut bad_ones, mut no_rooms) = (Random(2), 0, 0);
    for _ in 0..20_000 {
        let text: String =
            (0..random.below(24)).map(|_| pieces[random.below(pieces.len())]).collect();
        let flags = random.below(16);
        let how = comma().has_returns(flags & 1 != 0).has_quotes(flags & 2 != 0);
        let how = how.allows_blanks(flags & 4 != 0).skips_empty_rows(flags & 8 != 0);
        let (rows, bad) = skipping(&text, &how);
        let mut by_row = (vec![], vec![]);
        for row in 0.. {
            let place = row_place(&text, &how, row).unwrap();
            if place.is_empty() {
                break;
            }
            let mut one = [9; 2];
            let columns = &mut [TableColumn::of(&mut one), TableColumn::UNREAD];
            match parse_table(&text[place.clone()], &how, columns) {
                Ok(_) => by_row.0.push(one[0]),
                Err(error) => {
                    let TableError { column, error, .. } = error.behind(row, place.start);
                    by_row.1.push((row, column, error, place.start, place.end));
                }
            }
        }
        bad_ones += bad.len();
        assert_eq!((&rows, bad.iter().map(known).collect()), (&by_row.0, by_row.1), "{text:?}");
        let faults: Vec<_> = bad.iter().map(|bad| bad.in_text(&text, &how)).collect();
        let (size, most) = (1 + random.below(30), 1 + random.below(7));
        let failing = device(text.as_bytes(), most, [(flags, ErrorKind::TimedOut)]);
        let (read, told, _, end) = by_reader(failing, how, size, 2);
        no_rooms += usize::from(end.is_some());
        assert!(
            rows.starts_with(&read) && faults.starts_with(&told),
            "{text:?} by {most} of {size}"
        );
        assert!(end.is_some() || (read == rows && told == faults), "{text:?} by {most} of {size}");
    }
    assert!(bad_ones > 20_000 && no_rooms > 300, "{bad_ones}, {no_rooms}");
}
