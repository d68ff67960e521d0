//! Tables from slices, and from readers that give little, fail, are interrupted, or end early.
#![cfg(feature = "std")]

use jadvolni::{
    parse_table, parse_table_part, CellText, ColumnReader, Dialect, Error, Fixed, Format,
    ReadError, Table, TableColumn, TableError, TableReadError, TableReader,
};
use std::io::ErrorKind;

mod device;
use device::{device, Device};

const HOSTILE: [&str; 8] = [
    "",
    "1,a\n",
    "1,a\n22,b",
    "1,a\n\n",
    "1,a\n22\n3,c",
    "1,a\n22,b,c\n",
    "1,a\nx,b\n",
    "70000,\n",
];

fn comma() -> Dialect<'static> {
    Dialect::separated_by(b',')
}

/// All rows of a device, by at most `most` a call, and what else it reported.
fn rows_of(
    device: Device<'_>,
    dialect: Dialect<'_>,
    size: usize,
    most: usize,
) -> (Vec<u16>, Vec<TableReadError>) {
    let (mut rows, mut told) = (vec![], vec![]);
    let mut reader = TableReader::with_capacity(size, device, dialect);
    loop {
        let mut numbers = vec![9; most];
        let count = reader.read(&mut [TableColumn::of(&mut numbers), TableColumn::UNREAD]);
        match count {
            Ok(0) => return (rows, told),
            Ok(count) => rows.extend_from_slice(&numbers[..count]),
            Err(error) => {
                if let TableReadError::Table { rows: count, .. } = error {
                    rows.extend_from_slice(&numbers[..count]);
                }
                told.push(error);
            }
        }
    }
}

#[test]
fn every_cut_gives_the_whole_table() {
    for text in HOSTILE {
        let mut numbers = [9u16; 8];
        let whole =
            parse_table(text, &comma(), &mut [TableColumn::of(&mut numbers), TableColumn::UNREAD]);
        for (size, most, room) in (7..12).flat_map(|size| {
            (1..9).flat_map(move |most| (1..4).map(move |room| (size, most, room)))
        }) {
            let device = device(text.as_bytes(), most, None);
            let (rows, told) = rows_of(device, comma(), size, room);
            assert!(numbers.starts_with(&rows), "{text} by {most} of {size}");
            match whole {
                Ok(table) => assert_eq!((rows.len(), told.len()), (table.rows, 0), "{text}"),
                Err(fault) => {
                    assert_eq!(rows.len(), fault.row, "{text}");
                    assert!(
                        matches!(told[..], [TableReadError::Table { error, .. }] if error == fault),
                        "{text} by {most} of {size}: {told:?} and not {fault:?}"
                    );
                }
            }
        }
    }
}

#[test]
fn a_failed_read_is_told_and_gone_on_from() {
    let text = b"1,a\n22,b\n3,c";
    for place in 0..=text.len() {
        let device = |kind| device(text, 5, Some((place, kind)));
        let (rows, told) = rows_of(device(ErrorKind::TimedOut), comma(), 9, 2);
        assert_eq!(rows, [1, 22, 3]);
        assert!(
            matches!(&told[..], [TableReadError::Io(error)] if error.kind() == ErrorKind::TimedOut)
        );
        let (rows, told) = rows_of(device(ErrorKind::Interrupted), comma(), 9, 2);
        assert_eq!((rows, told.len()), (vec![1, 22, 3], 0));
    }
}

#[test]
fn a_row_that_no_block_holds_is_told() {
    let (rows, told) = rows_of(device(b"1,a\n2,bbbbbbb\n", 99, None), comma(), 8, 4);
    assert_eq!(rows, [1]);
    assert!(matches!(told[..], [TableReadError::LongRow(4)]));
    assert_eq!(told[0].to_string(), "the row at byte 4 has more bytes than a block");
    let (rows, told) = rows_of(device(b"1,a\n2,bbbbbb", 99, None), comma(), 8, 4);
    assert_eq!((rows, told.len()), (vec![1, 2], 0));
}

#[test]
fn blocks_of_skipped_rows_alone() {
    for (size, most) in (3..9).flat_map(|size| (1..9).map(move |most| (size, most))) {
        let text = b"\n\n\n\n\n\n\n\n\n7,\n\n\n\n\n\n\n\n\nx,";
        let device = device(text, most, None);
        let (rows, told) = rows_of(device, comma().skips_empty_rows(true), size, 4);
        let wrong = TableError { row: 1, column: 0, error: Error::InvalidDigit(20) };
        assert_eq!(rows, [7]);
        assert!(matches!(told[..], [TableReadError::Table { error, .. }] if error == wrong));
    }
}

#[test]
fn quotes_blanks_empty_rows_and_bits() {
    let (mut numbers, mut bits) = ([9i32; 8], [0xAA]);
    let dialect =
        comma().has_quotes(true).allows_blanks(true).skips_empty_rows(true).missing(b"NA");
    let mut columns = [TableColumn::of(&mut numbers).with_bits(&mut bits), TableColumn::UNREAD];
    let read = parse_table("\" 1 \",\"a,\n\"\n\nNA,b\n-3,c\n", &dialect, &mut columns);
    assert_eq!(read, Ok(Table { rows: 3, stop: 23 }));
    let fault = TableError { row: 0, column: 1, error: Error::MisplacedQuote(3) };
    assert_eq!(parse_table("1,x\"y\n", &dialect, &mut columns), Err(fault));
    assert_eq!((&numbers[..4], bits), (&[1, 0, -3, 9][..], [0xAD]));
    let (mut twenty, mut few) = ([0u8; 20], [0u8; 1]);
    let mut columns = [TableColumn::of(&mut twenty).with_bits(&mut few)];
    assert_eq!(
        parse_table("1\n".repeat(9), &comma(), &mut columns),
        Ok(Table { rows: 8, stop: 16 })
    );
}

#[test]
fn room_formats_and_returns() {
    let mut bytes = [9u8; 2];
    let mut empty: [i64; 0] = [];
    let hexadecimal = Format::STANDARD.mantissa_radix(16);
    let mut columns = [TableColumn::with_format(&mut bytes, &hexadecimal), TableColumn::UNREAD];
    let dialect = comma().has_returns(true);
    let told = parse_table("fF,\r\n0,\r\n1,", &dialect, &mut columns);
    assert_eq!(told, Ok(Table { rows: 2, stop: 9 }));
    let lacks = TableError { row: 0, column: 2, error: Error::MissingReturn(2) };
    assert_eq!(parse_table("1,\n", &dialect, &mut columns), Err(lacks));
    assert_eq!(lacks.to_string(), "missing carriage return at byte 2, in row 1, column 3");
    assert_eq!(bytes, [1, 0]);
    let full = parse_table("x", &comma(), &mut [TableColumn::of(&mut empty)]);
    assert_eq!(full, Ok(Table { rows: 0, stop: 0 }));
    let unread = parse_table_part("a\nb\nc", false, &comma(), &mut [TableColumn::UNREAD]);
    assert_eq!(unread, Ok(Table { rows: 2, stop: 4 }));
    let mut number = [9u64];
    let invalid = Format::STANDARD.mantissa_radix(1);
    let told = parse_table("x", &comma(), &mut [TableColumn::with_format(&mut number, &invalid)]);
    let error = TableError { row: 0, column: 0, error: Error::InvalidMantissaRadix };
    assert_eq!(
        (told, error.to_string()),
        (Err(error), "the radix has to be 2 to 36, in column 1".into())
    );
}

#[test]
fn slices_without_room_get_no_row() {
    let mut reader = TableReader::with_capacity(4, &b"1,a\n2,b\n"[..], comma());
    let (mut none, mut one): ([u8; 0], [u8; 1]) = ([], [0]);
    for number in [1, 2] {
        let count = reader.read(&mut [TableColumn::of(&mut none), TableColumn::UNREAD]);
        assert_eq!(count.unwrap(), 0);
        let count = reader.read(&mut [TableColumn::of(&mut one), TableColumn::UNREAD]);
        assert_eq!((count.unwrap(), one), (1, [number]));
    }
}

#[test]
fn a_block_has_one_byte_at_least() {
    for text in ["", "7", "7,8\n"] {
        let device = || device(text.as_bytes(), 9, None);
        let by = |size| format!("{:?}", rows_of(device(), comma(), size, 4));
        assert_eq!(by(0), by(1), "{text}");
    }
}

#[test]
fn each_type_has_columns_and_the_shortest_says_how_many_rows() {
    macro_rules! two_of {
        ($($type:ident)*) => {$(
            let (mut long, mut short): ([$type; 3], [$type; 2]) = ([0; 3], [0; 2]);
            let mut columns = [TableColumn::of(&mut long), TableColumn::of(&mut short)];
            let read = parse_table("7,1\n8,2\n9,3\n", &comma(), &mut columns);
            assert_eq!(read, Ok(Table { rows: 2, stop: 8 }));
            assert_eq!((long, short), ([7, 8, 0], [1, 2]));
        )*};
    }
    two_of! { u8 u16 u32 u64 i8 i16 i32 i64 }
}

#[test]
fn cells_of_given_widths() {
    let mut numbers = [9u16; 3];
    let mut columns = [TableColumn::of(&mut numbers), TableColumn::UNREAD];
    let lines = Dialect::of_widths(&[2, 1]).allows_blanks(true);
    let records = lines.is_records(true);
    let wrong = |row, column, error| Err(TableError { row, column, error });
    let read = parse_table("12a\n 7,\n", &lines, &mut columns);
    assert_eq!(read, Ok(Table { rows: 2, stop: 8 }));
    let few = parse_table("12a\n 7\n", &lines, &mut columns);
    assert_eq!(few, wrong(1, 1, Error::TooFewCells(6)));
    let many = parse_table("12ab\n", &lines, &mut columns);
    assert_eq!(many, wrong(0, 2, Error::TooManyCells(3)));
    let read = parse_table("12a 8\n345", &records, &mut columns);
    assert_eq!(read, Ok(Table { rows: 3, stop: 9 }));
    let cut = parse_table("13a 7", &records, &mut columns);
    assert_eq!(cut, wrong(1, 1, Error::TooFewCells(5)));
    let part = parse_table_part("14a 7", false, &records, &mut columns);
    assert_eq!(part, Ok(Table { rows: 1, stop: 3 }));
    let huge = Dialect::of_widths(&[usize::MAX, 2]).is_records(true);
    let few = parse_table("15a", &huge, &mut columns);
    assert_eq!(few, wrong(0, 0, Error::TooFewCells(3)));
    let empty = parse_table("14\n", &Dialect::of_widths(&[2, 0]), &mut columns);
    assert_eq!(empty, Ok(Table { rows: 1, stop: 3 }));
    for dialect in [Dialect::of_widths(&[3]), comma().is_records(true)] {
        let told = parse_table("12a", &dialect, &mut columns);
        assert_eq!(told, wrong(0, 0, Error::InvalidTable));
    }
    assert_eq!(numbers, [14, 7, 34]);
}

#[test]
fn records_from_a_reader() {
    let records = Dialect::of_widths(&[2, 1]).allows_blanks(true).is_records(true);
    for (size, most, room) in (3..9)
        .flat_map(|size| (1..9).flat_map(move |most| (1..4).map(move |room| (size, most, room))))
    {
        let device = |text| device(text, most, None);
        let (rows, told) = rows_of(device(b"12a 7\n345"), records, size, room);
        assert_eq!((rows, told.len()), (vec![12, 7, 34], 0));
        let (rows, told) = rows_of(device(b"12a 7\n34"), records, size, room);
        let short = TableError { row: 2, column: 1, error: Error::TooFewCells(8) };
        assert_eq!(rows, [12, 7]);
        assert!(matches!(told[..], [TableReadError::Table { error, .. }] if error == short));
    }
    let (_, told) = rows_of(device(b"12a", 9, None), records, 1, 4);
    assert!(matches!(told[..], [TableReadError::LongRow(0)]));
}

#[test]
fn shown_for_debugging_formats_have_what_was_set() {
    let shown = |format: Format| format!("{format:?}");
    assert_eq!(shown(Format::STANDARD), "Format { mantissa_radix: 10 }");
    let hexadecimal = Format::STANDARD.mantissa_radix(16).base_prefix(Some(b'x'));
    let wanted = "Format { mantissa_radix: 16, base_prefix: b'x' }";
    assert_eq!(shown(hexadecimal.case_sensitive_base_prefix(false)), wanted);
    let grouped = Format::STANDARD.digit_separator(Some(b'\'')).base_suffix(Some(0));
    let wanted = "Format { mantissa_radix: 10, digit_separator: b'\\'', base_suffix: b'\\x00', \
        required_mantissa_digits: false, integer_internal_digit_separator: true }";
    let flags = grouped.required_mantissa_digits(false).integer_internal_digit_separator(true);
    assert_eq!(shown(flags), wanted);
    let amount = Fixed::of_places(2).point(b',').group_separator(Some(b'.'));
    let wanted = "Fixed { places: 2, point: b',', takes_fewer: false, integer: Format { mantissa_radix: 10, \
        digit_separator: b'.', integer_internal_digit_separator: true } }";
    assert_eq!(format!("{amount:?}"), wanted);
    assert!(format!("{:?}", amount.point(0)).contains("point: b'.'"));
    assert!(format!("{amount:#?}").contains("\n    point: b',',\n"));
}

#[test]
fn shown_for_debugging_readers_have_sizes_for_their_texts() {
    let text = "1,2\n".repeat(9);
    let mut rows = TableReader::with_capacity(9, text.as_bytes(), comma());
    let mut numbers = [0u8; 1];
    assert_eq!(rows.read(&mut [TableColumn::of(&mut numbers), TableColumn::UNREAD]).unwrap(), 1);
    let shown = format!("{rows:?}");
    assert!(shown.starts_with("TableReader { reader: &[u8], dialect: Dialect {"), "{shown}");
    assert!(
        shown.contains("block: 6/10, row: 1, bad_rows: 0, start: 4, has_ended: false"),
        "{shown}"
    );
    let mut column =
        ColumnReader::<_, u8>::with_capacity(9, text.as_bytes(), b'\n', Format::STANDARD);
    assert!(matches!(column.next(), Some(Err(ReadError::Column(_)))));
    let wanted =
        "ColumnReader { reader: &[u8], separator: b'\\n', format: Format { mantissa_radix: 10 }, \
        block: 2/10, field: 0, start: 8, has_ended: true, .. }";
    assert_eq!(format!("{column:?}"), wanted);
}

#[test]
fn shown_for_debugging_tables_have_no_addresses() {
    let (mut numbers, mut bits, mut cents) = ([0u8; 9], [0u8; 1], [0i64; 9]);
    let number = TableColumn::of(&mut numbers).with_bits(&mut bits);
    let (standard, amount) = (Format::STANDARD, Fixed::of_places(2).point(b','));
    let shown = "TableColumn { items: u8, room: 8, has_bits: true, format: ";
    assert_eq!(format!("{number:?}"), format!("{shown}{standard:?} }}"));
    let amount = format!("{:?}", TableColumn::of_fixed(&mut cents, &amount));
    assert!(amount.ends_with(", places: 2, point: b',', takes_fewer: false }"), "{amount}");
    let texts = format!("{:?}", TableColumn::of_texts(&mut [CellText::NONE; 3]));
    assert_eq!(texts, "TableColumn { items: text, room: 3, has_bits: false }");
    assert_eq!(format!("{:?}", TableColumn::UNREAD), "UNREAD");
    let dialect = Dialect::of_widths(&[3, 4]).missing(b"N\0").has_quotes(true);
    let shown = "Dialect { separator: b'\\x00', has_returns: false, allows_returns: false, has_quotes: true, \
        allows_blanks: false, skips_empty_rows: false, missing: b\"N\\x00\", widths: [3, 4], is_records: false }";
    assert_eq!(format!("{dialect:?}"), shown);
    assert!(format!("{:?}", comma()).ends_with("missing: b\"\", widths: [], is_records: false }"));
}
