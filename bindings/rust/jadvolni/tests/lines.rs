//! Columns as tables of one: lines with returns, blanks, missing numbers and amounts, and hostile ones.
use jadvolni::{
    parse_column_with_dialect, CellText, Column, ColumnError, Dialect, Error, Fixed, Format,
    TableColumn,
};

const AMOUNT: Fixed = Fixed::of_places(2).point(b',').group_separator(Some(b'.'));

/// What a column of `i16` answers, with what is then in a slice of three, where 77 was.
fn read(text: &[u8], dialect: &Dialect<'_>) -> (Result<Column, ColumnError>, [i16; 3]) {
    let mut values = [77; 3];
    (parse_column_with_dialect(text, dialect, TableColumn::of(&mut values)), values)
}

fn whole(count: usize, stop: usize) -> Result<Column, ColumnError> {
    Ok(Column { count, stop })
}

fn fault(field: usize, start: usize, error: Error) -> Result<Column, ColumnError> {
    Err(ColumnError::InvalidField { field, start, error })
}

#[test]
fn returns() {
    let (each, either) = (Dialect::LINES.has_returns(true), Dialect::LINES.allows_returns(true));
    assert_eq!(read(b"1\r\n-2\r\n", &each), (whole(2, 7), [1, -2, 77]));
    assert_eq!(read(b"1\r\n-2\n3\r\n", &either), (whole(3, 9), [1, -2, 3]));
    assert_eq!(read(b"1\r\n2\n", &each), (fault(1, 3, Error::MissingReturn(4)), [1, 2, 77]));
    assert_eq!(read(b"1\r\n2\r", &either), (fault(1, 3, Error::InvalidDigit(4)), [1, 77, 77]));
    assert_eq!(read(b"1\r\r\n", &either), (fault(0, 0, Error::InvalidDigit(1)), [77; 3]));
}

#[test]
fn blanks_and_missing_numbers() {
    let lines = Dialect::LINES.allows_blanks(true).missing(b"NA");
    assert_eq!(read(b" 1\n2\t \n", &lines), (whole(2, 7), [1, 2, 77]));
    assert_eq!(read(b"1\nNA\n", &lines), (fault(1, 2, Error::InvalidDigit(2)), [1, 77, 77]));
    let (mut values, mut bits) = ([77u8; 4], [0xFF]);
    let column = TableColumn::of(&mut values).with_bits(&mut bits);
    assert_eq!(parse_column_with_dialect("NA\n5\n NA\n", &lines, column), whole(3, 9));
    assert_eq!((values, bits), ([0, 5, 0, 77], [0b1111_1010]));
}

#[test]
fn amounts() {
    let mut cents = [77i64; 3];
    let column = TableColumn::of_fixed(&mut cents, &AMOUNT);
    let read = parse_column_with_dialect("-1.234,50\n7,00\n12,505", &Dialect::LINES, column);
    let wrong = ColumnError::InvalidField { field: 2, start: 15, error: Error::InvalidDigit(20) };
    assert_eq!((read, cents), (Err(wrong), [-123450, 700, 77]));
    assert_eq!(wrong.to_string(), "invalid digit at byte 20, in field 3");
}

#[test]
fn room_of_the_slice_and_of_the_bits() {
    let (mut values, mut bits) = ([77u8; 20], [0; 1]);
    let column = TableColumn::of(&mut values).with_bits(&mut bits);
    assert_eq!(parse_column_with_dialect([b'\n'; 20], &Dialect::LINES, column), whole(8, 8));
    assert_eq!((bits, values[7], values[8]), ([0], 0, 77));
    assert_eq!(read(b"1\n2\n3\nx", &Dialect::LINES), (whole(3, 6), [1, 2, 3]));
    let none = TableColumn::of::<u64>(&mut []);
    assert_eq!(parse_column_with_dialect("x", &Dialect::LINES, none), whole(0, 0));
    let unread = TableColumn::UNREAD;
    assert_eq!(parse_column_with_dialect("x\ny", &Dialect::LINES, unread), whole(2, 3));
}

#[test]
fn any_byte_but_a_line_feed_is_one_of_its_line() {
    for byte in (0..=255u8).filter(|it| !it.is_ascii_digit() && *it != b'\n') {
        let wrong = fault(1, 2, Error::InvalidDigit(3));
        assert_eq!(read(&[b'1', b'\n', b'2', byte, b'3'], &Dialect::LINES), (wrong, [1, 77, 77]));
    }
    let mut texts = [CellText::NONE; 2];
    let column = TableColumn::of_texts(&mut texts);
    assert_eq!(parse_column_with_dialect("a,\"\n b", &Dialect::LINES, column), whole(2, 6));
    assert_eq!(texts.map(|it| it.of("a,\"\n b")), [&b"a,\""[..], b" b"]);
}

#[test]
fn other_tables_of_one_column() {
    let comma = Dialect::separated_by(b',').has_quotes(true).skips_empty_rows(true);
    assert_eq!(read(b"\"1\"\n\n\n2\n", &comma), (whole(2, 8), [1, 2, 77]));
    assert_eq!(read(b"1\n\n2,3\n", &comma), (fault(1, 3, Error::TooManyCells(5)), [1, 2, 77]));
    let records = Dialect::of_widths(&[2]).is_records(true);
    assert_eq!(read(b"12345x", &records), (fault(2, 4, Error::InvalidDigit(5)), [12, 34, 77]));
}

#[test]
fn what_is_refused_is_told_before_the_text() {
    let refused = |error| Err(ColumnError::InvalidFormat(error));
    let two = Dialect::of_widths(&[1, 1]);
    assert_eq!(read(b"x", &two), (refused(Error::InvalidTable), [77; 3]));
    let mut values = [77u8; 3];
    let column = TableColumn::of_fixed(&mut values, &Fixed::of_places(39));
    let read = parse_column_with_dialect("x", &Dialect::LINES, column);
    assert_eq!(read, refused(Error::InvalidPlaces));
    let column = TableColumn::with_format(&mut values, &Format::STANDARD.mantissa_radix(1));
    let read = parse_column_with_dialect("", &Dialect::LINES, column);
    assert_eq!((read, values), (refused(Error::InvalidMantissaRadix), [77; 3]));
}
