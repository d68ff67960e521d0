//! Columns of amounts and of texts: where texts stand, quotes that are doubled, what is missing, and what is refused.

use jadvolni::{
    is_present, parse_table, parse_table_skipping, BadRow, CellText, Dialect, Error, Fixed, Format,
    Table, TableColumn, TableError, TableInteger,
};

const AMOUNT: Fixed = Fixed::of_places(2).point(b',').group_separator(Some(b'.'));

/// Three rows of a bank, of which the second ends in a line feed alone.
const EXPORT: &str = "1;\"Rent; \"\"May\"\"\";-1.234,50\r\n365;;7,00\n2;  5 nails ;0,05\r\n";

fn bank() -> Dialect<'static> {
    Dialect::separated_by(b';').has_quotes(true).allows_returns(true).allows_blanks(true)
}

/// Where a text starts and stops, and whether quotes are doubled in it.
fn told(text: &CellText) -> (usize, usize, bool) {
    (text.start(), text.stop(), text.has_doubled_quotes())
}

#[test]
fn a_text_stands_beside_an_integer_and_an_amount() {
    let (mut days, mut texts, mut cents) = ([0u16; 4], [CellText::NONE; 4], [0i64; 4]);
    let mut columns = [
        TableColumn::of(&mut days),
        TableColumn::of_texts(&mut texts),
        TableColumn::of_fixed(&mut cents, &AMOUNT),
    ];
    let read = parse_table(EXPORT, &bank(), &mut columns);
    assert_eq!(read, Ok(Table { rows: 3, stop: 58 }));
    assert_eq!((days, cents), ([1, 365, 2, 0], [-123450, 700, 5, 0]));
    let places = [(3, 16, true), (33, 33, false), (41, 51, false), (0, 0, false)];
    assert_eq!(texts.each_ref().map(told), places);
    let held = texts.map(|text| text.of(EXPORT));
    assert_eq!(held, [&b"Rent; \"\"May\"\""[..], b"", b"  5 nails ", b""]);
    let mut room = [0; 11];
    assert_eq!(texts[0].fold_into(EXPORT, &mut room), Some(&b"Rent; \"May\""[..]));
    assert_eq!(texts[2].fold_into(EXPORT, &mut []), Some(&b"  5 nails "[..]));
}

#[test]
fn each_type_has_amounts() {
    fn is<T: TableInteger + Default + PartialEq + std::fmt::Debug>(wanted: [T; 3]) {
        let (mut numbers, comma) = ([0; 3].map(|_: i32| T::default()), Dialect::separated_by(b','));
        let tenths = Fixed::of_places(1).takes_fewer(true);
        let read = parse_table(
            "12.7\n0\n.5\n",
            &comma,
            &mut [TableColumn::of_fixed(&mut numbers, &tenths)],
        );
        assert_eq!(read.unwrap_err().error, Error::InvalidDigit(7));
        let loose = tenths.integer(Format::STANDARD.required_mantissa_digits(false));
        let mut columns = [TableColumn::of_fixed(&mut numbers, &loose)];
        assert_eq!(parse_table("12.7\n0\n.5\n", &comma, &mut columns).unwrap().rows, 3);
        assert_eq!(numbers, wanted);
    }
    is::<u8>([127, 0, 5]);
    is::<i8>([127, 0, 5]);
    is::<u16>([127, 0, 5]);
    is::<i16>([127, 0, 5]);
    is::<u32>([127, 0, 5]);
    is::<i32>([127, 0, 5]);
    is::<u64>([127, 0, 5]);
    is::<i64>([127, 0, 5]);
}

#[test]
fn without_places_an_amount_is_an_integer() {
    let mut numbers = [0u8; 2];
    let whole = Fixed::of_places(0).point(b'-');
    let mut columns = [TableColumn::of_fixed(&mut numbers, &whole)];
    let comma = Dialect::separated_by(b',');
    assert_eq!(parse_table("7\n12", &comma, &mut columns), Ok(Table { rows: 2, stop: 4 }));
    let error = parse_table("1.0", &comma, &mut columns).unwrap_err().error;
    assert_eq!((error, numbers), (Error::InvalidDigit(1), [7, 12]));
}

#[test]
fn quotes_count_where_the_table_has_them() {
    let mut texts = [CellText::NONE; 3];
    let quoted = Dialect::separated_by(b',').has_quotes(true);
    let text = "\"a\"\"\"\"b\"\n\"\"\"\"\n\"\n\"\n";
    parse_table(text, &quoted, &mut [TableColumn::of_texts(&mut texts)]).unwrap();
    assert_eq!(texts.each_ref().map(told), [(1, 7, true), (10, 12, true), (15, 16, false)]);
    let mut room = [b'.'; 5];
    assert_eq!(texts[0].fold_into(text, &mut room[..3]), None);
    assert_eq!(&room, b".....");
    assert_eq!(texts[0].fold_into(text, &mut room), Some(&b"a\"\"b"[..]));
    assert_eq!(&room, b"a\"\"b.");
    assert_eq!(texts[1].fold_into(text, &mut room), Some(&b"\""[..]));
    assert_eq!(texts[2].of(text), b"\n");

    // Elsewhere a quote is a byte as any other.
    let plain = Dialect::separated_by(b',');
    let text = b"a\"\"b\n\xFF\x00\"\n\n";
    let read = parse_table(text, &plain, &mut [TableColumn::of_texts(&mut texts)]);
    assert_eq!(read, Ok(Table { rows: 3, stop: 10 }));
    assert_eq!(texts.each_ref().map(told), [(0, 4, false), (5, 8, false), (9, 9, false)]);
    assert_eq!(texts[0].fold_into(text, &mut []), Some(&b"a\"\"b"[..]));
    assert_eq!(texts[1].of(text), b"\xFF\x00\"");
}

#[test]
fn a_text_may_be_missing() {
    let text = "a;1\n;2\n\"\";3\nNA;4\n";
    let rows = |dialect: &Dialect<'_>| {
        let (mut texts, mut bits) = ([CellText::NONE; 4], [0xF0u8]);
        let mut columns =
            [TableColumn::of_texts(&mut texts).with_bits(&mut bits), TableColumn::UNREAD];
        assert_eq!(parse_table(text, dialect, &mut columns), Ok(Table { rows: 4, stop: 17 }));
        (texts.each_ref().map(told), [0, 1, 2, 3].map(|row| is_present(&bits, row)))
    };
    let quoted = Dialect::separated_by(b';').has_quotes(true);
    let [none, a, mark] = [(0, 0, false), (0, 1, false), (12, 14, false)];
    assert_eq!(rows(&quoted), ([a, none, none, mark], [true, false, false, true]));
    let [empty, within] = [(4, 4, false), (8, 8, false)];
    assert_eq!(rows(&quoted.missing(b"NA")), ([a, empty, within, none], [true, true, true, false]));
}

#[test]
fn as_many_rows_as_there_is_room_for() {
    let (mut texts, mut cents, mut bits) = ([CellText::NONE; 2], [0i64; 9], [0u8; 0]);
    let comma = Dialect::separated_by(b',');
    let text = "a,0.01\nb,0.02\nc,0.03\n";
    let cents_of = Fixed::of_places(2);
    let mut columns =
        [TableColumn::of_texts(&mut texts), TableColumn::of_fixed(&mut cents, &cents_of)];
    assert_eq!(parse_table(text, &comma, &mut columns), Ok(Table { rows: 2, stop: 14 }));
    assert_eq!((told(&texts[1]), cents[..3].iter().sum::<i64>()), ((7, 8, false), 3));
    let mut columns = [TableColumn::of_texts(&mut []), TableColumn::of(&mut cents)];
    assert_eq!(parse_table(text, &comma, &mut columns), Ok(Table { rows: 0, stop: 0 }));
    let mut columns = [TableColumn::of_texts(&mut texts).with_bits(&mut bits), TableColumn::UNREAD];
    assert_eq!(parse_table(text, &comma, &mut columns), Ok(Table { rows: 0, stop: 0 }));
}

#[test]
fn behind_a_fault_all_is_as_it_was() {
    let read = |text: &str, fixed: &Fixed| {
        let (mut texts, mut cents) = ([CellText::NONE; 3], [9i64; 3]);
        let mut columns =
            [TableColumn::of_texts(&mut texts), TableColumn::of_fixed(&mut cents, fixed)];
        let error = parse_table(text, &bank(), &mut columns).unwrap_err();
        let TableError { row, column, error } = error;
        (error, row, column, texts.map(|text| text.stop()), cents)
    };
    let digit = Error::InvalidDigit(14);
    assert_eq!(read("a;1,00\r\nbc;2,3x\n", &AMOUNT), (digit, 1, 1, [1, 10, 0], [100, 9, 9]));
    let few = Error::TooFewCells(9);
    assert_eq!(read("a;1,00\nbc\n", &AMOUNT), (few, 1, 1, [1, 9, 0], [100, 9, 9]));
    let quote = Error::MisplacedQuote(8);
    assert_eq!(read("a;1,00\nb\"c;2,00", &AMOUNT), (quote, 1, 0, [1, 0, 0], [100, 9, 9]));
    let open = Error::MisplacedQuote(0);
    assert_eq!(read("\"a\"\";1,00", &AMOUNT), (open, 0, 0, [0; 3], [9; 3]));
    let places = (Error::InvalidPlaces, 0, 1, [0; 3], [9; 3]);
    assert_eq!(read("a;1,00", &Fixed::of_places(39)), places);
    let point = (Error::InvalidPoint, 0, 1, [0; 3], [9; 3]);
    assert_eq!(read("a;1,00", &AMOUNT.point(b'.')), point);
}

#[test]
fn right_texts_stand_one_behind_another() {
    let (mut texts, mut cents, mut bad) = ([CellText::NONE; 9], [0i64; 9], [BadRow::NONE; 9]);
    let mut columns =
        [TableColumn::of_texts(&mut texts), TableColumn::of_fixed(&mut cents, &AMOUNT)];
    let text = "a;1,00\nb;2\n\"c\"\"\";3,00\r\n";
    let read = parse_table_skipping(text, &bank(), &mut columns, &mut bad).unwrap();
    assert_eq!((read.rows, read.bad_rows, read.bad[0].error()), (2, 1, Error::Empty(10)));
    assert_eq!([told(&texts[0]), told(&texts[1])], [(0, 1, false), (12, 15, true)]);
    assert_eq!(cents[..2], [100, 300]);
}

#[test]
fn a_text_of_other_bytes_has_none() {
    let mut texts = [CellText::default(); 1];
    parse_table(
        "ab,cd",
        &Dialect::separated_by(b','),
        &mut [TableColumn::UNREAD, TableColumn::of_texts(&mut texts)],
    )
    .unwrap();
    let [text] = texts;
    assert_eq!([text.of("ab,cd"), text.of("12345"), text.of("1234")], [&b"cd"[..], b"45", b""]);
    assert_eq!((text == CellText::NONE, CellText::NONE.of("ab")), (false, &b""[..]));
    assert_eq!(format!("{text:?}"), "CellText { start: 3, stop: 5, has_doubled_quotes: false }");
}

/// What needs memory, or reads from readers.
#[cfg(feature = "std")]
mod with_memory {
    use super::*;
    use jadvolni::{Columns, TableReadError, TableReader};
    use std::borrow::Cow;
    use std::io::{self, Read};

    #[test]
    fn memory_is_taken_where_quotes_are_doubled() {
        let mut texts = [CellText::NONE; 4];
        let mut columns =
            [TableColumn::UNREAD, TableColumn::of_texts(&mut texts), TableColumn::UNREAD];
        parse_table(EXPORT, &bank(), &mut columns).unwrap();
        let folded = texts.map(|text| text.folded(EXPORT));
        assert_eq!(
            folded.each_ref().map(|text| &text[..]),
            [&b"Rent; \"May\""[..], b"", b"  5 nails ", b""]
        );
        let is_owned = folded.map(|text| matches!(text, Cow::Owned(_)));
        assert_eq!(is_owned, [true, false, false, false]);
    }

    #[test]
    fn places_count_from_the_start_of_a_text_with_a_header() {
        let text = "\u{FEFF}what;cents\r\na;1,00\r\n;2,00\r\n\"b\"\"\";x\r\n";
        let (mut texts, mut cents, mut bits) = ([CellText::NONE; 4], [0i64; 4], [0u8]);
        let wanted = [
            ("cents", TableColumn::of_fixed(&mut cents, &AMOUNT)),
            ("what", TableColumn::of_texts(&mut texts).with_bits(&mut bits)),
        ];
        let mut columns = Columns::by_header(text, &bank(), wanted).unwrap();
        let error = columns.read(text, &bank()).unwrap_err();
        assert_eq!(error, TableError { row: 2, column: 1, error: Error::InvalidDigit(36) });
        // The text of the wrong row is there, and a missing one stays at place 0.
        let places = [(15, 16, false), (0, 0, false), (31, 34, true), (0, 0, false)];
        assert_eq!(texts.each_ref().map(told), places);
        assert_eq!([texts[0].of(text), texts[2].of(text)], [&b"a"[..], b"b\"\""]);
        assert_eq!((cents, bits), ([100, 200, 0, 0], [0b101]));
    }

    #[test]
    fn places_count_from_the_start_of_a_text_whose_bad_rows_are_skipped() {
        let text = "what;cents\n;1\na;x\nb;2\n";
        let (mut texts, mut cents, mut bad) = ([CellText::NONE; 4], [0u8; 4], [BadRow::NONE]);
        let wanted =
            [("what", TableColumn::of_texts(&mut texts)), ("cents", TableColumn::of(&mut cents))];
        let mut columns = Columns::by_header(text, &bank(), wanted).unwrap();
        let read = columns.read_skipping(text, &bank(), &mut bad).unwrap();
        assert_eq!((read.rows, read.bad_rows, read.stop), (2, 1, 22));
        // An empty text has a place, as none may be missing.
        assert_eq!([told(&texts[0]), told(&texts[1])], [(11, 11, false), (18, 19, false)]);
        assert_eq!(cents[..2], [1, 2]);
    }

    #[test]
    fn a_table_that_is_refused_leaves_texts_where_they_are() {
        let text = "what;cents\na;1\n";
        let (mut texts, mut cents) = ([CellText::NONE; 1], [0i64; 1]);
        let wanted = [
            ("what", TableColumn::of_texts(&mut texts)),
            ("cents", TableColumn::of_fixed(&mut cents, &Fixed::of_places(39))),
        ];
        let mut columns = Columns::by_header(text, &bank(), wanted).unwrap();
        let error = columns.read(text, &bank()).unwrap_err();
        assert_eq!(error, TableError { row: 0, column: 1, error: Error::InvalidPlaces });
        assert_eq!(texts, [CellText::NONE]);
    }

    /// Gives a fixed number of bytes at once.
    struct Steps<'a>(&'a [u8], usize);

    impl Read for Steps<'_> {
        fn read(&mut self, block: &mut [u8]) -> io::Result<usize> {
            let size = self.1.min(block.len());
            (&mut self.0).take(size as u64).read(block)
        }
    }

    const ROWS: &str = "what;cents\r\na;1,00\n\"b;\"\"\n\"\"\";2,00\r\n;x\nlong;3,00";

    /// The texts of the rows, by blocks of a size, and some rows a call, with one quote for each two.
    fn read_by(size: usize, most: usize, step: usize) -> Vec<(String, i64)> {
        let mut rows = TableReader::with_capacity(size, Steps(ROWS.as_bytes(), step), bank());
        let header = rows.header().unwrap();
        let (mut texts, mut cents) = (vec![CellText::NONE; most], vec![0; most]);
        let (mut all, mut faults) = (vec![], vec![]);
        loop {
            let wanted = [
                ("what", TableColumn::of_texts(&mut texts)),
                ("cents", TableColumn::of_fixed(&mut cents, &AMOUNT)),
            ];
            let mut columns = header.columns(wanted).unwrap();
            let count = rows.read_skipping(&mut columns, |fault| faults.push(fault.line)).unwrap();
            for (text, cents) in texts[..count].iter().zip(&cents) {
                let text = text.folded(rows.block());
                all.push((String::from_utf8_lossy(&text).into_owned(), *cents));
            }
            if count == 0 {
                assert_eq!(faults, [4]);
                return all;
            }
        }
    }

    #[test]
    fn texts_of_a_reader_stand_in_its_block() {
        let wanted = [("a", 100), ("b;\"\n\"", 200), ("long", 300)];
        for size in [17, 18, 20, 64] {
            for most in [1, 2, 9] {
                for step in [1, 3, 99] {
                    let read = read_by(size, most, step);
                    let told: Vec<_> =
                        read.iter().map(|(text, cents)| (&text[..], *cents)).collect();
                    assert_eq!(told, wanted, "{size} {most} {step}");
                }
            }
        }
    }

    /// Fails at once.
    struct Failing;

    impl Read for Failing {
        fn read(&mut self, _: &mut [u8]) -> io::Result<usize> {
            Err(io::ErrorKind::BrokenPipe.into())
        }
    }

    #[test]
    fn the_block_has_what_is_left_where_a_read_fails() {
        let device = (&b"a,1\nbc,2\nde"[..]).chain(Failing);
        let mut rows = TableReader::new(device, Dialect::separated_by(b','));
        let mut texts = [CellText::NONE; 1];
        let mut read = || {
            let mut columns = [TableColumn::of_texts(&mut texts), TableColumn::UNREAD];
            let count = rows.read(&mut columns).ok();
            (count, texts[0].of(rows.block()).to_vec(), rows.block().to_vec())
        };
        assert_eq!(read(), (Some(1), b"a".to_vec(), b"a,1\nbc,2\nde".to_vec()));
        assert_eq!(read(), (Some(1), b"bc".to_vec(), b"bc,2\nde".to_vec()));
        assert_eq!(read().2, b"de");
        assert_eq!((read().0, rows.block()), (None, &b"de"[..]));
    }

    #[test]
    fn texts_before_a_fault_stand_in_its_block() {
        let mut rows =
            TableReader::new(Steps(b"a,1\nbc,2\nde,x\n", 99), Dialect::separated_by(b','));
        let (mut texts, mut numbers) = ([CellText::NONE; 1], [0u8; 1]);
        let read =
            rows.read(&mut [TableColumn::of_texts(&mut texts), TableColumn::of(&mut numbers)]);
        assert_eq!((read.unwrap(), texts[0].of(rows.block())), (1, &b"a"[..]));
        let (mut texts, mut numbers) = ([CellText::NONE; 9], [0u8; 9]);
        let read =
            rows.read(&mut [TableColumn::of_texts(&mut texts), TableColumn::of(&mut numbers)]);
        let Err(TableReadError::Table { rows: count, error, .. }) = read else { panic!() };
        assert_eq!((count, error.row, error.error), (1, 2, Error::InvalidDigit(12)));
        assert_eq!([texts[0], texts[1]].map(|text| text.of(rows.block())), [&b"bc"[..], b"de"]);
    }
}
