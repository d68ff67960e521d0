//! Columns by their names: from texts and readers, with hostile headers.
#![cfg(feature = "std")]

use jadvolni::{
    parse_table, Columns, Dialect, Error, Header, HeaderError, Position, Table, TableColumn,
    TableError, TableReadError, TableReader,
};
use std::io::{self, Read};

/// Gives a fixed number of bytes at once.
struct Steps<'a>(&'a [u8], usize);

impl Read for Steps<'_> {
    fn read(&mut self, block: &mut [u8]) -> io::Result<usize> {
        let size = self.1.min(block.len());
        (&mut self.0).take(size as u64).read(block)
    }
}

fn comma() -> Dialect<'static> {
    Dialect::separated_by(b',')
}

fn names(text: impl AsRef<[u8]>, dialect: &Dialect<'_>) -> Result<Vec<String>, HeaderError> {
    Ok(Header::of(text, dialect)?.names().map(Into::into).collect())
}

/// The names of a text's header and the place behind it, which a reader gives too.
fn header(text: &[u8], dialect: Dialect<'_>) -> Result<(Vec<String>, usize), HeaderError> {
    let whole = Header::of(text, &dialect);
    for step in [1, 2, 3, 99] {
        let read = TableReader::new(Steps(text, step), dialect).header();
        match (&whole, read) {
            (Ok(whole), Ok(read)) => assert!(read.names().eq(whole.names())),
            (Err(whole), Err(TableReadError::Header(read))) => assert_eq!(read, *whole),
            (whole, read) => panic!("{whole:?}, and by {step} {read:?}"),
        }
    }
    whole.map(|header| (header.names().map(Into::into).collect(), header.stop()))
}

#[test]
fn names_are_read_by_the_tables_own_rules() {
    let quoted = comma().has_quotes(true);
    let is = |text: &str, dialect, wanted: &[&str], stop| {
        let wanted = wanted.iter().map(|name| String::from(*name)).collect();
        assert_eq!(header(text.as_bytes(), dialect), Ok((wanted, stop)), "{text}");
    };
    is("a,b,c\n1,2,3\n", comma(), &["a", "b", "c"], 6);
    is("a,b", comma(), &["a", "b"], 3);
    is("\u{FEFF}a,b\n1,2", comma(), &["a", "b"], 7);
    is("\u{FEFF}\"a\"\n1", quoted, &["a"], 7);
    is("\"a,\nb\",\"c\"\"d\",\"\"\n1,2,3", quoted, &["a,\nb", "c\"d", ""], 17);
    is("\"\"\"\"\"\"\n", quoted, &["\"\""], 7);
    is("\"a\",b\n", comma(), &["\"a\"", "b"], 6);
    is("a,b\r\n1,2\r\n", comma().has_returns(true), &["a", "b"], 5);
    is("a,b\r\n1,2\r\n", comma(), &["a", "b\r"], 5);
    is(" a\t,\" b \"\n", quoted.allows_blanks(true), &["a", "b"], 10);
    is(" a,b \n", comma(), &[" a", "b "], 6);
    is("\n\n,\n", comma().skips_empty_rows(true), &["", ""], 4);
    is("\r\n\r\na", comma().skips_empty_rows(true).has_returns(true), &["a"], 5);
    is("\n1\n", comma(), &[""], 1);
    is("a\"b\"c\n", Dialect::separated_by(b'"').has_quotes(true), &["a", "b", "c"], 6);
    is("é,ü\n", comma(), &["é", "ü"], 6);
    let fixed = Dialect::of_widths(&[3, 4]).allows_blanks(true);
    is("id rent\n", fixed, &["id", "rent"], 8);
    is("id rent 12", fixed.is_records(true), &["id", "rent"], 7);
}

#[test]
fn what_is_no_header() {
    let quoted = comma().has_quotes(true);
    let invalid = |column, error| Err(HeaderError::Invalid(TableError { row: 0, column, error }));
    assert_eq!(header(b"", comma()), Err(HeaderError::NoHeader));
    assert_eq!(header("\u{FEFF}".as_bytes(), comma()), Err(HeaderError::NoHeader));
    assert_eq!(header(b"\n\n\n", comma().skips_empty_rows(true)), Err(HeaderError::NoHeader));
    assert_eq!(header(b"a,\"b\nc\n", quoted), invalid(1, Error::MisplacedQuote(2)));
    assert_eq!(header(b"a,b\"c\"\n", quoted), invalid(1, Error::MisplacedQuote(3)));
    assert_eq!(
        header("\u{FEFF}a,b\"\"\n".as_bytes(), quoted),
        invalid(1, Error::MisplacedQuote(6))
    );
    assert_eq!(header(b"a,b\n", comma().has_returns(true)), invalid(2, Error::MissingReturn(3)));
    assert_eq!(header(b"ab\n", Dialect::of_widths(&[2, 1])), invalid(1, Error::TooFewCells(2)));
    assert_eq!(header(b"abcd\n", Dialect::of_widths(&[2, 1])), invalid(2, Error::TooManyCells(3)));
    assert_eq!(header(b"a", comma().is_records(true)), invalid(0, Error::InvalidTable));
    let told =
        HeaderError::Invalid(TableError { row: 0, column: 1, error: Error::MisplacedQuote(2) });
    let text = "the header is no row: misplaced quote at byte 2, in row 1, column 2";
    assert_eq!(
        (told.to_string().as_str(), HeaderError::NoHeader.to_string().as_str()),
        (text, "the table has no header")
    );
}

#[test]
fn names_that_are_missing_or_doubled() {
    let header = Header::of("id,cents,id\n", &comma()).unwrap();
    let told = |names: &[&str]| {
        let wanted = names.iter().map(|name| (*name, TableColumn::UNREAD));
        header.columns(wanted).map(|columns| columns.len()).map_err(|error| error.to_string())
    };
    let err = |text: &str| Err(text.to_string());
    assert_eq!(told(&["cents"]), Ok(3));
    assert_eq!(told(&[]), Ok(3));
    assert_eq!(
        told(&["id"]),
        err(r#"more than one column "id": the header has "id", "cents", "id""#)
    );
    assert_eq!(told(&["cent"]), err(r#"no column "cent": the header has "id", "cents", "id""#));
    assert_eq!(told(&["cents", "cents"]), err(r#"the column "cents" is asked for twice"#));
    let many: Vec<String> = (0..1000).map(|it| it.to_string()).collect();
    let header = Header::of(many.join(","), &comma()).unwrap();
    let told = header.columns([("x".repeat(999), TableColumn::UNREAD)]).unwrap_err().to_string();
    assert!(told
        .starts_with(&format!("no column \"{}\" ..: the header has \"0\", \"1\"", "x".repeat(40))));
    assert!(told.ends_with(", \"39\" and 960 more"));
    assert_eq!(header.column("999"), Ok(999));
    assert_eq!(names(b"\xFF,a\n", &comma()), Ok(vec!["\u{FFFD}".into(), "a".into()]));
    let header = Header::of(b"\xFF,\xFF", &comma()).unwrap();
    assert!(matches!(header.column("\u{FFFD}"), Err(HeaderError::Missing { .. })));
}

#[test]
fn columns_by_names_are_read_in_any_order() {
    let text = "\u{FEFF}day,what,\"cents\n\"\r\n1,\"a\nb\",-80000\r\n2,c,7\r\n3,d,x\r\n";
    let dialect = comma().has_quotes(true).has_returns(true);
    let (mut cents, mut days) = ([9i64; 4], [9u8; 4]);
    let wanted = [("cents\n", TableColumn::of(&mut cents)), ("day", TableColumn::of(&mut days))];
    let mut columns = Columns::by_header(text, &dialect, wanted).unwrap();
    let error = columns.read(text, &dialect).unwrap_err();
    assert_eq!(error, TableError { row: 2, column: 2, error: Error::InvalidDigit(49) });
    assert_eq!(error.error.position(text), Some(Position { line: 5, column: 4 }));
    assert_eq!(columns.header().name(2).as_deref(), Some("cents\n"));
    assert_eq!((columns.len(), columns.header().name(3)), (3, None));
    let rows = &text[..text.len() - 7];
    assert_eq!(columns.read(rows, &dialect), Ok(Table { rows: 2, stop: rows.len() }));
    assert_eq!(columns.read("", &dialect), Ok(Table { rows: 0, stop: columns.header().stop() }));
    let rest = &rows[columns.header().stop()..];
    assert_eq!(parse_table(rest, &dialect, &mut columns).unwrap().rows, 2);
    assert_eq!((cents, days), ([-80000, 7, 9, 9], [1, 2, 3, 9]));
}

#[test]
fn a_reader_gives_the_rows_behind_the_header() {
    let text = b"\xEF\xBB\xBFid,cents\n1,-5\n2,7\n3,x\n";
    for step in [1, 2, 3, 5, 99] {
        let mut reader = TableReader::with_capacity(9, Steps(text, step), comma());
        let header = reader.header().unwrap();
        let (mut ids, mut all) = ([0u8; 2], vec![]);
        let mut columns = header.columns([("cents", TableColumn::of(&mut ids))]).unwrap();
        let error = reader.read(&mut columns).unwrap_err();
        let wrong = TableError { row: 0, column: 1, error: Error::InvalidDigit(14) };
        assert!(matches!(error, TableReadError::Table { error, .. } if error == wrong), "{error}");
        let mut reader = TableReader::with_capacity(9, Steps(text, step), comma());
        let header = reader.header().unwrap();
        loop {
            let count =
                reader.read(&mut header.columns([("id", TableColumn::of(&mut ids))]).unwrap());
            match count.unwrap() {
                0 => break,
                count => all.extend_from_slice(&ids[..count]),
            }
        }
        assert_eq!(all, [1, 2, 3]);
    }
    let mut long = TableReader::with_capacity(4, &b"id,cents\n1,2\n"[..], comma());
    assert!(matches!(long.header(), Err(TableReadError::LongRow(0))));
}

#[test]
fn shown_for_debugging_a_header_has_texts() {
    let header = Header::of(b"id,na\xffme\n1,x\n", &comma()).unwrap();
    assert_eq!(format!("{header:?}"), "Header { names: [\"id\", \"na\u{fffd}me\"], stop: 9 }");
}
