//! What a fault of a table says of its text: hostile cells, each kind of fault, and texts that aren't those of the
//! fault.
#![cfg(feature = "std")]

use jadvolni::{
    parse_table, Columns, Dialect, Error, Format, Position, TableColumn, TableError, TableFault,
    TableReadError, TableReader,
};

fn comma() -> Dialect<'static> {
    Dialect::separated_by(b',')
}

/// The fault of a text whose columns are a number, a cell that isn't read, and a number.
fn fault(text: impl AsRef<[u8]>, dialect: &Dialect<'_>) -> TableFault {
    let (mut ids, mut cents) = ([9u8; 9], [9i64; 9]);
    let columns =
        &mut [TableColumn::of(&mut ids), TableColumn::UNREAD, TableColumn::of(&mut cents)];
    parse_table(&text, dialect, columns).unwrap_err().in_text(&text, dialect)
}

#[test]
fn each_kind_of_fault() {
    let says = |text: &str, dialect: Dialect<'_>, wanted: &str| {
        assert_eq!(fault(text, &dialect).to_string(), wanted, "{text:?}");
    };
    let quotes = comma().has_quotes(true);
    let returns = comma().has_returns(true);
    says("1,a,5x", comma(), r#"line 1, column 3: "5x": invalid digit at byte 1 of the cell"#);
    says("1,a,\n", comma(), r#"line 1, column 3: "": missing digit at byte 0 of the cell"#);
    says("1,a,2\n256,", comma(), r#"line 2, column 1: "256": overflow at byte 2 of the cell"#);
    says("1,a\n", comma(), "line 1: too few cells, none for column 3");
    says("1,a,2,b,c\n", comma(), r#"line 1, column 4: "b": too many cells"#);
    says("1,a,2\r\n1,a,3\n", returns, "line 2: missing carriage return");
    says(
        "1,\"a\n\",2\n3,b\"c\",4",
        quotes,
        r#"line 3, column 2: "b\"c\"": misplaced quote at byte 1 of the cell"#,
    );
    says(
        "1,a,2\n3,\"b,4\n5,c,6\n",
        quotes,
        r#"line 2, column 2: "\"b,4\n5,c,6\n": misplaced quote at byte 0 of the cell"#,
    );
    says(
        "1,a,\"5x\"\n",
        quotes,
        r#"line 1, column 3: "\"5x\"": invalid digit at byte 2 of the cell"#,
    );
    says(
        "1,a,5\n\n\n 3x ,b,7\n",
        comma().allows_blanks(true).skips_empty_rows(true),
        r#"line 4, column 1: " 3x ": invalid digit at byte 2 of the cell"#,
    );
}

#[test]
fn hostile_cells() {
    let told = fault(b"1,a,7\n1,a,5\x00\n", &comma());
    assert_eq!(
        told.to_string(),
        r#"line 2, column 3: "5\x00": invalid digit at byte 1 of the cell"#
    );
    assert_eq!((told.text(), told.name()), (Some(&b"5\x00"[..]), None));
    let long = format!("1,a,{}x", "0".repeat(50));
    let told = fault(&long, &comma());
    let wanted =
        format!("line 1, column 3: \"{}\"..: invalid digit at byte 50 of the cell", "0".repeat(40));
    assert_eq!((told.to_string(), told.text().unwrap().len()), (wanted, 40));
    let told = fault("1,a,7\n\u{e9},b,8\n", &comma());
    let wanted = r#"line 2, column 1: "é": invalid digit at byte 0 of the cell"#;
    assert_eq!(told.to_string(), wanted);
    let told = fault(b"1,a,\xC3\xC3\xA9\xE2\x80\x8B\\'\t", &comma());
    let wanted =
        r#"line 1, column 3: "\xc3\u{e9}\u{200b}\\'\t": invalid digit at byte 0 of the cell"#;
    assert_eq!(told.to_string(), wanted.replace(r"\u{e9}", "\u{e9}"));
    // It is cut at 40 bytes, and shown without the part of a letter that this leaves.
    let told = fault(format!("1,a,7{}\n", "\u{e9}".repeat(30)), &comma());
    let wanted = format!(
        "line 1, column 3: \"7{}\"..: invalid digit at byte 1 of the cell",
        "\u{e9}".repeat(19)
    );
    assert_eq!((told.to_string(), told.text().unwrap().len()), (wanted, 40));
    // The row has what ends it, and not the empty rows behind it. Its cell has nothing of these.
    let told = fault("1,a,7x\n\n\n2,b,8\n", &comma().skips_empty_rows(true));
    assert_eq!((told.row_start, told.row_stop, told.text()), (0, 7, Some(&b"7x"[..])));
    let told = fault("\n1,a,7\n", &comma());
    let wanted = r#"line 1, column 1: "": missing digit at byte 0 of the cell"#;
    assert_eq!(told.to_string(), wanted.to_owned() + EMPTY);
}

/// What a message adds about an empty row.
const EMPTY: &str = "; the row is empty: skips_empty_rows may have to be set";

/// The message names the option that skips empty rows.
#[test]
fn empty_rows() {
    let missing = r#"line 2, column 1: "": missing digit at byte 0 of the cell"#;
    let returns = comma().has_returns(true);
    for (text, dialect) in [
        ("1,a,2\n\n", comma()),
        ("1,a,2\r\n\n", returns),
        ("1,a,2\r\n\r\n3,b,4", returns),
        ("1,a,2\r\n\r\n", comma().allows_returns(true)),
        ("1,\"a\",2\n\n\"", comma().has_quotes(true)),
    ] {
        assert_eq!(fault(text, &dialect).to_string(), missing.to_owned() + EMPTY, "{text:?}");
    }
    for (text, dialect) in [("\r\n", comma()), ("\r", returns)] {
        let wanted = r#"line 1, column 1: "\r": invalid digit at byte 0 of the cell"#;
        assert_eq!(fault(text, &dialect).to_string(), wanted);
    }
    let told = fault("12a345\n\n", &Dialect::of_widths(&[2, 1, 3]));
    let wanted = "line 2: too few cells, none for column 1";
    assert_eq!(told.to_string(), wanted.to_owned() + EMPTY);
    // It is there too where the first cell isn't read, and its column has a name.
    let (text, mut numbers) = ("a,b\n1,2\n\n", [0u8; 9]);
    let mut rows = TableReader::new(text.as_bytes(), comma());
    rows.header().unwrap();
    let error = rows.read(&mut [TableColumn::UNREAD, TableColumn::of(&mut numbers)]).unwrap_err();
    assert_eq!(error.to_string(), r#"line 3: too few cells, none for "b""#.to_owned() + EMPTY);
}

#[test]
fn rows_that_end_before_their_widths() {
    let few = |row: &str, column: usize, size: usize, more: &str| {
        let column = format!("{row}: too few cells, none for column {column}");
        format!("{column}; the row has {size} of the 6 bytes of its widths{more}")
    };
    let (widths, trimmed) = ([2, 1, 3], ": pad it if its last blanks were trimmed");
    let lines = Dialect::of_widths(&widths);
    let (returns, records) = (lines.has_returns(true), lines.is_records(true));
    for (text, dialect, wanted) in [
        ("12a3\n", lines, few("line 1", 3, 4, trimmed)),
        ("12a345\n1", lines, few("line 2", 1, 1, trimmed)),
        ("12a345\r\n12a \r\n", returns, few("line 2", 3, 4, trimmed)),
        ("12a\"\n", lines.has_quotes(true), few("line 2", 3, 5, trimmed)),
        ("12a3451", records, few("row 2", 1, 1, "")),
        ("12a34512a\r\n", records, few("row 2", 3, 5, "")),
    ] {
        assert_eq!(fault(text, &dialect).to_string(), wanted, "{text:?}");
    }
    let only = "; the row is only a line end, and records have none";
    for (text, wanted) in [
        ("12a345\n", "row 2: too few cells, none for column 1"),
        ("12a345\r\n", r#"row 2, column 1: "\r\n": invalid digit at byte 0 of the cell"#),
    ] {
        let told = fault(text, &records.skips_empty_rows(true));
        assert_eq!(told.to_string(), wanted.to_owned() + only);
    }
    let told = fault("\n", &Dialect::of_widths(&[0, 1, 0]).is_records(true));
    assert_eq!(told.to_string(), r#"row 1, column 1: "": missing digit at byte 0 of the cell"#);
}

#[test]
fn cells_of_given_widths() {
    let widths = [2, 1, 3];
    let lines = Dialect::of_widths(&widths);
    let told = fault("12a345\n1xb678\n", &lines);
    assert_eq!(told.to_string(), r#"line 2, column 1: "1x": invalid digit at byte 1 of the cell"#);
    assert_eq!(fault("12a345b\n", &lines).to_string(), "line 1, column 4: \"b\": too many cells");
    let told = fault("12\n34512a3x5", &lines.is_records(true));
    assert_eq!(told.to_string(), r#"row 2, column 3: "3x5": invalid digit at byte 1 of the cell"#);
    assert_eq!((told.row, told.row_start, told.row_stop), (1, 6, 12));
    let told = fault("x", &Dialect::of_widths(&[1]));
    assert_eq!(told.error, Error::InvalidTable);
    assert_eq!((told.to_string().as_str(), told.text()), (Error::InvalidTable.message(), None));
    assert_eq!((told.line, told.row_start, told.row_stop, told.place()), (0, 0, 0, None));
}

/// A fault is reported of the text that is handed over, whatever that is, and no call panics.
#[test]
fn another_text_than_that_of_the_fault() {
    for row in [0, 1, 5, usize::MAX] {
        for place in [0, 3, 7, usize::MAX] {
            for column in [0, 1, usize::MAX] {
                let error = TableError { row, column, error: Error::InvalidDigit(place) };
                let header =
                    Columns::by_header("a,b\n1,2\n", &comma(), [("a", TableColumn::UNREAD)]);
                let header = header.unwrap().header().clone();
                for text in ["", "1\n", "\n\n\n", "1,2\n3,4\nx"] {
                    let told = [error.in_text(text, &comma()), header.fault(error, text, &comma())];
                    assert!(told.iter().all(|told| told.to_string().starts_with("line ")));
                    assert_eq!(told[0].place(), Some(place));
                }
            }
        }
    }
}

#[test]
fn names_of_a_header() {
    let text = "\u{FEFF}day,\"what\nfor\",cents\n1,\"a\nb\",-80000\n2,c,7x\n";
    let quotes = comma().has_quotes(true);
    let mut cents = [0i64; 9];
    let wanted = [("cents", TableColumn::of(&mut cents))];
    let mut columns = Columns::by_header(text, &quotes, wanted).unwrap();
    let error = columns.read(text, &quotes).unwrap_err();
    let told = columns.header().fault(error, text, &quotes);
    assert_eq!(told.to_string(), r#"line 5, "cents": "7x": invalid digit at byte 1 of the cell"#);
    assert_eq!((told.row, told.line, told.column, told.name()), (1, 4, 2, Some("cents")));
    assert_eq!(&text[told.row_start..told.row_stop], "2,c,7x\n");
    assert_eq!(told.error.position(text), Some(Position { line: 4, column: 5 }));
    // The reader reports the same, in steps of any size.
    for size in 24..60 {
        let mut rows = TableReader::with_capacity(size, text.as_bytes(), quotes);
        let header = rows.header().unwrap();
        let mut cents = [0i64; 9];
        let mut columns = header.columns([("cents", TableColumn::of(&mut cents))]).unwrap();
        let error = loop {
            match rows.read(&mut columns) {
                Ok(count) => assert_eq!(count, 1),
                Err(error) => break error,
            }
        };
        assert_eq!(error.to_string(), told.to_string());
        let TableReadError::Table { fault, .. } = error else { panic!("{error}") };
        assert_eq!(*fault, told);
    }
}

#[test]
fn long_names_and_no_name() {
    let name = "\u{e9}".repeat(50);
    let text = format!("{name},b\n1,x,2\nx,1\n");
    let mut numbers = [0u8; 9];
    let mut columns =
        Columns::by_header(&text, &comma(), [(&name, TableColumn::of(&mut numbers))]).unwrap();
    let error = columns.read(&text, &comma()).unwrap_err();
    let told = columns.header().fault(error, &text, &comma());
    assert_eq!(told.to_string(), r#"line 2, column 3: "2": too many cells"#);
    let error = columns.read(text.replace(",2\n", "\n"), &comma()).unwrap_err();
    let told = columns.header().fault(error, text.replace(",2\n", "\n"), &comma());
    let name = "\u{e9}".repeat(40);
    let wanted = format!("line 3, \"{name}\" ..: \"x\": invalid digit at byte 0 of the cell");
    assert_eq!(told.to_string(), wanted);
    let invalid = Format::STANDARD.mantissa_radix(1);
    let wanted = [("b", TableColumn::with_format(&mut numbers, &invalid))];
    let mut columns = Columns::by_header(&text, &comma(), wanted).unwrap();
    let error = columns.read(&text, &comma()).unwrap_err();
    let told = columns.header().fault(error, &text, &comma());
    assert_eq!(told.to_string(), "\"b\": the radix has to be 2 to 36");
    assert_eq!(error.to_string(), "the radix has to be 2 to 36, in column 2");
}
