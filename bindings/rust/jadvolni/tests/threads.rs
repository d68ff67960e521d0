//! Tables in threads, by the example for them, beside one thread.

#[allow(dead_code)]
#[path = "../examples/table_threads/main.rs"]
mod program;

use jadvolni::{is_present, parse_table, Dialect, Error, Table, TableColumn, TableError};
use program::threads::read_in_threads;
use std::ffi::{OsStr, OsString};
use std::io::Write;
use std::os::unix::ffi::OsStrExt;

/// Each number of a row that was read, and whether it is there.
type Rows = Vec<(i16, bool, u8)>;

/// The rows of a text of an `i16` that may be missing, a cell that isn't read, and a `u8`.
fn rows_of(text: &[u8], dialect: &Dialect<'_>) -> (Rows, Result<Table, TableError>) {
    let room = text.iter().filter(|&&byte| byte == b'\n').count() + 1;
    let (mut left, mut bits, mut right) = (vec![77; room], vec![0; room / 8 + 1], vec![99; room]);
    let first = TableColumn::of(&mut left).with_bits(&mut bits);
    let mut columns = [first, TableColumn::UNREAD, TableColumn::of(&mut right)];
    let answer = parse_table(text, dialect, &mut columns);
    let count = answer.map_or_else(|fault| fault.row + 1, |table| table.rows);
    let rows = (0..count).map(|row| (left[row], is_present(&bits, row), right[row])).collect();
    (rows, answer)
}

fn in_so_many(
    threads: usize,
    text: &[u8],
    dialect: &Dialect<'_>,
    has_quotes: bool,
) -> (Rows, Result<Table, TableError>) {
    let (blocks, whole) = read_in_threads(text, has_quotes, threads, |part| rows_of(part, dialect));
    (blocks.concat(), whole)
}

#[test]
fn worked_tables() {
    let dialect = Dialect::separated_by(b',').has_quotes(true);
    let right = b"1,\"a\n,\",2\n,\"\"\"\n\",3\n-4,b,\"5\"\n";
    let wrong = b"1,\"\n\",2\n3,c\"d,4\nx,,5\n6,\",7\n";
    let misplaced = TableError { row: 1, column: 1, error: Error::MisplacedQuote(11) };
    for threads in 0..right.len() + 2 {
        let told = in_so_many(threads, right, &dialect, true);
        let rows = vec![(1, true, 2), (0, false, 3), (-4, true, 5)];
        assert_eq!(told, (rows, Ok(Table { rows: 3, stop: 28 })), "{threads} threads");
        let told = in_so_many(threads, wrong, &dialect, true);
        assert_eq!(told, (vec![(1, true, 2), (3, true, 99)], Err(misplaced)), "{threads} threads");
        let told = in_so_many(threads, b"", &dialect, true);
        assert_eq!(told, (vec![], Ok(Table { rows: 0, stop: 0 })), "{threads} threads");
    }
}

/// A text of rows, some of which are wrong in some way or other, by numbers that are drawn.
fn random_text(draw: &mut impl FnMut(usize) -> usize, has_quotes: bool, end: &str) -> String {
    let (mut text, wrong) = (String::new(), draw(100) + 1);
    let middles = if has_quotes {
        ["", "\"\"", "\"a,\n\n\"", "\"\"\"\n\"\"\"", "\"\r\n,,\""]
    } else {
        ["", "a", "\"", " \r", "\"\"\""]
    };
    for _ in 0..draw(60) {
        text += ["1", "-32768", "32767", "NA", "007", "-0"][draw(6)];
        text += &format!(",{},{}", middles[draw(5)], draw(256));
        if draw(wrong) == 0 {
            text += ["\"", ",", "x", "\n", "\r", "\"\n", "9999"][draw(7)];
        }
        text += end.repeat(1 + draw(8) / 7).as_str();
    }
    text.truncate(text.len() - draw(3).min(text.len()));
    text
}

#[test]
fn random_tables() {
    let mut state = 1u64;
    let mut draw = |below: usize| {
        state = state.wrapping_mul(6_364_136_223_846_793_005).wrapping_add(1);
        (state >> 33) as usize % below
    };
    let mut right = 0;
    for _ in 0..100 {
        let (has_quotes, returns) = (draw(4) > 0, draw(2) > 0);
        let dialect = Dialect::separated_by(b',')
            .missing(b"NA")
            .has_quotes(has_quotes)
            .has_returns(returns)
            .skips_empty_rows(draw(4) > 0);
        let text = random_text(&mut draw, has_quotes, if returns { "\r\n" } else { "\n" });
        let wanted = rows_of(text.as_bytes(), &dialect);
        right += usize::from(wanted.1.is_ok());
        for threads in [2, 5, 1 + draw(64)] {
            let told = in_so_many(threads, text.as_bytes(), &dialect, has_quotes);
            assert_eq!(told, wanted, "{text:?} in {threads} threads");
        }
    }
    assert!(right > 20 && right < 80, "{right} right ones");
}

#[test]
fn the_program() {
    let path = std::env::temp_dir().join(format!("jadvolni-{}", std::process::id()));
    let run = |words: [&OsStr; 2], output: &mut dyn Write| {
        program::run(&words.map(OsString::from), output)
    };
    let answer = |text: &str| {
        std::fs::write(&path, text).unwrap();
        let mut said = vec![];
        let told = run([path.as_ref(), "3".as_ref()], &mut said);
        told.map_err(|(status, told)| (status, told.replace(path.to_str().unwrap(), "FILE")))
            .map(|()| String::from_utf8(said).unwrap())
    };
    let right = answer("1;rent;-80000\n2;\"a;\n\";\n3;;7\n4;;-5");
    assert_eq!(right, Ok("4 rows, the greatest amount is 7\n".into()));
    assert_eq!(answer("1;;\n"), Ok("1 rows, the greatest amount is none\n".into()));
    let wrong = "FILE, line 2, column 3: \"x\": invalid digit at byte 0 of the cell";
    assert_eq!(answer("1;;2\n3;;x"), Err((1, wrong.into())));
    let full = &mut std::fs::File::create("/dev/full").unwrap();
    let mut fails = |words: [&OsStr; 2]| run(words, full).unwrap_err();
    let told = fails(["/dev/null".as_ref(), "1".as_ref()]);
    assert_eq!(told, (2, "standard output: No space left on device (os error 28)".into()));
    let told = fails([path.as_ref(), "256".as_ref()]);
    assert_eq!(told, (2, "THREADS: overflow at byte 2".into()));
    std::fs::remove_file(&path).unwrap();
    let told = fails([OsStr::from_bytes(b"/\xFF"), "1".as_ref()]);
    assert_eq!(told, (2, "/\u{FFFD}: No such file or directory (os error 2)".into()));
    let told = fails(["/".as_ref(), "1".as_ref()]);
    assert_eq!(told, (2, "/: Is a directory (os error 21)".into()));
    let told = program::run(&[], vec![]).unwrap_err();
    assert_eq!(told, (2, "usage: table_threads FILE THREADS".into()));
}
