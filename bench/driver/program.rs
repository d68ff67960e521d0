//! What a Rust programmer writes in place of lexint, for lines `c u64 TEXT` alone.
//!
//!     program writeln    each answer by writeln! into a buffer of 64 KiB
//!     program digits     each answer by digits of its own, two a division, into a vector
use std::io::{BufWriter, Read, Write, stdin, stdout};
use std::num::{IntErrorKind, ParseIntError};

/// How many bytes go out at once.
const BATCH: usize = 65536;

/// What a line asks for, if it is one of those that this program knows.
fn number(line: &[u8]) -> Option<Result<u64, ParseIntError>> {
    let text = std::str::from_utf8(line.strip_prefix(b"c u64 ")?).ok()?;
    Some(text.parse())
}

/// The lines of a text: a last line feed starts none.
fn lines(text: &[u8]) -> impl Iterator<Item = &[u8]> {
    let whole = text.strip_suffix(b"\n").unwrap_or(text);
    whole.split(|byte| *byte == b'\n')
}

/// The fault's name and place, where it is one that the measured lines have.
fn fault(error: &ParseIntError) -> &'static str {
    match error.kind() {
        IntErrorKind::PosOverflow => "err Overflow 19",
        _ => "err InvalidDigit 0",
    }
}

/// Answers by `writeln!`.
fn by_writeln(text: &[u8]) {
    let mut out = BufWriter::with_capacity(BATCH, stdout().lock());
    for line in lines(text) {
        match number(line) {
            Some(Ok(number)) => writeln!(out, "ok {number}"),
            Some(Err(error)) => writeln!(out, "{}", fault(&error)),
            None => writeln!(out, "bad line"),
        }
        .expect("a write");
    }
    out.flush().expect("a flush");
}

/// Adds the digits of a number.
fn add_digits(number: u64, batch: &mut Vec<u8>) {
    let mut digits = [0u8; 20];
    let mut start = digits.len();
    let mut rest = number;
    while rest >= 100 {
        let pair = (rest % 100) as u8;
        start -= 2;
        digits[start] = b'0' + pair / 10;
        digits[start + 1] = b'0' + pair % 10;
        rest /= 100;
    }
    if rest >= 10 {
        start -= 2;
        digits[start] = b'0' + rest as u8 / 10;
        digits[start + 1] = b'0' + rest as u8 % 10;
    } else {
        start -= 1;
        digits[start] = b'0' + rest as u8;
    }
    batch.extend_from_slice(&digits[start..]);
}

/// Answers by digits of its own.
fn by_digits(text: &[u8]) {
    let mut out = stdout().lock();
    let mut batch = Vec::with_capacity(2 * BATCH);
    for line in lines(text) {
        match number(line) {
            Some(Ok(number)) => {
                batch.extend_from_slice(b"ok ");
                add_digits(number, &mut batch);
            }
            Some(Err(error)) => batch.extend_from_slice(fault(&error).as_bytes()),
            None => batch.extend_from_slice(b"bad line"),
        }
        batch.push(b'\n');
        if batch.len() >= BATCH {
            out.write_all(&batch).expect("a write");
            batch.clear();
        }
    }
    out.write_all(&batch).expect("a write");
}

fn main() {
    let mut text = Vec::new();
    stdin().lock().read_to_end(&mut text).expect("a read");
    match std::env::args().nth(1).as_deref() {
        Some("writeln") => by_writeln(&text),
        Some("digits") => by_digits(&text),
        _ => panic!("program writeln, or program digits"),
    }
}
