//! Rust's own reading of integers, for `make fuzz` to compare the program with.
//!
//! A line of standard input is `TYPE RADIX TEXT`, with one space between the parts, and is answered by `ok V`, by
//! `err KIND`, KIND being that of `IntErrorKind`, or by `none` where the text is no UTF-8 and so no `str`.

use std::io::{self, BufRead, Write};

/// The answer of one type's `from_str_radix`.
macro_rules! answer {
    ($integer:ty, $text:expr, $radix:expr) => {
        match <$integer>::from_str_radix($text, $radix) {
            Ok(value) => format!("ok {value}"),
            Err(fault) => format!("err {:?}", fault.kind()),
        }
    };
}

/// The answer to a text as a number of the type.
fn answer(integer: &[u8], text: &str, radix: u32) -> String {
    match integer {
        b"u8" => answer!(u8, text, radix),
        b"u16" => answer!(u16, text, radix),
        b"u32" => answer!(u32, text, radix),
        b"u64" => answer!(u64, text, radix),
        b"u128" => answer!(u128, text, radix),
        b"usize" => answer!(usize, text, radix),
        b"i8" => answer!(i8, text, radix),
        b"i16" => answer!(i16, text, radix),
        b"i32" => answer!(i32, text, radix),
        b"i64" => answer!(i64, text, radix),
        b"i128" => answer!(i128, text, radix),
        b"isize" => answer!(isize, text, radix),
        _ => "none".to_string(),
    }
}

/// The answer to a line; `none` to one that is no question.
fn line_answer(line: &[u8]) -> String {
    let mut parts = line.splitn(3, |byte| *byte == b' ');
    let (Some(integer), Some(radix), Some(text)) = (parts.next(), parts.next(), parts.next()) else {
        return "none".to_string();
    };
    let radix = std::str::from_utf8(radix).ok().and_then(|radix| radix.parse().ok());
    match (radix, std::str::from_utf8(text)) {
        (Some(radix @ 2..=36), Ok(text)) => answer(integer, text, radix),
        _ => "none".to_string(),
    }
}

fn main() -> io::Result<()> {
    let mut output = io::BufWriter::new(io::stdout().lock());
    for line in io::stdin().lock().split(b'\n') {
        writeln!(output, "{}", line_answer(&line?))?;
    }
    output.flush()
}
