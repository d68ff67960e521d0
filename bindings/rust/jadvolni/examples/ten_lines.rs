//! The whole of a caller: it prints "err Overflow 19".
use std::io::{stdout, Result, Write};

fn main() -> Result<()> {
    match jadvolni::parse::<u64>("18446744073709551616") {
        Ok(number) => writeln!(stdout(), "ok {number}"),
        Err(jadvolni::Error::Overflow(place)) => writeln!(stdout(), "err Overflow {place}"),
        Err(error) => writeln!(stdout(), "err {error}"),
    }
}
