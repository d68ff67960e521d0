//! The settings of a service: settings PORT PERCENT. What is wrong says what it may be.

use jadvolni::{parse_within_with_format, Format};
use std::env::args_os;
use std::error::Error;
use std::ffi::OsString;
use std::io::{self, Write};
use std::os::unix::ffi::OsStrExt;
use std::process::ExitCode;

/// A port and a percentage, written as JSON writes numbers.
fn settings(words: &[OsString]) -> Result<(u16, u8), Box<dyn Error>> {
    let [port, percent] = words else { return Err("usage: settings PORT PERCENT".into()) };
    let port = parse_within_with_format(port.as_bytes(), 1..=65535, &Format::JSON)?;
    let percent = parse_within_with_format(percent.as_bytes(), 0..=100, &Format::JSON)?;
    Ok((port, percent))
}

/// Answers the words of a command line, or reports what is wrong.
pub fn run(words: &[OsString], mut output: impl Write) -> Result<(), Box<dyn Error>> {
    let (port, percent) = settings(words)?;
    writeln!(output, "port {port}, {percent} percent")
        .map_err(|error| format!("standard output: {error}").into())
}

fn main() -> ExitCode {
    let words: Vec<OsString> = args_os().skip(1).collect();
    match run(&words, io::stdout()) {
        Ok(()) => ExitCode::SUCCESS,
        Err(error) => {
            let _ = writeln!(io::stderr(), "settings: {error}"); // (eprintln! panics where it can't be written)
            ExitCode::from(2)
        }
    }
}
