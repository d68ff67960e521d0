//! Adds up a column by its name, and reports bad rows: bad_rows NAME < FILE
//!
//! The file may have any size. Cells stand between commas, maybe within quotes, and the first row has the names. After
//! a bad row the exit status is 1.

use jadvolni::{Dialect, TableColumn, TableReadError, TableReader};
use std::error::Error;
use std::io::{self, Read, Write};
use std::process::ExitCode;

const PAGE: &str = "usage: bad_rows NAME < FILE
Adds up the column of that name, without bad rows. Exit status 1: a bad row, or reading or writing failed.";
/// At most this many bad rows are shown.
const MOST: usize = 10;

/// What is wrong with the input: where a read failed, it says so.
fn of_input(error: TableReadError) -> Box<dyn Error> {
    match error {
        TableReadError::Io(error) => format!("standard input: {error}").into(),
        other => other.into(),
    }
}

/// What is wrong with the output.
fn of_output(error: io::Error) -> Box<dyn Error> {
    format!("standard output: {error}").into()
}

/// Writes the sum of the numbers to one writer, and the first bad rows with their count to another. Returns the count.
pub fn run(
    name: &str,
    input: impl Read,
    mut output: impl Write,
    mut reports: impl Write,
) -> Result<usize, Box<dyn Error>> {
    let mut rows = TableReader::new(input, Dialect::separated_by(b',').has_quotes(true));
    let header = rows.header().map_err(of_input)?;
    let (mut numbers, mut sum, mut faults) = ([0i64; 1000], 0i128, vec![]);
    loop {
        let mut columns = header.columns([(name, TableColumn::of(&mut numbers))])?;
        let report = |fault| {
            if faults.len() < MOST {
                faults.push(fault);
            }
        };
        let count = rows.read_skipping(&mut columns, report).map_err(of_input)?;
        if count == 0 {
            break;
        }
        sum += numbers[..count].iter().map(|number| i128::from(*number)).sum::<i128>();
    }
    for fault in &faults {
        writeln!(reports, "{fault}")?;
    }
    if rows.bad_rows() > 0 {
        writeln!(reports, "bad rows: {}", rows.bad_rows())?;
    }
    writeln!(output, "{sum}").map_err(of_output)?;
    Ok(rows.bad_rows())
}

fn main() -> ExitCode {
    let words: Vec<_> = std::env::args_os().skip(1).collect();
    let answer = match &words[..] {
        [word, ..] if word == "--help" => {
            writeln!(io::stdout(), "{PAGE}").map(|()| 0).map_err(of_output)
        }
        [name] => run(&name.to_string_lossy(), io::stdin(), io::stdout(), io::stderr()),
        _ => {
            let _ = writeln!(io::stderr(), "{PAGE}"); // (eprintln! panics where it can't be written)
            return ExitCode::from(2);
        }
    };
    match answer {
        Ok(0) => ExitCode::SUCCESS,
        Ok(_) => ExitCode::FAILURE,
        Err(error) => {
            let _ = writeln!(io::stderr(), "{error}");
            ExitCode::FAILURE
        }
    }
}
