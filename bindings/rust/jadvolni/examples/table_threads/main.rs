//! Finds the greatest amount in lines `DAY;WHAT;CENTS`, of which some may be missing: table_threads FILE THREADS.
//!
//! Exit status 1: a wrong row; 2: wrong words, or reading or writing failed.
pub mod threads;

use jadvolni::{is_present, parse, parse_table, Dialect, Table, TableColumn, TableError};
use std::ffi::OsString;
use std::io::{self, Write};
use std::process::ExitCode;
use std::{env, fs};
use threads::read_in_threads;

const LEDGER: Dialect<'static> = Dialect::separated_by(b';').has_quotes(true);

/// The amounts of a part of the text, and the bits that say which are there.
fn read_ledger(part: &[u8]) -> ((Vec<i64>, Vec<u8>), Result<Table, TableError>) {
    let room = part.iter().filter(|&&byte| byte == b'\n').count() + 1;
    let (mut cents, mut present) = (vec![0; room], vec![0; room.div_ceil(8)]);
    let amounts = TableColumn::of(&mut cents).with_bits(&mut present);
    let mut columns = [TableColumn::UNREAD, TableColumn::UNREAD, amounts];
    let answer = parse_table(part, &LEDGER, &mut columns);
    ((cents, present), answer)
}

/// Answers the words of a command line, or reports the exit status and what is wrong.
pub fn run(words: &[OsString], mut output: impl Write) -> Result<(), (u8, String)> {
    let [path, threads] = words else {
        return Err((2, "usage: table_threads FILE THREADS".into()));
    };
    let threads: u8 =
        parse(threads.as_encoded_bytes()).map_err(|error| (2, format!("THREADS: {error}")))?;
    let name = path.to_string_lossy();
    let text = fs::read(path).map_err(|error| (2, format!("{name}: {error}")))?;
    let (blocks, whole) = read_in_threads(&text, true, threads.into(), read_ledger);
    let rows =
        whole.map_err(|error| (1, format!("{name}, {}", error.in_text(&text, &LEDGER))))?.rows;
    let amounts = blocks.iter().flat_map(|(cents, bits)| {
        (0..cents.len()).filter(|&row| is_present(bits, row)).map(|row| cents[row])
    });
    let greatest = amounts.max().map_or("none".to_string(), |cents| cents.to_string());
    writeln!(output, "{rows} rows, the greatest amount is {greatest}")
        .map_err(|error| (2, format!("standard output: {error}")))
}

fn main() -> ExitCode {
    let words: Vec<OsString> = env::args_os().skip(1).collect();
    match run(&words, io::stdout()) {
        Ok(()) => ExitCode::SUCCESS,
        Err((status, message)) => {
            let _ = writeln!(io::stderr(), "{message}"); // (eprintln! panics where it can't be written)
            ExitCode::from(status)
        }
    }
}
