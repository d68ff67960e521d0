//! A table in memory, read in threads, with the answer of one thread. Copy this file.

use jadvolni::{Table, TableError};
use std::thread;

/// Reads a table of lines. `read` puts a part into slices of its own, which have room for each of its rows.
///
/// The blocks come in the text's order, and none behind that of the first wrong cell.
pub fn read_in_threads<B: Send>(
    text: &[u8],
    has_quotes: bool,
    threads: usize,
    read: impl Fn(&[u8]) -> (B, Result<Table, TableError>) + Sync,
) -> (Vec<B>, Result<Table, TableError>) {
    let (mut blocks, mut whole) = (vec![], Table { rows: 0, stop: 0 });
    for (block, answer) in in_threads(&parts(text, has_quotes, threads), |part| read(part)) {
        blocks.push(block);
        match answer {
            Ok(Table { rows, stop }) => {
                whole.rows += rows;
                whole.stop += stop;
            }
            Err(error) => return (blocks, Err(error.behind(whole.rows, whole.stop))),
        }
    }
    (blocks, Ok(whole))
}

/// A text in parts of whole rows, as many as threads at most.
///
/// A line feed ends a row where an even number of quotes stands before it, whether these are in place or not. So their
/// counts find it, and all parts have the rows of the text, behind a misplaced quote too.
fn parts(text: &[u8], has_quotes: bool, threads: usize) -> Vec<&[u8]> {
    let size = text.len().div_ceil(threads.max(1)).max(1);
    let pieces: Vec<&[u8]> = text.chunks(size).collect();
    let is_quote = |byte: &&u8| has_quotes && **byte == b'"';
    let quotes = in_threads(&pieces, |piece| piece.iter().filter(is_quote).count());
    let (mut parts, mut start, mut is_within) = (vec![], 0, false);
    for index in 1..pieces.len() {
        is_within ^= quotes[index - 1] % 2 == 1;
        if let Some(place) = row_start(pieces[index], has_quotes, is_within) {
            parts.push(&text[start..index * size + place]);
            start = index * size + place;
        }
    }
    parts.push(&text[start..]);
    parts
}

/// The place behind the first line feed of a piece that ends a row. The piece may start within quotes.
fn row_start(piece: &[u8], has_quotes: bool, mut is_within: bool) -> Option<usize> {
    let ends_row = |&byte: &u8| {
        is_within ^= has_quotes && byte == b'"';
        byte == b'\n' && !is_within
    };
    piece.iter().position(ends_row).map(|place| place + 1)
}

/// What a call answers of each item, in a thread for each; where the system starts no more threads, in this one.
fn in_threads<T: Sync, B: Send>(items: &[T], call: impl Fn(&T) -> B + Sync) -> Vec<B> {
    let call = &call;
    thread::scope(|scope| {
        let start = |item| thread::Builder::new().spawn_scoped(scope, move || call(item));
        let running: Vec<_> = items.iter().map(|item| start(item).map_err(|_| item)).collect();
        let answer = |started: Result<thread::ScopedJoinHandle<'_, B>, &T>| match started {
            Ok(thread) => thread.join().unwrap(),
            Err(item) => call(item),
        };
        running.into_iter().map(answer).collect()
    })
}
