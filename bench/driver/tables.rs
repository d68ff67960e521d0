//! A table of i64 on standard input, a comma between two cells, read by Rust's `split` and `parse`.
//!
//!     tables ROUNDS    prints the least time, in nanoseconds a cell, and the numbers' sum
use std::hint::black_box;
use std::io::Read;
use std::time::Instant;

fn read(text: &str, columns: &mut [Vec<i64>]) {
    columns.iter_mut().for_each(Vec::clear);
    for row in text.split_terminator('\n') {
        let mut cells = row.split(',');
        for column in columns.iter_mut() {
            column.push(cells.next().expect("a cell").parse().expect("a number"));
        }
        assert!(cells.next().is_none(), "too many cells");
    }
}

fn main() {
    let rounds: usize = std::env::args().nth(1).expect("how many rounds").parse().expect("a count");
    let mut text = String::new();
    std::io::stdin().read_to_string(&mut text).expect("a text");
    let width = text.lines().next().expect("a row").split(',').count();
    let mut columns = vec![Vec::new(); width];
    let mut least = f64::MAX;
    for _ in 0..rounds {
        let start = Instant::now();
        read(black_box(&text), &mut columns);
        let cells = width * black_box(&columns)[0].len();
        least = least.min(start.elapsed().as_nanos() as f64 / cells as f64);
    }
    let sum = columns.iter().flatten().fold(0, |sum: u64, cell| sum.wrapping_add(*cell as u64));
    println!("split and parse\t{least:.3}\t{sum}");
}
