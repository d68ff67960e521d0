//! A column of u64, a number on each line of standard input, read by Rust's `split` and `parse`.
//!
//!     columns ROUNDS    prints the least time, in nanoseconds a number, and the numbers' sum
use std::hint::black_box;
use std::io::Read;
use std::time::Instant;

fn read(text: &str, values: &mut Vec<u64>) {
    values.clear();
    for line in text.split_terminator('\n') {
        values.push(line.parse().expect("a number"));
    }
}

fn main() {
    let rounds: usize = std::env::args().nth(1).expect("how many rounds").parse().expect("a count");
    let mut text = String::new();
    std::io::stdin().read_to_string(&mut text).expect("a text");
    let mut values = Vec::with_capacity(text.len() / 2 + 1);
    let mut least = f64::MAX;
    for _ in 0..rounds {
        let start = Instant::now();
        read(black_box(&text), &mut values);
        least = least.min(start.elapsed().as_nanos() as f64 / black_box(&values).len() as f64);
    }
    let sum = values.iter().fold(0, |sum: u64, value| sum.wrapping_add(*value));
    println!("split and parse\t{least:.3}\t{sum}");
}
