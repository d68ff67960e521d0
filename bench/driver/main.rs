//! Measures each peer on each set of texts, interleaved in one run.
//!
//!     driver time COUNT ROUNDS SEED    prints `set, peer, nanoseconds a text, those of the empty loop`, a line each
//!     driver once COUNT SEED SET PEER  runs one loop once, for a counter of instructions
//!     driver list                      prints `set, peer, whose empty loop is taken off`, a line each
//!
//! A time is the least of all rounds. Each round runs every peer of a set once, so that a change of the machine's speed
//! meets all of them.
mod peers;
mod place; // written by build.py
mod sets;
mod texts;

use sets::{Peer, Set, Texts, empty_loops, sets};
use std::hint::black_box;
use std::time::Instant;

fn run(peer: &Peer, texts: &Texts) -> u64 {
    let (bytes, stops) = (black_box(&texts.bytes), black_box(&texts.stops));
    unsafe { (peer.1)(bytes.as_ptr(), bytes.len(), stops.as_ptr(), stops.len()) }
}

// The least time of each peer, in nanoseconds a text.
fn times(peers: &[Peer], texts: &Texts, rounds: usize) -> Vec<f64> {
    let count = (texts.stops.len() - 1) as f64;
    let mut least = vec![f64::MAX; peers.len()];
    for _ in 0..rounds {
        for (peer, least) in peers.iter().zip(&mut least) {
            let start = Instant::now();
            black_box(run(peer, texts));
            *least = least.min(start.elapsed().as_nanos() as f64 / count);
        }
    }
    least
}

// All peers answer alike, or what they take says nothing.
fn hold_alike(set: &Set) {
    let wanted = run(&set.peers[0], &set.texts);
    for peer in &set.peers {
        assert_eq!(
            run(peer, &set.texts),
            wanted,
            "{} answers otherwise on `{}`",
            peer.0,
            set.name
        );
    }
}

// The empty loop of a peer's language.
fn loop_of(peer: &str) -> &'static str {
    match peer {
        "ours" | "ours, constant" | "ours, in place" => "ours",
        "C call" | "from_chars" | "strtoull" => "from_chars",
        _ => "std",
    }
}

fn time(count: usize, rounds: usize, seed: u64) {
    for set in sets(count, seed) {
        hold_alike(&set);
        let mut peers = empty_loops();
        let empty = peers.len();
        peers.extend(set.peers.iter().copied());
        let found = times(&peers, &set.texts, rounds);
        for (peer, taken) in peers.iter().zip(&found).skip(empty) {
            let own = peers.iter().position(|it| it.0 == loop_of(peer.0)).unwrap();
            println!("{}\t{}\t{:.3}\t{:.3}", set.name, peer.0, taken, found[own]);
        }
    }
}

fn once(count: usize, seed: u64, name: &str, peer: &str) {
    let set = sets(count, seed)
        .into_iter()
        .find(|set| set.name == name)
        .expect("no such set");
    let empty = empty_loops().into_iter().find(|it| peer == format!("loop of {}", it.0));
    let found = empty
        .or_else(|| set.peers.iter().copied().find(|it| it.0 == peer))
        .expect("no such peer");
    black_box(run(&found, &set.texts));
}

fn main() {
    let words: Vec<String> = std::env::args().skip(1).collect();
    let number = |place: usize| words[place].parse::<u64>().expect("a number");
    match words[0].as_str() {
        "time" => time(number(1) as usize, number(2) as usize, number(3)),
        "once" => once(number(1) as usize, number(2), &words[3], &words[4]),
        "list" => {
            for set in sets(1, 1) {
                for peer in &set.peers {
                    println!("{}\t{}\t{}", set.name, peer.0, loop_of(peer.0));
                }
            }
        }
        _ => panic!("time, once or list"),
    }
}
