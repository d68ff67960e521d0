//! The tokens of a source, given as a file: by `lexical_literals::Tokens`, and by a lexer written by hand.
//!
//!     tokens FILE ROUNDS       prints how many tokens there are, and the least time of each in nanoseconds a token
//!     tokens FILE once PEER    goes over the source once: for callgrind
use std::hint::black_box;
use std::time::Instant;

enum Kind {
    Number(u128),
    Word,
    Byte,
    Fault,
}

struct Token<'a> {
    kind: Kind,
    start: usize,
    stop: usize,
    text: &'a [u8],
}

/// What a Rust programmer writes for the same tokens.
struct Lexer<'a> {
    source: &'a [u8],
    place: usize,
}

fn is_word_byte(byte: u8) -> bool {
    byte.is_ascii_alphanumeric() || byte == b'_'
}

fn digit(byte: u8, radix: u32) -> Option<u32> {
    char::from(byte).to_digit(radix)
}

impl<'a> Lexer<'a> {
    fn peek(&self, ahead: usize) -> Option<u8> {
        self.source.get(self.place + ahead).copied()
    }

    fn radix(&self) -> u32 {
        if self.peek(0) != Some(b'0') {
            return 10;
        }
        match self.peek(1) {
            Some(b'x' | b'X') => 16,
            Some(b'o' | b'O') => 8,
            Some(b'b' | b'B') => 2,
            _ => 10,
        }
    }

    /// The next digit of a number, over the separators before it.
    fn next_digit(&mut self, radix: u32, may_part: bool) -> Option<u32> {
        let mut ahead = 0;
        while may_part && self.peek(ahead) == Some(b'_') {
            ahead += 1;
        }
        let found = digit(self.peek(ahead)?, radix)?;
        self.place += ahead + 1;
        Some(found)
    }

    /// The value of all digits in 128 bits, where the first of them have one.
    fn long(&mut self, radix: u32, first: Option<u128>) -> Option<u128> {
        let mut value = first;
        while let Some(next) = self.next_digit(radix, true) {
            value = value.and_then(|value| value.checked_mul(u128::from(radix))?.checked_add(u128::from(next)));
        }
        value
    }

    fn number(&mut self) -> Kind {
        let radix = self.radix();
        if radix != 10 {
            self.place += 2;
        }
        let Some(first) = self.next_digit(radix, false) else {
            return Kind::Fault;
        };
        let mut value = u64::from(first);
        while let Some(next) = self.next_digit(radix, true) {
            match value.checked_mul(u64::from(radix)).and_then(|value| value.checked_add(u64::from(next))) {
                Some(next) => value = next,
                None => {
                    let wide = u128::from(value) * u128::from(radix) + u128::from(next);
                    return self.long(radix, Some(wide)).map_or(Kind::Fault, Kind::Number);
                }
            }
        }
        Kind::Number(u128::from(value))
    }

    fn word(&mut self) {
        while self.peek(0).is_some_and(is_word_byte) {
            self.place += 1;
        }
    }
}

impl<'a> Iterator for Lexer<'a> {
    type Item = Token<'a>;

    fn next(&mut self) -> Option<Token<'a>> {
        while let Some(b' ' | b'\t' | b'\n' | b'\r') = self.peek(0) {
            self.place += 1;
        }
        let start = self.place;
        let kind = match self.peek(0)? {
            b'0'..=b'9' => self.number(),
            byte if is_word_byte(byte) => Kind::Word,
            _ => Kind::Byte,
        };
        match kind {
            Kind::Number(_) => {}
            Kind::Byte => self.place += 1,
            Kind::Word | Kind::Fault => {
                self.place = start;
                self.word();
            }
        }
        let stop = self.place;
        let text = &self.source[start..stop];
        Some(Token { kind, start, stop, text })
    }
}

unsafe extern "C" {
    fn ours_tokens(source: *const u8, size: usize) -> u64;
    fn ours_count(source: *const u8, size: usize) -> usize;
}

fn ours(source: &[u8]) -> u64 {
    unsafe { ours_tokens(source.as_ptr(), source.len()) }
}

/// What a loop answers, so that no part of a token can be left out.
fn by_hand(source: &[u8]) -> u64 {
    let mut sum = 0u64;
    for token in (Lexer { source, place: 0 }) {
        let worth = match token.kind {
            Kind::Number(value) => value as u64,
            Kind::Word => 1,
            Kind::Byte => 2,
            Kind::Fault => 3,
        };
        let places = token.start.wrapping_add(token.stop).wrapping_add(token.text.len());
        sum = sum.wrapping_mul(31).wrapping_add(worth).wrapping_add(places as u64);
    }
    sum
}

fn least_time(read: fn(&[u8]) -> u64, source: &[u8]) -> f64 {
    let start = Instant::now();
    black_box(read(black_box(source)));
    start.elapsed().as_nanos() as f64
}

fn main() {
    let words: Vec<String> = std::env::args().collect();
    let source = std::fs::read(&words[1]).expect("a source");
    let peers: [(&str, fn(&[u8]) -> u64); 2] = [("a lexer by hand", by_hand), ("ours", ours)];
    if words[2] == "once" {
        for (_, read) in peers.iter().filter(|peer| peer.0 == words[3]) {
            black_box(read(black_box(&source)));
        }
        return;
    }
    assert_eq!(by_hand(&source), ours(&source), "the two have to answer alike");
    let count = unsafe { ours_count(source.as_ptr(), source.len()) };
    let mut least = [f64::MAX; 2];
    for _ in 0..words[2].parse().expect("how many rounds") {
        for (at, (_, read)) in peers.iter().enumerate() {
            least[at] = least[at].min(least_time(*read, &source) / count as f64);
        }
    }
    println!("tokens\t{count}");
    for (at, (name, _)) in peers.iter().enumerate() {
        println!("{name}\t{:.3}", least[at]);
    }
}
