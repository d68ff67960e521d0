//! What is read: sets of texts, each from the seed, with the loops that read it.
use crate::peers::*;
use crate::texts::*;

/// Texts, each with a line feed behind it, and where each stops.
pub struct Texts {
    pub bytes: Vec<u8>,
    pub stops: Vec<u32>,
}

/// A loop with a name: `std`, `ours` and so on.
pub type Peer = (&'static str, Loop);

/// Texts of one kind, and who reads them. The first of the peers is the one that the others are compared with.
pub struct Set {
    pub name: &'static str,
    pub texts: Texts,
    pub peers: Vec<Peer>,
}

/// The sets so far, and what each is made of.
struct Sets {
    count: usize,
    seed: u64,
    found: Vec<Set>,
}

impl Sets {
    /// One more set. Each has a seed of its own, so that a new set changes no other.
    fn add(&mut self, name: &'static str, peers: &[Peer], text: impl Fn(&mut Random) -> String) {
        let mixed = |seed: u64, byte: u8| seed.wrapping_mul(0x100_0000_01B3) ^ u64::from(byte);
        let mut random = Random(name.bytes().fold(self.seed, mixed));
        let mut texts = Texts {
            bytes: Vec::new(),
            stops: vec![0],
        };
        for _ in 0..self.count {
            texts.bytes.extend(text(&mut random).bytes());
            texts.bytes.push(b'\n');
            texts.stops.push(texts.bytes.len() as u32);
        }
        let peers = peers.to_vec();
        self.found.push(Set { name, texts, peers });
    }
}

/// The loops with nothing in them: what they take is taken off each peer of the same language.
pub fn empty_loops() -> Vec<Peer> {
    vec![("std", std_none), ("ours", ours_none), ("from_chars", cpp_none)]
}

// Whole texts in radix 10, by std, us, C++ and lexical-core.
macro_rules! decimal {
    ($std:ident, $ours:ident, $cpp:ident, $lexical:ident) => {
        [
            vec![("std", $std as Loop), ("ours", $ours), ("from_chars", $cpp)],
            #[cfg(feature = "lexical-core")]
            vec![("lexical-core", lexical::$lexical as Loop)],
        ]
        .concat()
    };
}

fn u64_sets(sets: &mut Sets) {
    let mut peers = decimal!(std_u64, ours_u64, cpp_u64, lexical_u64);
    peers.insert(2, ("C call", call_u64));
    peers.insert(4, ("strtoull", c_u64));
    sets.add("u64, 1 digit", &peers, digits(1));
    sets.add("u64, 2 digits", &peers, digits(2));
    sets.add("u64, 3 digits", &peers, digits(3));
    sets.add("u64, 4 digits", &peers, digits(4));
    sets.add("u64, 6 digits", &peers, digits(6));
    sets.add("u64, 8 digits", &peers, digits(8));
    sets.add("u64, 12 digits", &peers, digits(12));
    sets.add("u64, 16 digits", &peers, digits(16));
    sets.add("u64, 19 digits", &peers, digits(19));
    sets.add("u64, 20 digits", &peers, digits_from_to(20, 20));
    sets.add("u64, 1 to 20 digits", &peers, digits_from_to(1, 20));
    sets.add("u64, realistic", &peers, realistic);
}

fn other_types(sets: &mut Sets) {
    let mut peers = decimal!(std_i64, ours_i64, cpp_i64, lexical_i64);
    peers.insert(2, ("C call", call_i64));
    sets.add("i64, 15 digits", &peers, signed(digits(15)));
    sets.add("i64, 18 digits", &peers, signed(digits(18)));
    sets.add("i64, 1 to 18 digits", &peers, signed(digits_from_to(1, 18)));
    sets.add("i64, realistic", &peers, signed(realistic));
    let peers = decimal!(std_u8, ours_u8, cpp_u8, lexical_u8);
    sets.add("u8, 0 to 255", &peers, |random| random.below(256).to_string());
    let peers = decimal!(std_u32, ours_u32, cpp_u32, lexical_u32);
    sets.add("u32, 8 digits", &peers, digits(8));
    sets.add("u32, 1 to 9 digits", &peers, digits_from_to(1, 9));
    let peers = decimal!(std_i32, ours_i32, cpp_i32, lexical_i32);
    sets.add("i32, 1 to 9 digits", &peers, signed(digits_from_to(1, 9)));
    let mut peers = decimal!(std_u128, ours_u128, cpp_u128, lexical_u128);
    peers.insert(2, ("C call", call_u128));
    sets.add("u128, 30 to 38 digits", &peers, digits_from_to(30, 38));
    let peers = decimal!(std_i128, ours_i128, cpp_i128, lexical_i128);
    sets.add("i128, 30 to 38 digits", &peers, signed(digits_from_to(30, 38)));
}

// Formats that the compiler of the call doesn't know, but that have no punctuation.
fn at_run_time(sets: &mut Sets) {
    let peers: [Peer; 5] = [
        ("std", std_radix10),
        ("ours", ours_radix10),
        ("ours, constant", ours_u64),
        ("ours, in place", in_place_radix10),
        ("from_chars", cpp_u64),
    ];
    sets.add("radix 10 at run time, 1 digit", &peers, digits(1));
    sets.add("radix 10 at run time, 8 digits", &peers, digits(8));
    sets.add("radix 10 at run time, 16 digits", &peers, digits(16));
    sets.add("radix 10 at run time, realistic", &peers, realistic);
    let peers: [Peer; 6] = [
        ("std", std_radix16),
        ("ours", ours_radix16),
        ("ours, in place", in_place_radix16),
        ("C call", call_hex),
        ("from_chars", cpp_hex),
        ("strtoull", c_hex),
    ];
    sets.add("radix 16 at run time, 4 digits", &peers, hexadecimal(4, 4));
    sets.add("radix 16 at run time, 8 digits", &peers, hexadecimal(8, 8));
    sets.add("radix 16 at run time, 16 digits", &peers, hexadecimal(16, 16));
    sets.add("radix 16 at run time, 1 to 16 digits", &peers, hexadecimal(1, 16));
    let peers: [Peer; 5] = [
        ("std", std_u64),
        ("ours", ours_json),
        ("ours, in place", in_place_json),
        ("C call", call_json),
        ("from_chars", cpp_u64),
    ];
    sets.add("JSON at run time, 1 digit", &peers, digits(1));
    sets.add("JSON at run time, 1 to 20 digits", &peers, digits_from_to(1, 20));
    sets.add("JSON at run time, realistic", &peers, realistic);
}

fn fronts(sets: &mut Sets) {
    let mut peers = decimal!(std_front, ours_front, cpp_front, lexical_front);
    peers.insert(2, ("C call", call_front));
    sets.add("front, 4 digits", &peers, between("", digits(4), ",abc"));
    sets.add(
        "front, 1 to 20 digits",
        &peers,
        between("", digits_from_to(1, 20), ",abc"),
    );
    sets.add("front, realistic", &peers, between("", realistic, ",abc"));
}

// Separators and prefixes, at run time.
fn punctuation(sets: &mut Sets) {
    let peers: [Peer; 4] = [
        ("std", std_separators),
        ("ours", ours_separators),
        ("C call", call_separators),
        ("from_chars", cpp_separators),
    ];
    sets.add(
        "one separator, 4 to 15 digits",
        &peers,
        grouped(true, digits_from_to(4, 15)),
    );
    sets.add("groups of three, realistic", &peers, grouped(false, realistic));
    sets.add(
        "groups of three, 10 to 19 digits",
        &peers,
        grouped(false, digits_from_to(10, 19)),
    );
    sets.add("no separator, 1 to 20 digits", &peers, digits_from_to(1, 20));
    let peers: [Peer; 4] = [
        ("std", std_prefix),
        ("ours", ours_prefix),
        ("C call", call_prefix),
        ("from_chars", cpp_prefix),
    ];
    sets.add("prefix 0x, 8 digits", &peers, between("0x", hexadecimal(8, 8), ""));
    sets.add(
        "prefix 0x, 1 to 16 digits",
        &peers,
        between("0x", hexadecimal(1, 16), ""),
    );
    let peers: [Peer; 4] = [
        ("std", std_literal),
        ("ours", ours_literal),
        ("C call", call_literal),
        ("from_chars", cpp_literal),
    ];
    sets.add("0x or decimal", &peers, literals);
    sets.add("0x or decimal, all decimal", &peers, realistic);
}

// What users write by mistake, and a plus, which not all peers read.
fn faults(sets: &mut Sets) {
    let mut peers = decimal!(std_u64, ours_u64, cpp_u64, lexical_u64);
    peers.insert(2, ("C call", call_u64));
    sets.add("fault: of three kinds", &peers, faulty);
    sets.add("fault: empty", &peers, |_| String::new());
    sets.add("fault: a letter at the end", &peers, between("", realistic, "x"));
    sets.add("fault: a blank in front", &peers, between(" ", realistic, ""));
    sets.add("fault: a blank at the end", &peers, between("", realistic, " "));
    sets.add("fault: a minus alone", &peers, |_| "-".to_owned());
    sets.add("fault: one digit too many", &peers, digits(21));
    sets.add(
        "a plus",
        &[("std", std_u64), ("ours", ours_u64), ("C call", call_u64)],
        between("+", realistic, ""),
    );
}

/// All sets, with `count` texts each, of a seed.
pub fn sets(count: usize, seed: u64) -> Vec<Set> {
    let mut sets = Sets {
        count,
        seed,
        found: Vec::new(),
    };
    u64_sets(&mut sets);
    other_types(&mut sets);
    at_run_time(&mut sets);
    fronts(&mut sets);
    punctuation(&mut sets);
    faults(&mut sets);
    sets.found
}
