//! What Rust programs read integers with: loops over texts, each around one call, as plain symbols that callgrind can
//! tell apart.
use std::hint::black_box;
use std::slice::from_raw_parts;
use std::str::from_utf8_unchecked;

/// A loop over texts: the texts, each with a line feed behind it, and where each stops.
pub type Loop = unsafe extern "C" fn(*const u8, usize, *const u32, usize) -> u64;

macro_rules! loops {
    ($($name:ident($bytes:ident) = $call:expr;)*) => { $(
        #[unsafe(no_mangle)]
        #[inline(never)]
        pub unsafe extern "C" fn $name(texts: *const u8, size: usize, stops: *const u32, count: usize) -> u64 {
            let (texts, stops) = unsafe { (from_raw_parts(texts, size), from_raw_parts(stops, count)) };
            let mut sum = 0u64;
            for number in 1..count {
                // (the driver has made these places)
                let $bytes = unsafe { texts.get_unchecked(stops[number - 1] as usize..stops[number] as usize - 1) };
                sum = sum.wrapping_mul(31).wrapping_add(Option::<u64>::unwrap_or($call, 1));
            }
            sum
        }
    )* };
}

// The bytes are ASCII, and a program that has bytes makes a `str` of them so.
fn ascii(bytes: &[u8]) -> &str {
    unsafe { from_utf8_unchecked(bytes) }
}

// The text with its separators left out, by a copy.
fn without_separators<'a>(bytes: &[u8], room: &'a mut [u8; 64]) -> &'a str {
    let mut size = 0;
    for &byte in bytes {
        if byte != b'_' && size < room.len() {
            room[size] = byte;
            size += 1;
        }
    }
    ascii(&room[..size])
}

loops! {
    std_none(bytes) = Some(bytes.len() as u64);
    std_u8(bytes) = ascii(bytes).parse::<u8>().ok().map(u64::from);
    std_u32(bytes) = ascii(bytes).parse::<u32>().ok().map(u64::from);
    std_u64(bytes) = ascii(bytes).parse::<u64>().ok();
    std_u128(bytes) = ascii(bytes).parse::<u128>().ok().map(|value| value as u64);
    std_i32(bytes) = ascii(bytes).parse::<i32>().ok().map(|value| (value & i32::MAX) as u64);
    std_i64(bytes) = ascii(bytes).parse::<i64>().ok().map(|value| (value & i64::MAX) as u64);
    std_i128(bytes) = ascii(bytes).parse::<i128>().ok().map(|value| value as u64 & u64::MAX >> 1);
    std_radix10(bytes) = u64::from_str_radix(ascii(bytes), black_box(10)).ok();
    std_radix16(bytes) = u64::from_str_radix(ascii(bytes), black_box(16)).ok();
    std_front(bytes) = {
        let stop = bytes.iter().position(|byte| !byte.is_ascii_digit()).unwrap_or(bytes.len());
        ascii(&bytes[..stop]).parse::<u64>().ok()
    };
    std_separators(bytes) = without_separators(bytes, &mut [0; 64]).parse::<u64>().ok();
    std_prefix(bytes) = {
        let digits = ascii(bytes).strip_prefix("0x").unwrap_or(ascii(bytes));
        u64::from_str_radix(digits, 16).ok()
    };
    std_literal(bytes) = match ascii(bytes).strip_prefix("0x") {
        Some(digits) => u64::from_str_radix(digits, 16).ok(),
        None => ascii(bytes).parse::<u64>().ok(),
    };
}

/// Debian's lexical-core, where it was there to be compiled.
#[cfg(feature = "lexical-core")]
pub mod lexical {
    use super::*;
    use lexical_core::parse;

    loops! {
        lexical_u8(bytes) = parse::<u8>(bytes).ok().map(u64::from);
        lexical_u32(bytes) = parse::<u32>(bytes).ok().map(u64::from);
        lexical_u64(bytes) = parse::<u64>(bytes).ok();
        lexical_u128(bytes) = parse::<u128>(bytes).ok().map(|value| value as u64);
        lexical_i32(bytes) = parse::<i32>(bytes).ok().map(|value| (value & i32::MAX) as u64);
        lexical_i64(bytes) = parse::<i64>(bytes).ok().map(|value| (value & i64::MAX) as u64);
        lexical_i128(bytes) = parse::<i128>(bytes).ok().map(|value| value as u64 & u64::MAX >> 1);
        lexical_front(bytes) = lexical_core::parse_partial::<u64>(bytes).ok().map(|front| front.0);
    }
}

/// These names with no loop behind them, where lexical-core isn't there.
#[cfg(not(feature = "lexical-core"))]
pub mod lexical {}

macro_rules! declared {
    ($($name:ident)*) => { unsafe extern "C" { $(
        pub fn $name(texts: *const u8, size: usize, stops: *const u32, count: usize) -> u64;
    )* } };
}

declared! {
    cpp_none cpp_u8 cpp_u32 cpp_u64 cpp_u128 cpp_i32 cpp_i64 cpp_i128
    cpp_hex cpp_front cpp_separators cpp_prefix cpp_literal
    call_u64 call_i64 call_u128 call_front call_json call_hex call_separators call_prefix call_literal
    c_u64 c_hex
    ours_none ours_u8 ours_u32 ours_u64 ours_u128 ours_i32 ours_i64 ours_i128 ours_front
}

unsafe extern "C" {
    fn ours_under(texts: *const u8, size: usize, stops: *const u32, count: usize, fields: *const Fields) -> u64;
    fn ours_in_place(texts: *const u8, size: usize, stops: *const u32, count: usize, fields: *const Fields) -> u64;
}

/// A format, as the measured library takes it.
#[repr(C)]
pub struct Fields {
    pub mantissa_radix: u8,
    pub digit_separator: u8,
    pub base_prefix: u8,
    pub consecutive: bool,
    pub json: bool,
    pub literal_prefixes: bool,
}

const TEN: Fields = Fields {
    mantissa_radix: 10,
    digit_separator: 0,
    base_prefix: 0,
    consecutive: false,
    json: false,
    literal_prefixes: false,
};

const RADIX16: Fields = Fields {
    mantissa_radix: 16,
    ..TEN
};

const JSON: Fields = Fields { json: true, ..TEN };

macro_rules! under {
    ($($name:ident = $call:ident($fields:expr);)*) => { $(
        /// Our call under a format that its compiler doesn't know.
        #[unsafe(no_mangle)]
        #[inline(never)]
        pub unsafe extern "C" fn $name(texts: *const u8, size: usize, stops: *const u32, count: usize) -> u64 {
            let fields = black_box($fields);
            unsafe { $call(texts, size, stops, count, &fields) }
        }
    )* };
}

under! {
    ours_radix10 = ours_under(TEN);
    ours_radix16 = ours_under(RADIX16);
    ours_json = ours_under(JSON);
    ours_separators = ours_under(Fields { digit_separator: b'_', ..TEN });
    ours_prefix = ours_under(Fields { base_prefix: b'x', ..RADIX16 });
    ours_literal = ours_under(Fields { literal_prefixes: true, ..TEN });
    in_place_radix10 = ours_in_place(TEN);
    in_place_radix16 = ours_in_place(RADIX16);
    in_place_json = ours_in_place(JSON);
}
