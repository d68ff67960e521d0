"""Writes the callers that are measured: a static library of loops over texts, each around one call
of the parsers.

The library is no crate of the repository: no proof and no gate speaks of time. It is written into a
tree of its own, and proved there as any crate is: that it indexes nothing outside its slices, and
wraps nothing unasked.
"""
from __future__ import annotations

HEAD = """// Loops over texts, each around one call of the parsers, for a driver in Rust.
#![tactic(auto)]

use lexical_parse_integer::{
    FromLexical, FromLexicalWithOptions, NumberFormat, NumberFormatBuilder, Result, options,
};

// The text of this number: it ends before a line feed, and the next begins behind that.
#[inline(always)]
fn text<'a>(texts: &'a [u8], stops: &[u32], number: usize) -> Option<&'a [u8]> {
    if 1 <= number && number < stops.len() {
        let start = stops[number - 1] as usize;
        let stop = stops[number] as usize;
        if start < stop && stop <= texts.len() {
            return Some(&texts[start..stop - 1]);
        }
    }
    None
}

// What a loop answers, so that no call of it can be left out.
#[inline(always)]
fn added(sum: u64, answer: Result<u64>) -> u64 {
    match answer {
        Ok(value) => sum.wrapping_mul(31).wrapping_add(value),
        Err(_) => sum.wrapping_mul(31).wrapping_add(1),
    }
}

/// A format that is known when the program runs. A byte of 0 stands for no separator and no prefix.
#[repr(C)]
pub struct Fields {
    pub mantissa_radix: u8,
    pub digit_separator: u8,
    pub base_prefix: u8,
    pub consecutive: bool,
    pub json: bool,
    pub literal_prefixes: bool,
}

fn punctuation(byte: u8) -> Option<u8> {
    if byte == 0 { None } else { Some(byte) }
}

#[inline(never)]
fn format(fields: &Fields) -> NumberFormat {
    NumberFormatBuilder::new()
        .mantissa_radix(fields.mantissa_radix)
        .digit_separator(punctuation(fields.digit_separator))
        .integer_internal_digit_separator(fields.digit_separator != 0)
        .integer_consecutive_digit_separator(fields.consecutive)
        .base_prefix(punctuation(fields.base_prefix))
        .no_positive_mantissa_sign(fields.json)
        .no_integer_leading_zeros(fields.json)
        .required_integer_digits(fields.json)
        .literal_prefixes(fields.literal_prefixes)
        .build_unchecked()
}

// A call as a program makes it, whose compiler doesn't see the format.
#[inline(never)]
fn under(bytes: &[u8], format: &NumberFormat) -> Result<u64> {
    u64::from_lexical_with_options(bytes, format, &options::STANDARD)
}
"""

LOOP = """
/// {what}
#[unsafe(no_mangle)]
pub extern "C" fn {name}(texts: &[u8], stops: &[u32]{more}) -> u64 {{
{before}    let mut sum = 0u64;
    for number in 1..stops.len() {{
        match text(texts, stops, number) {{
            Some(bytes) => sum = added(sum, {call}),
            None => return sum,
        }}
    }}
    sum
}}
"""

# How a value goes into a sum: its low bits, without the sign.
LOW_BITS = {
    "u8": "value as u64", "u32": "value as u64", "u64": "value",
    "u128": "(value % 0x1_0000_0000_0000_0000) as u64",
    "i32": "(value & i32::MAX) as u64", "i64": "(value & i64::MAX) as u64",
    "i128": "value.rem_euclid(0x8000_0000_0000_0000) as u64",
}


FORMAT = "    let format = format(fields);\n"
IN_PLACE = "u64::from_lexical_with_options(bytes, &format, &options::STANDARD)"


def loop(name: str, what: str, call: str, more: str = "", before: str = "") -> str:
    """The function of a loop around a call."""
    return LOOP.format(name=name, what=what, call=call, more=more, before=before)


def source(sites: int) -> str:
    """The text of the library, in which each call of the parsers stands at several places: the
    loops at the first are measured."""
    found = [HEAD, loop("ours_none", "The loop alone.", "Ok(bytes.len() as u64)")]
    ends = ["", *(f"_{site}" for site in range(1, sites))]
    return "".join(found + [one for end in ends for one in loops(end)])


def loops(end: str) -> list[str]:
    """A loop around each call, with names of this end."""
    found = []
    for integer, low_bits in LOW_BITS.items():
        call = f"{integer}::from_lexical(bytes).map(|value| {low_bits})"
        found.append(loop(f"ours_{integer}{end}", f"Whole texts as `{integer}`.", call))
    call = "u64::from_lexical_partial(bytes).map(|front| front.0)"
    found.append(loop(f"ours_front{end}", "The fronts of texts as `u64`.", call))
    what, more, before = "Whole texts as `u64`, under a format", ", fields: &Fields", FORMAT
    found.append(loop(f"ours_under{end}", f"{what}.", "under(bytes, &format)", more, before))
    found.append(loop(f"ours_in_place{end}", f"{what}, in place.", IN_PLACE, more, before))
    return found
