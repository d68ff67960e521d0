//! A literal with its suffix.

use crate::{integer, Error, Format};
use jadvolni_sys as sys;

/// A literal at the beginning of a text. Its suffix is the text from `number_stop` up to `stop`.
#[derive(Debug, Copy, Clone, PartialEq, Eq)]
pub struct Literal {
    /// The value of its number.
    pub value: u128,
    /// The place after its number, where its suffix begins.
    pub number_stop: usize,
    /// The place after its suffix.
    pub stop: usize,
}

/// Reads the literal at the beginning of the text, under the format of its language: its number, and its suffix, which
/// is all ASCII letters, `0` to `9` and `_` that follow.
///
/// ```
/// use jadvolni::{parse_literal, Error, Format};
/// let text = "1_000i64;";
/// let literal = parse_literal(text, &Format::RUST)?;
/// assert_eq!((literal.value, &text[literal.number_stop..literal.stop]), (1000, "i64"));
/// assert_eq!(parse_literal("u32", &Format::RUST), Err(Error::Empty(0)));
/// # Ok::<(), Error>(())
/// ```
///
/// The caller decides which suffixes are valid: `1e5` is 1 with the suffix `e5`. The format's own suffix, as the `L` of
/// Java and Kotlin or the `n` of JavaScript, is part of the number: `base_suffix(None)` makes it the literal's suffix.
///
/// The number is a `u128`: it has no minus under any format, and a plus if the format allows one.
pub fn parse_literal(text: impl AsRef<[u8]>, format: &Format) -> Result<Literal, Error> {
    let (text, mut value, mut number_stop) = (text.as_ref(), sys::jadvolni_uint128::default(), 0);
    // SAFETY: the pointers are those of a slice with its length, of a borrowed format, and of two values
    // that are this call's alone.
    let outcome = unsafe {
        sys::jadvolni_parse_literal(
            text.as_ptr().cast(),
            text.len(),
            &format.0,
            &mut value,
            &mut number_stop,
        )
    };
    match Error::of(outcome) {
        None => Ok(Literal { value: integer::unsigned(value), number_stop, stop: outcome.place }),
        Some(error) => Err(error),
    }
}
