//! Numbers within bounds, with one fault that says the bounds and what was given.

use crate::{integer, Amount, Error, Excerpt, Fixed, Format, Integer};
use core::fmt::{self, Debug, Display, Formatter};
use core::ops::RangeInclusive;

/// Why a text has no number within bounds.
#[derive(Debug, Copy, Clone, PartialEq, Eq)]
pub enum WithinError<T> {
    /// The text is no number, or the format is invalid.
    Invalid(Error),
    /// Its number is less than `min` or greater than `max`, whether the type has it or not.
    OutOfBounds {
        /// The text.
        given: Excerpt,
        /// The least number that is taken.
        min: T,
        /// The greatest number that is taken.
        max: T,
    },
}

impl<T: Display> Display for WithinError<T> {
    /// As `70000 is not from 1 to 65535`, or what [`Error`] says.
    fn fmt(&self, f: &mut Formatter<'_>) -> fmt::Result {
        match self {
            WithinError::Invalid(error) => Display::fmt(error, f),
            WithinError::OutOfBounds { given, min, max } => {
                write!(f, "{given} is not from {min} to {max}")
            }
        }
    }
}

impl<T: Debug + Display> core::error::Error for WithinError<T> {}

/// The whole text as a `T` within bounds.
///
/// ```
/// use jadvolni::parse_within;
/// assert_eq!(parse_within("8080", 1..=65535u16), Ok(8080));
/// let message = |text| parse_within(text, 1..=65535u16).unwrap_err().to_string();
/// assert_eq!(message("70000"), "70000 is not from 1 to 65535");
/// assert_eq!(message("-1"), "-1 is not from 1 to 65535");
/// assert_eq!(message("80a"), "invalid digit at byte 2");
/// ```
pub fn parse_within<T: Integer + PartialOrd>(
    text: impl AsRef<[u8]>,
    bounds: RangeInclusive<T>,
) -> Result<T, WithinError<T>> {
    parse_within_with_format(text, bounds, &Format::STANDARD)
}

/// The whole text as a `T` within bounds, under a format.
///
/// ```
/// use jadvolni::{parse_within_with_format, Error, Format, WithinError};
/// let percent = |text| parse_within_with_format(text, 0..=100u8, &Format::JSON);
/// assert_eq!(percent("100"), Ok(100));
/// assert_eq!(percent("101").unwrap_err().to_string(), "101 is not from 0 to 100");
/// assert_eq!(percent("007"), Err(WithinError::Invalid(Error::InvalidLeadingZeros(0))));
/// ```
pub fn parse_within_with_format<T: Integer + PartialOrd>(
    text: impl AsRef<[u8]>,
    bounds: RangeInclusive<T>,
    format: &Format,
) -> Result<T, WithinError<T>> {
    let text = text.as_ref();
    let read = integer::complete_with(text, format);
    number_within(text, bounds, read, || integer::complete_with(text, format))
}

/// The fixed-point number that the whole text is, as a `T` within bounds, all in units of the last place.
///
/// ```
/// use jadvolni::{parse_fixed_within, Error, Fixed, WithinError};
/// let fee = |text| parse_fixed_within(text, 0..=9999u16, &Fixed::of_places(2));
/// assert_eq!(fee("12.50"), Ok(1250));
/// assert_eq!(fee("-1.00").unwrap_err().to_string(), "-1.00 is not from 0.00 to 99.99");
/// assert_eq!(fee("12.5x"), Err(WithinError::Invalid(Error::InvalidDigit(4))));
/// ```
pub fn parse_fixed_within<T: Integer + PartialOrd>(
    text: impl AsRef<[u8]>,
    bounds: RangeInclusive<T>,
    fixed: &Fixed,
) -> Result<T, WithinError<Amount<T>>> {
    let text = text.as_ref();
    let read = integer::fixed(text, fixed);
    number_within(text, bounds, read, || integer::fixed(text, fixed)).map_err(|error| match error {
        WithinError::Invalid(error) => WithinError::Invalid(error),
        WithinError::OutOfBounds { given, min, max } => WithinError::OutOfBounds {
            given,
            min: Amount::of(min, fixed),
            max: Amount::of(max, fixed),
        },
    })
}

/// A number that was read of a text, if it is within bounds. `widest` reads it as of the widest type with a sign.
fn number_within<T: Integer + PartialOrd>(
    text: &[u8],
    bounds: RangeInclusive<T>,
    read: Result<T, Error>,
    widest: impl FnOnce() -> Result<i128, Error>,
) -> Result<T, WithinError<T>> {
    let fault = match read {
        Ok(number) if bounds.contains(&number) => return Ok(number),
        Ok(_) => None,
        Err(error) => fault_beside_bounds(error, widest()),
    };
    let (min, max) = bounds.into_inner();
    Err(match fault {
        Some(error) => WithinError::Invalid(error),
        None => WithinError::OutOfBounds { given: Excerpt::of(text), min, max },
    })
}

/// What else is wrong with a text than that a type lacks its number: `None` where that is all.
///
/// The widest type with a sign decides, in which `-5` and `70000` are numbers.
fn fault_beside_bounds(error: Error, widest: Result<i128, Error>) -> Option<Error> {
    let is_beyond = |error| matches!(error, Error::Overflow(_) | Error::Underflow(_));
    match widest {
        Ok(number) => (number >= 0 && !is_beyond(error)).then_some(error),
        Err(other) if is_beyond(other) => None,
        Err(other) => Some(if is_beyond(error) { other } else { error }),
    }
}
