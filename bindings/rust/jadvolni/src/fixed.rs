//! Fixed-point numbers, such as amounts of money.

use crate::format::ByteShown;
use crate::{integer, Error, Format, Integer};
use core::fmt;
use jadvolni_sys as sys;

/// How fixed-point numbers are written: an integer part, and decimal places after a point.
///
/// Begin with [`Fixed::of_places`], and set what differs.
///
/// ```
/// use jadvolni::{parse_fixed, Error, Fixed};
/// const AMOUNT: Fixed = Fixed::of_places(2).point(b',').group_separator(Some(b'.'));
/// assert_eq!(parse_fixed::<i64>("-1.234,50", &AMOUNT), Ok(-123450));
/// assert_eq!(parse_fixed::<i64>("12,505", &AMOUNT), Err(Error::InvalidDigit(5)));
/// ```
///
/// Any values may be set: the calls refuse a description that breaks a rule, and `error` checks it in advance.
#[derive(Copy, Clone, PartialEq, Eq, Hash)]
pub struct Fixed(pub(crate) sys::jadvolni_fixed);

impl Fixed {
    /// Numbers with a fixed number of decimal places, at most 38, in units of the last one: with two places `12.50` is
    /// 1250. With 0 places no point is read. The integer part has the standard format.
    #[must_use]
    pub const fn of_places(places: u8) -> Fixed {
        let integer = Format::STANDARD.0;
        Fixed(sys::jadvolni_fixed {
            integer,
            point: b'.',
            places,
            takes_fewer: 0,
            reserved: [0; 13],
        })
    }

    /// What the integer part looks like: its sign, separators and leading zeros. Its radix is 10, or 0, which means 10
    /// and a required digit. It has no prefix, no suffix, and neither literal prefixes nor octal zeros. `.5` is read
    /// only if it requires no digit.
    #[must_use]
    pub const fn integer(mut self, format: Format) -> Fixed {
        self.0.integer = format.0;
        self
    }

    /// A byte that is ignored between two digits of the integer part: `.` in `1.234,50`.
    #[must_use]
    pub const fn group_separator(self, byte: Option<u8>) -> Fixed {
        let format = Format(self.0.integer);
        self.integer(format.digit_separator(byte).integer_internal_digit_separator(byte.is_some()))
    }

    /// The byte before the decimal places, by default `.`, which 0 also means. It isn't a digit, a sign or the
    /// separator.
    #[must_use]
    pub const fn point(mut self, byte: u8) -> Fixed {
        self.0.point = byte;
        self
    }

    /// Whether fewer digits than places are accepted, as if zeros followed; with none, the point is left out too.
    #[must_use]
    pub const fn takes_fewer(mut self, is_set: bool) -> Fixed {
        self.0.takes_fewer = is_set as u8;
        self
    }

    /// The first rule that the description breaks, or `None`.
    ///
    /// ```
    /// use jadvolni::{Error, Fixed};
    /// assert_eq!(Fixed::of_places(2).error(), None);
    /// assert_eq!(Fixed::of_places(39).error(), Some(Error::InvalidPlaces));
    /// ```
    pub fn error(&self) -> Option<Error> {
        // SAFETY: the call reads the description that it borrows, and nothing else.
        let status = unsafe { sys::jadvolni_fixed_error(&self.0) };
        Error::of(sys::jadvolni_result { status, place: 0 })
    }
}

impl fmt::Debug for Fixed {
    /// What was set, with the format of the integer part.
    fn fmt(&self, f: &mut fmt::Formatter<'_>) -> fmt::Result {
        let point = if self.0.point == 0 { b'.' } else { self.0.point };
        let mut shown = f.debug_struct("Fixed");
        shown.field("places", &self.0.places).field("point", &ByteShown(point));
        shown.field("takes_fewer", &(self.0.takes_fewer != 0));
        shown.field("integer", &Format(self.0.integer)).finish()
    }
}

/// Reads the whole text as a fixed-point number, as a `T` in units of the last place.
///
/// The number is exact, or there is a fault; nothing is rounded. If it leaves the type, the place is that of the digit
/// at which it does, or the text's end if only zeros that aren't written make it leave.
///
/// ```
/// use jadvolni::{parse_fixed, Error, Fixed};
/// let cents = Fixed::of_places(2).takes_fewer(true);
/// assert_eq!(parse_fixed::<i64>("-0.05", &cents), Ok(-5));
/// assert_eq!(parse_fixed::<i64>("12.5", &cents), Ok(1250));
/// assert_eq!(parse_fixed::<i64>("12.", &cents), Err(Error::Empty(3)));
/// assert_eq!(parse_fixed::<u8>("3", &cents), Err(Error::Overflow(1)));
/// assert_eq!(parse_fixed::<i64>("12.5", &cents.takes_fewer(false)), Err(Error::Empty(4)));
/// ```
#[inline]
pub fn parse_fixed<T: Integer>(text: impl AsRef<[u8]>, fixed: &Fixed) -> Result<T, Error> {
    integer::fixed(text.as_ref(), fixed)
}

/// Reads the fixed-point number at the beginning of the text as a `T`, and returns where reading stopped too.
///
/// A digit after the last place is a fault. If fewer places are accepted, a point that no digit follows isn't read.
///
/// If more bytes may come, as from a stream, a result at the text's end isn't final, nor is one before a point or
/// separators that end the text: `12.` may continue as `12.5`.
///
/// ```
/// use jadvolni::{parse_fixed_front, Error, Fixed};
/// let cents = Fixed::of_places(2).takes_fewer(true);
/// assert_eq!(parse_fixed_front::<i64>("12.50 EUR", &cents), Ok((1250, 5)));
/// assert_eq!(parse_fixed_front::<i64>("12. And", &cents), Ok((1200, 2)));
/// assert_eq!(parse_fixed_front::<i64>("12.505", &cents), Err(Error::InvalidDigit(5)));
/// ```
#[inline]
pub fn parse_fixed_front<T: Integer>(
    text: impl AsRef<[u8]>,
    fixed: &Fixed,
) -> Result<(T, usize), Error> {
    integer::fixed_front(text.as_ref(), fixed)
}
