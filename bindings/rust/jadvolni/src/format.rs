//! Formats: which texts are numbers.

use crate::Error;
use core::fmt;
use jadvolni_sys as sys;

/// Which texts are numbers. Begin with one of the constants, and set what differs.
///
/// ```
/// use jadvolni::{parse_with_format, Format};
/// const HEXADECIMAL: Format = Format::STANDARD.mantissa_radix(16).base_prefix(Some(b'x'));
/// assert_eq!(parse_with_format::<u8>("0x1F", &HEXADECIMAL), Ok(31));
/// ```
///
/// Any values may be set: the calls refuse a format that breaks a rule, and `error` checks it in advance. No field
/// requires a prefix or a suffix, or refuses a minus for a signed type.
#[derive(Copy, Clone, PartialEq, Eq, Hash)]
pub struct Format(pub(crate) sys::jadvolni_format);

/// Each field unset.
// SAFETY: the struct has bytes alone, and any byte may be 0.
const ZEROS: Format = Format(unsafe { core::mem::zeroed() });

/// The setters of flags: each sets the byte of its name.
macro_rules! flags {
    ($($(#[$about:meta])* $name:ident)*) => {
        $(
            $(#[$about])*
            #[must_use]
            pub const fn $name(mut self, is_set: bool) -> Format {
                self.0.$name = is_set as u8;
                self
            }
        )*

        /// Shows the flags that the standard format has otherwise.
        fn show_flags(&self, shown: &mut fmt::DebugStruct<'_, '_>) {
            $(if self.0.$name != Format::STANDARD.0.$name {
                shown.field(stringify!($name), &(self.0.$name != 0));
            })*
        }
    };
}

/// The setters of bytes of punctuation: each sets the byte of its name, or the bit that says that it is the byte 0.
macro_rules! punctuation {
    ($($(#[$about:meta])* $name:ident $bit:ident)*) => {
        $(
            $(#[$about])*
            #[must_use]
            pub const fn $name(mut self, byte: Option<u8>) -> Format {
                self.0.$name = match byte {
                    Some(byte) => byte,
                    None => 0,
                };
                self.0.nul_is_punctuation &= !sys::$bit;
                if let Some(0) = byte {
                    self.0.nul_is_punctuation |= sys::$bit;
                }
                self
            }
        )*

        /// Shows the bytes that are set.
        fn show_punctuation(&self, shown: &mut fmt::DebugStruct<'_, '_>) {
            $(if self.0.$name != 0 || self.0.nul_is_punctuation & sys::$bit != 0 {
                shown.field(stringify!($name), &ByteShown(self.0.$name));
            })*
        }
    };
}

/// A byte as a literal has it: `b','`.
pub(crate) struct ByteShown(pub(crate) u8);

impl fmt::Debug for ByteShown {
    fn fmt(&self, f: &mut fmt::Formatter<'_>) -> fmt::Result {
        write!(f, "b'{}'", self.0.escape_ascii())
    }
}

impl Format {
    /// Decimal digits after an optional sign. A digit is required.
    pub const STANDARD: Format = ZEROS.mantissa_radix(10).required_mantissa_digits(true);

    /// The format of the tokenizer's numbers: `1_000`, `0xFF`, `0o17`, `0b1`. It is no language's
    /// format: it reads `0777` as 777, which is octal to C. Under it a call also reads `+1`, which is
    /// two tokens.
    pub const LITERAL: Format = Format::STANDARD
        .digit_separator(Some(b'_'))
        .integer_internal_digit_separator(true)
        .integer_consecutive_digit_separator(true)
        .literal_prefixes(true);

    /// The radix, from 2 to 36.
    #[must_use]
    pub const fn mantissa_radix(mut self, radix: u8) -> Format {
        self.0.mantissa_radix = radix;
        self
    }

    punctuation! {
        /// A byte that is ignored among the digits: "_" in "1_000". The flags on separators say
        /// where it may stand; with none of them, nowhere. It isn't a decimal point: with ","
        /// between digits "12,5" is 125, and "12,505" is 12505. For amounts use fixed-point
        /// numbers.
        digit_separator JADVOLNI_NUL_IS_SEPARATOR
        /// A byte that may follow a 0 before the digits: with "x", "0x1F" is read like "1F". It
        /// doesn't change the radix.
        base_prefix JADVOLNI_NUL_IS_PREFIX
        /// A byte that may follow the digits: with "h", "1Fh" is read like "1F".
        base_suffix JADVOLNI_NUL_IS_SUFFIX
    }

    flags! {
        /// The prefix is matched exactly. Otherwise a letter matches in either case.
        case_sensitive_base_prefix
        /// The suffix is matched exactly. Otherwise a letter matches in either case.
        case_sensitive_base_suffix
        /// A digit is required, as with required_mantissa_digits: one of the two is enough.
        required_integer_digits
        /// A digit is required. If neither field is set, "" and "+" are 0, but a prefix alone is
        /// not. A front still needs a digit, except an amount's.
        required_mantissa_digits
        /// A "+" is refused.
        no_positive_mantissa_sign
        /// A text without a sign is refused.
        required_mantissa_sign
        /// Leading zeros are refused, as in "01". After a prefix they aren't, nor in a number that
        /// a zero makes octal.
        no_integer_leading_zeros
        /// Separators may come before the first digit: "_12".
        integer_leading_digit_separator
        /// Separators may come between two digits: "1_2".
        integer_internal_digit_separator
        /// Separators may come after the last digit: "12_".
        integer_trailing_digit_separator
        /// Where one separator may stand, several may: "1__2".
        integer_consecutive_digit_separator
        /// Separators may come directly after a prefix, as in "0x_1F", like leading ones. No effect
        /// without a prefix.
        integer_prefix_digit_separator
        /// "0x", "0o" and "0b" choose the radix 16, 8 or 2 for the digits after them; so do "0X",
        /// "0O" and "0B", unless the prefix is matched exactly. The radix of the format must be 10;
        /// it is used for a text without such a prefix.
        literal_prefixes
        /// A number is octal if its first byte, after any sign, is 0: "0777" is 511, and "08" ends
        /// after its zero. "1007" and "_017" are decimal, and a prefix takes precedence. The radix
        /// of the format must be 10.
        literal_octal_zero
    }

    /// The first rule that the format breaks, or `None`.
    ///
    /// ```
    /// use jadvolni::{Error, Format};
    /// assert_eq!(Format::JSON.error(), None);
    /// assert_eq!(Format::JSON.mantissa_radix(37).error(), Some(Error::InvalidMantissaRadix));
    /// ```
    pub fn error(&self) -> Option<Error> {
        // SAFETY: the call reads the format that it borrows, and nothing else.
        let status = unsafe { sys::jadvolni_format_error(&self.0) };
        Error::of(sys::jadvolni_result { status, place: 0 })
    }
}

impl fmt::Debug for Format {
    /// The radix, and what differs from the standard format.
    ///
    /// ```
    /// use jadvolni::Format;
    /// let hexadecimal = Format::STANDARD.mantissa_radix(16).base_prefix(Some(b'x'));
    /// assert_eq!(format!("{hexadecimal:?}"), "Format { mantissa_radix: 16, base_prefix: b'x' }");
    /// ```
    fn fmt(&self, f: &mut fmt::Formatter<'_>) -> fmt::Result {
        let mut shown = f.debug_struct("Format");
        shown.field("mantissa_radix", &self.0.mantissa_radix);
        self.show_punctuation(&mut shown);
        self.show_flags(&mut shown);
        shown.finish()
    }
}

impl Default for Format {
    fn default() -> Format {
        Format::STANDARD
    }
}
