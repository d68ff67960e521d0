//! What can be wrong with a text, or with the format that it is read under.

use core::fmt;
use jadvolni_sys::{jadvolni_line_column, jadvolni_result};

/// What is wrong with a text, with its place, or with the format that it is read under.
///
/// A place counts the bytes of the whole text from 0, sign and prefix included.
#[derive(Debug, Copy, Clone, PartialEq, Eq, Hash)]
#[non_exhaustive]
pub enum Error {
    /// The number is greater than the type's maximum. The place is that of the first digit at which it leaves the type.
    Overflow(usize),
    /// The number is less than the type's minimum. The place is that of the first digit at which it leaves the type.
    /// Only a signed type has it: `-1` as `u8` is `InvalidDigit(0)`.
    Underflow(usize),
    /// The text continues after the number, at the place.
    InvalidDigit(usize),
    /// A digit is missing at the place.
    Empty(usize),
    /// The format requires a sign. The place is 0.
    MissingSign(usize),
    /// The format forbids the plus sign. The place is 0.
    InvalidPositiveSign(usize),
    /// The format forbids leading zeros, and one is at the place, also of a front: `01` isn't 0 that stops at 1.
    InvalidLeadingZeros(usize),
    /// The format's radix isn't from 2 to 36.
    InvalidMantissaRadix,
    /// The format's separator isn't ASCII, or it is `+`, `-` or a digit.
    InvalidDigitSeparator,
    /// The format's prefix isn't ASCII, or it is `+`, `-` or a digit.
    InvalidBasePrefix,
    /// The format's suffix isn't ASCII, or it is `+`, `-` or a digit.
    InvalidBaseSuffix,
    /// Two of the format's separator, prefix and suffix are the same byte, or a letter in two cases.
    InvalidPunctuation,
    /// The format can't have literal prefixes or octal zeros with its radix, prefix, separator or suffix.
    InvalidLiteralPrefixes,
    /// A row of a table has fewer cells than there are columns. The place is where it ends.
    TooFewCells(usize),
    /// A row of a table has more cells than there are columns. The place is where the first one too many starts.
    TooManyCells(usize),
    /// The table has returns, and the line feed at the place has no carriage return before it.
    MissingReturn(usize),
    /// The number of a table's widths isn't that of its columns, or its rows are records and it has no widths.
    InvalidTable,
    /// The quote at the place is misplaced in its cell, stands within a number, or is never closed.
    MisplacedQuote(usize),
    /// The radix of fixed-point numbers isn't 10.
    InvalidFixedRadix,
    /// Fixed-point numbers have a prefix, a suffix, literal prefixes or octal zeros.
    InvalidFixedAffix,
    /// The decimal point is a digit, a sign, or the separator of the integer part.
    InvalidPoint,
    /// Fixed-point numbers have more than 38 decimal places.
    InvalidPlaces,
    /// No entry of a table of suffixes has the literal's suffix. The place is where the suffix begins.
    UnknownSuffix(usize),
    /// An entry of a table of suffixes names no type; entries of this crate always do.
    InvalidSuffixTable,
    /// A status that only a later library has.
    Unknown(u32),
}

impl Error {
    /// What a call returned: `None` if it read a number.
    #[inline]
    pub(crate) fn of(outcome: jadvolni_result) -> Option<Error> {
        Some(match outcome.status {
            0 => return None,
            1 => Error::Overflow(outcome.place),
            2 => Error::Underflow(outcome.place),
            3 => Error::InvalidDigit(outcome.place),
            4 => Error::Empty(outcome.place),
            5 => Error::MissingSign(outcome.place),
            6 => Error::InvalidPositiveSign(outcome.place),
            7 => Error::InvalidLeadingZeros(outcome.place),
            8 => Error::InvalidMantissaRadix,
            9 => Error::InvalidDigitSeparator,
            10 => Error::InvalidBasePrefix,
            11 => Error::InvalidBaseSuffix,
            12 => Error::InvalidPunctuation,
            13 => Error::InvalidLiteralPrefixes,
            14 => Error::TooFewCells(outcome.place),
            15 => Error::TooManyCells(outcome.place),
            16 => Error::MissingReturn(outcome.place),
            17 => Error::InvalidTable,
            18 => Error::MisplacedQuote(outcome.place),
            19 => Error::InvalidFixedRadix,
            20 => Error::InvalidFixedAffix,
            21 => Error::InvalidPoint,
            22 => Error::InvalidPlaces,
            23 => Error::UnknownSuffix(outcome.place),
            24 => Error::InvalidSuffixTable,
            other => Error::Unknown(other),
        })
    }

    /// The place of a fault of the text, and `None` for a fault of the format or of the table.
    pub fn place(&self) -> Option<usize> {
        let mut same = *self;
        same.place_mut().copied()
    }

    /// What is wrong, without its place: `overflow`. For a format, what the field has to be.
    ///
    /// ```
    /// let error = jadvolni::parse::<u8>("256").unwrap_err();
    /// assert_eq!((error.message(), error.to_string()), ("overflow", "overflow at byte 2".into()));
    /// ```
    #[rustfmt::skip]
    pub fn message(&self) -> &'static str {
        match self {
            Error::Overflow(_) => "overflow",
            Error::Underflow(_) => "underflow",
            Error::InvalidDigit(_) => "invalid digit",
            Error::Empty(_) => "missing digit",
            Error::MissingSign(_) => "missing sign",
            Error::InvalidPositiveSign(_) => "forbidden plus sign",
            Error::InvalidLeadingZeros(_) => "forbidden leading zero",
            Error::InvalidMantissaRadix => "the radix has to be 2 to 36",
            Error::InvalidDigitSeparator =>
                "the separator has to be ASCII, and no sign and no digit of the radix",
            Error::InvalidBasePrefix =>
                "the prefix has to be ASCII, and no sign and no digit of the radix",
            Error::InvalidBaseSuffix =>
                "the suffix has to be ASCII, and no sign and no digit of the radix",
            Error::InvalidPunctuation =>
                "separator, prefix and suffix have to be different bytes, and no letter \
                in two cases",
            Error::InvalidLiteralPrefixes =>
                "literal prefixes and octal zeros need the radix 10, and literal prefixes \
                no prefix, and no separator or suffix that may be a part of 0x, 0o, 0b \
                or of their digits",
            Error::TooFewCells(_) => "too few cells",
            Error::TooManyCells(_) => "too many cells",
            Error::MissingReturn(_) => "missing carriage return",
            Error::InvalidTable =>
                "each array of a table has to have room for all rows, widths have to be \
                as many as columns, records need widths, and the reserved bytes of a \
                table have to be 0",
            Error::MisplacedQuote(_) => "misplaced quote",
            Error::InvalidFixedRadix => "fixed-point numbers have to have the radix 10",
            Error::InvalidFixedAffix =>
                "fixed-point numbers have no prefix, no suffix, no literal prefixes and \
                no octal zeros",
            Error::InvalidPoint =>
                "the point has to be no digit, no sign, and not the separator of the \
                integer part",
            Error::InvalidPlaces =>
                "fixed-point numbers have to have at most 38 places",
            Error::UnknownSuffix(_) => "unknown suffix",
            Error::InvalidSuffixTable =>
                "each suffix of a table has to name a type, and its reserved bytes have \
                to be 0",
            Error::Unknown(_) => "a status that only a later library has",
        }
    }

    /// The line and the column of a fault of a text, and `None` for one of the format or of the table. `text` is the
    /// one in which its place counts.
    ///
    /// ```
    /// use jadvolni::{parse_column, Position};
    /// let (text, mut values) = ("12\n7x\n", [0u8; 4]);
    /// let error = parse_column(text, b'\n', &mut values).unwrap_err();
    /// let position = error.position(text).unwrap();
    /// assert_eq!(position, Position { line: 1, column: 1 });
    /// assert_eq!(format!("{position}: {}", error.error().message()), "line 2, column 2: invalid digit");
    /// ```
    pub fn position(&self, text: impl AsRef<[u8]>) -> Option<Position> {
        self.place().map(|place| Position::of(text, place))
    }

    fn place_mut(&mut self) -> Option<&mut usize> {
        match self {
            Error::Overflow(place)
            | Error::Underflow(place)
            | Error::InvalidDigit(place)
            | Error::Empty(place)
            | Error::MissingSign(place)
            | Error::InvalidPositiveSign(place)
            | Error::InvalidLeadingZeros(place)
            | Error::TooFewCells(place)
            | Error::TooManyCells(place)
            | Error::MissingReturn(place)
            | Error::MisplacedQuote(place)
            | Error::UnknownSuffix(place) => Some(place),
            _ => None,
        }
    }

    /// This fault if the text starts `by` bytes further on.
    pub(crate) fn moved(mut self, by: usize) -> Error {
        if let Some(place) = self.place_mut() {
            *place = place.saturating_add(by);
        }
        self
    }
}

impl fmt::Display for Error {
    /// What is wrong, and the place of a fault of the text: `overflow at byte 19`.
    fn fmt(&self, f: &mut fmt::Formatter<'_>) -> fmt::Result {
        f.write_str(self.message())?;
        match self.place() {
            Some(place) => write!(f, " at byte {place}"),
            None => Ok(()),
        }
    }
}

impl core::error::Error for Error {}

/// Line and column of a byte of a text, both from 0. Displayed, they count from 1, as in an editor.
#[derive(Debug, Copy, Clone, PartialEq, Eq, Hash)]
pub struct Position {
    /// The line: the number of line feeds before the byte.
    pub line: usize,
    /// The column: the number of bytes after the last of these. It counts bytes, as compilers do.
    pub column: usize,
}

impl Position {
    /// The position of the byte at a place, which counts from 0. A place past the end of the text counts as its end.
    ///
    /// ```
    /// use jadvolni::Position;
    /// assert_eq!(Position::of("a,b\nc", 4), Position { line: 1, column: 0 });
    /// ```
    pub fn of(text: impl AsRef<[u8]>, place: usize) -> Position {
        let text = text.as_ref();
        // SAFETY: the pointer is that of a slice with its length.
        let found = unsafe { jadvolni_line_column(text.as_ptr().cast(), text.len(), place) };
        Position { line: found.line, column: found.column }
    }
}

impl fmt::Display for Position {
    /// As `line 2, column 1`, each counted from 1.
    fn fmt(&self, f: &mut fmt::Formatter<'_>) -> fmt::Result {
        let Position { line, column } = self;
        write!(f, "line {}, column {}", line.saturating_add(1), column.saturating_add(1))
    }
}
