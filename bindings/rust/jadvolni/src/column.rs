//! Columns: the numbers of a text's fields, read into a slice by one call.

use crate::{Error, Format, Integer, Position};
use core::ffi::c_char;
use core::fmt;
use jadvolni_sys as sys;

/// One of the eight integer types that columns have: `u8` to `u64`, `i8` to `i64`.
pub trait ColumnInteger: Integer + ColumnCalls {}

type ColumnCall<T> = unsafe extern "C" fn(
    *const c_char,
    usize,
    u8,
    *const sys::jadvolni_format,
    *mut T,
    usize,
    *mut usize,
) -> sys::jadvolni_result;

/// The library's call for columns of a type. It reads the text and the format that it is passed, writes at most to the
/// slice and the count, and keeps nothing.
pub trait ColumnCalls: Sized {
    const COLUMN: ColumnCall<Self>;
}

/// How far a column was read.
#[derive(Debug, Copy, Clone, PartialEq, Eq)]
pub struct Column {
    /// How many numbers were read.
    pub count: usize,
    /// Where reading stopped: the text's end, or the start of the first field that had no room in the slice.
    pub stop: usize,
}

/// Why a column isn't read to its end.
#[derive(Debug, Copy, Clone, PartialEq, Eq)]
pub enum ColumnError {
    /// The format is invalid, or the dialect isn't that of a column; nothing was read.
    InvalidFormat(Error),
    /// A field isn't a number of the type. It is the first such field, and all before it were read.
    InvalidField {
        /// The index of the field, from 0: as many numbers were read.
        field: usize,
        /// The place in the text where it starts.
        start: usize,
        /// Its fault, whose place counts from the start of the text.
        error: Error,
    },
}

impl fmt::Display for ColumnError {
    /// The fault, and its field, counted from 1: `overflow at byte 5, in field 2`.
    fn fmt(&self, f: &mut fmt::Formatter<'_>) -> fmt::Result {
        match self {
            ColumnError::InvalidFormat(error) => error.fmt(f),
            ColumnError::InvalidField { field, error, .. } => {
                write!(f, "{error}, in field {}", field.saturating_add(1))
            }
        }
    }
}

impl ColumnError {
    /// What is wrong with the format or the field.
    pub fn error(&self) -> Error {
        match *self {
            ColumnError::InvalidFormat(error) | ColumnError::InvalidField { error, .. } => error,
        }
    }

    /// The line and the column of the fault's byte in the text, as by [`Error::position`].
    pub fn position(&self, text: impl AsRef<[u8]>) -> Option<Position> {
        self.error().position(text)
    }
}

impl core::error::Error for ColumnError {}

/// Reads the numbers of the text's fields into the slice, as long as there is room. A separator, which may be any byte,
/// is between two fields; one at the end starts no further field.
///
/// The numbers are at the beginning of the slice, and the rest of it is unchanged, even after a fault. Fields without
/// room aren't looked at: a call on the text from `stop` on continues exactly there.
///
/// For lines with carriage returns, blanks, missing numbers or amounts use
/// [`parse_column_with_dialect`](crate::parse_column_with_dialect).
///
/// ```
/// use jadvolni::{parse_column, Column, ColumnError, Error};
/// let mut values = [0u8; 4];
/// assert_eq!(parse_column("12\n7\n", b'\n', &mut values), Ok(Column { count: 2, stop: 5 }));
/// assert_eq!(values, [12, 7, 0, 0]);
/// let fault = ColumnError::InvalidField { field: 1, start: 3, error: Error::Overflow(5) };
/// assert_eq!(parse_column("12,256,x", b',', &mut values), Err(fault));
/// assert_eq!(fault.to_string(), "overflow at byte 5, in field 2");
/// ```
#[inline]
pub fn parse_column<T: ColumnInteger>(
    text: impl AsRef<[u8]>,
    separator: u8,
    values: &mut [T],
) -> Result<Column, ColumnError> {
    parse_column_with_format(text, separator, &Format::STANDARD, values)
}

/// Reads the numbers of the text's fields under a format, which is checked first.
///
/// ```
/// use jadvolni::{parse_column_with_format, Column, Format};
/// let mut values = [0u16; 2];
/// let read = parse_column_with_format("0xFF 1_0", b' ', &Format::LITERAL, &mut values);
/// assert_eq!((read, values), (Ok(Column { count: 2, stop: 8 }), [255, 10]));
/// ```
pub fn parse_column_with_format<T: ColumnInteger>(
    text: impl AsRef<[u8]>,
    separator: u8,
    format: &Format,
    values: &mut [T],
) -> Result<Column, ColumnError> {
    let (text, mut count) = (text.as_ref(), 0);
    // SAFETY: the pointers are those of slices with their lengths, of a borrowed format, and of the
    // count; `values` and the count are this call's alone.
    let outcome = unsafe {
        T::COLUMN(
            text.as_ptr().cast(),
            text.len(),
            separator,
            &format.0,
            values.as_mut_ptr(),
            values.len(),
            &mut count,
        )
    };
    match Error::of(outcome) {
        None => Ok(Column { count, stop: outcome.place }),
        Some(error) => Err(match error.place() {
            Some(place) => {
                let start = field_start(&text[..place], separator);
                ColumnError::InvalidField { field: count, start, error }
            }
            None => ColumnError::InvalidFormat(error),
        }),
    }
}

/// Reads the numbers of a part of a text, such as a block of a file: of its whole fields, or of all if it is the last
/// part.
///
/// Put the bytes from `stop` on in front of the next part: then all parts give the numbers of the whole text. If the
/// slice is full, `stop` is the start of the next field, as usual. Places count from the start of the part.
///
/// ```
/// use jadvolni::{parse_column_part, Column};
/// let mut values = [0u8; 4];
/// let part = parse_column_part("12,7", false, b',', &mut values);
/// assert_eq!((part, values[0]), (Ok(Column { count: 1, stop: 3 }), 12));
/// let last = parse_column_part("75", true, b',', &mut values);
/// assert_eq!((last, values[0]), (Ok(Column { count: 1, stop: 2 }), 75));
/// ```
pub fn parse_column_part<T: ColumnInteger>(
    text: impl AsRef<[u8]>,
    is_last: bool,
    separator: u8,
    values: &mut [T],
) -> Result<Column, ColumnError> {
    parse_column_part_with_format(text, is_last, separator, &Format::STANDARD, values)
}

/// Reads the numbers of a part of a text under a format, which is checked first.
///
/// ```
/// use jadvolni::{parse_column_part_with_format, Column, Format};
/// let mut values = [0u16; 2];
/// let read = parse_column_part_with_format("0xFF 1_", false, b' ', &Format::LITERAL, &mut values);
/// assert_eq!((read, values), (Ok(Column { count: 1, stop: 5 }), [255, 0]));
/// ```
pub fn parse_column_part_with_format<T: ColumnInteger>(
    text: impl AsRef<[u8]>,
    is_last: bool,
    separator: u8,
    format: &Format,
    values: &mut [T],
) -> Result<Column, ColumnError> {
    let text = text.as_ref();
    let whole = if is_last { text.len() } else { field_start(text, separator) };
    parse_column_with_format(&text[..whole], separator, format, values)
}

/// Where the last field of the text starts: after its last separator, or at 0. For a block that isn't the file's last,
/// that is how many bytes are whole fields.
///
/// ```
/// assert_eq!(jadvolni::field_start("12\n34\n5", b'\n'), 6);
/// ```
#[inline]
pub fn field_start(text: impl AsRef<[u8]>, separator: u8) -> usize {
    let text = text.as_ref();
    // SAFETY: the pointer is that of a slice with its length.
    unsafe { sys::jadvolni_field_start(text.as_ptr().cast(), text.len(), separator) }
}

/// The types, and the call of each.
macro_rules! columns {
    ($($type:ty: $call:ident)*) => {$(
        impl ColumnInteger for $type {}

        impl ColumnCalls for $type {
            const COLUMN: ColumnCall<$type> = sys::$call;
        }
    )*};
}

columns! {
    u8: jadvolni_parse_u8_column
    u16: jadvolni_parse_u16_column
    u32: jadvolni_parse_u32_column
    u64: jadvolni_parse_u64_column
    i8: jadvolni_parse_i8_column
    i16: jadvolni_parse_i16_column
    i32: jadvolni_parse_i32_column
    i64: jadvolni_parse_i64_column
}
