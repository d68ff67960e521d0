//! Integers from bytes, by a library that is proved to answer what its grammar says.
//!
//! ```
//! use jadvolni::{parse, parse_front, parse_with_format, Error, Format};
//!
//! assert_eq!(parse::<u64>("18446744073709551616"), Err(Error::Overflow(19)));
//! assert_eq!(parse_front::<u64>(b"1234 }"), Ok((1234, 4)));
//! let hexadecimal = Format::STANDARD.mantissa_radix(16).base_prefix(Some(b'x'));
//! assert_eq!(parse_with_format::<u8>("0x1F", &hexadecimal), Ok(31));
//! ```
//!
//! Fields, rows, columns, lines and places count from 0. Messages count fields, rows, columns and lines from 1, as an
//! editor does, and bytes from 0.
//!
//! No call panics, and none allocates, except with the feature `std`: `ColumnReader` and `TableReader` hold a block,
//! `Header` and `Columns` names, and `CellText::folded` makes a text. The proofs are about the library below these
//! calls; that this crate passes its texts and answers correctly is tested.
#![no_std]

// The example of the README is a test too.
#[cfg(doctest)]
#[doc = include_str!("../../README.md")]
struct Readme;

mod amount;
mod bad_rows;
#[cfg(feature = "std")]
mod block;
mod cell_text;
mod cells;
mod column;
mod error;
mod excerpt;
mod fixed;
mod format;
#[cfg(feature = "std")]
mod header;
mod integer;
mod languages;
mod lines;
mod literal;
#[cfg(feature = "std")]
mod reader;
mod row_ends;
#[cfg(feature = "serde")]
mod serde_integer;
mod table;
mod table_column;
mod table_fault;
#[cfg(feature = "std")]
mod table_read_error;
#[cfg(feature = "std")]
mod table_reader;
mod typed_literal;
mod within;

pub use amount::Amount;
pub use bad_rows::{parse_table_part_skipping, parse_table_skipping, row_place, BadRow, Skipping};
pub use cell_text::CellText;
pub use column::{
    field_start, parse_column, parse_column_part, parse_column_part_with_format,
    parse_column_with_format, Column, ColumnError, ColumnInteger,
};
pub use error::{Error, Position};
pub use excerpt::Excerpt;
pub use fixed::{parse_fixed, parse_fixed_front, Fixed};
pub use format::Format;
#[cfg(feature = "std")]
pub use header::{Columns, Header, HeaderError};
pub use integer::Integer;
pub use lines::parse_column_with_dialect;
pub use literal::{parse_literal, Literal};
#[cfg(feature = "std")]
pub use reader::{ColumnReader, ReadError};
pub use table::{parse_table, parse_table_part, Dialect, Table, TableError};
pub use table_column::{is_present, TableColumn, TableInteger};
pub use table_fault::TableFault;
#[cfg(feature = "std")]
pub use table_read_error::TableReadError;
#[cfg(feature = "std")]
pub use table_reader::TableReader;
pub use typed_literal::{parse_typed_literal, IntegerKind, Suffix, TypedLiteral};
pub use within::{parse_fixed_within, parse_within, parse_within_with_format, WithinError};

use jadvolni_sys as sys;

/// Reads the whole text as a `T`: decimal digits after an optional sign.
///
/// ```
/// assert_eq!(jadvolni::parse::<i8>("-128"), Ok(-128));
/// assert_eq!(jadvolni::parse::<i8>(b"12x"), Err(jadvolni::Error::InvalidDigit(2)));
/// ```
#[inline]
pub fn parse<T: Integer>(text: impl AsRef<[u8]>) -> Result<T, Error> {
    integer::complete(text.as_ref())
}

/// Reads the number at the beginning of the text as a `T`, and returns it with the place where reading stopped. If no
/// digit was read, that is `Error::Empty` at this place.
///
/// If more bytes may come, as from a stream, a result at the text's end isn't final: `12` may continue as `123`.
///
/// ```
/// use jadvolni::{parse_front, Error};
/// assert_eq!(parse_front::<u64>("1234 }"), Ok((1234, 4)));
/// assert_eq!(parse_front::<u64>("x"), Err(Error::Empty(0)));
/// ```
#[inline]
pub fn parse_front<T: Integer>(text: impl AsRef<[u8]>) -> Result<(T, usize), Error> {
    integer::front(text.as_ref())
}

/// As [`parse_front`], but digits may be missing: if other bytes stand where digits should, the result is 0, and no
/// fault: `x` is 0 at place 0, and `+a` at place 1. If you need a number, use [`parse_front`].
///
/// ```
/// assert_eq!(jadvolni::parse_partial::<u64>("1234 }"), Ok((1234, 4)));
/// assert_eq!(jadvolni::parse_partial::<u64>("x"), Ok((0, 0)));
/// ```
#[inline]
pub fn parse_partial<T: Integer>(text: impl AsRef<[u8]>) -> Result<(T, usize), Error> {
    integer::partial(text.as_ref())
}

/// Reads the whole text as a `T`, under a format.
///
/// ```
/// use jadvolni::{Error, Format};
/// assert_eq!(jadvolni::parse_with_format::<u32>("0xFF_FF", &Format::LITERAL), Ok(65535));
/// assert_eq!(jadvolni::parse_with_format::<u32>("01", &Format::JSON), Err(Error::InvalidLeadingZeros(0)));
/// ```
#[inline]
pub fn parse_with_format<T: Integer>(text: impl AsRef<[u8]>, format: &Format) -> Result<T, Error> {
    integer::complete_with(text.as_ref(), format)
}

/// Reads the number at the beginning of the text as a `T`, under a format, and returns where reading stopped too.
///
/// If the format has a separator, and more bytes may come, a result before separators that end the text isn't final
/// either: `1_` may continue as `1_0`.
///
/// ```
/// use jadvolni::{parse_front_with_format, Error, Format};
/// assert_eq!(parse_front_with_format::<u64>("0b102", &Format::LITERAL), Ok((2, 4)));
/// assert_eq!(parse_front_with_format::<u64>("0xg", &Format::LITERAL), Err(Error::Empty(2)));
/// ```
#[inline]
pub fn parse_front_with_format<T: Integer>(
    text: impl AsRef<[u8]>,
    format: &Format,
) -> Result<(T, usize), Error> {
    integer::front_with(text.as_ref(), format)
}

/// As [`parse_front_with_format`], but digits may be missing.
///
/// ```
/// assert_eq!(jadvolni::parse_partial_with_format::<u64>("0b102", &jadvolni::Format::LITERAL), Ok((2, 4)));
/// ```
#[inline]
pub fn parse_partial_with_format<T: Integer>(
    text: impl AsRef<[u8]>,
    format: &Format,
) -> Result<(T, usize), Error> {
    integer::partial_with(text.as_ref(), format)
}

/// The version of the linked library: 200 for 0.2.0.
pub fn library_version() -> u32 {
    // SAFETY: the call has no argument and reads nothing.
    unsafe { sys::jadvolni_version() }
}
