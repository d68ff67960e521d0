//! The declarations of `jadvolni.h`, which describes each. The crate `jadvolni` has safe calls over them.
//!
//! The names are those of C.
#![no_std]
#![allow(non_camel_case_types)]

use core::ffi::c_char;
use core::mem::{offset_of, size_of};

/// A status and a place.
#[repr(C)]
#[derive(Debug, Copy, Clone, PartialEq, Eq)]
pub struct jadvolni_result {
    pub status: u32,
    pub place: usize,
}

/// A format, byte by byte. The reserved bytes and bits must be 0.
#[repr(C)]
#[derive(Debug, Copy, Clone, PartialEq, Eq, Hash)]
pub struct jadvolni_format {
    pub mantissa_radix: u8,
    pub digit_separator: u8,
    pub base_prefix: u8,
    pub base_suffix: u8,
    pub case_sensitive_base_prefix: u8,
    pub case_sensitive_base_suffix: u8,
    pub required_integer_digits: u8,
    pub required_mantissa_digits: u8,
    pub no_positive_mantissa_sign: u8,
    pub required_mantissa_sign: u8,
    pub no_integer_leading_zeros: u8,
    pub integer_leading_digit_separator: u8,
    pub integer_internal_digit_separator: u8,
    pub integer_trailing_digit_separator: u8,
    pub integer_consecutive_digit_separator: u8,
    pub integer_prefix_digit_separator: u8,
    pub literal_prefixes: u8,
    pub literal_octal_zero: u8,
    pub nul_is_punctuation: u8,
    pub reserved: [u8; 13],
}

/// `high * 2^64 + low`.
#[repr(C)]
#[derive(Debug, Default, Copy, Clone, PartialEq, Eq)]
pub struct jadvolni_uint128 {
    pub low: u64,
    pub high: u64,
}

/// `high * 2^64 + low`.
#[repr(C)]
#[derive(Debug, Default, Copy, Clone, PartialEq, Eq)]
pub struct jadvolni_int128 {
    pub low: u64,
    pub high: i64,
}

/// How a table is written. The reserved bytes must be 0.
#[repr(C)]
#[derive(Debug, Copy, Clone, PartialEq, Eq)]
pub struct jadvolni_table {
    pub separator: u8,
    pub has_returns: u8,
    pub has_quotes: u8,
    pub allows_blanks: u8,
    pub skips_empty_rows: u8,
    pub is_records: u8,
    pub allows_returns: u8,
    pub reserved: [u8; 9],
    pub missing: *const c_char,
    pub missing_len: usize,
    pub widths: *const usize,
    pub width_count: usize,
}

/// An array of a column, or its bytes with bits, which the header leaves without names.
#[repr(C)]
#[derive(Debug, Copy, Clone, PartialEq, Eq)]
pub struct jadvolni_array<T> {
    pub numbers: *mut T,
    pub capacity: usize,
}

/// Where the text of a cell is.
#[repr(C)]
#[derive(Debug, Copy, Clone, PartialEq, Eq)]
pub struct jadvolni_cell_text {
    pub start: usize,
    pub size: usize,
    pub has_doubled_quotes: u8,
}

/// A column of a table. One array has room, or none has, and then the format's radix is 0. If `places` isn't 0, the
/// numbers are fixed-point numbers. The reserved bytes must be 0.
#[repr(C)]
#[derive(Debug, Copy, Clone, PartialEq, Eq)]
pub struct jadvolni_table_column {
    pub format: jadvolni_format,
    pub point: u8,
    pub places: u8,
    pub takes_fewer: u8,
    pub reserved: [u8; 13],
    pub i64: jadvolni_array<i64>,
    pub u64: jadvolni_array<u64>,
    pub i32: jadvolni_array<i32>,
    pub u32: jadvolni_array<u32>,
    pub i16: jadvolni_array<i16>,
    pub u16: jadvolni_array<u16>,
    pub i8: jadvolni_array<i8>,
    pub u8: jadvolni_array<u8>,
    pub text: jadvolni_array<jadvolni_cell_text>,
    pub present: jadvolni_array<u8>,
}

/// What the call on a table returns.
#[repr(C)]
#[derive(Debug, Copy, Clone, PartialEq, Eq)]
pub struct jadvolni_table_result {
    pub status: u32,
    pub column: usize,
    pub rows: usize,
    pub place: usize,
}

/// Where a row of a table is.
#[repr(C)]
#[derive(Debug, Copy, Clone, PartialEq, Eq)]
pub struct jadvolni_row_result {
    pub status: u32,
    pub start: usize,
    pub stop: usize,
}

/// Where a cell is, including its quotes and blanks.
#[repr(C)]
#[derive(Debug, Copy, Clone, PartialEq, Eq, Default)]
pub struct jadvolni_cell_place {
    pub start: usize,
    pub size: usize,
}

/// How many cells a row has.
#[repr(C)]
#[derive(Debug, Copy, Clone, PartialEq, Eq)]
pub struct jadvolni_cells_result {
    pub status: u32,
    pub count: usize,
}

/// A bad row.
#[repr(C)]
#[derive(Debug, Copy, Clone, PartialEq, Eq)]
pub struct jadvolni_bad_row {
    pub status: u32,
    pub reserved: [u8; 20],
    pub row: usize,
    pub column: usize,
    pub place: usize,
    pub start: usize,
    pub stop: usize,
}

/// What the call that skips bad rows returns.
#[repr(C)]
#[derive(Debug, Copy, Clone, PartialEq, Eq)]
pub struct jadvolni_skipping_result {
    pub status: u32,
    pub column: usize,
    pub rows: usize,
    pub bad_rows: usize,
    pub place: usize,
}

/// How fixed-point numbers are written.
#[repr(C)]
#[derive(Debug, Copy, Clone, PartialEq, Eq, Hash)]
pub struct jadvolni_fixed {
    pub integer: jadvolni_format,
    pub point: u8,
    pub places: u8,
    pub takes_fewer: u8,
    pub reserved: [u8; 13],
}

/// Line and column of a place, both from 0.
#[repr(C)]
#[derive(Debug, Copy, Clone, PartialEq, Eq)]
pub struct jadvolni_position {
    pub line: usize,
    pub column: usize,
}

/// An entry of a table of suffixes. The type is one of those below, and the reserved bytes must be 0.
#[repr(C)]
#[derive(Debug, Copy, Clone, PartialEq, Eq)]
pub struct jadvolni_suffix {
    pub text: *const c_char,
    pub len: usize,
    pub r#type: u32,
    pub reserved: u32,
}

/// The types that a suffix may name.
pub const JADVOLNI_TYPE_U8: u32 = 1;
pub const JADVOLNI_TYPE_U16: u32 = 2;
pub const JADVOLNI_TYPE_U32: u32 = 3;
pub const JADVOLNI_TYPE_U64: u32 = 4;
pub const JADVOLNI_TYPE_U128: u32 = 5;
pub const JADVOLNI_TYPE_USIZE: u32 = 6;
pub const JADVOLNI_TYPE_I8: u32 = 7;
pub const JADVOLNI_TYPE_I16: u32 = 8;
pub const JADVOLNI_TYPE_I32: u32 = 9;
pub const JADVOLNI_TYPE_I64: u32 = 10;
pub const JADVOLNI_TYPE_I128: u32 = 11;
pub const JADVOLNI_TYPE_ISIZE: u32 = 12;

/// The bits of `nul_is_punctuation`.
pub const JADVOLNI_NUL_IS_SEPARATOR: u8 = 1;
pub const JADVOLNI_NUL_IS_PREFIX: u8 = 2;
pub const JADVOLNI_NUL_IS_SUFFIX: u8 = 4;

// The layout that the library was built for.
const _: () = {
    assert!(size_of::<usize>() == 8);
    assert!(size_of::<jadvolni_result>() == 16 && offset_of!(jadvolni_result, place) == 8);
    assert!(
        size_of::<jadvolni_format>() == 32 && offset_of!(jadvolni_format, literal_prefixes) == 16
    );
    assert!(size_of::<jadvolni_table>() == 48 && offset_of!(jadvolni_table, widths) == 32);
    assert!(
        size_of::<jadvolni_table_column>() == 208 && offset_of!(jadvolni_table_column, u8) == 160
    );
    assert!(offset_of!(jadvolni_table_column, point) == 32);
    assert!(
        offset_of!(jadvolni_table_column, text) == 176
            && offset_of!(jadvolni_table_column, present) == 192
    );
    assert!(
        size_of::<jadvolni_cell_text>() == 24
            && offset_of!(jadvolni_cell_text, has_doubled_quotes) == 16
    );
    assert!(
        size_of::<jadvolni_table_result>() == 32 && offset_of!(jadvolni_table_result, column) == 8
    );
    assert!(size_of::<jadvolni_row_result>() == 24);
    assert!(size_of::<jadvolni_cell_place>() == 16 && size_of::<jadvolni_cells_result>() == 16);
    assert!(size_of::<jadvolni_bad_row>() == 64 && offset_of!(jadvolni_bad_row, row) == 24);
    assert!(
        size_of::<jadvolni_skipping_result>() == 40
            && offset_of!(jadvolni_skipping_result, bad_rows) == 24
    );
    assert!(size_of::<jadvolni_fixed>() == 48 && offset_of!(jadvolni_fixed, point) == 32);
    assert!(size_of::<jadvolni_position>() == 16);
    assert!(size_of::<jadvolni_suffix>() == 24 && offset_of!(jadvolni_suffix, r#type) == 16);
    assert!(size_of::<jadvolni_uint128>() == 16 && offset_of!(jadvolni_uint128, high) == 8);
    assert!(size_of::<jadvolni_int128>() == 16 && offset_of!(jadvolni_int128, high) == 8);
};

#[rustfmt::skip]
extern "C" {
    pub fn jadvolni_version() -> u32;
    pub fn jadvolni_format_error(format: *const jadvolni_format) -> u32;

    pub fn jadvolni_parse_u8(text: *const c_char, len: usize, value: *mut u8) -> jadvolni_result;
    pub fn jadvolni_parse_u8_front(text: *const c_char, len: usize, value: *mut u8) -> jadvolni_result;
    pub fn jadvolni_parse_u8_partial(text: *const c_char, len: usize, value: *mut u8) -> jadvolni_result;
    pub fn jadvolni_parse_u8_with_format(text: *const c_char, len: usize, format: *const jadvolni_format, value: *mut u8) -> jadvolni_result;
    pub fn jadvolni_parse_u8_front_with_format(text: *const c_char, len: usize, format: *const jadvolni_format, value: *mut u8) -> jadvolni_result;
    pub fn jadvolni_parse_u8_partial_with_format(text: *const c_char, len: usize, format: *const jadvolni_format, value: *mut u8) -> jadvolni_result;

    pub fn jadvolni_parse_u16(text: *const c_char, len: usize, value: *mut u16) -> jadvolni_result;
    pub fn jadvolni_parse_u16_front(text: *const c_char, len: usize, value: *mut u16) -> jadvolni_result;
    pub fn jadvolni_parse_u16_partial(text: *const c_char, len: usize, value: *mut u16) -> jadvolni_result;
    pub fn jadvolni_parse_u16_with_format(text: *const c_char, len: usize, format: *const jadvolni_format, value: *mut u16) -> jadvolni_result;
    pub fn jadvolni_parse_u16_front_with_format(text: *const c_char, len: usize, format: *const jadvolni_format, value: *mut u16) -> jadvolni_result;
    pub fn jadvolni_parse_u16_partial_with_format(text: *const c_char, len: usize, format: *const jadvolni_format, value: *mut u16) -> jadvolni_result;

    pub fn jadvolni_parse_u32(text: *const c_char, len: usize, value: *mut u32) -> jadvolni_result;
    pub fn jadvolni_parse_u32_front(text: *const c_char, len: usize, value: *mut u32) -> jadvolni_result;
    pub fn jadvolni_parse_u32_partial(text: *const c_char, len: usize, value: *mut u32) -> jadvolni_result;
    pub fn jadvolni_parse_u32_with_format(text: *const c_char, len: usize, format: *const jadvolni_format, value: *mut u32) -> jadvolni_result;
    pub fn jadvolni_parse_u32_front_with_format(text: *const c_char, len: usize, format: *const jadvolni_format, value: *mut u32) -> jadvolni_result;
    pub fn jadvolni_parse_u32_partial_with_format(text: *const c_char, len: usize, format: *const jadvolni_format, value: *mut u32) -> jadvolni_result;

    pub fn jadvolni_parse_u64(text: *const c_char, len: usize, value: *mut u64) -> jadvolni_result;
    pub fn jadvolni_parse_u64_front(text: *const c_char, len: usize, value: *mut u64) -> jadvolni_result;
    pub fn jadvolni_parse_u64_partial(text: *const c_char, len: usize, value: *mut u64) -> jadvolni_result;
    pub fn jadvolni_parse_u64_with_format(text: *const c_char, len: usize, format: *const jadvolni_format, value: *mut u64) -> jadvolni_result;
    pub fn jadvolni_parse_u64_front_with_format(text: *const c_char, len: usize, format: *const jadvolni_format, value: *mut u64) -> jadvolni_result;
    pub fn jadvolni_parse_u64_partial_with_format(text: *const c_char, len: usize, format: *const jadvolni_format, value: *mut u64) -> jadvolni_result;

    pub fn jadvolni_parse_u128(text: *const c_char, len: usize, value: *mut jadvolni_uint128) -> jadvolni_result;
    pub fn jadvolni_parse_u128_front(text: *const c_char, len: usize, value: *mut jadvolni_uint128) -> jadvolni_result;
    pub fn jadvolni_parse_u128_partial(text: *const c_char, len: usize, value: *mut jadvolni_uint128) -> jadvolni_result;
    pub fn jadvolni_parse_u128_with_format(text: *const c_char, len: usize, format: *const jadvolni_format, value: *mut jadvolni_uint128) -> jadvolni_result;
    pub fn jadvolni_parse_u128_front_with_format(text: *const c_char, len: usize, format: *const jadvolni_format, value: *mut jadvolni_uint128) -> jadvolni_result;
    pub fn jadvolni_parse_u128_partial_with_format(text: *const c_char, len: usize, format: *const jadvolni_format, value: *mut jadvolni_uint128) -> jadvolni_result;

    pub fn jadvolni_parse_usize(text: *const c_char, len: usize, value: *mut usize) -> jadvolni_result;
    pub fn jadvolni_parse_usize_front(text: *const c_char, len: usize, value: *mut usize) -> jadvolni_result;
    pub fn jadvolni_parse_usize_partial(text: *const c_char, len: usize, value: *mut usize) -> jadvolni_result;
    pub fn jadvolni_parse_usize_with_format(text: *const c_char, len: usize, format: *const jadvolni_format, value: *mut usize) -> jadvolni_result;
    pub fn jadvolni_parse_usize_front_with_format(text: *const c_char, len: usize, format: *const jadvolni_format, value: *mut usize) -> jadvolni_result;
    pub fn jadvolni_parse_usize_partial_with_format(text: *const c_char, len: usize, format: *const jadvolni_format, value: *mut usize) -> jadvolni_result;

    pub fn jadvolni_parse_i8(text: *const c_char, len: usize, value: *mut i8) -> jadvolni_result;
    pub fn jadvolni_parse_i8_front(text: *const c_char, len: usize, value: *mut i8) -> jadvolni_result;
    pub fn jadvolni_parse_i8_partial(text: *const c_char, len: usize, value: *mut i8) -> jadvolni_result;
    pub fn jadvolni_parse_i8_with_format(text: *const c_char, len: usize, format: *const jadvolni_format, value: *mut i8) -> jadvolni_result;
    pub fn jadvolni_parse_i8_front_with_format(text: *const c_char, len: usize, format: *const jadvolni_format, value: *mut i8) -> jadvolni_result;
    pub fn jadvolni_parse_i8_partial_with_format(text: *const c_char, len: usize, format: *const jadvolni_format, value: *mut i8) -> jadvolni_result;

    pub fn jadvolni_parse_i16(text: *const c_char, len: usize, value: *mut i16) -> jadvolni_result;
    pub fn jadvolni_parse_i16_front(text: *const c_char, len: usize, value: *mut i16) -> jadvolni_result;
    pub fn jadvolni_parse_i16_partial(text: *const c_char, len: usize, value: *mut i16) -> jadvolni_result;
    pub fn jadvolni_parse_i16_with_format(text: *const c_char, len: usize, format: *const jadvolni_format, value: *mut i16) -> jadvolni_result;
    pub fn jadvolni_parse_i16_front_with_format(text: *const c_char, len: usize, format: *const jadvolni_format, value: *mut i16) -> jadvolni_result;
    pub fn jadvolni_parse_i16_partial_with_format(text: *const c_char, len: usize, format: *const jadvolni_format, value: *mut i16) -> jadvolni_result;

    pub fn jadvolni_parse_i32(text: *const c_char, len: usize, value: *mut i32) -> jadvolni_result;
    pub fn jadvolni_parse_i32_front(text: *const c_char, len: usize, value: *mut i32) -> jadvolni_result;
    pub fn jadvolni_parse_i32_partial(text: *const c_char, len: usize, value: *mut i32) -> jadvolni_result;
    pub fn jadvolni_parse_i32_with_format(text: *const c_char, len: usize, format: *const jadvolni_format, value: *mut i32) -> jadvolni_result;
    pub fn jadvolni_parse_i32_front_with_format(text: *const c_char, len: usize, format: *const jadvolni_format, value: *mut i32) -> jadvolni_result;
    pub fn jadvolni_parse_i32_partial_with_format(text: *const c_char, len: usize, format: *const jadvolni_format, value: *mut i32) -> jadvolni_result;

    pub fn jadvolni_parse_i64(text: *const c_char, len: usize, value: *mut i64) -> jadvolni_result;
    pub fn jadvolni_parse_i64_front(text: *const c_char, len: usize, value: *mut i64) -> jadvolni_result;
    pub fn jadvolni_parse_i64_partial(text: *const c_char, len: usize, value: *mut i64) -> jadvolni_result;
    pub fn jadvolni_parse_i64_with_format(text: *const c_char, len: usize, format: *const jadvolni_format, value: *mut i64) -> jadvolni_result;
    pub fn jadvolni_parse_i64_front_with_format(text: *const c_char, len: usize, format: *const jadvolni_format, value: *mut i64) -> jadvolni_result;
    pub fn jadvolni_parse_i64_partial_with_format(text: *const c_char, len: usize, format: *const jadvolni_format, value: *mut i64) -> jadvolni_result;

    pub fn jadvolni_parse_i128(text: *const c_char, len: usize, value: *mut jadvolni_int128) -> jadvolni_result;
    pub fn jadvolni_parse_i128_front(text: *const c_char, len: usize, value: *mut jadvolni_int128) -> jadvolni_result;
    pub fn jadvolni_parse_i128_partial(text: *const c_char, len: usize, value: *mut jadvolni_int128) -> jadvolni_result;
    pub fn jadvolni_parse_i128_with_format(text: *const c_char, len: usize, format: *const jadvolni_format, value: *mut jadvolni_int128) -> jadvolni_result;
    pub fn jadvolni_parse_i128_front_with_format(text: *const c_char, len: usize, format: *const jadvolni_format, value: *mut jadvolni_int128) -> jadvolni_result;
    pub fn jadvolni_parse_i128_partial_with_format(text: *const c_char, len: usize, format: *const jadvolni_format, value: *mut jadvolni_int128) -> jadvolni_result;

    pub fn jadvolni_parse_isize(text: *const c_char, len: usize, value: *mut isize) -> jadvolni_result;
    pub fn jadvolni_parse_isize_front(text: *const c_char, len: usize, value: *mut isize) -> jadvolni_result;
    pub fn jadvolni_parse_isize_partial(text: *const c_char, len: usize, value: *mut isize) -> jadvolni_result;
    pub fn jadvolni_parse_isize_with_format(text: *const c_char, len: usize, format: *const jadvolni_format, value: *mut isize) -> jadvolni_result;
    pub fn jadvolni_parse_isize_front_with_format(text: *const c_char, len: usize, format: *const jadvolni_format, value: *mut isize) -> jadvolni_result;
    pub fn jadvolni_parse_isize_partial_with_format(text: *const c_char, len: usize, format: *const jadvolni_format, value: *mut isize) -> jadvolni_result;

    pub fn jadvolni_parse_u8_column(text: *const c_char, len: usize, separator: u8, format: *const jadvolni_format, values: *mut u8, capacity: usize, count: *mut usize) -> jadvolni_result;
    pub fn jadvolni_parse_u16_column(text: *const c_char, len: usize, separator: u8, format: *const jadvolni_format, values: *mut u16, capacity: usize, count: *mut usize) -> jadvolni_result;
    pub fn jadvolni_parse_u32_column(text: *const c_char, len: usize, separator: u8, format: *const jadvolni_format, values: *mut u32, capacity: usize, count: *mut usize) -> jadvolni_result;
    pub fn jadvolni_parse_u64_column(text: *const c_char, len: usize, separator: u8, format: *const jadvolni_format, values: *mut u64, capacity: usize, count: *mut usize) -> jadvolni_result;
    pub fn jadvolni_parse_i8_column(text: *const c_char, len: usize, separator: u8, format: *const jadvolni_format, values: *mut i8, capacity: usize, count: *mut usize) -> jadvolni_result;
    pub fn jadvolni_parse_i16_column(text: *const c_char, len: usize, separator: u8, format: *const jadvolni_format, values: *mut i16, capacity: usize, count: *mut usize) -> jadvolni_result;
    pub fn jadvolni_parse_i32_column(text: *const c_char, len: usize, separator: u8, format: *const jadvolni_format, values: *mut i32, capacity: usize, count: *mut usize) -> jadvolni_result;
    pub fn jadvolni_parse_i64_column(text: *const c_char, len: usize, separator: u8, format: *const jadvolni_format, values: *mut i64, capacity: usize, count: *mut usize) -> jadvolni_result;
    pub fn jadvolni_parse_literal(text: *const c_char, len: usize, format: *const jadvolni_format, value: *mut jadvolni_uint128, suffix: *mut usize) -> jadvolni_result;
    pub fn jadvolni_parse_typed_literal(text: *const c_char, len: usize, format: *const jadvolni_format, suffixes: *const jadvolni_suffix, suffix_count: usize, value: *mut jadvolni_uint128, suffix: *mut usize, entry: *mut usize) -> jadvolni_result;
    pub fn jadvolni_parse_table(text: *const c_char, len: usize, is_last: bool, table: *const jadvolni_table, capacity: usize, columns: *mut jadvolni_table_column, column_count: usize) -> jadvolni_table_result;
    pub fn jadvolni_parse_table_skipping(text: *const c_char, len: usize, is_last: bool, table: *const jadvolni_table, capacity: usize, columns: *mut jadvolni_table_column, column_count: usize, bad: *mut jadvolni_bad_row, bad_capacity: usize) -> jadvolni_skipping_result;
    pub fn jadvolni_row_place(text: *const c_char, len: usize, table: *const jadvolni_table, row: usize) -> jadvolni_row_result;
    pub fn jadvolni_row_cells(text: *const c_char, len: usize, table: *const jadvolni_table, first: usize, cells: *mut jadvolni_cell_place, capacity: usize) -> jadvolni_cells_result;
    pub fn jadvolni_fixed_error(fixed: *const jadvolni_fixed) -> u32;
    pub fn jadvolni_parse_u8_fixed(text: *const c_char, len: usize, fixed: *const jadvolni_fixed, value: *mut u8) -> jadvolni_result;
    pub fn jadvolni_parse_u8_fixed_front(text: *const c_char, len: usize, fixed: *const jadvolni_fixed, value: *mut u8) -> jadvolni_result;
    pub fn jadvolni_parse_u16_fixed(text: *const c_char, len: usize, fixed: *const jadvolni_fixed, value: *mut u16) -> jadvolni_result;
    pub fn jadvolni_parse_u16_fixed_front(text: *const c_char, len: usize, fixed: *const jadvolni_fixed, value: *mut u16) -> jadvolni_result;
    pub fn jadvolni_parse_u32_fixed(text: *const c_char, len: usize, fixed: *const jadvolni_fixed, value: *mut u32) -> jadvolni_result;
    pub fn jadvolni_parse_u32_fixed_front(text: *const c_char, len: usize, fixed: *const jadvolni_fixed, value: *mut u32) -> jadvolni_result;
    pub fn jadvolni_parse_u64_fixed(text: *const c_char, len: usize, fixed: *const jadvolni_fixed, value: *mut u64) -> jadvolni_result;
    pub fn jadvolni_parse_u64_fixed_front(text: *const c_char, len: usize, fixed: *const jadvolni_fixed, value: *mut u64) -> jadvolni_result;
    pub fn jadvolni_parse_u128_fixed(text: *const c_char, len: usize, fixed: *const jadvolni_fixed, value: *mut jadvolni_uint128) -> jadvolni_result;
    pub fn jadvolni_parse_u128_fixed_front(text: *const c_char, len: usize, fixed: *const jadvolni_fixed, value: *mut jadvolni_uint128) -> jadvolni_result;
    pub fn jadvolni_parse_usize_fixed(text: *const c_char, len: usize, fixed: *const jadvolni_fixed, value: *mut usize) -> jadvolni_result;
    pub fn jadvolni_parse_usize_fixed_front(text: *const c_char, len: usize, fixed: *const jadvolni_fixed, value: *mut usize) -> jadvolni_result;
    pub fn jadvolni_parse_i8_fixed(text: *const c_char, len: usize, fixed: *const jadvolni_fixed, value: *mut i8) -> jadvolni_result;
    pub fn jadvolni_parse_i8_fixed_front(text: *const c_char, len: usize, fixed: *const jadvolni_fixed, value: *mut i8) -> jadvolni_result;
    pub fn jadvolni_parse_i16_fixed(text: *const c_char, len: usize, fixed: *const jadvolni_fixed, value: *mut i16) -> jadvolni_result;
    pub fn jadvolni_parse_i16_fixed_front(text: *const c_char, len: usize, fixed: *const jadvolni_fixed, value: *mut i16) -> jadvolni_result;
    pub fn jadvolni_parse_i32_fixed(text: *const c_char, len: usize, fixed: *const jadvolni_fixed, value: *mut i32) -> jadvolni_result;
    pub fn jadvolni_parse_i32_fixed_front(text: *const c_char, len: usize, fixed: *const jadvolni_fixed, value: *mut i32) -> jadvolni_result;
    pub fn jadvolni_parse_i64_fixed(text: *const c_char, len: usize, fixed: *const jadvolni_fixed, value: *mut i64) -> jadvolni_result;
    pub fn jadvolni_parse_i64_fixed_front(text: *const c_char, len: usize, fixed: *const jadvolni_fixed, value: *mut i64) -> jadvolni_result;
    pub fn jadvolni_parse_i128_fixed(text: *const c_char, len: usize, fixed: *const jadvolni_fixed, value: *mut jadvolni_int128) -> jadvolni_result;
    pub fn jadvolni_parse_i128_fixed_front(text: *const c_char, len: usize, fixed: *const jadvolni_fixed, value: *mut jadvolni_int128) -> jadvolni_result;
    pub fn jadvolni_parse_isize_fixed(text: *const c_char, len: usize, fixed: *const jadvolni_fixed, value: *mut isize) -> jadvolni_result;
    pub fn jadvolni_parse_isize_fixed_front(text: *const c_char, len: usize, fixed: *const jadvolni_fixed, value: *mut isize) -> jadvolni_result;
    pub fn jadvolni_line_column(text: *const c_char, len: usize, place: usize) -> jadvolni_position;
    pub fn jadvolni_field_start(text: *const c_char, len: usize, separator: u8) -> usize;
    pub fn jadvolni_fold_quotes(text: *const c_char, len: usize, folded: *mut c_char, capacity: usize) -> usize;
}
