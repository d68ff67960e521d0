//! The twelve integer types, and the eight calls of each.

use crate::{Error, Fixed, Format};
use core::convert::identity;
use core::ffi::c_char;
use jadvolni_sys as sys;

/// One of the twelve integer types: `u8` to `u128`, `usize`, `i8` to `i128`, `isize`.
pub trait Integer: Copy + Calls {}

type Call<Kept> = unsafe extern "C" fn(*const c_char, usize, *mut Kept) -> sys::jadvolni_result;
type CallUnder<Kept> = unsafe extern "C" fn(
    *const c_char,
    usize,
    *const sys::jadvolni_format,
    *mut Kept,
) -> sys::jadvolni_result;

type CallFixed<Kept> = unsafe extern "C" fn(
    *const c_char,
    usize,
    *const sys::jadvolni_fixed,
    *mut Kept,
) -> sys::jadvolni_result;

/// What the library keeps a number in, and its eight calls. Each reads the text and the format that
/// it is handed, writes a `Kept` at most, and keeps nothing.
pub trait Calls: Sized {
    type Kept: Default;
    /// Of the whole text, of the number in front of it, and of its front.
    const CALLS: [Call<Self::Kept>; 3];
    const CALLS_UNDER: [CallUnder<Self::Kept>; 3];
    /// Of the whole text, and of the number in front of it, as fixed-point numbers.
    const CALLS_FIXED: [CallFixed<Self::Kept>; 2];

    /// The number that is kept.
    fn number(kept: Self::Kept) -> Self;
}

#[inline]
fn call<T: Calls>(text: &[u8], call: Call<T::Kept>) -> Result<(T, usize), Error> {
    let mut kept = T::Kept::default();
    // SAFETY: the pointers are those of a slice with its length, and of a value of the call's type.
    let outcome = unsafe { call(text.as_ptr().cast(), text.len(), &mut kept) };
    match Error::of(outcome) {
        None => Ok((T::number(kept), outcome.place)),
        Some(error) => Err(error),
    }
}

#[inline]
fn call_under<T: Calls>(
    text: &[u8],
    format: &Format,
    call: CallUnder<T::Kept>,
) -> Result<(T, usize), Error> {
    let mut kept = T::Kept::default();
    // SAFETY: as above, and the format is borrowed.
    let outcome = unsafe { call(text.as_ptr().cast(), text.len(), &format.0, &mut kept) };
    match Error::of(outcome) {
        None => Ok((T::number(kept), outcome.place)),
        Some(error) => Err(error),
    }
}

#[inline]
fn call_fixed<T: Calls>(
    text: &[u8],
    fixed: &Fixed,
    call: CallFixed<T::Kept>,
) -> Result<(T, usize), Error> {
    let mut kept = T::Kept::default();
    // SAFETY: as above, and the description is borrowed.
    let outcome = unsafe { call(text.as_ptr().cast(), text.len(), &fixed.0, &mut kept) };
    match Error::of(outcome) {
        None => Ok((T::number(kept), outcome.place)),
        Some(error) => Err(error),
    }
}

#[inline]
pub(crate) fn complete<T: Integer>(text: &[u8]) -> Result<T, Error> {
    call(text, T::CALLS[0]).map(|(number, _)| number)
}

#[inline]
pub(crate) fn front<T: Integer>(text: &[u8]) -> Result<(T, usize), Error> {
    call(text, T::CALLS[1])
}

#[inline]
pub(crate) fn partial<T: Integer>(text: &[u8]) -> Result<(T, usize), Error> {
    call(text, T::CALLS[2])
}

#[inline]
pub(crate) fn complete_with<T: Integer>(text: &[u8], format: &Format) -> Result<T, Error> {
    call_under(text, format, T::CALLS_UNDER[0]).map(|(number, _)| number)
}

#[inline]
pub(crate) fn front_with<T: Integer>(text: &[u8], format: &Format) -> Result<(T, usize), Error> {
    call_under(text, format, T::CALLS_UNDER[1])
}

#[inline]
pub(crate) fn partial_with<T: Integer>(text: &[u8], format: &Format) -> Result<(T, usize), Error> {
    call_under(text, format, T::CALLS_UNDER[2])
}

#[inline]
pub(crate) fn fixed<T: Integer>(text: &[u8], fixed: &Fixed) -> Result<T, Error> {
    call_fixed(text, fixed, T::CALLS_FIXED[0]).map(|(number, _)| number)
}

#[inline]
pub(crate) fn fixed_front<T: Integer>(text: &[u8], fixed: &Fixed) -> Result<(T, usize), Error> {
    call_fixed(text, fixed, T::CALLS_FIXED[1])
}

/// A type, what its numbers are kept in, how one is had from that, and its eight calls: three, those with a format, and
/// two of fixed-point numbers.
macro_rules! integer {
    ($type:ty, $kept:ty, $number:expr, $($call:ident)*, $($under:ident)*, $($fixed:ident)*) => {
        impl Integer for $type {}

        impl Calls for $type {
            type Kept = $kept;
            const CALLS: [Call<$kept>; 3] = [$(sys::$call),*];
            const CALLS_UNDER: [CallUnder<$kept>; 3] = [$(sys::$under),*];
            const CALLS_FIXED: [CallFixed<$kept>; 2] = [$(sys::$fixed),*];

            #[inline]
            fn number(kept: $kept) -> $type {
                $number(kept)
            }
        }
    };
}

pub(crate) fn unsigned(halves: sys::jadvolni_uint128) -> u128 {
    (halves.high as u128) << 64 | halves.low as u128
}

fn signed(halves: sys::jadvolni_int128) -> i128 {
    (halves.high as i128) << 64 | halves.low as i128
}

integer!(u8, u8, identity, jadvolni_parse_u8 jadvolni_parse_u8_front jadvolni_parse_u8_partial, jadvolni_parse_u8_with_format jadvolni_parse_u8_front_with_format jadvolni_parse_u8_partial_with_format, jadvolni_parse_u8_fixed jadvolni_parse_u8_fixed_front);
integer!(u16, u16, identity, jadvolni_parse_u16 jadvolni_parse_u16_front jadvolni_parse_u16_partial, jadvolni_parse_u16_with_format jadvolni_parse_u16_front_with_format jadvolni_parse_u16_partial_with_format, jadvolni_parse_u16_fixed jadvolni_parse_u16_fixed_front);
integer!(u32, u32, identity, jadvolni_parse_u32 jadvolni_parse_u32_front jadvolni_parse_u32_partial, jadvolni_parse_u32_with_format jadvolni_parse_u32_front_with_format jadvolni_parse_u32_partial_with_format, jadvolni_parse_u32_fixed jadvolni_parse_u32_fixed_front);
integer!(u64, u64, identity, jadvolni_parse_u64 jadvolni_parse_u64_front jadvolni_parse_u64_partial, jadvolni_parse_u64_with_format jadvolni_parse_u64_front_with_format jadvolni_parse_u64_partial_with_format, jadvolni_parse_u64_fixed jadvolni_parse_u64_fixed_front);
integer!(u128, sys::jadvolni_uint128, unsigned, jadvolni_parse_u128 jadvolni_parse_u128_front jadvolni_parse_u128_partial, jadvolni_parse_u128_with_format jadvolni_parse_u128_front_with_format jadvolni_parse_u128_partial_with_format, jadvolni_parse_u128_fixed jadvolni_parse_u128_fixed_front);
integer!(usize, usize, identity, jadvolni_parse_usize jadvolni_parse_usize_front jadvolni_parse_usize_partial, jadvolni_parse_usize_with_format jadvolni_parse_usize_front_with_format jadvolni_parse_usize_partial_with_format, jadvolni_parse_usize_fixed jadvolni_parse_usize_fixed_front);
integer!(i8, i8, identity, jadvolni_parse_i8 jadvolni_parse_i8_front jadvolni_parse_i8_partial, jadvolni_parse_i8_with_format jadvolni_parse_i8_front_with_format jadvolni_parse_i8_partial_with_format, jadvolni_parse_i8_fixed jadvolni_parse_i8_fixed_front);
integer!(i16, i16, identity, jadvolni_parse_i16 jadvolni_parse_i16_front jadvolni_parse_i16_partial, jadvolni_parse_i16_with_format jadvolni_parse_i16_front_with_format jadvolni_parse_i16_partial_with_format, jadvolni_parse_i16_fixed jadvolni_parse_i16_fixed_front);
integer!(i32, i32, identity, jadvolni_parse_i32 jadvolni_parse_i32_front jadvolni_parse_i32_partial, jadvolni_parse_i32_with_format jadvolni_parse_i32_front_with_format jadvolni_parse_i32_partial_with_format, jadvolni_parse_i32_fixed jadvolni_parse_i32_fixed_front);
integer!(i64, i64, identity, jadvolni_parse_i64 jadvolni_parse_i64_front jadvolni_parse_i64_partial, jadvolni_parse_i64_with_format jadvolni_parse_i64_front_with_format jadvolni_parse_i64_partial_with_format, jadvolni_parse_i64_fixed jadvolni_parse_i64_fixed_front);
integer!(i128, sys::jadvolni_int128, signed, jadvolni_parse_i128 jadvolni_parse_i128_front jadvolni_parse_i128_partial, jadvolni_parse_i128_with_format jadvolni_parse_i128_front_with_format jadvolni_parse_i128_partial_with_format, jadvolni_parse_i128_fixed jadvolni_parse_i128_fixed_front);
integer!(isize, isize, identity, jadvolni_parse_isize jadvolni_parse_isize_front jadvolni_parse_isize_partial, jadvolni_parse_isize_with_format jadvolni_parse_isize_front_with_format jadvolni_parse_isize_partial_with_format, jadvolni_parse_isize_fixed jadvolni_parse_isize_fixed_front);
