//! A literal with the type that its suffix names.

use crate::{integer, Error, Format};
use core::fmt;
use core::marker::PhantomData;
use core::mem::{offset_of, size_of};
use core::slice::from_raw_parts;
use core::str::from_utf8_unchecked;
use jadvolni_sys as sys;

/// The types, each by its name, that of Rust, and the library's code.
macro_rules! kinds {
    ($($name:ident $rust:literal = $code:ident)*) => {
        /// A type that a suffix may name.
        #[derive(Debug, Copy, Clone, PartialEq, Eq, Hash)]
        #[repr(u32)]
        pub enum IntegerKind {$(
            #[doc = concat!("`", $rust, "`.")]
            $name = sys::$code,
        )*}
    };
}

kinds! {
    U8 "u8" = JADVOLNI_TYPE_U8
    U16 "u16" = JADVOLNI_TYPE_U16
    U32 "u32" = JADVOLNI_TYPE_U32
    U64 "u64" = JADVOLNI_TYPE_U64
    U128 "u128" = JADVOLNI_TYPE_U128
    Usize "usize" = JADVOLNI_TYPE_USIZE
    I8 "i8" = JADVOLNI_TYPE_I8
    I16 "i16" = JADVOLNI_TYPE_I16
    I32 "i32" = JADVOLNI_TYPE_I32
    I64 "i64" = JADVOLNI_TYPE_I64
    I128 "i128" = JADVOLNI_TYPE_I128
    Isize "isize" = JADVOLNI_TYPE_ISIZE
}

/// A suffix, and the type that it names: an entry of a table, which may be a constant.
///
/// It is matched byte for byte: a language that accepts `u` and `U` has an entry for each. The empty suffix is for
/// literals without one.
// Its fields are those of `jadvolni_suffix`, in their order.
#[derive(Copy, Clone)]
#[repr(C)]
pub struct Suffix<'a> {
    text: *const u8,
    len: usize,
    kind: IntegerKind,
    reserved: u32,
    borrowed: PhantomData<&'a str>,
}

const _: () = {
    assert!(size_of::<Suffix>() == size_of::<sys::jadvolni_suffix>());
    assert!(offset_of!(Suffix, kind) == offset_of!(sys::jadvolni_suffix, r#type));
};

// SAFETY: it is a borrowed string and a type, of which nobody writes anything.
unsafe impl Send for Suffix<'_> {}
// SAFETY: as above.
unsafe impl Sync for Suffix<'_> {}

impl<'a> Suffix<'a> {
    /// The entry of a suffix and the type that it names.
    pub const fn new(text: &'a str, kind: IntegerKind) -> Suffix<'a> {
        let (len, text) = (text.len(), text.as_ptr());
        Suffix { text, len, kind, reserved: 0, borrowed: PhantomData }
    }

    /// The type that it names.
    pub const fn kind(&self) -> IntegerKind {
        self.kind
    }

    /// The suffix.
    pub const fn text(&self) -> &'a str {
        // SAFETY: pointer and length are those of the string that the entry was made of, which it borrows.
        unsafe { from_utf8_unchecked(from_raw_parts(self.text, self.len)) }
    }
}

impl fmt::Debug for Suffix<'_> {
    /// As `Suffix("u8", U8)`.
    fn fmt(&self, f: &mut fmt::Formatter<'_>) -> fmt::Result {
        f.debug_tuple("Suffix").field(&self.text()).field(&self.kind).finish()
    }
}

/// A literal at the beginning of a text, and the type that its suffix names. Its suffix is the text from `number_stop`
/// up to `stop`.
#[derive(Debug, Copy, Clone, PartialEq, Eq)]
pub struct TypedLiteral {
    /// The value of its number, which fits in the type.
    pub value: u128,
    /// The type that its suffix names.
    pub kind: IntegerKind,
    /// The index of the first entry in the table that has its suffix.
    pub entry: usize,
    /// The place after its number, where its suffix begins.
    pub number_stop: usize,
    /// The place after its suffix.
    pub stop: usize,
}

/// Reads the literal at the beginning of the text, as [`parse_literal`](crate::parse_literal) does, and checks it
/// against the type that its suffix names in a table.
///
/// ```
/// use jadvolni::{parse_typed_literal, Error, Format, IntegerKind, Suffix};
/// const SUFFIXES: &[Suffix] = &[
///     Suffix::new("", IntegerKind::I32),
///     Suffix::new("u8", IntegerKind::U8),
///     Suffix::new("i64", IntegerKind::I64),
/// ];
/// let literal = parse_typed_literal("1_000i64;", &Format::RUST, SUFFIXES)?;
/// assert_eq!((literal.value, literal.kind, literal.stop), (1000, IntegerKind::I64, 8));
/// let fault = |text| parse_typed_literal(text, &Format::RUST, SUFFIXES).unwrap_err();
/// assert_eq!(fault("300u8"), Error::Overflow(2));
/// assert_eq!(fault("0b102"), Error::InvalidDigit(4));
/// assert_eq!(fault("12abc"), Error::UnknownSuffix(2));
/// # Ok::<(), Error>(())
/// ```
///
/// `Error::InvalidDigit` is at a digit `0` to `9` directly after the number, `Error::UnknownSuffix` where a suffix
/// begins that is in no entry, and `Error::Overflow` at the digit at which the number leaves its type. Of two entries
/// with the same suffix the first is used. The format's own suffix is part of the number, and never looked up: `1L`
/// under `Format::JAVA` has the entry of the empty suffix. `base_suffix(None)` of the format leaves it to the table.
///
/// If more bytes may come, take no result as final while the suffix, or separators after the number, reach the text's
/// end: `300u` may continue as `300u16`.
///
/// A literal has no minus: `-128i8` is `Error::Empty(0)`, and `128i8` is `Error::Overflow(2)`. If a minus before a
/// literal widens its range, let the entry name the unsigned type, and check the range where the sign is known.
pub fn parse_typed_literal(
    text: impl AsRef<[u8]>,
    format: &Format,
    suffixes: &[Suffix<'_>],
) -> Result<TypedLiteral, Error> {
    let (text, mut value) = (text.as_ref(), sys::jadvolni_uint128::default());
    let (mut number_stop, mut entry) = (0, 0);
    // SAFETY: the pointers are those of two slices with their lengths, of which the entries have the layout of C's, of a
    // borrowed format, and of three values that are this call's alone.
    let outcome = unsafe {
        sys::jadvolni_parse_typed_literal(
            text.as_ptr().cast(),
            text.len(),
            &format.0,
            suffixes.as_ptr().cast(),
            suffixes.len(),
            &mut value,
            &mut number_stop,
            &mut entry,
        )
    };
    match Error::of(outcome) {
        None => Ok(TypedLiteral {
            value: integer::unsigned(value),
            kind: suffixes[entry].kind,
            entry,
            number_stop,
            stop: outcome.place,
        }),
        Some(error) => Err(error),
    }
}
