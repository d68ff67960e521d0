//! Fixed-point numbers: each type, each fault by its place, and descriptions that break rules.

use jadvolni::{parse_fixed, parse_fixed_front, Error, Fixed, Format, Integer};

const CENTS: Fixed = Fixed::of_places(2).takes_fewer(true);
const EXACT: Fixed = Fixed::of_places(2);
const GERMAN: Fixed = Fixed::of_places(2).point(b',').group_separator(Some(b'.'));

/// The number and the place of a text that is one, by both calls.
fn is<T: Integer + PartialEq + std::fmt::Debug>(text: &str, fixed: &Fixed, number: T) {
    assert_eq!(parse_fixed(text, fixed), Ok(number), "{text}");
    assert_eq!(parse_fixed_front(text, fixed), Ok((number, text.len())), "{text}");
}

fn fault<T: Integer>(text: impl AsRef<[u8]>, fixed: &Fixed) -> Option<Error> {
    parse_fixed::<T>(text, fixed).err()
}

#[test]
fn each_type() {
    macro_rules! each {
        ($($type:ident)*) => {$(
            is::<$type>("1.27", &EXACT, 127);
            is::<$type>("0.5", &CENTS, 50);
            assert_eq!(parse_fixed_front::<$type>("1. And", &CENTS), Ok((100, 1)));
        )*};
    }
    each! { u8 u16 u32 u64 u128 usize i8 i16 i32 i64 i128 isize }
    is::<i8>("-1.28", &EXACT, -128);
    is::<i64>("-0.05", &EXACT, -5);
    is::<i128>("-12", &CENTS, -1200);
    is::<isize>("+7.00", &EXACT, 700);
    is::<i64>("-1.234,50", &GERMAN, -123450);
    is::<i64>("1234567,00", &GERMAN, 123456700);
    let most = Fixed::of_places(38);
    is::<u128>("3.40282366920938463463374607431768211455", &most, u128::MAX);
    is::<i128>("-1.70141183460469231731687303715884105728", &most, i128::MIN);
}

#[test]
fn each_fault_by_its_place() {
    assert_eq!(fault::<i64>("12.505", &CENTS), Some(Error::InvalidDigit(5)));
    assert_eq!(parse_fixed_front::<i64>("12.505", &CENTS), Err(Error::InvalidDigit(5)));
    assert_eq!(fault::<i64>("12.5", &EXACT), Some(Error::Empty(4)));
    assert_eq!(fault::<i64>("12", &EXACT), Some(Error::Empty(2)));
    assert_eq!(fault::<i64>("12.", &CENTS), Some(Error::Empty(3)));
    assert_eq!(fault::<i64>("12.x", &CENTS), Some(Error::InvalidDigit(3)));
    assert_eq!(fault::<i64>("", &CENTS), Some(Error::Empty(0)));
    assert_eq!(fault::<i64>(b"1\x00.50", &CENTS), Some(Error::InvalidDigit(1)));
    assert_eq!(fault::<i64>(b"1.5\x00", &CENTS), Some(Error::InvalidDigit(3)));
    assert_eq!(fault::<i64>("1.50\n", &CENTS), Some(Error::InvalidDigit(4)));
    assert_eq!(fault::<u64>("-0.05", &CENTS), Some(Error::InvalidDigit(0)));
    // The digit with which the type is left, or the text's end where the zeros aren't written.
    assert_eq!(fault::<u8>("2.56", &EXACT), Some(Error::Overflow(3)));
    assert_eq!(fault::<i8>("-1.29", &EXACT), Some(Error::Underflow(4)));
    assert_eq!(fault::<u8>("3", &CENTS), Some(Error::Overflow(1)));
    assert_eq!(fault::<i8>("-2.", &CENTS), Some(Error::Empty(3)));
    let most = Fixed::of_places(38);
    let greater = "3.40282366920938463463374607431768211456";
    assert_eq!(fault::<u128>(greater, &most), Some(Error::Overflow(39)));
    // The comma of a sum is no separator of groups, and the other way round.
    assert_eq!(fault::<i64>("1.234.50", &GERMAN), Some(Error::Empty(8)));
    assert_eq!(fault::<i64>("12,505", &GERMAN), Some(Error::InvalidDigit(5)));
    assert_eq!(fault::<i64>("12.50", &GERMAN), Some(Error::Empty(5)));
    assert_eq!(fault::<i64>(",50", &GERMAN), Some(Error::InvalidDigit(0)));
    let loose = GERMAN.integer(Format::STANDARD.required_mantissa_digits(false));
    is::<i64>(",50", &loose, 50);
}

#[test]
fn integer_parts_and_points() {
    let json = EXACT.integer(Format::JSON);
    assert_eq!(fault::<i64>("01.50", &json), Some(Error::InvalidLeadingZeros(0)));
    assert_eq!(fault::<i64>("+1.50", &json), Some(Error::InvalidPositiveSign(0)));
    is::<i64>("-1.50", &json, -150);
    let none = Fixed::of_places(0);
    is::<i64>("12", &none, 12);
    assert_eq!(fault::<i64>("12.", &none), Some(Error::InvalidDigit(2)));
    assert_eq!(parse_fixed_front::<i64>("12.5", &none), Err(Error::InvalidDigit(2)));
    assert_eq!(parse_fixed_front::<i64>("12. And", &none), Ok((12, 2)));
    is::<i64>("1.50", &EXACT.point(0), 150);
    assert_eq!(GERMAN.group_separator(None), Fixed::of_places(2).point(b','));
    let nul = EXACT.group_separator(Some(0));
    assert_eq!(parse_fixed::<i64>(b"1\x00000.50", &nul), Ok(100050));
}

/// The first rule that is broken, and with it each call.
#[test]
fn descriptions_that_break_rules() {
    let places = EXACT.integer(Format::STANDARD);
    assert_eq!(places.error(), None);
    let is_first = |fixed: &Fixed, error| {
        assert_eq!(fixed.error(), Some(error));
        assert_eq!(parse_fixed::<i64>("1.50", fixed), Err(error));
        assert_eq!(parse_fixed_front::<u8>("x", fixed), Err(error));
        assert_eq!(error.place(), None);
    };
    let wrong = Fixed::of_places(39);
    is_first(&wrong, Error::InvalidPlaces);
    for point in [b'-', b'+', b'7'] {
        is_first(&wrong.point(point), Error::InvalidPoint);
    }
    is_first(&GERMAN.point(b'.'), Error::InvalidPoint);
    let wrong = wrong.point(b'-');
    let octal = Format::STANDARD.literal_octal_zero(true);
    is_first(&wrong.integer(octal), Error::InvalidFixedAffix);
    is_first(&wrong.integer(Format::STANDARD.base_suffix(Some(b'h'))), Error::InvalidFixedAffix);
    let hexadecimal = Format::STANDARD.mantissa_radix(16).base_prefix(Some(b'x'));
    is_first(&wrong.integer(hexadecimal), Error::InvalidFixedRadix);
    is_first(&wrong.integer(hexadecimal.mantissa_radix(37)), Error::InvalidMantissaRadix);
}
