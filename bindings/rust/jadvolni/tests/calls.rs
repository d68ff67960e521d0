//! Each fault of each call, and the calls beside those of std.
use jadvolni::{
    parse, parse_front, parse_front_with_format, parse_literal, parse_partial,
    parse_partial_with_format, parse_typed_literal, parse_with_format, Error, Format, Integer,
    IntegerKind, Literal, Suffix, TypedLiteral,
};

#[test]
fn faults_of_texts() {
    let with_sign = Format::STANDARD.required_mantissa_sign(true);
    assert_eq!(parse::<u64>("18446744073709551616"), Err(Error::Overflow(19)));
    assert_eq!(parse::<i8>("-129"), Err(Error::Underflow(3)));
    assert_eq!(parse::<u8>("1a"), Err(Error::InvalidDigit(1)));
    assert_eq!(parse::<u8>(""), Err(Error::Empty(0)));
    assert_eq!(parse_with_format::<i64>("12", &with_sign), Err(Error::MissingSign(0)));
    assert_eq!(parse_with_format::<i64>("+1", &Format::JSON), Err(Error::InvalidPositiveSign(0)));
    assert_eq!(parse_with_format::<i64>("-01", &Format::JSON), Err(Error::InvalidLeadingZeros(1)));
    assert_eq!(parse_partial::<u64>("1234 }, {\"Key\""), Ok((1234, 4)));
    assert_eq!(parse_partial_with_format::<u64>("0b102", &Format::LITERAL), Ok((2, 4)));
}

#[test]
fn fronts_without_a_digit() {
    assert_eq!(parse_front::<i64>("x"), Err(Error::Empty(0)));
    assert_eq!(parse_front::<i64>("+a"), Err(Error::Empty(1)));
    assert_eq!(parse_front::<i64>("-x"), Err(Error::Empty(1)));
    assert_eq!(parse_front::<u64>("-x"), Err(Error::Empty(0)));
    assert_eq!(parse_front::<i64>("-0x"), Ok((0, 2)));
    assert_eq!(parse_front_with_format::<i64>("[- 5]", &Format::JSON), Err(Error::Empty(0)));
    assert_eq!(parse_front_with_format::<i64>("- 5]", &Format::JSON), Err(Error::Empty(1)));
    assert_eq!(parse_front_with_format::<i64>("-5]", &Format::JSON), Ok((-5, 2)));
    assert_eq!(parse_front_with_format::<i64>("0xg", &Format::LITERAL), Err(Error::Empty(2)));
}

/// The value of a literal of Rust, and its suffix.
fn literal(text: &str) -> Result<(u128, &str), Error> {
    let Literal { value, number_stop, stop } = parse_literal(text, &Format::RUST)?;
    Ok((value, &text[number_stop..stop]))
}

#[test]
fn literals() {
    assert_eq!(literal("1u32+2"), Ok((1, "u32")));
    assert_eq!(literal("0xFFu8"), Ok((255, "u8")));
    assert_eq!(literal("1_usize)"), Ok((1, "usize")));
    assert_eq!(literal("0b102"), Ok((2, "2")));
    assert_eq!(literal("1.5"), Ok((1, "")));
    assert_eq!(literal("1\u{e9}"), Ok((1, "")));
    let greatest = u128::MAX.to_string();
    assert_eq!(literal(&greatest), Ok((u128::MAX, "")));
    assert_eq!(literal(&(greatest + "0")), Err(Error::Overflow(39)));
    assert_eq!(literal(""), Err(Error::Empty(0)));
    assert_eq!(literal("0xu8"), Err(Error::Empty(2)));
    assert_eq!(literal("+1"), Err(Error::InvalidPositiveSign(0)));
    let broken = Format::RUST.mantissa_radix(37);
    assert_eq!(parse_literal("1u8", &broken), Err(Error::InvalidMantissaRadix));
}

/// Suffixes of Rust, and the type of a literal without one. The last entry is never reached.
static SUFFIXES: [Suffix; 6] = [
    Suffix::new("u8", IntegerKind::U8),
    Suffix::new("i8", IntegerKind::I8),
    Suffix::new("", IntegerKind::I32),
    Suffix::new("u128", IntegerKind::U128),
    Suffix::new("isize", IntegerKind::Isize),
    Suffix::new("u8", IntegerKind::U64),
];

/// The value of a literal of Rust, its type, its entry and its suffix.
fn typed(text: &str) -> Result<(u128, IntegerKind, usize, &str), Error> {
    let TypedLiteral { value, kind, entry, number_stop, stop } =
        parse_typed_literal(text, &Format::RUST, &SUFFIXES)?;
    Ok((value, kind, entry, &text[number_stop..stop]))
}

#[test]
fn literals_with_types() {
    assert_eq!(typed("255u8;"), Ok((255, IntegerKind::U8, 0, "u8")));
    assert_eq!(typed("0x7Fi8"), Ok((127, IntegerKind::I8, 1, "i8")));
    assert_eq!(typed("1_000.5"), Ok((1000, IntegerKind::I32, 2, "")));
    assert_eq!(typed("1_isize)"), Ok((1, IntegerKind::Isize, 4, "isize")));
    let greatest = u128::MAX.to_string() + "u128";
    assert_eq!(typed(&greatest), Ok((u128::MAX, IntegerKind::U128, 3, "u128")));
    assert_eq!(typed("300u8"), Err(Error::Overflow(2)));
    assert_eq!(typed("128i8"), Err(Error::Overflow(2)));
    assert_eq!(typed("2147483648"), Err(Error::Overflow(9)));
    assert_eq!(typed("9223372036854775808isize"), Err(Error::Overflow(18)));
    assert_eq!(typed("0b102"), Err(Error::InvalidDigit(4)));
    assert_eq!(typed("12abc"), Err(Error::UnknownSuffix(2)));
    assert_eq!(typed("12U8"), Err(Error::UnknownSuffix(2)));
    assert_eq!(typed(""), Err(Error::Empty(0)));
    assert_eq!(typed("-1i8"), Err(Error::Empty(0)));
    let none = parse_typed_literal("12 ", &Format::RUST, &[]);
    assert_eq!(none, Err(Error::UnknownSuffix(2)));
    let broken = Format::RUST.mantissa_radix(37);
    let refused = parse_typed_literal("1u8", &broken, &SUFFIXES);
    assert_eq!(refused, Err(Error::InvalidMantissaRadix));
    let entry = &SUFFIXES[1];
    assert_eq!((entry.text(), entry.kind()), ("i8", IntegerKind::I8));
    assert_eq!(format!("{entry:?}"), "Suffix(\"i8\", I8)");
}

#[test]
fn faults_of_formats() {
    let clash = Format::STANDARD.base_prefix(Some(b'x')).literal_prefixes(true);
    let shared = clash.base_suffix(Some(b'X'));
    let suffix = clash.base_suffix(Some(b'-'));
    let prefix = suffix.base_prefix(Some(b'0'));
    let separator = prefix.digit_separator(Some(200));
    let radix = separator.mantissa_radix(0);
    let broken = [
        (clash, Error::InvalidLiteralPrefixes),
        (shared, Error::InvalidPunctuation),
        (suffix, Error::InvalidBaseSuffix),
        (prefix, Error::InvalidBasePrefix),
        (separator, Error::InvalidDigitSeparator),
        (radix, Error::InvalidMantissaRadix),
    ];
    for (format, fault) in broken {
        assert_eq!(format.error(), Some(fault));
        assert_eq!(parse_with_format::<u8>("1", &format), Err(fault));
        assert_eq!(parse_partial_with_format::<u8>("1", &format), Err(fault));
        assert_eq!(parse_front_with_format::<u8>("1", &format), Err(fault));
        assert_eq!(fault.place(), None);
    }
    assert_eq!(Format::default().error(), None);
}

#[test]
fn nul_is_a_byte_like_others() {
    let with_nuls = Format::STANDARD
        .digit_separator(Some(0))
        .integer_internal_digit_separator(true)
        .integer_trailing_digit_separator(true);
    let prefixed = with_nuls.digit_separator(None).base_prefix(Some(0));
    assert_eq!(parse_with_format::<u16>(b"1\x002\x003\x00", &with_nuls), Ok(123));
    // That isn't UTF-16, in which these two bytes are the letter U+3131.
    assert_eq!(parse_with_format::<u16>(b"11", &with_nuls), Ok(11));
    assert_eq!(parse::<u16>(b"1\x002\x003\x00"), Err(Error::InvalidDigit(1)));
    assert_eq!(parse_with_format::<u16>(b"0\x0012", &prefixed), Ok(12));
    assert_eq!(
        parse_with_format::<u16>(b"12\x00", &prefixed.base_prefix(None).base_suffix(Some(0))),
        Ok(12)
    );
    assert_eq!(prefixed.base_suffix(Some(0)).error(), Some(Error::InvalidPunctuation));
    assert_eq!(
        prefixed.base_prefix(None),
        with_nuls.digit_separator(Some(b'_')).digit_separator(None)
    );
}

#[test]
fn literal_format_is_no_language() {
    assert_eq!(parse_with_format::<u32>("0777", &Format::LITERAL), Ok(777));
    assert_eq!(parse_with_format::<u32>("+1", &Format::LITERAL), Ok(1));
}

#[test]
fn empty_text_without_required_digit_is_zero() {
    let none = Format::STANDARD.required_mantissa_digits(false);
    let integer = none.required_integer_digits(true);
    assert_eq!(parse_with_format::<u32>("", &none), Ok(0));
    assert_eq!(parse_with_format::<u32>("", &integer), Err(Error::Empty(0)));
}

#[test]
fn faults_as_texts() {
    let fault: Box<dyn std::error::Error> = Box::new(parse::<u8>("256").unwrap_err());
    assert_eq!(fault.to_string(), "overflow at byte 2");
    assert_eq!(parse::<u8>("256").unwrap_err().place(), Some(2));
}

#[test]
fn the_library_has_the_version_of_the_crate() {
    let numbers = env!("CARGO_PKG_VERSION").split('.').map(|it| it.parse::<u32>().unwrap());
    assert_eq!(jadvolni::library_version(), numbers.fold(0, |front, it| 100 * front + it));
}

/// Each text is that of the list which all bindings share, by the name of the fault.
#[test]
fn texts_of_faults_are_those_of_the_list() {
    let faults = [
        Error::Overflow(7),
        Error::Underflow(7),
        Error::InvalidDigit(7),
        Error::Empty(7),
        Error::MissingSign(7),
        Error::InvalidPositiveSign(7),
        Error::InvalidLeadingZeros(7),
        Error::InvalidMantissaRadix,
        Error::InvalidDigitSeparator,
        Error::InvalidBasePrefix,
        Error::InvalidBaseSuffix,
        Error::InvalidPunctuation,
        Error::InvalidLiteralPrefixes,
        Error::TooFewCells(7),
        Error::TooManyCells(7),
        Error::MissingReturn(7),
        Error::InvalidTable,
        Error::MisplacedQuote(7),
        Error::InvalidFixedRadix,
        Error::InvalidFixedAffix,
        Error::InvalidPoint,
        Error::InvalidPlaces,
        Error::UnknownSuffix(7),
        Error::InvalidSuffixTable,
        Error::Unknown(7),
    ];
    let said = faults.map(|fault| {
        let name = format!("{fault:?}").replace("(7)", "");
        format!("{name}: {}", fault.to_string().replace(" at byte 7", ""))
    });
    // No fault is no error, and a format of this crate has no reserved bytes.
    let listed: Vec<&str> = include_str!("../../../errors.txt")
        .lines()
        .filter(|line| !line.starts_with('#'))
        .filter(|line| !line.starts_with("Ok: ") && !line.starts_with("UnknownField: "))
        .collect();
    assert_eq!(said.as_slice(), listed);
    for fault in faults[..7].iter().chain(&faults[13..16]).chain(&faults[17..18]) {
        assert!(fault.to_string().ends_with(" at byte 7"), "{fault}");
    }
}

/// The least and the greatest number of a type, by all six calls, and a text without a digit by those of fronts.
fn ends<T: Integer + ToString + PartialEq + std::fmt::Debug>(ends: [T; 2]) {
    for end in ends {
        let text = end.to_string();
        assert_eq!(parse::<T>(&text), Ok(end));
        assert_eq!(parse_partial::<T>(&text), Ok((end, text.len())));
        assert_eq!(parse_front::<T>(&text), Ok((end, text.len())));
        assert_eq!(parse_front_with_format::<T>(&text, &Format::STANDARD), Ok((end, text.len())));
        assert_eq!(parse_with_format::<T>(&text, &Format::STANDARD), Ok(end));
        assert_eq!(parse_partial_with_format::<T>(&text, &Format::STANDARD), Ok((end, text.len())));
    }
    let zero = || parse::<T>("0").map(|number| (number, 0));
    assert_eq!(parse_partial("x"), zero());
    assert_eq!(parse_partial_with_format("x", &Format::STANDARD), zero());
    assert_eq!(parse_front::<T>("x"), Err(Error::Empty(0)));
    assert_eq!(parse_front_with_format::<T>("x", &Format::STANDARD), Err(Error::Empty(0)));
}

#[test]
fn ends_of_types() {
    ends([u8::MIN, u8::MAX]);
    ends([u16::MIN, u16::MAX]);
    ends([u32::MIN, u32::MAX]);
    ends([u64::MIN, u64::MAX]);
    ends([u128::MIN, u128::MAX]);
    ends([usize::MIN, usize::MAX]);
    ends([i8::MIN, i8::MAX]);
    ends([i16::MIN, i16::MAX]);
    ends([i32::MIN, i32::MAX]);
    ends([i64::MIN, i64::MAX]);
    ends([i128::MIN, i128::MAX]);
    ends([isize::MIN, isize::MAX]);
}

/// Random texts, most of them of digits, beside `str::parse`.
#[test]
fn beside_std() {
    let mut state = 7u64;
    let mut next = move |below: u64| {
        state = state.wrapping_mul(6364136223846793005).wrapping_add(1442695040888963407);
        (state >> 33) % below
    };
    for _ in 0..100_000 {
        let length = next(42);
        let text: String = (0..length)
            .map(|place| match (place, next(40)) {
                (0, 0..=12) => '-',
                (0, 13..=16) => '+',
                (_, 17) => 'x',
                _ => char::from(b'0' + next(10) as u8),
            })
            .collect();
        let front = &text[..text.len().min(1 + next(20) as usize)];
        assert_eq!(
            parse::<u8>(&front[..front.len().min(4)]).ok(),
            front[..front.len().min(4)].parse().ok()
        );
        assert_eq!(parse::<i32>(front).ok(), front.parse().ok(), "{front}");
        assert_eq!(parse::<u64>(front).ok(), front.parse().ok(), "{front}");
        assert_eq!(parse::<i64>(front).ok(), front.parse().ok(), "{front}");
        assert_eq!(parse::<u128>(&text).ok(), text.parse().ok(), "{text}");
        assert_eq!(parse::<i128>(&text).ok(), text.parse().ok(), "{text}");
    }
}
