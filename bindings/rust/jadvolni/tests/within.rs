//! Numbers within bounds, beside the same parse without.

#[allow(dead_code)]
#[path = "../examples/settings.rs"]
mod settings;

use jadvolni::{parse, parse_fixed, parse_fixed_within, parse_within, parse_within_with_format};
use jadvolni::{Error, Fixed, Format, WithinError};

const TEXTS: [&str; 24] = [
    "0",
    "1",
    "-1",
    "+1",
    "-0",
    "007",
    "127",
    "128",
    "-128",
    "-129",
    "255",
    "256",
    "70000",
    "-70000",
    "99999x",
    "-x",
    "",
    "-",
    "+",
    "x",
    "9223372036854775808",
    "-9223372036854775809",
    "340282366920938463463374607431768211456",
    "-170141183460469231731687303715884105729",
];

/// What is said of a text beside its number, if it has one that no type of 128 bits need have.
fn judge(text: &str) -> Option<bool> {
    let digits = text.strip_prefix(['-', '+']).unwrap_or(text);
    let is_number = !digits.is_empty() && digits.bytes().all(|byte| byte.is_ascii_digit());
    is_number.then(|| text.starts_with('-') && digits.bytes().any(|byte| byte != b'0'))
}

#[test]
fn what_is_taken_and_what_is_said() {
    macro_rules! each {
        ($($type:ident)*) => {$(
            for text in TEXTS {
                for (min, max) in [($type::MIN, $type::MAX), (1, 100), (100, 1), (0, 0)] {
                    let (read, whole) = (parse_within(text, min..=max), parse::<$type>(text));
                    match (read, whole, judge(text)) {
                        (Ok(number), whole, _) => {
                            assert!(whole == Ok(number) && min <= number && number <= max, "{text}");
                        }
                        (Err(WithinError::Invalid(error)), Err(_), None) => {
                            assert!(!matches!(error, Error::Overflow(_) | Error::Underflow(_)));
                        }
                        // A minus in front of nothing but zeros, where the type has no sign.
                        (Err(WithinError::Invalid(error)), Err(own), Some(false)) => assert_eq!((error, text), (own, "-0")),
                        (Err(WithinError::OutOfBounds { given, .. }), whole, Some(is_negative)) => {
                            assert_eq!(given.as_bytes(), &text.as_bytes()[..text.len().min(40)]);
                            assert!(whole.is_err() || !(min..=max).contains(&whole.unwrap()), "{text}");
                            assert!(!is_negative || min > 0 || $type::MIN == 0 || whole.is_err() || whole.unwrap() < min);
                        }
                        other => panic!("{text} from {min} to {max}: {other:?}"),
                    }
                }
            }
        )*};
    }
    each! { u8 u16 u32 u64 u128 usize i8 i16 i32 i64 i128 isize }
}

#[test]
fn messages() {
    let told = |text: &[u8]| parse_within(text, -5..=5i8).unwrap_err().to_string();
    assert_eq!(told(b"6"), "6 is not from -5 to 5");
    assert_eq!(told(b"-129"), "-129 is not from -5 to 5");
    assert_eq!(
        told("9".repeat(99).as_bytes()),
        format!("{}.. is not from -5 to 5", "9".repeat(40))
    );
    assert_eq!(told(b"1\n"), "invalid digit at byte 1");
    assert_eq!(told(b""), "missing digit at byte 0");
    let separated =
        Format::STANDARD.digit_separator(Some(0)).integer_internal_digit_separator(true);
    let told = |text, format| parse_within_with_format(text, 1..=5u8, format).unwrap_err();
    assert_eq!(told("6\x000", &separated).to_string(), r"6\x000 is not from 1 to 5");
    assert_eq!(
        format!("{:?}", told("6\x000", &separated)),
        r#"OutOfBounds { given: "6\x000", min: 1, max: 5 }"#
    );
    assert_eq!(told("70'000", &Format::CPP14).to_string(), "70'000 is not from 1 to 5");
    let invalid = Format::STANDARD.mantissa_radix(1);
    assert_eq!(told("6", &invalid), WithinError::Invalid(Error::InvalidMantissaRadix));
    let error: Box<dyn std::error::Error + Send + Sync> = told("6", &separated).into();
    assert_eq!(error.to_string(), "6 is not from 1 to 5");
}

#[test]
fn amounts() {
    const CENTS: Fixed = Fixed::of_places(2);
    const EUROS: Fixed = CENTS.point(b',').group_separator(Some(b'.'));
    macro_rules! told {
        ($text:expr, $bounds:expr, $fixed:expr) => {
            parse_fixed_within($text, $bounds, &$fixed).unwrap_err().to_string()
        };
    }
    assert_eq!(parse_fixed_within("12.50", 0..=9999i64, &CENTS), Ok(1250));
    assert_eq!(told!("-1.00", 0..=9999i64, CENTS), "-1.00 is not from 0.00 to 99.99");
    assert_eq!(told!("-1.00", 5..=9999u16, CENTS), "-1.00 is not from 0.05 to 99.99");
    assert_eq!(told!("1234.56", u8::MIN..=u8::MAX, CENTS), "1234.56 is not from 0.00 to 2.55");
    assert_eq!(told!("-1.29", i8::MIN..=i8::MAX, CENTS), "-1.29 is not from -1.28 to 1.27");
    assert_eq!(told!("1.234,50", -5..=9999i32, EUROS), "1.234,50 is not from -0,05 to 99,99");
    assert_eq!(told!("7", 0..=5u8, Fixed::of_places(0)), "7 is not from 0 to 5");
    assert_eq!(
        told!(b"9\xB799", 0..=5u8, CENTS.point(0xB7)),
        r"9\xb799 is not from 0\xb700 to 0\xb705"
    );
    assert_eq!(told!("1.00", 0..=5u8, CENTS.point(0)), "1.00 is not from 0.00 to 0.05");
    let (many, end) = (Fixed::of_places(38), "70141183460469231731687303715884105728");
    assert_eq!(
        told!(format!("9.{end}"), i128::MIN..=0, many),
        format!("9.{end} is not from -1.{end} to 0.{}", "0".repeat(38))
    );
    let invalid = |text, fixed: Fixed| match parse_fixed_within(text, 0..=5u8, &fixed) {
        Err(WithinError::Invalid(error)) => error,
        other => panic!("{text}: {other:?}"),
    };
    assert_eq!(invalid("0.0x", CENTS), Error::InvalidDigit(3));
    assert_eq!(invalid("99999.9", CENTS), Error::Empty(7));
    assert_eq!(invalid("-0.00", CENTS), parse_fixed::<u8>("-0.00", &CENTS).unwrap_err());
    assert_eq!(invalid("1", Fixed::of_places(255)), Error::InvalidPlaces);
    let error: Box<dyn std::error::Error + Send + Sync> =
        parse_fixed_within("6.00", 1..=5u8, &CENTS).unwrap_err().into();
    assert_eq!(format!("{error:>9}"), "6.00 is not from 0.01 to 0.05");
}

/// What the example says of words, or what is wrong.
fn said(words: &[&str], mut output: impl std::io::Write) -> String {
    let words: Vec<_> = words.iter().map(Into::into).collect();
    settings::run(&words, &mut output).map_or_else(|error| error.to_string(), |()| String::new())
}

#[test]
fn settings_of_a_command_line() {
    let mut output = vec![];
    assert_eq!(said(&["80", "7"], &mut output), "");
    assert_eq!(output, b"port 80, 7 percent\n");
    assert_eq!(said(&["70000", "7"], &mut output), "70000 is not from 1 to 65535");
    assert_eq!(said(&["80", "07"], &mut output), "forbidden leading zero at byte 0");
    assert_eq!(said(&["80"], &mut output), "usage: settings PORT PERCENT");
    let full = std::fs::File::create("/dev/full").unwrap();
    let told = "standard output: No space left on device (os error 28)";
    assert_eq!(said(&["80", "7"], full), told);
}
