//! What JSON gives to fields that the macro makes modules for, and what they write.

use jadvolni::Format;
use serde::{Deserialize, Serialize};

jadvolni::serde_integer!(mod id: u64, as string);
jadvolni::serde_integer!(mod port: u16, as number, 1..=65535, &Format::JSON);
jadvolni::serde_integer!(mod colour: u32, as string, 0..=0xFF_FFFF, &COLOUR);
jadvolni::serde_integer!(pub(crate) mod wide: i128, as number);

const COLOUR: Format = Format::STANDARD.mantissa_radix(16).base_prefix(Some(b'x'));

#[derive(Debug, PartialEq, Serialize, Deserialize)]
struct Id(#[serde(with = "id")] u64);

#[derive(Debug, PartialEq, Serialize, Deserialize)]
struct Port(#[serde(with = "port")] u16);

#[derive(Debug, PartialEq, Serialize, Deserialize)]
struct Colour(#[serde(with = "colour")] u32);

#[derive(Debug, PartialEq, Serialize, Deserialize)]
struct Wide(#[serde(with = "wide")] i128);

/// What is read, or the front of the message.
fn read<'a, T: Deserialize<'a>>(json: &'a str) -> Result<T, String> {
    serde_json::from_str(json).map_err(|error| error.to_string().split(" at line").next().unwrap().into())
}

fn fault<T>(text: &str) -> Result<T, String> {
    Err(text.into())
}

#[test]
fn strings() {
    assert_eq!(read(r#""18446744073709551615""#), Ok(Id(u64::MAX)));
    assert_eq!(read::<Id>(r#""18446744073709551616""#), fault("18446744073709551616 is not from 0 to 18446744073709551615"));
    assert_eq!(read::<Id>("12"), fault("invalid type: integer `12`, expected a string with an integer"));
    assert_eq!(read::<Id>(r#""12x""#), fault("invalid digit at byte 2"));
    assert_eq!(read::<Id>(r#""""#), fault("missing digit at byte 0"));
    assert_eq!(serde_json::to_string(&Id(u64::MAX)).unwrap(), r#""18446744073709551615""#);
    assert_eq!(read(r#""0x1e90FF""#), Ok(Colour(0x1E_90FF)));
    assert_eq!(read::<Colour>(r#""0x1000000""#), fault("0x1000000 is not from 0 to 16777215"));
    assert_eq!(serde_json::to_string(&Colour(255)).unwrap(), r#""255""#);
}

#[test]
fn numbers_and_strings() {
    for json in ["8080", r#""8080""#] {
        assert_eq!(read(json), Ok(Port(8080)));
    }
    for (json, number) in [("70000", "70000"), (r#""70000""#, "70000"), ("0", "0"), (r#""-1""#, "-1"), ("-1", "-1")] {
        assert_eq!(read::<Port>(json), fault(&format!("{number} is not from 1 to 65535")));
    }
    assert_eq!(read::<Port>(r#""08080""#), fault("forbidden leading zero at byte 0"));
    assert_eq!(read::<Port>("80.5"), fault("invalid type: floating point `80.5`, expected an integer, or a string with one"));
    assert_eq!(read::<Port>("null").unwrap_err().split(',').next(), Some("invalid type: null"));
    assert_eq!(serde_json::to_string(&Port(8080)).unwrap(), "8080");
    for number in [i128::MIN, -1, 0, i128::MAX] {
        assert_eq!(read(&format!("\"{number}\"")), Ok(Wide(number)));
        assert_eq!(serde_json::to_string(&Wide(number)).unwrap(), number.to_string());
    }
    assert_eq!(read("-7"), Ok(Wide(-7)));
}
