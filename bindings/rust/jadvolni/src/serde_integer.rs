//! Integers in what serde reads and writes, with the feature `serde`.

/// Makes a module for `#[serde(with = "..")]`, which reads a field from a string, or also from a number.
///
/// It has no dependency: the module names the `serde` of the crate that calls it.
///
/// - `as string` reads and writes a string.
/// - `as number` reads a number or a string, and writes a number.
///
/// A string is read under a format, by default [`Format::STANDARD`](crate::Format::STANDARD). If bounds are given, a
/// number from either must be within them.
///
/// ```ignore
/// use jadvolni::Format;
///
/// jadvolni::serde_integer!(mod id: u64, as string);
/// jadvolni::serde_integer!(mod port: u16, as number, 1..=65535, &Format::JSON);
///
/// #[derive(serde::Serialize, serde::Deserialize)]
/// struct Service {
///     #[serde(with = "id")]
///     id: u64, // "18446744073709551615"
///     #[serde(with = "port")]
///     port: u16, // 8080, or "8080"; of 70000 it says "70000 is not from 1 to 65535"
/// }
/// ```
#[macro_export]
macro_rules! serde_integer {
    ($visibility:vis mod $name:ident: $type:ident, as $kind:ident) => {
        $crate::serde_integer!($visibility mod $name: $type, as $kind, $type::MIN..=$type::MAX);
    };
    ($visibility:vis mod $name:ident: $type:ident, as $kind:ident, $bounds:expr) => {
        $crate::serde_integer!(
            $visibility mod $name: $type, as $kind, $bounds, &$crate::Format::STANDARD);
    };
    ($visibility:vis mod $name:ident: $type:ident, as $kind:ident, $bounds:expr, $format:expr) => {
        $visibility mod $name {
            #[allow(unused_imports)]
            use super::*;
            use ::core::ops::RangeInclusive;
            use ::core::primitive::*;
            use ::core::result::Result;

            /// The number in what is read.
            pub fn deserialize<'de, D>(deserializer: D) -> Result<$type, D::Error>
            where
                D: ::serde::Deserializer<'de>,
            {
                $crate::serde_integer!(@deserialize $kind deserializer)
            }

            /// The number in what is written.
            pub fn serialize<S>(number: &$type, serializer: S) -> Result<S::Ok, S::Error>
            where
                S: ::serde::Serializer,
            {
                $crate::serde_integer!(@serialize $kind number serializer)
            }

            struct Integer;

            impl Integer {
                fn of_text<E: ::serde::de::Error>(text: &[u8]) -> Result<$type, E> {
                    let bounds: RangeInclusive<$type> = $bounds;
                    $crate::parse_within_with_format(text, bounds, $format).map_err(E::custom)
                }

                fn of_number<N, E>(number: N) -> Result<$type, E>
                where
                    N: ::core::fmt::Display + ::core::marker::Copy,
                    $type: ::core::convert::TryFrom<N>,
                    E: ::serde::de::Error,
                {
                    let bounds: RangeInclusive<$type> = $bounds;
                    match <$type as ::core::convert::TryFrom<N>>::try_from(number) {
                        Result::Ok(number) if bounds.contains(&number) => Result::Ok(number),
                        _ => Result::Err(E::custom(::core::format_args!(
                            "{} is not from {} to {}",
                            number,
                            bounds.start(),
                            bounds.end()
                        ))),
                    }
                }
            }

            impl<'de> ::serde::de::Visitor<'de> for Integer {
                type Value = $type;

                fn expecting(&self, f: &mut ::core::fmt::Formatter<'_>) -> ::core::fmt::Result {
                    f.write_str($crate::serde_integer!(@expects $kind))
                }

                fn visit_str<E: ::serde::de::Error>(self, text: &str) -> Result<$type, E> {
                    Self::of_text(text.as_bytes())
                }

                fn visit_bytes<E: ::serde::de::Error>(self, text: &[u8]) -> Result<$type, E> {
                    Self::of_text(text)
                }

                $crate::serde_integer!(@visits $kind $type);
            }
        }
    };
    (@deserialize string $deserializer:ident) => { $deserializer.deserialize_str(Integer) };
    (@deserialize number $deserializer:ident) => { $deserializer.deserialize_any(Integer) };
    (@serialize string $number:ident $serializer:ident) => { $serializer.collect_str($number) };
    (@serialize number $number:ident $serializer:ident) => {
        ::serde::Serialize::serialize($number, $serializer)
    };
    (@expects string) => { "a string with an integer" };
    (@expects number) => { "an integer, or a string with one" };
    (@visits string $type:ident) => {};
    (@visits number $type:ident) => {
        $crate::serde_integer!(@visit $type visit_u64 u64);
        $crate::serde_integer!(@visit $type visit_i64 i64);
        $crate::serde_integer!(@visit $type visit_u128 u128);
        $crate::serde_integer!(@visit $type visit_i128 i128);
    };
    (@visit $type:ident $visit:ident $of:ident) => {
        fn $visit<E: ::serde::de::Error>(self, number: $of) -> Result<$type, E> {
            Self::of_number(number)
        }
    };
}
