//! The formats of languages and of data, by `make docs` from `tools/languages.txt`.

use crate::Format;

#[rustfmt::skip]
impl Format {
    /// C, up to C17.
    pub const C: Format = Format::STANDARD
        .no_positive_mantissa_sign(true)
        .literal_prefixes(true)
        .literal_octal_zero(true);

    /// C, decimal constants.
    pub const C_DECIMAL: Format = Format::STANDARD
        .no_positive_mantissa_sign(true)
        .no_integer_leading_zeros(true);

    /// C, octal constants.
    pub const C_OCTAL: Format = Format::STANDARD
        .no_positive_mantissa_sign(true)
        .mantissa_radix(8);

    /// C, hexadecimal constants.
    pub const C_HEXADECIMAL: Format = Format::STANDARD
        .no_positive_mantissa_sign(true)
        .mantissa_radix(16)
        .base_prefix(Some(b'x'));

    /// C23.
    pub const C23: Format = Format::STANDARD
        .no_positive_mantissa_sign(true)
        .literal_prefixes(true)
        .digit_separator(Some(b'\''))
        .integer_internal_digit_separator(true)
        .literal_octal_zero(true);

    /// C++14 and later.
    pub const CPP14: Format = Format::STANDARD
        .no_positive_mantissa_sign(true)
        .literal_prefixes(true)
        .digit_separator(Some(b'\''))
        .integer_internal_digit_separator(true)
        .literal_octal_zero(true);

    /// C#.
    pub const CSHARP: Format = Format::STANDARD
        .no_positive_mantissa_sign(true)
        .literal_prefixes(true)
        .digit_separator(Some(b'_'))
        .integer_internal_digit_separator(true)
        .integer_consecutive_digit_separator(true)
        .integer_prefix_digit_separator(true);

    /// Java.
    pub const JAVA: Format = Format::STANDARD
        .no_positive_mantissa_sign(true)
        .literal_prefixes(true)
        .digit_separator(Some(b'_'))
        .integer_internal_digit_separator(true)
        .base_suffix(Some(b'l'))
        .integer_consecutive_digit_separator(true)
        .literal_octal_zero(true);

    /// Kotlin.
    pub const KOTLIN: Format = Format::STANDARD
        .no_positive_mantissa_sign(true)
        .literal_prefixes(true)
        .digit_separator(Some(b'_'))
        .integer_internal_digit_separator(true)
        .base_suffix(Some(b'L'))
        .case_sensitive_base_suffix(true)
        .integer_consecutive_digit_separator(true)
        .no_integer_leading_zeros(true);

    /// Rust.
    pub const RUST: Format = Format::STANDARD
        .no_positive_mantissa_sign(true)
        .literal_prefixes(true)
        .digit_separator(Some(b'_'))
        .integer_internal_digit_separator(true)
        .integer_trailing_digit_separator(true)
        .integer_consecutive_digit_separator(true)
        .case_sensitive_base_prefix(true)
        .integer_prefix_digit_separator(true);

    /// Go.
    pub const GO: Format = Format::STANDARD
        .no_positive_mantissa_sign(true)
        .literal_prefixes(true)
        .digit_separator(Some(b'_'))
        .integer_internal_digit_separator(true)
        .integer_prefix_digit_separator(true)
        .literal_octal_zero(true);

    /// Swift.
    pub const SWIFT: Format = Format::STANDARD
        .no_positive_mantissa_sign(true)
        .literal_prefixes(true)
        .digit_separator(Some(b'_'))
        .integer_internal_digit_separator(true)
        .integer_trailing_digit_separator(true)
        .integer_consecutive_digit_separator(true)
        .case_sensitive_base_prefix(true);

    /// Ada, decimal literals.
    pub const ADA: Format = Format::STANDARD
        .no_positive_mantissa_sign(true)
        .digit_separator(Some(b'_'))
        .integer_internal_digit_separator(true);

    /// VHDL, decimal literals.
    pub const VHDL: Format = Format::STANDARD
        .no_positive_mantissa_sign(true)
        .digit_separator(Some(b'_'))
        .integer_internal_digit_separator(true);

    /// assemblers, hexadecimal numbers with an `h`.
    pub const ASSEMBLER_HEXADECIMAL: Format = Format::STANDARD
        .no_positive_mantissa_sign(true)
        .mantissa_radix(16)
        .base_suffix(Some(b'h'));

    /// Python 3.
    pub const PYTHON: Format = Format::STANDARD
        .no_positive_mantissa_sign(true)
        .literal_prefixes(true)
        .digit_separator(Some(b'_'))
        .integer_internal_digit_separator(true)
        .integer_prefix_digit_separator(true)
        .no_integer_leading_zeros(true);

    /// Ruby.
    pub const RUBY: Format = Format::STANDARD
        .literal_prefixes(true)
        .digit_separator(Some(b'_'))
        .integer_internal_digit_separator(true)
        .literal_octal_zero(true);

    /// JavaScript, in strict mode and in modules.
    pub const JAVASCRIPT: Format = Format::STANDARD
        .no_positive_mantissa_sign(true)
        .literal_prefixes(true)
        .digit_separator(Some(b'_'))
        .integer_internal_digit_separator(true)
        .base_suffix(Some(b'n'))
        .case_sensitive_base_suffix(true)
        .no_integer_leading_zeros(true);

    /// Julia.
    pub const JULIA: Format = Format::STANDARD
        .no_positive_mantissa_sign(true)
        .literal_prefixes(true)
        .digit_separator(Some(b'_'))
        .integer_internal_digit_separator(true)
        .case_sensitive_base_prefix(true);

    /// Haskell, with NumericUnderscores and BinaryLiterals.
    pub const HASKELL: Format = Format::STANDARD
        .no_positive_mantissa_sign(true)
        .literal_prefixes(true)
        .digit_separator(Some(b'_'))
        .integer_internal_digit_separator(true)
        .integer_consecutive_digit_separator(true)
        .integer_prefix_digit_separator(true);

    /// OCaml.
    pub const OCAML: Format = Format::STANDARD
        .no_positive_mantissa_sign(true)
        .literal_prefixes(true)
        .digit_separator(Some(b'_'))
        .integer_internal_digit_separator(true)
        .integer_trailing_digit_separator(true)
        .integer_consecutive_digit_separator(true);

    /// JSON.
    pub const JSON: Format = Format::STANDARD
        .required_integer_digits(true)
        .no_positive_mantissa_sign(true)
        .no_integer_leading_zeros(true);

    /// JSON5.
    pub const JSON5: Format = Format::STANDARD
        .literal_prefixes(true)
        .no_integer_leading_zeros(true);

    /// TOML.
    pub const TOML: Format = Format::STANDARD
        .literal_prefixes(true)
        .digit_separator(Some(b'_'))
        .integer_internal_digit_separator(true)
        .case_sensitive_base_prefix(true)
        .no_integer_leading_zeros(true);

    /// YAML 1.2, core schema.
    pub const YAML: Format = Format::STANDARD
        .literal_prefixes(true)
        .case_sensitive_base_prefix(true);

    /// SQL, up to SQL:2016.
    pub const SQL: Format = Format::STANDARD;

    /// SQL:2023.
    pub const SQL_2023: Format = Format::STANDARD
        .literal_prefixes(true)
        .digit_separator(Some(b'_'))
        .integer_internal_digit_separator(true)
        .integer_prefix_digit_separator(true);

    /// All of them by their names, as `rust`.
    pub const LANGUAGES: &'static [(&'static str, Format)] = &[
        ("c", Format::C),
        ("c_decimal", Format::C_DECIMAL),
        ("c_octal", Format::C_OCTAL),
        ("c_hexadecimal", Format::C_HEXADECIMAL),
        ("c23", Format::C23),
        ("cpp14", Format::CPP14),
        ("csharp", Format::CSHARP),
        ("java", Format::JAVA),
        ("kotlin", Format::KOTLIN),
        ("rust", Format::RUST),
        ("go", Format::GO),
        ("swift", Format::SWIFT),
        ("ada", Format::ADA),
        ("vhdl", Format::VHDL),
        ("assembler_hexadecimal", Format::ASSEMBLER_HEXADECIMAL),
        ("python", Format::PYTHON),
        ("ruby", Format::RUBY),
        ("javascript", Format::JAVASCRIPT),
        ("julia", Format::JULIA),
        ("haskell", Format::HASKELL),
        ("ocaml", Format::OCAML),
        ("json", Format::JSON),
        ("json5", Format::JSON5),
        ("toml", Format::TOML),
        ("yaml", Format::YAML),
        ("sql", Format::SQL),
        ("sql_2023", Format::SQL_2023),
    ];
}
