"""The formats of languages and of data, by make docs from tools/languages.txt."""

from ._format import Format

# C, up to C17.
C = Format(no_positive_mantissa_sign=True, literal_prefixes=True, literal_octal_zero=True)
# C, decimal constants.
C_DECIMAL = Format(no_positive_mantissa_sign=True, no_integer_leading_zeros=True)
# C, octal constants.
C_OCTAL = Format(no_positive_mantissa_sign=True, mantissa_radix=8)
# C, hexadecimal constants.
C_HEXADECIMAL = Format(no_positive_mantissa_sign=True, mantissa_radix=16, base_prefix=b'x')
# C23.
C23 = Format(no_positive_mantissa_sign=True, literal_prefixes=True, digit_separator=b"'",
             integer_internal_digit_separator=True, literal_octal_zero=True)
# C++14 and later.
CPP14 = Format(no_positive_mantissa_sign=True, literal_prefixes=True, digit_separator=b"'",
               integer_internal_digit_separator=True, literal_octal_zero=True)
# C#.
CSHARP = Format(no_positive_mantissa_sign=True, literal_prefixes=True, digit_separator=b'_',
                integer_internal_digit_separator=True, integer_consecutive_digit_separator=True,
                integer_prefix_digit_separator=True)
# Java.
JAVA = Format(no_positive_mantissa_sign=True, literal_prefixes=True, digit_separator=b'_',
              integer_internal_digit_separator=True, base_suffix=b'l',
              integer_consecutive_digit_separator=True, literal_octal_zero=True)
# Kotlin.
KOTLIN = Format(no_positive_mantissa_sign=True, literal_prefixes=True, digit_separator=b'_',
                integer_internal_digit_separator=True, base_suffix=b'L',
                case_sensitive_base_suffix=True, integer_consecutive_digit_separator=True,
                no_integer_leading_zeros=True)
# Rust.
RUST = Format(no_positive_mantissa_sign=True, literal_prefixes=True, digit_separator=b'_',
              integer_internal_digit_separator=True, integer_trailing_digit_separator=True,
              integer_consecutive_digit_separator=True, case_sensitive_base_prefix=True,
              integer_prefix_digit_separator=True)
# Go.
GO = Format(no_positive_mantissa_sign=True, literal_prefixes=True, digit_separator=b'_',
            integer_internal_digit_separator=True, integer_prefix_digit_separator=True,
            literal_octal_zero=True)
# Swift.
SWIFT = Format(no_positive_mantissa_sign=True, literal_prefixes=True, digit_separator=b'_',
               integer_internal_digit_separator=True, integer_trailing_digit_separator=True,
               integer_consecutive_digit_separator=True, case_sensitive_base_prefix=True)
# Ada, decimal literals.
ADA = Format(no_positive_mantissa_sign=True, digit_separator=b'_',
             integer_internal_digit_separator=True)
# VHDL, decimal literals.
VHDL = Format(no_positive_mantissa_sign=True, digit_separator=b'_',
              integer_internal_digit_separator=True)
# assemblers, hexadecimal numbers with an `h`.
ASSEMBLER_HEXADECIMAL = Format(no_positive_mantissa_sign=True, mantissa_radix=16, base_suffix=b'h')
# Python 3.
PYTHON = Format(no_positive_mantissa_sign=True, literal_prefixes=True, digit_separator=b'_',
                integer_internal_digit_separator=True, integer_prefix_digit_separator=True,
                no_integer_leading_zeros=True)
# Ruby.
RUBY = Format(literal_prefixes=True, digit_separator=b'_', integer_internal_digit_separator=True,
              literal_octal_zero=True)
# JavaScript, in strict mode and in modules.
JAVASCRIPT = Format(no_positive_mantissa_sign=True, literal_prefixes=True, digit_separator=b'_',
                    integer_internal_digit_separator=True, base_suffix=b'n',
                    case_sensitive_base_suffix=True, no_integer_leading_zeros=True)
# Julia.
JULIA = Format(no_positive_mantissa_sign=True, literal_prefixes=True, digit_separator=b'_',
               integer_internal_digit_separator=True, case_sensitive_base_prefix=True)
# Haskell, with NumericUnderscores and BinaryLiterals.
HASKELL = Format(no_positive_mantissa_sign=True, literal_prefixes=True, digit_separator=b'_',
                 integer_internal_digit_separator=True, integer_consecutive_digit_separator=True,
                 integer_prefix_digit_separator=True)
# OCaml.
OCAML = Format(no_positive_mantissa_sign=True, literal_prefixes=True, digit_separator=b'_',
               integer_internal_digit_separator=True, integer_trailing_digit_separator=True,
               integer_consecutive_digit_separator=True)
# JSON.
JSON = Format(required_integer_digits=True, no_positive_mantissa_sign=True,
              no_integer_leading_zeros=True)
# JSON5.
JSON5 = Format(literal_prefixes=True, no_integer_leading_zeros=True)
# TOML.
TOML = Format(literal_prefixes=True, digit_separator=b'_', integer_internal_digit_separator=True,
              case_sensitive_base_prefix=True, no_integer_leading_zeros=True)
# YAML 1.2, core schema.
YAML = Format(literal_prefixes=True, case_sensitive_base_prefix=True)
# SQL, up to SQL:2016.
SQL = Format()
# SQL:2023.
SQL_2023 = Format(literal_prefixes=True, digit_separator=b'_',
                  integer_internal_digit_separator=True, integer_prefix_digit_separator=True)
