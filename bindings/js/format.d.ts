// Formats: which texts are numbers. The fields and the formats of languages are written by make docs.

import type { Byte } from "./numbers.js";

/** The fields of a format. */
export interface Fields {
  /** The radix, from 2 to 36. Digits above 9 are letters, in either case. */
  mantissa_radix: number;
  /** A byte that is ignored among the digits: "_" in "1_000". The flags on separators say where it
   * may stand; with none of them, nowhere. It isn't a decimal point: with "," between digits "12,5"
   * is 125, and "12,505" is 12505. For amounts use fixed-point numbers. */
  digit_separator: Byte | null;
  /** A byte that may follow a 0 before the digits: with "x", "0x1F" is read like "1F". It doesn't
   * change the radix. */
  base_prefix: Byte | null;
  /** A byte that may follow the digits: with "h", "1Fh" is read like "1F". */
  base_suffix: Byte | null;
  /** The prefix is matched exactly. Otherwise a letter matches in either case. */
  case_sensitive_base_prefix: boolean;
  /** The suffix is matched exactly. Otherwise a letter matches in either case. */
  case_sensitive_base_suffix: boolean;
  /** A digit is required, as with required_mantissa_digits: one of the two is enough. */
  required_integer_digits: boolean;
  /** A digit is required. If neither field is set, "" and "+" are 0, but a prefix alone is not. A
   * front still needs a digit, except an amount's. */
  required_mantissa_digits: boolean;
  /** A "+" is refused. */
  no_positive_mantissa_sign: boolean;
  /** A text without a sign is refused. */
  required_mantissa_sign: boolean;
  /** Leading zeros are refused, as in "01". After a prefix they aren't, nor in a number that a zero
   * makes octal. */
  no_integer_leading_zeros: boolean;
  /** Separators may come before the first digit: "_12". */
  integer_leading_digit_separator: boolean;
  /** Separators may come between two digits: "1_2". */
  integer_internal_digit_separator: boolean;
  /** Separators may come after the last digit: "12_". */
  integer_trailing_digit_separator: boolean;
  /** Where one separator may stand, several may: "1__2". */
  integer_consecutive_digit_separator: boolean;
  /** Separators may come directly after a prefix, as in "0x_1F", like leading ones. No effect
   * without a prefix. */
  integer_prefix_digit_separator: boolean;
  /** "0x", "0o" and "0b" choose the radix 16, 8 or 2 for the digits after them; so do "0X", "0O"
   * and "0B", unless the prefix is matched exactly. The radix of the format must be 10; it is used
   * for a text without such a prefix. */
  literal_prefixes: boolean;
  /** A number is octal if its first byte, after any sign, is 0: "0777" is 511, and "08" ends after
   * its zero. "1007" and "_017" are decimal, and a prefix takes precedence. The radix of the format
   * must be 10. */
  literal_octal_zero: boolean;
}

/** Which texts are numbers. A format can't be changed, and one that breaks a rule isn't made. No field
 * requires a prefix or a suffix, or refuses a minus for a signed type. */
export interface Format extends Readonly<Fields> {}
export class Format {
  #private;
  /**
   * The standard format, changed by these fields: `new Format({ mantissa_radix: 16 })`. To begin with
   * another, write `new Format({ ...formats.RUST, base_suffix: "u" })`.
   *
   * Throws `FormatError` if the format breaks a rule, and `TypeError` for a name that no field
   * has, or a value that the field can't have.
   */
  constructor(fields?: Partial<Fields>);
}

/** The formats of languages and of data. */
export const formats: {
  /** C, up to C17. */
  readonly C: Format;
  /** C, decimal constants. */
  readonly C_DECIMAL: Format;
  /** C, octal constants. */
  readonly C_OCTAL: Format;
  /** C, hexadecimal constants. */
  readonly C_HEXADECIMAL: Format;
  /** C23. */
  readonly C23: Format;
  /** C++14 and later. */
  readonly CPP14: Format;
  /** C#. */
  readonly CSHARP: Format;
  /** Java. */
  readonly JAVA: Format;
  /** Kotlin. */
  readonly KOTLIN: Format;
  /** Rust. */
  readonly RUST: Format;
  /** Go. */
  readonly GO: Format;
  /** Swift. */
  readonly SWIFT: Format;
  /** Ada, decimal literals. */
  readonly ADA: Format;
  /** VHDL, decimal literals. */
  readonly VHDL: Format;
  /** assemblers, hexadecimal numbers with an `h`. */
  readonly ASSEMBLER_HEXADECIMAL: Format;
  /** Python 3. */
  readonly PYTHON: Format;
  /** Ruby. */
  readonly RUBY: Format;
  /** JavaScript, in strict mode and in modules. */
  readonly JAVASCRIPT: Format;
  /** Julia. */
  readonly JULIA: Format;
  /** Haskell, with NumericUnderscores and BinaryLiterals. */
  readonly HASKELL: Format;
  /** OCaml. */
  readonly OCAML: Format;
  /** JSON. */
  readonly JSON: Format;
  /** JSON5. */
  readonly JSON5: Format;
  /** TOML. */
  readonly TOML: Format;
  /** YAML 1.2, core schema. */
  readonly YAML: Format;
  /** SQL, up to SQL:2016. */
  readonly SQL: Format;
  /** SQL:2023. */
  readonly SQL_2023: Format;
};

/** The fields of a format, in their order, each with its kind and what it means. */
export const FIELDS: readonly {
  readonly name: keyof Fields;
  /** `radix` is a number from 2 to 36, `punctuation` a `Byte` or null, `flag` true or false. */
  readonly kind: "radix" | "punctuation" | "flag";
  readonly meaning: string;
}[];
