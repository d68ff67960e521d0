// The literal that a text begins with, with its suffix, and with the type that this names.

import type { Format } from "./format.js";
import type { FormatOption, NumberOf, NumberType, Text } from "./numbers.js";

/** A literal: its value, its suffix, such as the `ull` of C's `0xFFull`, and the place after both. */
export interface Literal {
  value: bigint;
  suffix: string;
  stop: number;
}

/**
 * Returns the literal at the beginning of a text, with its suffix: all ASCII letters, digits 0 to 9 and
 * "_" that follow the number, which is read as `parseFront` reads a u128. The caller decides which
 * suffixes are valid; `parseTypedLiteral` takes a list of them.
 *
 * Pass the format of the literal's language: without one the number is decimal digits, and "0xFFull" is 0n
 * with the suffix "xFFull". The number has no minus under any format, and a plus if the format allows one.
 * The format's own `base_suffix`, as the L of Java and Kotlin or the n of JavaScript, is part of the number.
 * To get it as the suffix, clear the field: `new Format({ ...formats.JAVASCRIPT, base_suffix: null })`.
 */
export function parseLiteral(text: Text, options?: Format | FormatOption): Literal;

/** A literal with the type that its suffix names. */
export type TypedLiteral<T extends NumberType = NumberType> = {
  [K in T]: { value: NumberOf<K>; suffix: string; type: K; stop: number };
}[T];

/**
 * Returns the literal at the beginning of a text, as `parseLiteral` does, as the type that its suffix names:
 * `parseTypedLiteral("1_000i64;", { "": "i32", u8: "u8", i64: "i64" }, formats.RUST)` is 1000n of the type "i64",
 * and stops at 8. A suffix is matched exactly. The empty one is for literals without a suffix, and for those with
 * the format's own `base_suffix`: "1n" under `formats.JAVASCRIPT`.
 *
 * Throws `ParseError`: of the kind "InvalidDigit" at a digit 0 to 9 directly after the number, as in "0b102",
 * "UnknownSuffix" where a suffix begins that isn't in `suffixes`, as in "12abc", and "Overflow" at the digit at
 * which the number leaves its type, as in "300u8". A literal has no minus: "-128i8" is "Empty" at 0.
 */
export function parseTypedLiteral<T extends NumberType>(
  text: Text,
  suffixes: { readonly [suffix: string]: T },
  options?: Format | FormatOption,
): TypedLiteral<T>;
