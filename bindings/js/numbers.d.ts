// One number of a text, or an amount.

import type { Format } from "./format.js";

/** The types of up to 32 bits. Their numbers are of type `number`. */
export type SmallType = "u8" | "u16" | "u32" | "i8" | "i16" | "i32";

/** The types of 64 and 128 bits. Their numbers are of type `bigint`; usize has 64 bits. */
export type WideType = "u64" | "u128" | "usize" | "i64" | "i128" | "isize";

/** Rust's twelve integer types. */
export type NumberType = SmallType | WideType;

/** The JavaScript type of a type's numbers. */
export type NumberOf<T extends NumberType> = T extends SmallType ? number : bigint;

/** A text: a string, read as UTF-8, or bytes. They may have any values. */
export type Text = string | Uint8Array;

/** One ASCII character, or a byte from 0 to 255. */
export type Byte = string | number;

/** The number at the beginning of a text, and the place where it stops: how many bytes were read. */
export interface Front<N> {
  value: N;
  stop: number;
}

/** The named options of a call. A format may also be passed alone. */
export interface FormatOption {
  /** Which texts are numbers. */
  format?: Format;
}

/**
 * How amounts are written: fixed-point numbers, in units of the last place, which are exact and never
 * rounded. With two places "12.50" is 1250, "-0.05" is -5, and "12.505" a fault at its last byte. If
 * `places` is given, amounts are read; otherwise none of the other options is allowed. The format is
 * then that of the integer part: its radix is 10, and it has no prefix, no suffix, and neither literal
 * prefixes nor octal zeros. ".5" is read only if that format requires no digit.
 *
 * A call with these options throws `FormatError` if they break a rule.
 */
export interface AmountOptions {
  /** The number of decimal places, from 0 to 38. With 0 no point is read. */
  places?: number;
  /** The byte before the decimal places: by default ".". It isn't a digit, a sign, the group or 0. */
  point?: Byte;
  /** A byte that may stand between two digits of the integer part, as "," in "1,234.00". The number of
   * digits between two of them isn't checked. */
  group?: Byte | null;
  /** Fewer decimal places are accepted, as if zeros followed, and with none the point is left out too:
   * "12.5" and "12". */
  takes_fewer?: boolean;
}

/** The least and the greatest number that is accepted: by default those of the type. For amounts they are
 * in units of the last place. `min` may not be greater than `max`. */
export interface Bounds {
  min?: number | bigint;
  max?: number | bigint;
}

/**
 * Returns the number that the whole text stands for. Without a format these are decimal digits, with an
 * optional "+" before them, or, if the type is signed, "-". With a format and bounds:
 * `parse("8080", "u16", { min: 1, format: formats.JSON })`. With places it is an amount:
 * `parse("-1.234,50", "i64", { places: 2, point: ",", group: "." })`.
 *
 * Throws `ParseError` if the text isn't a number of the type under the format or within the bounds,
 * `TypeError` if an argument isn't what it may be, and `RangeError` if `min` is greater than `max`, or the
 * text has more than `LONGEST` bytes. So do the calls below.
 */
export function parse<T extends NumberType>(
  text: Text,
  type: T,
  options?: Format | (FormatOption & AmountOptions & Bounds),
): NumberOf<T>;

/**
 * Returns the number at the beginning of a text: "12px" gives 12, and stops at 2. If no digit was read, it
 * throws a `ParseError` of the kind "Empty", except for an amount whose format requires no digit. If more
 * text may come, as from a stream, a result at the text's end isn't final: "12" may continue as "123". Nor
 * is one before separators that end the text: "1_" may continue as "1_0".
 *
 * With places it is an amount. A digit after the last place is a fault. If fewer places are accepted, a
 * point that no digit follows isn't read: "12. And" stops at 2. So does "12.", which isn't final either if
 * more text may come.
 */
export function parseFront<T extends NumberType>(
  text: Text,
  type: T,
  options?: Format | (FormatOption & AmountOptions),
): Front<NumberOf<T>>;

/**
 * Returns the number at the beginning of a text, but digits may be missing.
 *
 * Careful: if other bytes stand where digits should, the result is usually 0, and no fault: "x" is 0, and
 * stops at 0. Use `parseFront` if you need a number.
 */
export function parsePartial<T extends NumberType>(
  text: Text,
  type: T,
  options?: Format | FormatOption,
): Front<NumberOf<T>>;

/** How many bytes a text of one number may have. */
export const LONGEST: number;
