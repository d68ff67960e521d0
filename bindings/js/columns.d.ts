// Columns: the numbers of a text's fields.

import type { Format } from "./format.js";
import type { AmountOptions, Byte, FormatOption, Text } from "./numbers.js";

/** The arrays for columns, by the types of their numbers. */
export interface Columns {
  u8: Uint8Array;
  u16: Uint16Array;
  u32: Uint32Array;
  u64: BigUint64Array;
  i8: Int8Array;
  i16: Int16Array;
  i32: Int32Array;
  i64: BigInt64Array;
}

/** The numbers of a column that may miss some. A missing one is 0, and has 0 in `present`; others have 1. */
export interface Sparse<A> {
  numbers: A;
  present: Uint8Array;
}

/** The named options of a column. All but separator and format require that the fields are lines. */
export interface ColumnOptions extends FormatOption, AmountOptions {
  /** The byte between two fields: by default a line feed. */
  separator?: Byte;
  /** Each line feed has a carriage return before it. */
  has_returns?: boolean;
  /** A line feed may have a carriage return before it. */
  allows_returns?: boolean;
  /** Spaces and tabs may surround a number, or what stands for a missing one. */
  allows_blanks?: boolean;
  /** Numbers may be missing. */
  may_miss?: boolean;
  /** What stands for a missing number, if some may be missing: by default an empty field. */
  missing?: Text;
}

/**
 * Returns the numbers of a text's fields. A field is the bytes up to the separator, by default a line
 * feed; a separator at the end starts no further field. The text may be of any length; a field of more
 * than `LONGEST_FIELD` bytes is a `RangeError`. Careful: the end of a text ends its last field. So cut
 * a file only after separators.
 *
 * Throws `ParseError` for the first field that isn't a number of the type under the format, with its
 * index.
 */
export function parseColumn<T extends keyof Columns>(
  text: Text,
  type: T,
  separator?: Byte,
  format?: Format,
): Columns[T];
export function parseColumn<T extends keyof Columns>(
  text: Text,
  type: T,
  options: ColumnOptions & { may_miss?: false },
): Columns[T];

/** Returns the numbers of a text's fields, of which some may be missing. */
export function parseColumn<T extends keyof Columns>(
  text: Text,
  type: T,
  options: ColumnOptions & { may_miss: true },
): Sparse<Columns[T]>;
export function parseColumn<T extends keyof Columns>(
  text: Text,
  type: T,
  options: ColumnOptions,
): Columns[T] | Sparse<Columns[T]>;

/** How many bytes a field of a column may have. */
export const LONGEST_FIELD: number;
