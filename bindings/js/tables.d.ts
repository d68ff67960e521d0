// Tables: the rows of a text, each column into an array of its own.

import type { Columns, Sparse } from "./columns.js";
import type { ParseError } from "./errors.js";
import type { AmountOptions, Byte, FormatOption, Text } from "./numbers.js";

/** A column of numbers, some of which may be missing. */
export interface ReadColumn extends FormatOption, AmountOptions {
  type: keyof Columns;
  may_miss?: boolean;
  encoding?: undefined;
}

/** A column of texts. */
export interface ReadTexts {
  type: "text";
  /** The encoding of the texts, by the names of TextDecoder: by default "utf-8". */
  encoding?: string;
  /** Texts may be missing: those that are exactly what stands for a missing number. By default that is an
   * empty cell, and "" too if the table has quotes. */
  may_miss?: boolean;
  format?: undefined;
  places?: undefined;
}

/** A column of a table: its type, or its type with options; null if it isn't read. */
export type TableColumn = keyof Columns | "text" | ReadColumn | ReadTexts | null;

/**
 * The texts of a column, each decoded when it is asked for. If a table has quotes, and a cell is enclosed
 * in them, the text is what is within, with each doubled quote as one; a text with a quote must be
 * enclosed. Blanks are part of it.
 *
 * It keeps the bytes that were read. Careful: if they change, so do its texts; if their buffer is
 * transferred or grows, a call throws `TypeError`. `Array.from(texts)` keeps them as strings.
 */
export interface TextColumn extends Iterable<string | null> {
  /** How many rows the column has. */
  readonly length: number;
  /** Where each text starts: the offset of its first byte in what was read. That of a missing one says nothing. */
  readonly starts: Float64Array;
  /** How many bytes each has: 0 if it is missing. */
  readonly sizes: Uint32Array;
  /** For each, 1 if it contains doubled quotes, each of which stands for one; otherwise 0. */
  readonly hasDoubledQuotes: Uint8Array;
  /** For each, 0 if it is missing, otherwise 1; undefined if none may be missing. */
  readonly present: Uint8Array | undefined;
  /** The text of a row, or, if that is negative, of a row counted from the end; null if it is missing, and
   * undefined if there is no such row. Bytes that the encoding doesn't have become U+FFFD. */
  at(row: number): string | null | undefined;
  /** A copy of the bytes of a row's text. */
  bytesAt(row: number): Uint8Array | null | undefined;
}

/** The result for a column. */
export type TableArray<C> = C extends "text" | { type: "text" }
  ? TextColumn
  : C extends { type: infer T extends keyof Columns }
    ? C extends { may_miss: true }
      ? Sparse<Columns[T]>
      : C extends { may_miss: boolean }
        ? Columns[T] | Sparse<Columns[T]>
        : Columns[T]
    : C extends keyof Columns
      ? Columns[C]
      : null;

/** The results for all columns, in their order or by their names. */
export type TableArrays<C> = { -readonly [K in keyof C]: TableArray<C[K]> };

/** How a table is written. */
export interface Table {
  /** The byte between two cells of a row: by default ",". Whatever it is, a line feed ends a row, and a
   * carriage return that belongs to this end doesn't separate cells. No row ends with a return alone. */
  separator?: Byte;
  /** The line feed that ends a row has a carriage return before it. Any other carriage return is a byte of
   * its cell, even at the end of the text; if neither this nor `allows_returns` is set, each is. */
  has_returns?: boolean;
  /** The line feed that ends a row may have a carriage return before it: so each row may end either way. Any
   * other return is a byte of its cell. No effect if `has_returns` is set. */
  allows_returns?: boolean;
  /** A cell may be enclosed in quotes, '"', and may then contain separators and line feeds. Its width, if it
   * has one, includes the quotes. Don't combine this with a quote as the separator: after an odd number of
   * them in a row a line feed doesn't end it. */
  has_quotes?: boolean;
  /** Spaces and tabs may surround a number, or what stands for a missing one: within its quotes if it has
   * them, and not in a text, where they are characters like any other. */
  allows_blanks?: boolean;
  /** Rows without a byte before their end are skipped: they have no number, and are no missing cells. With
   * `has_returns` such a row may end with a line feed alone. A row of blanks isn't empty. Otherwise an empty
   * row has one empty cell, or with widths those of width 0 before all others. */
  skips_empty_rows?: boolean;
  /** What stands for a missing number in columns that may miss some, or for a missing text: all that a cell
   * holds, within its quotes if it has them, and for a number without its blanks. By default an empty cell. */
  missing?: Text;
  /** How many bytes the cell of each column has. There are then no separators, and none may be given. A line
   * whose last blanks were trimmed has too few cells: pad it. */
  widths?: readonly number[];
  /** A row is a record, of as many bytes as the sum of the widths, but at least one, and nothing separates
   * rows: a line feed at the end of a file belongs to a further record. Otherwise a row is a line. */
  is_records?: boolean;
  /** The first row is a header, which isn't a row of the table. It follows the rules of the table: a name
   * may be enclosed in quotes, and may then contain separators, line feeds and doubled quotes; blanks around
   * it, within its quotes if it has them, are ignored if the table allows them. A byte order mark before it is
   * skipped, and so are empty rows if the table skips them. Without a header the mark belongs to the first
   * cell. */
  header?: boolean;
}

/** Reading stops at the first bad row. */
export interface Throwing {
  onError?: "throw";
}

/** Bad rows are skipped. */
export interface Skipping {
  onError: "skip";
  /** An array to which the error of each bad row is appended, or a function that is called with it, in the
   * order of the rows. If the function throws, reading stops. */
  errors?: ParseError[] | ((error: ParseError) => unknown);
}

/** The good rows of a table, without gaps, and how many bad ones were skipped. */
export interface Skipped<A> {
  columns: A;
  badRows: number;
}

/**
 * Returns the rows of a text, each column as an array, or null for one that isn't read, whose cells may hold
 * any bytes but what ends a cell; if the table has quotes, these must be in place. A row is a line. It has
 * one cell more than separators, and needs one for each column, unless the table has widths. The text may
 * be of any length; a row of more than `LONGEST_ROW` bytes is a `RangeError`. Careful: the end of a text
 * ends its last row. So cut a file only after rows.
 *
 * Throws `ParseError` for the first wrong cell in reading order, with its row and column, and with `header`
 * the column's name. With `onError: "skip"`, bad rows are skipped and counted. If the table has quotes, a
 * stray one takes the lines up to the next stray one, or to the end of the text, into its row: if that is
 * bad, they are all skipped, as one row.
 */
export function parseTable<C extends readonly TableColumn[] | []>(
  text: Text,
  columns: C,
  table: Table & Skipping,
): Skipped<TableArrays<C>>;
export function parseTable<C extends readonly TableColumn[] | []>(
  text: Text,
  columns: C,
  table?: Table & Throwing,
): TableArrays<C>;

/**
 * Returns the columns of a table that have these names in its header; the others aren't read.
 *
 * Also throws `HeaderError` if a name is missing or not unique: it lists the names of the header. A
 * header that breaks the table's rules is never skipped.
 */
export function parseTable<C extends { readonly [name: string]: TableColumn }>(
  text: Text,
  columns: C,
  table: Table & Skipping & { header: true },
): Skipped<TableArrays<C>>;
export function parseTable<C extends { readonly [name: string]: TableColumn }>(
  text: Text,
  columns: C,
  table: Table & Throwing & { header: true },
): TableArrays<C>;

/** How many bytes a row of a table may have. */
export const LONGEST_ROW: number;
