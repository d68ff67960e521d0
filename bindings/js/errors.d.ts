// What the calls throw, beside TypeError and RangeError for wrong arguments.

/** What may be wrong with a text. */
export type TextFault =
  | "Overflow"
  | "Underflow"
  | "InvalidDigit"
  | "Empty"
  | "MissingSign"
  | "InvalidPositiveSign"
  | "InvalidLeadingZeros";

/** What else may be wrong with a table. The place is where the row ends, where the first cell too many
 * starts, that of the line feed without a carriage return, or that of the quote. */
export type TableFault = "TooFewCells" | "TooManyCells" | "MissingReturn" | "MisplacedQuote";

/** What else may be wrong with a literal that has a type: the place is where its suffix begins. */
export type LiteralFault = "UnknownSuffix";

/** The rule that a format, or a description of amounts, breaks. */
export type FormatFault =
  | "InvalidMantissaRadix"
  | "InvalidDigitSeparator"
  | "InvalidBasePrefix"
  | "InvalidBaseSuffix"
  | "InvalidPunctuation"
  | "InvalidLiteralPrefixes"
  | "InvalidFixedRadix"
  | "InvalidFixedAffix"
  | "InvalidPoint"
  | "InvalidPlaces";

/**
 * The base of the errors below. One of this class itself is thrown when the package can't be loaded: it
 * says which engines have 64-bit WebAssembly memory, if this one doesn't, or why `jadvolni.wasm` can't
 * be loaded.
 */
export class JadvolniError extends Error {}

/**
 * A text isn't a number of its type under its format.
 *
 * Its properties count from 0, over the whole text: a header isn't a row, but its lines and bytes count.
 * The message of a table counts lines, rows and columns from 1, as an editor does:
 * `line 3, "cents": "12x5": invalid digit at byte 2 of the cell`. That of a column counts fields from 1.
 */
export class ParseError extends JadvolniError {
  /** What is wrong. */
  readonly kind: TextFault | LiteralFault | TableFault | "OutOfBounds";
  /**
   * The offset of the wrong byte; the text's length if something is missing at its end. If a string has
   * only ASCII before it, it is also the index into that.
   */
  readonly place: number;
  /** In a column, the index of the first bad field, and the offset where it starts, in bytes as `place`;
   * otherwise undefined. */
  readonly field: number | undefined;
  readonly start: number | undefined;
  /** In a table, the number of the row, among good and bad ones, and the column; otherwise undefined. */
  readonly row: number | undefined;
  readonly column: number | undefined;
  /** The name of that column, if the table has a header; otherwise undefined. */
  readonly columnName: string | undefined;
  /** In a table, the number of line feeds before the place; otherwise undefined. */
  readonly line: number | undefined;
  /** In a table, the offset where the row starts, and that after its line end, in bytes as `place`: they are
   * indexes into a string only if it has only ASCII before them. Otherwise undefined. */
  readonly rowStart: number | undefined;
  readonly rowStop: number | undefined;
  /** In a table, the first 40 bytes of the wrong cell, with its quotes and blanks, but no part of a
   * character; "" if a cell or a carriage return is missing. Otherwise undefined. */
  readonly text: string | undefined;
  /** The bounds, if the number is out of bounds; the place is then 0. Otherwise undefined. */
  readonly min: number | bigint | undefined;
  readonly max: number | bigint | undefined;
}

/** Columns can't be found by their names. */
export class HeaderError extends JadvolniError {
  /** What is wrong: the table has no row, or a name belongs to no column, or to more than one. */
  readonly kind: "NoHeader" | "Missing" | "Doubled";
  /** The names in the header. */
  readonly names: string[];
}

/** A format or a description of amounts is invalid. */
export class FormatError extends JadvolniError {
  /** The first rule that it breaks. */
  readonly kind: FormatFault;
}
