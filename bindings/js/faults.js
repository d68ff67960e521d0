// The errors of a table's bad rows.

import { ParseError } from "./errors.js";
import { endOfRow, LINE_FEED } from "./header.js";
import { ANSWER, answer } from "./layout.js";
import { STATUSES } from "./lists.js";
import { named, putBytes, TEXT } from "./memory.js";
import { PIECE } from "./pieces.js";
import { frontOf, quoted, quotedBytes } from "./shown.js";

// At most this many bytes of a cell are shown. Those of one more character tell whether the last one is whole.
const MOST_SHOWN = 40;
const LONGEST_CHARACTER = 4;

// Faults without a wrong cell.
const WITHOUT_CELL = ["TooFewCells", "MissingReturn"];
const RETURN = 0x0d;

/** Where the wrong cell of a row is, and its first bytes: none where a cell or the return is missing. */
function cellOf(bytes, kind, { place, cell }) {
  const { start, size } = WITHOUT_CELL.includes(kind) ? { start: place, size: 0 } : cell;
  return { start, front: bytes.subarray(start, start + Math.min(size, MOST_SHOWN + LONGEST_CHARACTER)) };
}

const lineColumn = named("jadvolni_line_column");

/** Counts the line feeds before a place. Places must not decrease from call to call. */
function lineCounter(bytes) {
  let lines = 0;
  let counted = 0;
  return (place) => {
    for (; counted < place; counted = Math.min(counted + PIECE, place)) {
      const size = BigInt(putBytes(bytes.subarray(counted, Math.min(counted + PIECE, place))));
      lineColumn(ANSWER, TEXT, size, size);
      lines += answer[0];
    }
    return lines;
  };
}

/** The message of a fault: lines, rows and columns count from 1, as in editors, and bytes from 0. */
function messageOf(kind, said, where, column, cell, place) {
  if (kind === "MissingReturn") return `${where}: ${said}`;
  if (kind === "TooFewCells") return `${where}: ${said}, none for ${column}`;
  const message = `${where}, ${column}: ${quotedBytes(cell.front, MOST_SHOWN)}: ${said}`;
  return kind === "TooManyCells" ? message : `${message} at byte ${place - cell.start} of the cell`;
}

/** How many bytes a row has before its line end. A record that is only a line end has none. */
function sizeWithoutEnd(row, isOpen, { recordSize, has_returns, allows_returns }) {
  const isRecord = recordSize !== undefined;
  const isEnded = row.at(-1) === LINE_FEED && !isOpen;
  const hasReturn = isEnded && (has_returns || allows_returns || isRecord) && row.at(-2) === RETURN;
  const size = row.length - Number(isEnded) - Number(hasReturn);
  return isRecord && size > 0 ? row.length : size;
}

/** What a message adds about a row that is empty, or that ends before its widths do. */
function hintOf(kind, row, isOpen, how) {
  const isRecord = how.recordSize !== undefined;
  const size = sizeWithoutEnd(row, isOpen, how);
  const width = how.widths.reduce((sum, it) => sum + it, 0n);
  if (size === 0 && !isRecord) return "; the row is empty: skips_empty_rows may have to be true";
  if (size === 0 && row.length < width) return "; the row is only a line end, and records have none";
  if (kind !== "TooFewCells" || width === 0n) return "";
  const padded = isRecord ? "" : ": pad it if its last blanks were trimmed";
  return `; the row has ${size} of the ${width} bytes of its widths${padded}`;
}

/** Returns a function that makes the errors of bad rows, in their order. Places count from the first of these bytes. */
export function errorsOfRows(bytes, how, names) {
  const linesBefore = lineCounter(bytes);
  return (bad) => {
    const { status, row, column, place, start } = bad;
    const [kind, said] = STATUSES[status];
    const cell = cellOf(bytes, kind, bad);
    const line = linesBefore(place);
    const columnName = names[column];
    const where = how.recordSize === undefined ? `line ${line + 1}` : `row ${row + 1}`;
    const shown = columnName === undefined ? `column ${column + 1}` : quoted(columnName);
    const text = frontOf(cell.front, MOST_SHOWN);
    const { stop, open } = endOfRow(bytes, start, how);
    const hint = hintOf(kind, bytes.subarray(start, stop), open !== undefined, how);
    return new ParseError(messageOf(kind, said, where, shown, cell, place) + hint, kind, place, {
      row, line, column, columnName, rowStart: start, rowStop: stop, text,
    });
  };
}
