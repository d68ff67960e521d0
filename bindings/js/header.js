// The header of a table: its first row, which is read by the table's own rules.

import { described } from "./arguments.js";
import { cellCount, cellsOf, isSkipped } from "./cells.js";
import { HeaderError } from "./errors.js";
import { putTableAlone } from "./layout.js";

export const LINE_FEED = 0x0a;
const QUOTE = 0x22;
const BYTE_ORDER_MARK = [0xef, 0xbb, 0xbf];
const decoder = new TextDecoder("utf-8", { ignoreBOM: true });

// At most this many names are listed in a message.
const LISTED = 40;
// Usual separators of tables.
const SEPARATORS = [",", ";", "\t", "|"];

/**
 * The place after the row that begins at `start`, with its line end; and if a quote is open there, that quote's place.
 * A line feed ends the row if the row has an even number of quotes before it, even misplaced ones.
 */
export function endOfRow(bytes, start, { has_quotes, recordSize }) {
  if (recordSize !== undefined) return { stop: Math.min(bytes.length, start + recordSize) };
  let open;
  let last = {};
  for (let place = start; place < bytes.length; place++) {
    if (has_quotes && bytes[place] === QUOTE) {
      if (open !== undefined) {
        last = { open, stop: place + 1 };
        open = undefined;
      } else {
        open = last.stop === place ? last.open : place; // (the second of two quotes opens nothing)
      }
    } else if (bytes[place] === LINE_FEED && open === undefined) {
      return { stop: place + 1 };
    }
  }
  return { stop: bytes.length, open };
}

/** The name in a cell, without quotes and blanks. */
function nameOf(cell, { has_quotes, allows_blanks }) {
  const text = decoder.decode(cell.slice()); // (a copy: a decoder refuses shared memory)
  const held = has_quotes && text.startsWith('"') ? text.slice(1, -1).replaceAll('""', '"') : text;
  return allows_blanks ? held.replace(/^[ \t]+|[ \t]+$/g, "") : held;
}

/** Where the first row that the table doesn't skip starts and stops, after a byte order mark. `ask` throws if a row is
 * too long. */
function firstRow(bytes, how, ask) {
  let start = BYTE_ORDER_MARK.every((byte, place) => bytes[place] === byte) ? 3 : 0;
  putTableAlone(how);
  for (;;) {
    const { stop } = endOfRow(bytes, start, how);
    if (start === stop) throw new HeaderError("NoHeader", "the table has no header", []);
    ask(start, stop);
    if (!how.skips_empty_rows || !isSkipped(bytes.subarray(start, stop))) return { start, stop };
    start = stop;
  }
}

/**
 * The names of a text's columns, and the place after the header. `ask` throws if a row is too long, and `judge` if the
 * library doesn't accept it as a row with that number of columns.
 */
export function headerOf(bytes, how, ask, judge) {
  const { start, stop } = firstRow(bytes, how, ask);
  const row = bytes.subarray(start, stop);
  const count = how.widths.length || cellCount(row, how);
  judge(start, stop, count);
  return { names: cellsOf(row, how, count).map((cell) => nameOf(cell, how)), stop };
}

/** Names as a message lists them. */
function listed(names) {
  const rest = names.length > LISTED ? ` and ${names.length - LISTED} more` : "";
  return names.slice(0, LISTED).map(described).join(", ") + rest;
}

/** A hint for the error: the last name may have the return of its line, names may have quotes, or if the header has one
 * column, the separator may be another one. */
function hintOf(names, name, { separator, widths, has_returns, allows_returns, has_quotes }) {
  const hasNone = !has_returns && !allows_returns;
  if (hasNone && names.at(-1) === `${name}\r`) return "; allows_returns may have to be true";
  if (!has_quotes && names.some((it) => it.startsWith('"'))) return "; has_quotes may have to be true";
  const isOther = (it) => names[0].includes(it) && it.charCodeAt(0) !== separator;
  const other = names.length === 1 && widths.length === 0 ? SEPARATORS.find(isOther) : undefined;
  return other === undefined ? "" : `; separator may have to be ${described(other)}`;
}

/** The only column with a name. */
export function columnOf(names, name, how) {
  const column = names.indexOf(name);
  if (column !== -1 && names.indexOf(name, column + 1) === -1) return column;
  const [kind, count] = column === -1 ? ["Missing", "no"] : ["Doubled", "more than one"];
  const hint = column === -1 ? hintOf(names, name, how) : "";
  throw new HeaderError(kind, `${count} column ${described(name)}: the header has ${listed(names)}${hint}`, names);
}
