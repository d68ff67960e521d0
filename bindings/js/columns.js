// Columns: the numbers of a text's fields. A text of any length goes through memory piece by piece.

import { AMOUNT_FIELDS } from "./amounts.js";
import { byteOf, flagOf, ofTable } from "./arguments.js";
import { faultOfField } from "./errors.js";
import { STANDARD, useFormat } from "./format.js";
import { LINE_FEED } from "./header.js";
import * as memory from "./memory.js";
import { readOf, tableOf } from "./notation.js";
import { areNamed, namedOptions } from "./options.js";
import { ARRAYS, joined, numbersPlace, PIECE } from "./pieces.js";
import { readRows } from "./rows.js";

const { ANSWER, COUNT, FORMAT, TEXT } = memory;
const fieldStart = memory.named("jadvolni_field_start");

export const LONGEST_FIELD = PIECE - 1; // (a separator follows it)
const NUMBERS = BigInt(numbersPlace);

// Options that a column shares with tables: with one of them it is read as a table of one column, line by line.
const OF_TABLES = ["has_returns", "allows_returns", "allows_blanks", "missing"];
const OF_LINES = [...OF_TABLES, "may_miss", ...AMOUNT_FIELDS];

const TYPES = new Map(
  Object.entries(ARRAYS).map(([name, NumberArray]) => {
    const room = memory.buffer.byteLength - numbersPlace;
    const capacity = Math.floor(room / NumberArray.BYTES_PER_ELEMENT);
    const numbers = new NumberArray(memory.buffer, numbersPlace, capacity);
    return [name, { call: memory.named(`jadvolni_parse_${name}_column`), numbers }];
  }),
);

/** Puts the next piece of a text into memory. Returns how many of its bytes are whole fields. */
function putFields(bytes, start, separator) {
  const size = memory.putBytes(bytes.subarray(start, start + PIECE));
  if (start + size === bytes.length) return BigInt(size);
  const whole = fieldStart(TEXT, BigInt(size), separator);
  if (whole === 0n) {
    throw new RangeError(`the field at byte ${start} has more than ${LONGEST_FIELD} bytes`);
  }
  return whole;
}

/** The options of a column: by their names, or separator and format as arguments. */
function optionsOf(separator, format) {
  if (!areNamed(separator)) return { __proto__: null, separator, format };
  if (format === undefined) return namedOptions("parseColumn", separator, ["separator", "format", ...OF_LINES]);
  throw new TypeError("parseColumn has one format: it is one of the options, or stands behind a separator");
}

/** The fault of a field in a piece, with the bytes and fields before the piece added. */
function faultInPiece(status, place, separator, start, field) {
  const fieldPlace = Number(fieldStart(TEXT, BigInt(place), separator));
  return faultOfField(status, start + place, field, start + fieldPlace);
}

/** The numbers of fields between separators. */
function numbersOfFields(text, { call, numbers }, separator, format) {
  const bytes = memory.bytesOf(text);
  useFormat(format);
  const capacity = BigInt(numbers.length);
  const parts = [];
  let start = 0;
  let field = 0;
  while (start < bytes.length) {
    const whole = putFields(bytes, start, separator);
    call(ANSWER, TEXT, whole, separator, FORMAT, NUMBERS, capacity, COUNT);
    const [status, place, count] = [memory.status(), memory.place(), memory.count()];
    if (status !== 0) throw faultInPiece(status, place, separator, start, field + count);
    parts.push(numbers.slice(0, count));
    start += place;
    field += count;
  }
  return joined(parts, numbers.constructor);
}

/** The numbers of lines, read as a table of one column. */
function numbersOfLines(text, type, options) {
  const chosen = (names) => Object.fromEntries(names.map((name) => [name, options[name]]));
  if (options.missing !== undefined && !flagOf("may_miss", options.may_miss)) {
    throw new TypeError("missing has to be left out unless may_miss is true");
  }
  const read = readOf({ type, ...chosen(["format", "may_miss", ...AMOUNT_FIELDS]) });
  const how = { ...tableOf({ separator: LINE_FEED, ...chosen(OF_TABLES) }, 1), unit: "field" };
  const bytes = memory.bytesOf(text); // (last: the lines above may run a getter that detaches the buffer)
  const errorOf = (bad) => faultOfField(bad.status, bad.place, bad.row, bad.start);
  return readRows(bytes, 0, [read], how, errorOf).columns[0];
}

export function parseColumn(text, type, ...options) {
  const calls = ofTable(TYPES, "type", type);
  const given = optionsOf(...options);
  const { separator = "\n", format = STANDARD } = given;
  const separatorByte = byteOf("separator", separator);
  const ofLines = OF_LINES.find((name) => given[name] !== undefined);
  if (ofLines === undefined) return numbersOfFields(text, calls, separatorByte, format);
  if (separatorByte === LINE_FEED) return numbersOfLines(text, type, given);
  throw new TypeError(`${ofLines} has to be left out unless the separator is a line feed`);
}
