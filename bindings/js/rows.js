// The rows of a text, which go through memory piece by piece.

import { cellOfColumn } from "./cells.js";
import { endOfRow } from "./header.js";
import { putTable, rightRows, rowsBeforeFault } from "./layout.js";
import * as memory from "./memory.js";
import { joined, PIECE } from "./pieces.js";
import { joinedPlaces, placesOf, TextColumn } from "./texts.js";

export const LONGEST_ROW = PIECE - 1; // (a line feed follows it)

// The size of a piece when bad rows are reported, and so the most bad rows that it has.
const WINDOW = 1 << 16;

/** For each row 1 if it has a value, else 0. */
function presentOf(bits, count) {
  const present = new Uint8Array(count);
  for (let row = 0; row < count; row++) present[row] = (bits[row >> 3] >> (row & 7)) & 1;
  return present;
}

/** A copy of a column's values in the last piece. */
function partOf({ numbers, bits }, { NumberArray }, count, before) {
  const part = NumberArray ? { numbers: numbers.slice(0, count) } : placesOf(numbers, count, before);
  return { ...part, present: bits && presentOf(bits, count) };
}

/** The parts of a column, joined. */
function columnOfParts(parts, read, bytes) {
  if (read === null) return null;
  const present = read.mayMiss ? joined(parts.map((part) => part.present), Uint8Array) : undefined;
  if (!read.NumberArray) return new TextColumn(bytes, read.decoder, { ...joinedPlaces(parts), present });
  const numbers = joined(parts.map((part) => part.numbers), read.NumberArray);
  return present ? { numbers, present } : numbers;
}

/** The error for a row that is too long for the memory: a quote that isn't closed may be why. */
export function longRow(bytes, start, how, which) {
  const { open } = endOfRow(bytes.subarray(0, start + PIECE), start, how);
  const quote = open === undefined ? "" : `, and its quote at byte ${open} isn't closed in them`;
  return new RangeError(`${which} has more than ${LONGEST_ROW} bytes${quote}`);
}

/** Reads the next piece of the text, of at most `most` bytes. It writes the table again, since a receiver of errors
 * may have read another table in between. */
function readPiece(bytes, start, most, reads, how) {
  const laid = putTable(how, reads, how.tell ? WINDOW : 0);
  const size = memory.putBytes(bytes.subarray(start, start + most));
  const isLast = Number(start + size === bytes.length);
  const found = how.skips ? rightRows(size, isLast, laid) : rowsBeforeFault(size, isLast, laid);
  return { ...found, arrays: laid.arrays };
}

/** Reads the rows of the next piece. A row that is longer than a window gets a piece of its own. */
function readNext(bytes, start, reads, how) {
  const found = readPiece(bytes, start, how.tell ? WINDOW : PIECE, reads, how);
  if (found.place > 0 || found.badCount > 0) return found;
  const size = endOfRow(bytes.subarray(0, start + PIECE + 1), start, how).stop - start;
  if (size > PIECE) throw longRow(bytes, start, how, `the ${how.unit} at byte ${start}`);
  return readPiece(bytes, start, size, reads, how);
}

/** A bad row of the last piece, with rows and places counted in the whole text. */
function badRowOf({ status, row, column, place, start, stop }, rows, bytes) {
  const cell = cellOfColumn(start, stop, column, bytes);
  return { status, row: rows + row, column, place: bytes + place, start: bytes + start, cell };
}

/**
 * The columns of a text's rows from a place on, and how many bad rows were skipped. If they aren't to be skipped, it
 * throws the error of the first. `errorOf` makes the errors.
 */
export function readRows(bytes, first, reads, how, errorOf) {
  const { length } = bytes;
  const parts = reads.map(() => []);
  let [start, row, badRows] = [first, 0, 0];
  while (start < length) {
    const { arrays, bad, badCount, count, place } = readNext(bytes, start, reads, how);
    const known = bad.map((it) => badRowOf(it, row, start));
    const errors = known.map((it) => errorOf(it)); // (which may overwrite the memory)
    if (!how.skips && errors.length > 0) throw errors[0];
    arrays.forEach((array, index) => array && parts[index].push(partOf(array, reads[index], count, start)));
    start += place;
    row += count + badCount;
    badRows += badCount;
    for (const error of errors) how.tell(error);
    if (bytes.length !== length) throw memory.lostBytes();
  }
  return { columns: reads.map((read, index) => columnOfParts(parts[index], read, bytes)), badRows };
}
