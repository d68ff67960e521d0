// A table and its columns in the library's memory, as structs of jadvolni.h, and the calls that read them.

import * as memory from "./memory.js";
import { numbersPlace, PIECE } from "./pieces.js";
import { WORDS_OF_TEXT } from "./texts.js";

const { TEXT } = memory;
const call = memory.named("jadvolni_parse_table");
const callSkipping = memory.named("jadvolni_parse_table_skipping");
const rowPlace = memory.named("jadvolni_row_place");

// The memory after the text holds, in this order: the call's result, the table, its columns, the bytes that stand
// for a missing number, the widths of cells, the bad rows, and the columns' arrays. A column has its format, two words
// about amounts, and then an address and a capacity each for an array of every type, for texts, and for the bits that
// say which rows have a value.
const tablePlace = numbersPlace + 48;
const columnsPlace = tablePlace + 48;
const WORDS = 26;
const FIRST_ARRAY = 6;
const BITS = 24;
export const TYPES = ["i64", "u64", "i32", "u32", "i16", "u16", "i8", "u8", "text"];
export const FLAGS = [
  "has_returns", "has_quotes", "allows_blanks", "skips_empty_rows", "is_records", "allows_returns",
];
// The size of a bad row's struct in words of 32 bits.
const WORDS_OF_BAD_ROW = 16;

export const ANSWER = BigInt(numbersPlace);
export const TABLE = BigInt(tablePlace);
const COLUMNS = BigInt(columnsPlace);
export const answer = new Uint32Array(memory.buffer, numbersPlace, 12);
const tableBytes = new Uint8Array(memory.buffer, tablePlace, 48);
const tableWords = new BigUint64Array(memory.buffer, tablePlace, 6);

/** How many bytes a row has in the arrays of a column. */
function sizeOf(read) {
  if (read === null) return 0;
  const size = read.NumberArray ? read.NumberArray.BYTES_PER_ELEMENT : 4 * WORDS_OF_TEXT;
  return size + Number(read.mayMiss);
}

/** How many rows there is memory for. Arrays are aligned, so some bytes between them stay unused. */
function rowsOf(reads, missing, bad) {
  const ofColumns = 8 * (WORDS + 3) * reads.length;
  const before = columnsPlace + ofColumns + missing.length + 8 + 4 * WORDS_OF_BAD_ROW * bad;
  const size = reads.reduce((sum, read) => sum + sizeOf(read), 0);
  const rows = Math.min(PIECE, Math.floor((memory.buffer.byteLength - before) / size));
  if (rows < 1) {
    const isLong = missing.length > ofColumns;
    const subject = isLong ? `missing, of ${missing.length} bytes, is` : `${reads.length} columns are`;
    throw new RangeError(`${subject} more than there is memory for`);
  }
  return rows;
}

/** Returns a function that allocates arrays in the memory from a place on, one after the other. */
function arraysFrom(place) {
  let next = place;
  return (NumberArray, length) => {
    if (length * NumberArray.BYTES_PER_ELEMENT > memory.buffer.byteLength - next) {
      throw new RangeError("the table is more than there is memory for");
    }
    const array = new NumberArray(memory.buffer, next, length);
    next += Math.ceil(array.byteLength / 8) * 8;
    return array;
  };
}

/** Puts a column where calls find it, and answers its arrays. */
function putColumn(words, read, rows, take) {
  words.fill(0n);
  if (read === null) return null;
  new Uint8Array(words.buffer, words.byteOffset, 48).set(read.format);
  const numbers = read.NumberArray ? take(read.NumberArray, rows) : take(Uint32Array, WORDS_OF_TEXT * rows);
  words.set([BigInt(numbers.byteOffset), BigInt(rows)], FIRST_ARRAY + 2 * TYPES.indexOf(read.type));
  if (!read.mayMiss) return { numbers };
  const bits = take(Uint8Array, Math.ceil(rows / 8));
  words.set([BigInt(bits.byteOffset), BigInt(bits.length)], BITS);
  return { numbers, bits };
}

/** Puts what a table has beside its columns where calls find it. */
function putDialect({ bytes, missing, widths }, take) {
  const mark = take(Uint8Array, missing.length);
  mark.set(missing);
  const sizes = take(BigUint64Array, widths.length);
  sizes.set(widths);
  const spans = [mark, sizes].flatMap((it) => [BigInt(it.byteOffset), BigInt(it.length)]);
  tableWords.set([0n, 0n, ...spans]);
  tableBytes.set(bytes);
}

/** Puts a table alone where calls find it, and gives arrays behind it. */
export function putTableAlone(how) {
  const take = arraysFrom(columnsPlace);
  putDialect(how, take);
  return take;
}

/**
 * Puts a table and its columns where calls find them: the arrays of each, how many rows there is room
 * for, and room to report `bad` bad rows.
 */
export function putTable(how, reads, bad) {
  const rows = rowsOf(reads, how.missing, bad);
  const take = arraysFrom(columnsPlace);
  const columns = reads.map(() => take(BigUint64Array, WORDS));
  putDialect(how, take);
  const badRows = take(Uint32Array, WORDS_OF_BAD_ROW * bad);
  const arrays = reads.map((read, index) => putColumn(columns[index], read, rows, take));
  return { arrays, rows, badRows, count: BigInt(reads.length) };
}

/**
 * Reads the first bytes of the text up to the first bad row: how many rows there are, where reading stopped,
 * and what is known of that bad row.
 */
export function rowsBeforeFault(size, isLast, { rows, count }) {
  const length = BigInt(size);
  call(ANSWER, TEXT, length, isLast, TABLE, BigInt(rows), COLUMNS, count);
  const [status, , column, , row, , place] = answer;
  if (status === 0) return { count: row, place, badCount: 0, bad: [] };
  rowPlace(ANSWER, TEXT, length, TABLE, BigInt(row));
  return { count: row, place, badCount: 1, bad: [{ status, row, column, place, start: answer[2], stop: answer[4] }] };
}

/** What is known of a bad row that a call has reported. */
function badRowAt(words, index) {
  const [status, , , , , , row, , column, , place, , start, , stop] = words.subarray(WORDS_OF_BAD_ROW * index);
  return { status, row, column, place, start, stop };
}

/** Reads the right rows: how many there are, where reading stopped, and what is known of bad ones, as far as there is
 * room. */
export function rightRows(size, isLast, { rows, badRows, count }) {
  const bad = badRows.length / WORDS_OF_BAD_ROW;
  callSkipping(ANSWER, TEXT, BigInt(size), isLast, TABLE, BigInt(rows), COLUMNS, count,
    BigInt(badRows.byteOffset), BigInt(bad));
  const [status, , , , right, , badCount, , place] = answer;
  if (status !== 0) throw memory.otherVersion("it refuses a table");
  const known = Array.from({ length: Math.min(bad, badCount) }, (_, index) => badRowAt(badRows, index));
  return { count: right, place, badCount, bad: known };
}
