// The cells of a row: for the names of a header, and for the wrong cell in an error.

import { ANSWER, answer, putTableAlone, TABLE } from "./layout.js";
import * as memory from "./memory.js";

const { TEXT } = memory;
const rowCells = memory.named("jadvolni_row_cells");
const rowPlace = memory.named("jadvolni_row_place");

// Where a cell is, as words of 32 bits.
const WORDS_OF_CELL = 4;
const oneCell = memory.numberAs(Uint32Array, WORDS_OF_CELL);

/**
 * Returns how many cells the row from `start` to `stop` has, under the table that was put last. The places of the cells
 * from column `first` on go to the array `cells`, as far as it has room.
 */
function putCells(start, stop, first, cells) {
  const room = BigInt(cells.length / WORDS_OF_CELL);
  rowCells(ANSWER, TEXT + BigInt(start), BigInt(stop - start), TABLE, BigInt(first), BigInt(cells.byteOffset), room);
  return answer[2];
}

/** The place and size of a cell in the words that a call wrote, in a row that starts at a place. */
const cellAt = (words, index, start) => ({
  start: start + words[WORDS_OF_CELL * index],
  size: words[WORDS_OF_CELL * index + 2],
});

/** The place and size of a column's cell in the row from `start` to `stop` of the last piece, which comes after
 * `before` bytes of the text; undefined if the row has no such cell. */
export function cellOfColumn(start, stop, column, before) {
  return putCells(start, stop, column, oneCell) > column ? cellAt(oneCell, 0, before + start) : undefined;
}

/** Whether a row, with its line end, is empty, and the table that was put last skips it. */
export function isSkipped(row) {
  const size = memory.putBytes(row);
  rowPlace(ANSWER, TEXT, BigInt(size), TABLE, 0n);
  return answer[2] === size;
}

/** How many cells a row has. */
export function cellCount(row, how) {
  putTableAlone(how);
  return putCells(0, memory.putBytes(row), 0, oneCell);
}

/** The bytes of each of a row's `count` cells. */
export function cellsOf(row, how, count) {
  const take = putTableAlone(how);
  const cells = take(Uint32Array, WORDS_OF_CELL * count);
  putCells(0, memory.putBytes(row), 0, cells);
  return Array.from({ length: count }, (_, index) => {
    const { start, size } = cellAt(cells, index, 0);
    return row.subarray(start, start + size);
  });
}
