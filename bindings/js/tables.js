// Tables: the rows of a text, each column into an array of its own.

import { described } from "./arguments.js";
import { errorsOfRows } from "./faults.js";
import { columnOf, headerOf } from "./header.js";
import { TYPES } from "./layout.js";
import * as memory from "./memory.js";
import { readOf, tableOf } from "./notation.js";
import { areNamed } from "./options.js";
import { PIECE } from "./pieces.js";
import { longRow, readRows } from "./rows.js";

/** The header of a text, which the library judges as a row of which no cell is read. */
function judgedHeader(bytes, how) {
  const judging = { ...how, skips: false, tell: undefined };
  const ask = (start, stop) => {
    if (stop - start > PIECE) throw longRow(bytes, start, how, "the header");
  };
  return headerOf(bytes, how, ask, (start, stop, count) => {
    const row = bytes.subarray(0, stop);
    readRows(row, start, Array(count).fill(null), judging, errorsOfRows(row, judging, []));
  });
}

/** The columns of a text's rows from a place on, by what names them; and where bad rows are skipped, their number. */
function answerOf(bytes, start, reads, how, names, named = (columns) => columns) {
  const { columns, badRows } = readRows(bytes, start, reads, how, errorsOfRows(bytes, how, names));
  return how.skips ? { columns: named(columns), badRows } : named(columns);
}

/** The columns of a table that have names in its header. */
function parseByHeader(text, columns, table) {
  const wanted = Object.entries(columns).map(([name, column]) => [name, readOf(column)]);
  const how = tableOf(table);
  if (!how.header) throw new TypeError("columns by their names need a table with header: true");
  const bytes = memory.bytesOf(text); // (last, as below)
  const { names, stop } = judgedHeader(bytes, how);
  const places = wanted.map(([name]) => columnOf(names, name, how));
  const reads = Array(names.length).fill(null);
  places.forEach((place, index) => (reads[place] = wanted[index][1]));
  return answerOf(bytes, stop, reads, how, names, (arrays) =>
    Object.fromEntries(wanted.map(([name], index) => [name, arrays[places[index]]])));
}

export function parseTable(text, columns, table = {}) {
  if (areNamed(columns)) return parseByHeader(text, columns, table);
  if (!Array.isArray(columns)) {
    throw new TypeError(`columns have to be an array, or an object by names, and not ${described(columns)}`);
  }
  const reads = Array.from(columns, readOf);
  const how = tableOf(table, reads.length);
  const bytes = memory.bytesOf(text); // (last: the lines above may run a getter that detaches the buffer)
  const { names, stop } = how.header ? judgedHeader(bytes, how) : { names: [], stop: 0 };
  return answerOf(bytes, stop, reads, how, names);
}

// Small tables with their answers. A module of another version finds the structs elsewhere, and answers otherwise.
const TYPES_OF_NUMBERS = TYPES.slice(0, -1);
const KNOWN = [
  ["1234", ["u8", "u8"], { widths: [1, 1], is_records: true }, [[1, 3], [2, 4]]],
  ["1\r\n2\n", ["u8"], { allows_returns: true }, [[1, 2]]],
  ["-1,5;2", [{ type: "i8", places: 1, point: ",", takes_fewer: true }, "u8"], { separator: ";" }, [[-15], [2]]],
  ['"1""";2\nb;\n', ["text", { type: "text", may_miss: true }], { separator: ";", has_quotes: true },
    [['1"', "b"], ["2", null]]],
];

/** A column as a list of numbers or texts. */
const listOf = (column) => Array.from(column, (it) => (typeof it === "bigint" ? Number(it) : it));

/** Whether the module finds the columns of each type, and their bits. */
function hasColumns() {
  const cells = TYPES_OF_NUMBERS.map((type, index) => (type.startsWith("i") ? -1 - index : 1 + index));
  const text = [cells.join(";"), cells.map(() => "NA").join(";")].join("\n");
  const columns = TYPES_OF_NUMBERS.map((type) => ({ type, may_miss: true }));
  const read = parseTable(text, columns, { separator: ";", missing: "NA" });
  return read.every(({ numbers, present }, index) => `${numbers};${present}` === `${cells[index]},0;1,0`);
}

/** Whether the module reports bad rows, with their cells and column names. */
function hasBadRows() {
  const errors = [];
  const table = { header: true, onError: "skip", errors };
  const { columns, badRows } = parseTable("a,b\n1,2\n3,xy\n5,6\nz,7\n8,9", ["u8", "u8"], table);
  const seen = errors.map((it) => [it.kind, it.row, it.columnName, it.place, it.rowStart, it.text]);
  return `${columns}|${badRows}|${seen}` === "1,5,8,2,6,9|2|InvalidDigit,1,b,10,8,xy,InvalidDigit,3,a,17,17,z";
}

/** Whether the module finds tables, columns and bad rows where they are put. */
function isFound() {
  try {
    const known = KNOWN.every(([text, columns, table, wanted]) =>
      JSON.stringify(parseTable(text, columns, table).map(listOf)) === JSON.stringify(wanted));
    return known && hasColumns() && hasBadRows();
  } catch {
    return false;
  }
}

if (!isFound()) throw memory.otherVersion("its tables have another layout");
