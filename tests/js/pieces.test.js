// Texts that go through memory in small pieces are read as those of one piece.
import assert from "node:assert/strict";
import { test } from "node:test";
import * as whole from "../../bindings/js/index.js";
import { loadWith, MODULE, replacing } from "./copies.js";

const inPieces = await loadWith("pieces", MODULE, (copy) => {
  replacing("pieces.js", "Math.floor(memory.LONGEST / 5)", "64")(copy);
  replacing("rows.js", "1 << 16", "8")(copy);
});

const TABLES = [
  { allows_returns: true },
  { has_quotes: true, allows_returns: true },
  { has_quotes: true, skips_empty_rows: true, has_returns: true },
  { skips_empty_rows: true, allows_returns: true, allows_blanks: true, missing: "x" },
  { widths: [1, 2, 1], allows_returns: true },
  { widths: [2, 1, 1], is_records: true },
];
const COLUMNS = [
  ["u8", { type: "i16", may_miss: true }, "text"],
  [{ type: "u8", may_miss: true }, { type: "i8", places: 1, takes_fewer: true }, { type: "text", may_miss: true }],
];
const LINES = [{ allows_returns: true }, { may_miss: true, allows_blanks: true }, {}];
const PARTS = [
  "1,2,a\n", "3,-4,b\r\n", '5,"6","c""d"\n', '"7",8,"e\n\n"\r\n', "1", "300", "x", ",", "\n", "\r", "-7", '"', "\r\n",
  "\n".repeat(9),
];

/** A column as lists. */
function listsOf(column) {
  if (column.numbers) return [[...column.numbers], [...column.present]];
  if (!column.starts) return [...column];
  const starts = [...column.starts].map((start, row) => (column.at(row) === null ? null : start));
  return [[...column], starts, [...column.sizes], [...column.hasDoubledQuotes]];
}

/** What is read of a text: its columns and bad rows, or its fault; undefined if a row is too long for a piece. */
function readingOf(reading, { ParseError }) {
  const ofError = (error) => ({ ...error, message: error.message });
  try {
    const found = reading();
    if (!found.columns) return found.map(listsOf);
    return { columns: found.columns.map(listsOf), badRows: found.badRows, errors: found.errors.map(ofError) };
  } catch (error) {
    if (error instanceof RangeError) return undefined;
    if (error instanceof ParseError) return ofError(error);
    throw error;
  }
}

test("random texts", () => {
  let state = 11;
  const draw = (below) => {
    state = (Math.imul(state, 1664525) + 1013904223) >>> 0;
    return Math.floor((state / 2 ** 32) * below);
  };
  const counts = { read: 0, long: 0 };
  const compare = (read, text) => {
    const found = readingOf(() => read(inPieces), inPieces);
    if (found) assert.deepEqual(found, readingOf(() => read(whole), whole), JSON.stringify(text));
    counts[found ? "read" : "long"]++;
  };
  for (let time = 0; time < 3000; time++) {
    const text = Array.from({ length: draw(60) }, () => PARTS[draw(PARTS.length)]).join("");
    const columns = COLUMNS[draw(COLUMNS.length)];
    const table = TABLES[time % TABLES.length];
    compare(({ parseTable }) => parseTable(text, columns, table), text);
    for (const errors of [undefined, []]) {
      compare(({ parseTable }) => {
        const list = errors && [];
        return { ...parseTable(text, columns, { ...table, onError: "skip", errors: list }), errors: list ?? [] };
      }, text);
    }
    const lines = text.replaceAll(",", "\n");
    for (const options of LINES) compare(({ parseColumn }) => [parseColumn(lines, "i16", options)], lines);
  }
  assert.ok(counts.read > 15_000 && counts.long > 100);
});
