// Bad rows that are skipped: by hand, beside a reading row by row, and misused.
import assert from "node:assert/strict";
import { test } from "node:test";
import { formats, LONGEST_ROW, parse, ParseError, parseTable } from "../../bindings/js/index.js";

const TEXT = "1,2\nx,3\n4,5\n6\n7,8,9\n10,11";
const TWO = ["u8", "u8"];
const RIGHT = [Uint8Array.of(1, 4, 10), Uint8Array.of(2, 5, 11)];
const onError = "skip";

test("right rows stand one behind another, and bad ones are counted", () => {
  assert.deepEqual(parseTable(TEXT, TWO, { onError }), { columns: RIGHT, badRows: 3 });
  const one = [Uint8Array.of(1), Uint8Array.of(2)];
  assert.deepEqual(parseTable("1,2\n", TWO, { onError }), { columns: one, badRows: 0 });
  assert.deepEqual(parseTable("", TWO, { onError }), { columns: [new Uint8Array(), new Uint8Array()], badRows: 0 });
  assert.deepEqual(parseTable("x\ny\n", ["u8"], { onError }), { columns: [new Uint8Array()], badRows: 2 });
  assert.deepEqual(parseTable("1,2\n", TWO, { onError: "throw" }), one);
  assert.throws(() => parseTable(TEXT, TWO, { onError: "throw" }), { row: 1 });
});

test("bad rows go to an array, or to a function", () => {
  const wanted = [
    ["InvalidDigit", 1, 0, 4, 4, 8, 'line 2, column 1: "x": invalid digit at byte 0 of the cell'],
    ["TooFewCells", 3, 1, 13, 12, 14, "line 4: too few cells, none for column 2"],
    ["TooManyCells", 4, 2, 18, 14, 20, 'line 5, column 3: "9": too many cells'],
  ];
  const list = [];
  const called = [];
  for (const errors of [list, (...words) => called.push(...words)]) {
    assert.deepEqual(parseTable(TEXT, TWO, { onError, errors }), { columns: RIGHT, badRows: 3 });
  }
  for (const found of [list, called]) {
    assert.ok(found.every((error) => error instanceof ParseError));
    const shown = found.map((it) => [it.kind, it.row, it.column, it.place, it.rowStart, it.rowStop, it.message]);
    assert.deepEqual(shown, wanted);
  }
});

test("columns by names, amounts and texts", () => {
  const bank = "Date;For;Amount\r\n29.02.;Rent;-1.234,50\r\n1.3.;Food;12,5o\n2.3.;;1,00";
  const columns = { Date: "text", Amount: { type: "i64", places: 2, point: ",", group: "." } };
  const errors = [];
  const table = { separator: ";", allows_returns: true, header: true, onError, errors };
  const found = parseTable(bank, columns, table);
  assert.deepEqual([...found.columns.Date], ["29.02.", "2.3."]);
  assert.deepEqual(found.columns.Amount, BigInt64Array.of(-123450n, 100n));
  assert.equal(found.badRows, 1);
  assert.deepEqual(errors.map(String), ['ParseError: line 3, "Amount": "12,5o": invalid digit at byte 4 of the cell']);
  const sparse = parseTable("1\nx\n\n2", [{ type: "u8", may_miss: true }], { onError });
  assert.deepEqual(sparse.columns, [{ numbers: Uint8Array.of(1, 0, 2), present: Uint8Array.of(1, 0, 1) }]);
});

test("a header is never skipped", () => {
  const table = { has_quotes: true, header: true, onError };
  assert.throws(() => parseTable('a,"b\n1,2\n', { a: "u8" }, table), { kind: "MisplacedQuote" });
  assert.throws(() => parseTable("", { a: "u8" }, table), { kind: "NoHeader" });
  assert.throws(() => parseTable("b\n", { a: "u8" }, table), { kind: "Missing" });
});

/** The rows of a text: where each starts, and what it has with what ends it. */
function rowsOf(text, { has_quotes, skips_empty_rows, widths, is_records }) {
  const size = is_records ? widths.reduce((sum, it) => sum + it) : 0;
  const rows = [];
  let [start, isWithin] = [0, false];
  for (let at = 0; at < text.length; at++) {
    isWithin = isWithin !== (has_quotes === true && text[at] === '"');
    const isEnd = is_records ? at + 1 - start === size : text[at] === "\n" && !isWithin;
    if (!isEnd && at + 1 < text.length) continue;
    rows.push({ start, row: text.slice(start, at + 1) });
    start = at + 1;
  }
  return rows.filter(({ row }) => !skips_empty_rows || !["\n", "\r\n"].includes(row));
}

/** A message about a row that was read alone, with the number of its line or row in the whole text. */
function renumbered(message, row, linesBefore) {
  return message.replace(/^(line|row) (\d+)/, (_, unit, number) =>
    `${unit} ${Number(number) + (unit === "row" ? row : linesBefore)}`);
}

/** The columns and the bad rows of a text, of which each row is read alone. */
function readAlone(text, columns, table) {
  const found = { columns: columns.map(() => []), bad: [] };
  for (const [number, { start, row }] of rowsOf(text, table).entries()) {
    try {
      parseTable(row, columns, table).forEach((numbers, index) => found.columns[index].push(...numbers));
    } catch (error) {
      const linesBefore = text.slice(0, start).split("\n").length - 1;
      const places = [error.place, error.rowStart, error.rowStop].map((it) => it + start);
      found.bad.push([number, error.kind, ...places, renumbered(error.message, number, linesBefore)]);
    }
  }
  return found;
}

test("random texts beside their rows, each read alone", () => {
  const pieces = ["1,2\n", "3,-4\r\n", '5,"6"\n', '"7",8\r\n', "1", "300", "x", ",", "\n", "\r", "-7", '"'];
  const settings = [
    { allows_returns: true },
    { has_quotes: true, allows_returns: true },
    { has_quotes: true, skips_empty_rows: true, has_returns: true },
    { skips_empty_rows: true, allows_returns: true, allows_blanks: true },
    { widths: [1, 2], allows_returns: true },
    { widths: [2, 1], is_records: true },
  ];
  let state = 3;
  const draw = (below) => {
    state = (Math.imul(state, 1664525) + 1013904223) >>> 0;
    return Math.floor((state / 2 ** 32) * below);
  };
  let [right, bad] = [0, 0];
  for (let time = 0; time < 6000; time++) {
    const text = Array.from({ length: draw(30) }, () => pieces[draw(pieces.length)]).join("");
    const table = settings[time % settings.length];
    const wanted = readAlone(text, ["u8", "i16"], table);
    const errors = [];
    const { columns, badRows } = parseTable(text, ["u8", "i16"], { ...table, onError, errors });
    assert.deepEqual(columns.map((it) => Array.from(it)), wanted.columns, JSON.stringify({ text, table }));
    const shown = errors.map((it) => [it.row, it.kind, it.place, it.rowStart, it.rowStop, it.message]);
    assert.deepEqual(shown, wanted.bad, JSON.stringify({ text, table }));
    assert.equal(badRows, errors.length);
    [right, bad] = [right + columns[0].length, bad + badRows];
  }
  assert.ok(right > 1000 && bad > 1000);
});

test("more bad rows than fit at once, and rows longer than a piece", () => {
  const count = 200_000;
  const errors = [];
  let next = 0;
  const tell = ({ row, line, place, rowStart }) => {
    assert.ok(row === next && line === next && place === next && rowStart === next);
    next++;
  };
  const found = parseTable(`${"\n".repeat(count)}7\n`, ["u8"], { onError, errors: tell });
  assert.deepEqual(found, { columns: [Uint8Array.of(7)], badRows: count });
  assert.equal(next, count);
  const long = "0".repeat(200_000);
  const text = `1\n${long}2\nx\n${long}y\n\n3`;
  const rows = parseTable(text, ["u8"], { onError, errors });
  assert.deepEqual(rows, { columns: [Uint8Array.of(1, 2, 3)], badRows: 3 });
  assert.deepEqual(errors.map(({ row, place, rowStart }) => [row, place, rowStart]),
    [[2, 200_004, 200_004], [3, 400_006, 200_006], [4, 400_008, 400_008]]);
  const records = parseTable("12x4".repeat(count), ["u8", "u8"], { widths: [2, 2], is_records: true, onError });
  assert.deepEqual(records, { columns: [new Uint8Array(), new Uint8Array()], badRows: count });
});

test("empty rows that are skipped are none, however many they are", () => {
  const table = { skips_empty_rows: true, onError };
  const empty = "\n".repeat(2 * LONGEST_ROW);
  for (const errors of [undefined, []]) {
    const found = parseTable(`${empty}1\n${empty}x\n${empty}`, ["u8"], { ...table, errors });
    assert.deepEqual(found, { columns: [Uint8Array.of(1)], badRows: 1 });
  }
  assert.deepEqual(parseTable(`${empty}1`, ["u8"], { skips_empty_rows: true }), [Uint8Array.of(1)]);
});

test("a row that is too long is no bad row", () => {
  const text = `1\n${"x".repeat(LONGEST_ROW + 1)}\n2`;
  const wanted = { name: "RangeError", message: `the row at byte 2 has more than ${LONGEST_ROW} bytes` };
  for (const errors of [undefined, []]) assert.throws(() => parseTable(text, ["u8"], { onError, errors }), wanted);
});

test("a function that gets bad rows may read other tables, and stop the reading", () => {
  const seen = [];
  const errors = (error) => {
    seen.push(error.row);
    assert.equal(parse("0x1F", "u8", formats.RUST), 31);
    assert.deepEqual(parseTable("5;6\n", ["i64", "text"], { separator: ";" })[0], BigInt64Array.of(5n));
    parseTable("9;x", TWO, { separator: ";", onError: "skip", errors: [] });
  };
  const bad = "x,1\n".repeat(40_000); // (of several windows)
  const found = parseTable(`${bad}${TEXT}`, TWO, { onError, errors });
  assert.deepEqual(found, { columns: RIGHT, badRows: 40_003 });
  assert.ok(seen.length === 40_003 && seen.every((row, index) => index > 39_999 || row === index));
  const thrown = new Error("enough");
  const ending = () => {
    throw thrown;
  };
  assert.throws(() => parseTable(TEXT, TWO, { onError, errors: ending }), thrown);
  assert.throws(() => parseTable(TEXT, TWO, { onError, errors: Object.freeze([]) }), TypeError);
});

test("bytes that are taken away meanwhile are a TypeError", () => {
  const bytes = new TextEncoder().encode("x\n".repeat(100_000));
  const errors = () => bytes.buffer.byteLength > 0 && structuredClone(bytes.buffer, { transfer: [bytes.buffer] });
  const lost = { name: "TypeError", message: /^text has lost its bytes/ };
  assert.throws(() => parseTable(bytes, ["u8"], { onError, errors }), lost);
  const missing = Uint8Array.of(78, 65);
  const text = `${"x\n".repeat(100_000)}NA\n`;
  const takes = () => missing.length > 0 && structuredClone(missing.buffer, { transfer: [missing.buffer] });
  const read = parseTable(text, [{ type: "u8", may_miss: true }], { missing, onError, errors: takes });
  assert.deepEqual(read.columns, [{ numbers: Uint8Array.of(0), present: Uint8Array.of(0) }]); // (what it was is kept)
  const memory = new WebAssembly.Memory({ initial: 4 });
  new Uint8Array(memory.buffer).fill(0x0a);
  const grows = () => memory.buffer.byteLength === 4 << 16 && memory.grow(1);
  assert.throws(() => parseTable(new Uint8Array(memory.buffer), ["u8"], { onError, errors: grows }), lost);
});

test("wrong arguments", () => {
  const refuses = (table, message) => assert.throws(() => parseTable(TEXT, TWO, table), { name: "TypeError", message });
  refuses({ onError: "raise" }, 'onError has to be one of throw, skip, and not "raise"');
  refuses({ onError: true }, "onError has to be one of throw, skip, and not true");
  refuses({ onError: null }, "onError has to be one of throw, skip, and not null");
  refuses({ errors: [] }, 'errors has to be left out unless onError is "skip"');
  refuses({ onError: "throw", errors: [] }, 'errors has to be left out unless onError is "skip"');
  for (const errors of [null, {}, "list", 0, new Set()]) {
    refuses({ onError, errors }, /^errors has to be an array or a function, and not /);
  }
});
