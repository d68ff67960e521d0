// What the error of a table has, and what it says.
import assert from "node:assert/strict";
import { test } from "node:test";
import { LONGEST_ROW, ParseError, parseTable } from "../../bindings/js/index.js";

const BANK = "date,amount\n1,20\n2,-3\n3,4\n4,12x5\n5,6\n";
const TWO = ["u8", "i16"];

/** The error of a table. */
function errorOf(text, columns, table) {
  try {
    parseTable(text, columns, table);
  } catch (error) {
    if (error instanceof ParseError) return error;
    throw error;
  }
  throw new Error("nothing was thrown");
}

/** Checks these properties of a table's error, also of the error of a bad row, and its message. */
function checkFault(text, columns, table, wanted, message) {
  const errors = [];
  parseTable(text, columns, { ...table, onError: "skip", errors });
  for (const error of [errorOf(text, columns, table), errors[0]]) {
    const found = Object.fromEntries(Object.keys(wanted).map((name) => [name, error[name]]));
    assert.deepEqual(found, wanted, JSON.stringify(text));
    if (message !== undefined) assert.equal(error.message, message);
  }
}

test("a cell", () => {
  checkFault(BANK, { amount: "i16" }, { header: true }, {
    name: "ParseError", kind: "InvalidDigit", row: 3, line: 4, column: 1, columnName: "amount", place: 30,
    rowStart: 26, rowStop: 33, text: "12x5", field: undefined, min: undefined, max: undefined,
  }, 'line 5, "amount": "12x5": invalid digit at byte 2 of the cell');
  checkFault("1,2\n3,x\n", TWO, {}, { row: 1, column: 1, columnName: undefined },
    'line 2, column 2: "x": invalid digit at byte 0 of the cell');
});

test("lines as an editor counts", () => {
  const text = '\ufeffid,"no\nte",n\r\n\r\n1,"a\nb\nc",2\r\n\r\n2,"d\n",x\r\n3,,4\r\n';
  const table = { header: true, has_returns: true, has_quotes: true, skips_empty_rows: true };
  const bytes = Buffer.from(text);
  checkFault(text, { n: "u8", id: "u8" }, table, {
    row: 1, line: 8, column: 2, columnName: "n", text: "x", place: bytes.indexOf("x"),
    rowStart: bytes.indexOf('2,"d'), rowStop: bytes.indexOf("3,,4"),
  }, 'line 9, "n": "x": invalid digit at byte 0 of the cell');
});

test("lines behind a piece of the memory", () => {
  const [line, many] = ["12345678,12\n", Math.ceil((1.5 * LONGEST_ROW) / 12)];
  const text = `${line.repeat(many)}1,x\n1,y\n${line.repeat(many)}1,z\n`;
  const errors = [];
  parseTable(text, [null, "u8"], { onError: "skip", errors });
  assert.deepEqual(errors.map((it) => [it.line, it.text]), [[many, "x"], [many + 1, "y"], [2 * many + 2, "z"]]);
});

test("a row stops before the empty ones that are skipped", () => {
  checkFault("\n\n1\nx\n\n\n\n2\n", ["u8"], { skips_empty_rows: true },
    { row: 1, line: 3, place: 4, rowStart: 4, rowStop: 6 });
  checkFault("1\nx", ["u8"], {}, { rowStart: 2, rowStop: 3 });
});

test("records", () => {
  const table = { widths: [2, 1], is_records: true };
  checkFault("011022x33", ["u8", "u8"], table, {
    row: 2, line: 0, column: 0, place: 6, rowStart: 6, rowStop: 9, text: "x3",
  }, 'row 3, column 1: "x3": invalid digit at byte 0 of the cell');
  checkFault("0110\n2", ["u8", "u8"], table, { row: 1, line: 0, column: 0, place: 4, text: "0\n" },
    'row 2, column 1: "0\\n": invalid digit at byte 1 of the cell');
  checkFault("011\n\n", [null, "u8"], table, { row: 1, line: 2, column: 1, place: 5, text: "" },
    "row 2: too few cells, none for column 2; the row has 2 of the 3 bytes of its widths");
});

// What a message adds about a line that ends before its widths do.
const PADDED = ": pad it if its last blanks were trimmed";

test("the message names the option that skips empty rows", () => {
  const hint = "; the row is empty: skips_empty_rows may have to be true";
  const texts = ["text", null];
  const few = `line 2: too few cells, none for column 2${hint}`;
  const wrong = [
    ["x,1\n\n", texts, {}, few],
    ["x,1\n\nx,1\n", texts, {}, few],
    ["x,1\r\n\r\n", texts, { allows_returns: true }, few],
    ["x,1\r\n\n", texts, { has_returns: true }, few],
    ['x,1\n\n"x",1', texts, { has_quotes: true }, few],
    ["010\r\n\n", ["text"], { has_returns: true }, `line 2: missing carriage return${hint}`],
    ["01002\n\n", TWO, { widths: [2, 3] }, `line 2: too few cells, none for column 1${hint}`],
    ["1,2\n\n\n", TWO, {}, `line 2, column 1: "": missing digit at byte 0 of the cell${hint}`],
    ["1,2\n\r\n", TWO, {}, 'line 2, column 1: "\\r": invalid digit at byte 0 of the cell'],
    ["1,2\r\n\r", TWO, { has_returns: true }, 'line 2, column 1: "\\r": invalid digit at byte 0 of the cell'],
  ];
  for (const [text, columns, table, message] of wrong) checkFault(text, columns, table, { row: 1 }, message);
});

test("rows that end before their widths", () => {
  const texts = ["text", "text"];
  const records = { is_records: true };
  const wrong = [
    ["abcdefg\nab\n", {}, 0, 2, PADDED],
    ["abcdefg\nabcdef", {}, 1, 6, PADDED],
    ["abcdefg\nab \r\n", { allows_returns: true }, 1, 3, PADDED],
    ["abcdefg\r\nab\r\n", { has_returns: true }, 0, 2, PADDED],
    ["abcdefg\nab\r\n", {}, 1, 3, PADDED],
    ['abcdefg\nabc"\n', { has_quotes: true }, 1, 5, PADDED],
    ["abcdefgab", records, 0, 2, ""],
    ["abcdefgab\r\n", { ...records, has_returns: true }, 1, 4, ""],
  ];
  for (const [text, table, column, size, more] of wrong) {
    // (a quote that isn't closed takes a line feed into its row, which ends in line 3)
    const where = table.is_records ? "row 2" : `line ${table.has_quotes ? 3 : 2}`;
    const few = `${where}: too few cells, none for column ${column + 1}`;
    checkFault(text, texts, { ...table, widths: [3, 4] }, { row: 1, column },
      `${few}; the row has ${size} of the 7 bytes of its widths${more}`);
  }
  for (const end of ["\n", "\r\n"]) {
    checkFault(`abcdefg${end}`, texts, { ...records, widths: [3, 4], skips_empty_rows: true }, { row: 1, column: 0 },
      "row 2: too few cells, none for column 1; the row is only a line end, and records have none");
  }
});

test("a record that is only a line end", () => {
  const told = 'row 2, column 1: "\\n": invalid digit at byte 0 of the cell';
  checkFault("12a\n", ["u8", null], { widths: [1, 2], is_records: true }, { row: 1 },
    `${told}; the row is only a line end, and records have none`);
  checkFault("1\n", ["u8"], { widths: [1], is_records: true }, { row: 1 }, told);
});

test("widths", () => {
  const table = { widths: [2, 3] };
  const wrong = [
    ["01002\n1x003\n", 1, 0, 7, "1x", 'line 2, column 1: "1x": invalid digit at byte 1 of the cell'],
    ["01999\n", 0, 1, 4, "999", 'line 1, column 2: "999": overflow at byte 2 of the cell'],
    ["010\n", 0, 1, 3, "", `line 1: too few cells, none for column 2; the row has 3 of the 5 bytes of its widths${PADDED}`],
    ["01002xyz\n", 0, 2, 5, "xyz", 'line 1, column 3: "xyz": too many cells'],
  ];
  for (const [text, row, column, place, cell, message] of wrong) {
    checkFault(text, ["u8", "u8"], table, { row, column, place, text: cell }, message);
  }
});

test("what is wrong with rows", () => {
  const quotes = { has_quotes: true };
  const wrong = [
    ["1,2\n3\n", {}, 1, "", "line 2: too few cells, none for column 2"],
    ["1,2\n3,4,5\n", {}, 2, "5", 'line 2, column 3: "5": too many cells'],
    ["1,2\n3,4,\n", {}, 2, "", 'line 2, column 3: "": too many cells'],
    ["1,2\r\n3,4\n", { has_returns: true }, 2, "", "line 2: missing carriage return"],
    ["1,2\r\n3,4x\r\n", { has_returns: true }, 1, "4x", 'line 2, column 2: "4x": invalid digit at byte 1 of the cell'],
    ['1,2\n"3,4\n', quotes, 0, '"3,4\n', 'line 2, column 1: "\\"3,4\\n": misplaced quote at byte 0 of the cell'],
    ['1,2\n"3",4"5\n', quotes, 1, '4"5\n', 'line 2, column 2: "4\\"5\\n": misplaced quote at byte 1 of the cell'],
    ['1,2\n"3,4"\n', quotes, 0, '"3,4"', 'line 2, column 1: "\\"3,4\\"": invalid digit at byte 2 of the cell'],
    ['1,2\n"3,4"x,5\n', quotes, 0, '"3,4"x', 'line 2, column 1: "\\"3,4\\"x": misplaced quote at byte 4 of the cell'],
    ["1,2\n,4", {}, 0, "", 'line 2, column 1: "": missing digit at byte 0 of the cell'],
  ];
  for (const [text, table, column, cell, message] of wrong) {
    checkFault(text, TWO, table, { row: 1, line: 1, column, columnName: undefined, text: cell }, message);
  }
  const few = 'line 2: too few cells, none for "b\\"\\u{200b}"';
  checkFault('"a","b""\u200b"\n1\n', ["u8", "u8"], { header: true, has_quotes: true }, { columnName: 'b"\u200b' }, few);
});

test("what a message shows of a cell", () => {
  const nines = "9".repeat(39);
  const cut = nines.slice(1); // (with one more byte before them, a character that comes next isn't whole)
  const cells = [
    ["\0", '"\\x00"', "\0"],
    [Uint8Array.of(0xff, 0xc3), '"\\xff\\xc3"', "\ufffd\ufffd"],
    [Uint8Array.of(0xe9, 0x41, 0xc3, 0xa9), '"\\xe9Aé"', "\ufffdAé"],
    ["ä€\u{1f600}", '"ä€\u{1f600}"', "ä€\u{1f600}"],
    ["\ufffd", '"\ufffd"', "\ufffd"],
    ['"\\', '"\\"\\\\"', '"\\'],
    ["\x1b[31m\x7f\t\r", '"\\x1b[31m\\x7f\\t\\r"', "\x1b[31m\x7f\t\r"],
    ["\u202e\ufeff\xa0 x", '"\\u{202e}\\u{feff}\\xa0 x"', "\u202e\ufeff\xa0 x"],
    ["x".repeat(40), `"${"x".repeat(40)}"`, "x".repeat(40)],
    ["x".repeat(41), `"${"x".repeat(40)}"..`, "x".repeat(40)],
    [`x${cut}ä${nines}`, `"x${cut}"..`, `x${cut}`],
    [Buffer.concat([Buffer.of(0xff), Buffer.from(`${cut}ä`)]), `"\\xff${cut}"..`, `\ufffd${cut}`],
  ];
  for (const [cell, shown, text] of cells) {
    const bytes = Buffer.concat([Buffer.from("1;"), Buffer.from(cell), Buffer.from("\n")]);
    const error = errorOf(bytes, ["u8", "u8"], { separator: ";" });
    assert.ok(error.message.startsWith(`line 1, column 2: ${shown}: invalid digit at`), error.message);
    assert.equal(error.text, text);
  }
});

test("a column that isn't read, and one that may miss numbers", () => {
  checkFault('a,b,c\n1,"x"y,2\n', { c: "u8" }, { header: true, has_quotes: true }, { column: 1, columnName: "b" });
  checkFault("NA\n \nx\n", [{ type: "u8", may_miss: true }], { missing: "NA" }, { row: 1, text: " " });
});

test("a fault behind a piece of the memory counts from the text's start", () => {
  const times = Math.ceil((1.5 * LONGEST_ROW) / 8);
  const text = `${"1,2\n3,4\n".repeat(times)}5,6x\n7,8\n`;
  checkFault(text, TWO, {}, {
    row: 2 * times, line: 2 * times, place: 8 * times + 3, rowStart: 8 * times, rowStop: 8 * times + 5, text: "6x",
  }, `line ${2 * times + 1}, column 2: "6x": invalid digit at byte 1 of the cell`);
});
