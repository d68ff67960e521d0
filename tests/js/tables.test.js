// Tables: beside a slow reading, in pieces, and with wrong arguments.

import assert from "node:assert/strict";
import { test } from "node:test";
import {
  Format,
  formats,
  LONGEST_ROW,
  parse,
  ParseError,
  parseColumn,
  parseTable,
} from "../../bindings/js/index.js";

const ARRAYS = {
  u8: Uint8Array, u16: Uint16Array, u32: Uint32Array, u64: BigUint64Array,
  i8: Int8Array, i16: Int16Array, i32: Int32Array, i64: BigInt64Array,
};

/** The rows of a text: where each starts, its bytes, and what is wrong with its end. */
function rowsOf(text, has_returns) {
  const lines = text.split("\n");
  const hasEnd = lines.at(-1) === "";
  if (hasEnd) lines.pop();
  let start = 0;
  return lines.map((line, index) => {
    const row = { start, bytes: line };
    const isEnded = hasEnd || index < lines.length - 1;
    if (has_returns && isEnded && line.endsWith("\r")) row.bytes = line.slice(0, -1);
    else if (has_returns && isEnded) row.fault = { kind: "MissingReturn", place: start + line.length };
    start += line.length + 1;
    return row;
  });
}

/** What is wrong with the first cell that is, or with the row's cells; else the numbers are kept. */
function faultOfRow({ start, bytes, fault }, columns, separator, numbers) {
  const cells = bytes.split(separator);
  let place = start;
  for (const [column, cell] of cells.entries()) {
    if (column === columns.length) return { kind: "TooManyCells", place, column };
    try {
      if (columns[column]) numbers[column].push(parse(cell, columns[column]));
    } catch (error) {
      return { kind: error.kind, place: place + error.place, column };
    }
    place += cell.length + 1;
  }
  if (cells.length < columns.length) {
    return { kind: "TooFewCells", place: start + bytes.length, column: cells.length };
  }
  return fault && { ...fault, column: columns.length };
}

/** A table by its definition, cell by cell. */
function readAlone(text, columns, { separator = ",", has_returns = false }) {
  const numbers = columns.map(() => []);
  for (const [row, each] of rowsOf(text, has_returns).entries()) {
    const fault = faultOfRow(each, columns, separator, numbers);
    if (fault) return { ...fault, row };
  }
  return columns.map((type, index) => type && ARRAYS[type].from(numbers[index]));
}

/** The same, as parseTable answers. */
function readTable(text, columns, table) {
  try {
    return parseTable(text, columns, table);
  } catch (error) {
    if (!(error instanceof ParseError)) throw error;
    const { kind, place, column, row } = error;
    return { kind, place, column, row };
  }
}

test("columns of each type, and columns that aren't read", () => {
  const types = Object.keys(ARRAYS);
  const rows = ["1,2,3,4,5,6,7,8", "21,22,23,24,25,26,27,28"];
  const wanted = types.map((type, index) => ARRAYS[type].from([index + 1, index + 21], (it) =>
    parse(String(it), type)));
  assert.deepEqual(parseTable(rows.join("\n"), types), wanted);
  const second = types.map((type, index) => (index % 2 ? type : null));
  assert.deepEqual(parseTable(`${rows.join("\r\n")}\r\n`, second, { has_returns: true }),
    wanted.map((array, index) => (index % 2 ? array : null)));
  assert.deepEqual(parseTable("", ["u8", null, "i64"]), [new Uint8Array(), null, new BigInt64Array()]);
  assert.deepEqual(parseTable("a,b\nc,d", [null, null]), [null, null]);
});

test("each column has its format", () => {
  const hexadecimal = new Format({ mantissa_radix: 16 });
  const columns = [{ type: "u8", format: hexadecimal }, { type: "i32", format: formats.RUST }, "u16"];
  const wanted = [Uint8Array.of(255, 16), Int32Array.of(-31, 1000), Uint16Array.of(7, 8)];
  assert.deepEqual(parseTable("FF;-0x1F;7\n10;1_000;8", columns, { separator: ";" }), wanted);
  assert.throws(() => parseTable("FF;1;0x7", columns, { separator: ";" }), {
    name: "ParseError",
    message: 'line 1, column 3: "0x7": invalid digit at byte 1 of the cell',
    kind: "InvalidDigit",
    place: 6,
    row: 0,
    column: 2,
    field: undefined,
  });
});

test("quotes, blanks, empty rows and missing numbers", () => {
  const text = '"a,b"; 1 ;-\r\n\r\n"c\nd";"2";7\r\n';
  const table = {
    separator: ";", has_returns: true, has_quotes: true, allows_blanks: true,
    skips_empty_rows: true, missing: "-",
  };
  const columns = [null, "u8", { type: "i32", may_miss: true }];
  const present = Uint8Array.of(0, 1);
  const wanted = [null, Uint8Array.of(1, 2), { numbers: Int32Array.of(0, 7), present }];
  assert.deepEqual(parseTable(text, columns, table), wanted);
  const others = { ...table, missing: "" };
  const fault = { kind: "Empty", place: 11, column: 2, row: 0 }; // (a sign and no digit)
  assert.deepEqual(readTable(text, columns, others), fault);
  assert.equal(readTable(text, columns, { ...table, has_quotes: false }).kind, "TooFewCells");
  assert.equal(readTable('"1;2;3', ["u8", "u8", "u8"], table).kind, "MisplacedQuote");
});

test("each flag changes its own cells alone", () => {
  const texts = { has_returns: "1\r\n", has_quotes: '"1"', allows_blanks: " 1", skips_empty_rows: "\n1" };
  for (const flag of Object.keys(texts)) {
    for (const [name, text] of Object.entries(texts)) {
      const found = readTable(text, ["u8"], { [flag]: true });
      if (name === flag) assert.deepEqual(found, [Uint8Array.of(1)]);
      else assert.equal(typeof found.kind, "string", `${flag}, ${name}`);
    }
  }
});

test("several pieces with missing numbers", () => {
  const column = { type: "u8", may_miss: true };
  const times = Math.ceil(LONGEST_ROW / 3);
  const [{ numbers, present }] = parseTable("1\n\n22\n".repeat(times), [column]);
  assert.equal(numbers.length, 3 * times);
  assert.ok(numbers.every((it, row) => it === [1, 0, 22][row % 3]));
  assert.ok(present.every((it, row) => it === Number(row % 3 !== 1)));
});

test("cells of given widths, in lines and in records", () => {
  const columns = ["u16", null, { type: "i64", may_miss: true }];
  const lines = { widths: [3, 4, 6], allows_blanks: true };
  const records = { ...lines, is_records: true };
  const numbers = BigInt64Array.of(-80000n, 1250n, 0n);
  const wanted = [Uint16Array.of(365, 36, 7), null, { numbers, present: Uint8Array.of(1, 1, 0) }];
  const text = "365rent-80000\n 36b;nk  1250\n7  \t\t\t\t      \n";
  const returned = { ...lines, has_returns: true };
  assert.deepEqual(parseTable(text, columns, lines), wanted);
  assert.deepEqual(parseTable(text.trimEnd() + " ".repeat(12), columns, lines), wanted);
  assert.deepEqual(parseTable(text.replaceAll("\n", "\r\n"), columns, returned), wanted);
  assert.deepEqual(parseTable(text.replaceAll("\n", ""), columns, records), wanted);
  assert.deepEqual(parseTable("12xx     7", ["u16", null, "u8"], { ...records, widths: [2, 2, 6] }),
    [Uint16Array.of(12), null, Uint8Array.of(7)]);
  const odd = { widths: [4, 0, 2], has_quotes: true, missing: "NA", skips_empty_rows: true };
  assert.deepEqual(parseTable('"12"NA\n\n"\n,"07', [null, null, { type: "i8", may_miss: true }], odd),
    [null, null, { numbers: Int8Array.of(0, 7), present: Uint8Array.of(0, 1) }]);
  assert.deepEqual(parseTable("", columns, records),
    [new Uint16Array(), null, { numbers: new BigInt64Array(), present: new Uint8Array() }]);
});

test("the first wrong cell by widths", () => {
  const columns = ["u8", null, "i16"];
  const fault = (text, more) => {
    const { kind, row, column, place } = readTable(text, columns, { widths: [2, 1, 3], ...more });
    return `${kind} ${row} ${column} ${place}`;
  };
  assert.equal(fault("12x345\n12x34\n"), "TooFewCells 1 2 12");
  assert.equal(fault("12x345\n1\n"), "TooFewCells 1 0 8");
  assert.equal(fault("12x345\n\n"), "TooFewCells 1 0 7");
  assert.equal(fault("12x345\n12x3456\n"), "TooManyCells 1 3 13");
  assert.equal(fault("12x345\n12x3,5\n"), "InvalidDigit 1 2 11");
  assert.equal(fault("12x345\r\n12x345\n", { has_returns: true }), "MissingReturn 1 3 14");
  const is_records = { is_records: true };
  assert.equal(fault("12x34512x34", is_records), "TooFewCells 1 2 11");
  assert.equal(fault("12x3451", is_records), "TooFewCells 1 0 7");
  assert.equal(fault("12x345\n2x345", is_records), "InvalidDigit 1 0 6");
  assert.equal(fault("12x34599x999x9x999", is_records), "InvalidDigit 2 0 12");
  const nothing = { widths: [0, 0], is_records: true };
  assert.equal(readTable("12", [null, null], nothing).kind, "TooManyCells");
  assert.equal(fault("12x345", { widths: [2, 0, 4] }), "InvalidDigit 0 2 2");
  assert.equal(fault("12x345", { widths: [0, 3, 3] }), "Empty 0 0 0");
  assert.equal(fault("12x345", { widths: [2, 1, Number.MAX_SAFE_INTEGER] }), "TooFewCells 0 2 6");
});

test("records of several pieces", () => {
  const part = Array.from({ length: 1000 }, (_, index) => String(index).padStart(7, "0") + "\n").join("");
  const times = Math.ceil((2 * LONGEST_ROW) / part.length);
  const table = { widths: [2, 5, 1], is_records: true };
  const [second] = parseTable(part.repeat(times), ["u8", "u16", null], table).slice(1);
  assert.equal(second.length, 1000 * times);
  assert.ok(second.every((it, index) => it === index % 1000));
  const fault = { kind: "TooFewCells", place: part.length * times + 6, column: 1, row: 1000 * times };
  assert.deepEqual(readTable(`${part.repeat(times)}012345`, ["u8", "u16", null], table), fault);
});

test("random tables are read as their cells are", () => {
  const pieces = ["1", "-7", "300", "x", "", ",", ",", ",", "\n", "\n", "\r\n", "\r", "\0", ";", "é"];
  const settings = [
    [["u8", "i16"], {}],
    [["u8", null, "i64"], { has_returns: true }],
    [[null], { separator: ";" }],
    [[], {}],
    [["i8", "u32"], { separator: "\0", has_returns: true }],
  ];
  let state = 1;
  const draw = (below) => {
    state = (Math.imul(state, 1664525) + 1013904223) >>> 0;
    return Math.floor((state / 2 ** 32) * below);
  };
  const kinds = new Set();
  for (let time = 0; time < 100_000; time++) {
    const bytes = Buffer.from(Array.from({ length: draw(12) }, () => pieces[draw(15)]).join(""));
    const text = bytes.toString("latin1"); // so that a place is a byte
    const [columns, table] = settings[draw(settings.length)];
    const found = readTable(bytes, columns, table);
    kinds.add(found.kind);
    assert.deepEqual(found, readAlone(text, columns, table), JSON.stringify({ text, columns, table }));
  }
  assert.equal(kinds.size, 8); // none, the four of numbers and the three of rows
});

test("a text larger than a piece of the memory is read whole", () => {
  const lines = Array.from({ length: 1000 }, (_, index) => `${index},${index * 7919},x${index}\n`);
  const part = lines.join("");
  const times = Math.ceil((2 * LONGEST_ROW) / part.length);
  const text = part.repeat(times);
  const [first, second, third] = parseTable(text, ["u16", "i64", null]);
  assert.equal(third, null);
  assert.deepEqual(first, parseColumn(text.replace(/,.*/g, ""), "u16"));
  assert.deepEqual(second, parseColumn(text.replace(/^.*?,|,.*/gm, ""), "i64"));
  const fault = { kind: "TooFewCells", place: text.length + 3, column: 2, row: 1000 * times };
  assert.deepEqual(readTable(`${text}1,2\n1,2,3`, ["u16", "i64", null]), fault);
});

test("more numbers than the memory has room for are read", () => {
  const format = new Format({ required_mantissa_digits: false });
  const columns = Array(10).fill({ type: "u64", format });
  const rows = Math.ceil(LONGEST_ROW / 10);
  const arrays = parseTable(`${",".repeat(9)}\n`.repeat(rows), columns);
  assert.deepEqual(arrays.map((it) => it.length), Array(10).fill(rows));
});

test("the longest row is read, and a longer one refused", () => {
  const longest = `1,${"7".padStart(LONGEST_ROW - 2, "0")}`;
  assert.deepEqual(parseTable(`1,2\n${longest}\n`, ["u8", "u8"]), [Uint8Array.of(1, 1), Uint8Array.of(2, 7)]);
  assert.throws(() => parseTable(`1,2\n0${longest}\n1,2\n`, ["u8", "u8"]), {
    name: "RangeError",
    message: `the row at byte 4 has more than ${LONGEST_ROW} bytes`,
  });
});

test("wrong arguments", () => {
  const refuses = (call, message) => assert.throws(call, { name: "TypeError", message });
  refuses(() => parseTable("1", "u8"), 'columns have to be an array, or an object by names, and not "u8"');
  refuses(() => parseTable("1", new Map()), "columns have to be an array, or an object by names, and not Map");
  refuses(() => parseTable("1", { a: "u8" }), "columns by their names need a table with header: true");
  refuses(() => parseTable("1", ["u8"], { header: 1 }), /^header has to be true or false/);
  refuses(() => parseTable("1", ["u128"]), /^type has to be one of u8, .*, i64, text, and not "u128"$/);
  for (const column of [undefined, 8, {}]) refuses(() => parseTable("1", [column]), /^type has to be/);
  refuses(() => parseTable("1", [{ type: "u8", format: {} }]), /^format has to be a Format/);
  refuses(() => parseTable(1, ["u8"]), /^text has to be/);
  refuses(() => parseTable("1", ["u8"], { separator: ";;" }), /^separator has to be one/);
  refuses(() => parseTable("1", ["u8"], { has_returns: 1 }), /^has_returns has to be true or false/);
  refuses(() => parseTable("1", [{ type: "u8", may_miss: 1 }]), /^may_miss has to be true or false/);
  refuses(() => parseTable("1", ["u8"], { missing: null }), /^missing has to be a string or a Uint8/);
  refuses(() => parseTable("1", ["u8"], { seperator: ";" }), 'a table has no field "seperator"');
  refuses(() => parseTable("1", ["u8"], { hasQuotes: true }), 'a table has no field "hasQuotes", but "has_quotes"');
  refuses(() => parseTable("1", ["u8"], { on_error: "skip" }), 'a table has no field "on_error", but "onError"');
  refuses(() => parseTable("1", [{ type: "u8", may_mis: true }]), 'a column has no field "may_mis"');
  refuses(() => parseTable("1", ["u8"], { is_records: 1 }), /^is_records has to be true or false/);
  refuses(() => parseTable("1", ["u8"], { is_records: true }), "a table that is_records has to have widths");
  refuses(() => parseTable("1", ["u8"], { widths: [1], separator: "," }), "a table with widths has no separator");
  refuses(() => parseTable("1", ["u8"], { widths: 1 }), "widths have to be an array, and not 1");
  refuses(() => parseTable("1", ["u8"], { widths: null }), "widths have to be an array, and not null");
  for (const [columns, widths] of [[["u8"], []], [["u8"], [1, 1]], [[], [1]], [[], []]]) {
    refuses(() => parseTable("1", columns, { widths }), /^widths have to be one for each of [01] columns/);
  }
  for (const width of [-1, 1.5, 2 ** 53, NaN, Infinity, "1", 1n, null, undefined]) {
    refuses(() => parseTable("1", ["u8"], { widths: [width] }), /^a width has to be a safe integer of 0/);
  }
  refuses(() => parseTable("1", ["u8"], { widths: Array(1) }), /^a width has to be .*, and not undefined$/);
  refuses(() => parseTable("1", ["u8"], null), "the fields of a table have to be an object, and not null");
  const many = Array(1e6).fill("u64");
  assert.throws(() => parseTable("1", many), { name: "RangeError", message: /^1000000 columns are/ });
  assert.deepEqual(parseTable("1,2", ["u8", "u8"]), [Uint8Array.of(1), Uint8Array.of(2)]);
});

test("bytes that are taken away as the table is read are no empty text", () => {
  const text = Uint8Array.of(49, 50);
  const table = { get separator() { return structuredClone(",", { transfer: [text.buffer] }); } };
  assert.throws(() => parseTable(text, ["u8"], table), { message: /^text has lost its bytes/ });
});
