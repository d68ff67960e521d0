// Columns by their names, and hostile headers.
import assert from "node:assert/strict";
import { test } from "node:test";
import { formats, LONGEST_ROW, parseTable } from "../../bindings/js/index.js";

/** The names of a text's header, as the error for another name has them, or what is wrong. */
function names(text, table) {
  try {
    parseTable(text, { "no such name": null }, { ...table, header: true });
  } catch (error) {
    return error.kind === "Missing" ? error.names : error.message;
  }
}

test("names are read by the table's own rules", () => {
  const [quoted, returns, blanks] = [{ has_quotes: true }, { has_returns: true }, { allows_blanks: true }];
  assert.deepEqual(names("a,b,c\n1,2,3\n"), ["a", "b", "c"]);
  assert.deepEqual(names("a,b"), ["a", "b"]);
  assert.deepEqual(names("\ufeffa,b\n1,2"), ["a", "b"]);
  assert.deepEqual(names('\ufeff"a"\n1', quoted), ["a"]);
  assert.deepEqual(names("a,\ufeffb\n"), ["a", "\ufeffb"]);
  assert.deepEqual(names('"a,\nb","c""d",""\n1,2,3', quoted), ["a,\nb", 'c"d', ""]);
  assert.deepEqual(names('""""""\n', quoted), ['""']);
  assert.deepEqual(names('"a",b\n'), ['"a"', "b"]);
  assert.deepEqual(names("a,b\r\n1,2\r\n", returns), ["a", "b"]);
  assert.deepEqual(names("a,b\r\n1,2\r\n"), ["a", "b\r"]);
  assert.deepEqual(names(' a\t," b "\n', { ...quoted, ...blanks }), ["a", "b"]);
  assert.deepEqual(names("\n\n,\n", { skips_empty_rows: true }), ["", ""]);
  assert.deepEqual(names("\r\n\r\na", { skips_empty_rows: true, ...returns }), ["a"]);
  assert.deepEqual(names("\n1\n"), [""]);
  assert.deepEqual(names('a"b"c\n', { ...quoted, separator: '"' }), ["a", "b", "c"]);
  assert.deepEqual(names("é,ü\n"), ["é", "ü"]);
  assert.deepEqual(names("id rent\n", { widths: [3, 4], ...blanks }), ["id", "rent"]);
  assert.deepEqual(names("id rent 12", { widths: [3, 4], is_records: true, ...blanks }), ["id", "rent"]);
});

test("what is no header", () => {
  const quoted = { has_quotes: true };
  for (const text of ["", "\ufeff"]) assert.equal(names(text), "the table has no header");
  assert.equal(names("\n\n\n", { skips_empty_rows: true }), "the table has no header");
  assert.equal(names('a,"b\nc\n', quoted), 'line 1, column 2: "\\"b\\nc\\n": misplaced quote at byte 0 of the cell');
  assert.equal(names('a,b"c"\n', quoted), 'line 1, column 2: "b\\"c\\"": misplaced quote at byte 1 of the cell');
  assert.equal(names('\ufeffa,b""\n', quoted), 'line 1, column 2: "b\\"\\"": misplaced quote at byte 1 of the cell');
  assert.equal(names("a,b\n", { has_returns: true }), "line 1: missing carriage return");
  assert.equal(names("ab\n", { widths: [2, 1] }), "line 1: too few cells, none for column 2; the row has 2 of the 3 "
    + "bytes of its widths: pad it if its last blanks were trimmed");
  assert.equal(names("abcd\n", { widths: [2, 1] }), 'line 1, column 3: "d": too many cells');
  const long = "x".repeat(LONGEST_ROW + 1);
  assert.equal(names(`${long},a\n`), `the header has more than ${LONGEST_ROW} bytes`);
  assert.equal(names(`a,"${long}`, quoted),
    `the header has more than ${LONGEST_ROW} bytes, and its quote at byte 2 isn't closed in them`);
});

test("names that are missing or stand twice", () => {
  const answerOf = (text, columns) => {
    try {
      return Object.keys(parseTable(text, columns, { header: true }));
    } catch (error) {
      return `${error.name}: ${error.message}`;
    }
  };
  assert.deepEqual(answerOf("id,cents,id\n", { cents: null }), ["cents"]);
  assert.deepEqual(answerOf("id,cents,id\n", {}), []);
  assert.equal(answerOf("id,cents,id\n", { id: "u8" }),
    'HeaderError: more than one column "id": the header has "id", "cents", "id"');
  assert.equal(answerOf("id,cents,id\n", { cent: "u8" }),
    'HeaderError: no column "cent": the header has "id", "cents", "id"');
  assert.equal(answerOf("id,constructor\n", { toString: "u8" }),
    'HeaderError: no column "toString": the header has "id", "constructor"');
  assert.equal(answerOf("id;cents\n", { cents: "u8" }),
    'HeaderError: no column "cents": the header has "id;cents"; separator may have to be ";"');
  assert.equal(answerOf("id cents\n", { cents: "u8" }), 'HeaderError: no column "cents": the header has "id cents"');
  assert.equal(answerOf("id,cents\r\n", { cents: "u8" }),
    'HeaderError: no column "cents": the header has "id", "cents\\r"; allows_returns may have to be true');
  assert.equal(answerOf('id,"cents"\r\n', { cents: "u8" }),
    'HeaderError: no column "cents": the header has "id", "\\"cents\\"\\r"; has_quotes may have to be true');
  assert.equal(answerOf("id,cents\r\n", { cent: "u8" }), 'HeaderError: no column "cent": the header has "id", "cents\\r"');
  const many = Array.from({ length: 1000 }, (_, index) => index).join();
  assert.match(answerOf(many, { x: "u8" }), /^HeaderError: no column "x": the header has "0", .*, "39" and 960 more$/);
});

test("headers that are hostile", () => {
  assert.deepEqual(names(Uint8Array.of(0xff, 0x2c, 0, 0x0a)), ["\ufffd", "\0"]);
  assert.deepEqual(names("a,b\r1\r"), ["a", "b\r1\r"]);
  assert.deepEqual(names("\ufeff\n\na", { skips_empty_rows: true }), ["a"]);
  assert.deepEqual(names("\r\n\n\ra", { skips_empty_rows: true, allows_returns: true }), ["\ra"]);
  assert.deepEqual(names(`${"\n".repeat(50_000)}a\n`, { skips_empty_rows: true }), ["a"]);
  assert.deepEqual(names("\n\nab", { skips_empty_rows: true, widths: [0, 2] }), ["", "ab"]);
  assert.equal(names(",".repeat(3_000_000)), "3000001 columns are more than there is memory for");
  const long = { missing: "x".repeat(34_000_000) };
  assert.equal(names("a\n", long), "the table is more than there is memory for");
  assert.throws(() => parseTable("a\n", [{ type: "u8", may_miss: true }], long),
    { message: "missing, of 34000000 bytes, is more than there is memory for" });
  const widths = [Number.MAX_SAFE_INTEGER];
  assert.equal(names("a\n", { widths }), "line 1: too few cells, none for column 1; the row has 1 of the "
    + `${widths[0]} bytes of its widths: pad it if its last blanks were trimmed`);
  const shared = new Uint8Array(new SharedArrayBuffer(8));
  shared.set(Buffer.from("a,b\n1,x\n"));
  assert.throws(() => parseTable(shared, { b: "u8" }, { header: true }), { columnName: "b", text: "x", row: 0 });
});

test("columns by their names", () => {
  const text = '\ufeffday,what,"cents\n"\r\n1,"a\nb",-80000\r\n2,c,7\r\n';
  const table = { has_quotes: true, has_returns: true, header: true };
  const columns = { "cents\n": { type: "i64", format: formats.JSON }, day: "u8" };
  const wanted = { "cents\n": BigInt64Array.of(-80000n, 7n), day: Uint8Array.of(1, 2) };
  assert.deepEqual(parseTable(text, columns, table), wanted);
  assert.deepEqual(parseTable(new TextEncoder().encode(text), columns, table), wanted);
  assert.deepEqual(Object.keys(parseTable(text, columns, table)), ["cents\n", "day"]);
  assert.deepEqual(parseTable(text, { what: null }, table), { what: null });
  assert.deepEqual(parseTable(text, ["u8", null, "i64"], table), [wanted.day, null, wanted["cents\n"]]);
  const sparse = { a: { type: "u8", may_miss: true } };
  assert.deepEqual(parseTable("b,a\n,1\n,\n", sparse, { header: true }),
    { a: { numbers: Uint8Array.of(1, 0), present: Uint8Array.of(1, 0) } });
  const own = JSON.parse('{ "__proto__": "u8" }');
  assert.deepEqual(Object.entries(parseTable("__proto__\n7\n", own, { header: true })), [["__proto__", Uint8Array.of(7)]]);
  assert.deepEqual(parseTable("a\n", { a: "u8" }, { header: true }), { a: new Uint8Array() });
  assert.deepEqual(parseTable("id rent\n 1   20\n", { rent: "u8" }, { header: true, widths: [3, 4], allows_blanks: true }),
    { rent: Uint8Array.of(20) });
});

test("a fault has its column's name", () => {
  const table = { header: true };
  assert.throws(() => parseTable("a,b\n,1\n,x\n", { b: "u8" }, table), {
    name: "ParseError",
    message: 'line 3, "b": "x": invalid digit at byte 0 of the cell',
    kind: "InvalidDigit",
    place: 8,
    row: 1,
    column: 1,
    columnName: "b",
  });
  assert.throws(() => parseTable("a,b\n,1\n1,2,3\n", { b: "u8" }, table), { kind: "TooManyCells", columnName: undefined });
  assert.throws(() => parseTable("a,b\n,1\n,x\n", [null, "u8"], table), { columnName: "b" });
  assert.throws(() => parseTable(",1\n,x\n", [null, "u8"]), { columnName: undefined });
});

test("the message on a row that is too long names its open quote", () => {
  const long = "\n".repeat(LONGEST_ROW + 1);
  const answerOf = (text) => {
    try {
      return parseTable(text, [null, "u8"], { has_quotes: true });
    } catch (error) {
      return `${error.name}: ${error.message}`;
    }
  };
  assert.equal(answerOf(`a,1\n"b",1\n"",2\n"""${long}`),
    `RangeError: the row at byte 15 has more than ${LONGEST_ROW} bytes, and its quote at byte 15 isn't closed in them`);
  assert.equal(answerOf(`"a"${"b".repeat(LONGEST_ROW)}\n`), `RangeError: the row at byte 0 has more than ${LONGEST_ROW} bytes`);
});

test("wrong arguments", () => {
  const refuses = (call, message) => assert.throws(call, { name: "TypeError", message });
  const table = { header: true };
  refuses(() => parseTable("a\n", { a: "u128" }, table), /^type has to be one of u8, /);
  refuses(() => parseTable("a\n", { a: "u8" }, { header: false }), /^columns by their names need a table with header/);
  refuses(() => parseTable("a\n", { a: "u8" }, { ...table, widths: [] }), "widths have to be one for each column, and not 0");
  refuses(() => parseTable("a\n", { a: "u8" }, { ...table, is_records: true }), /has to have widths$/);
  refuses(() => parseTable(1, { a: "u8" }, table), /^text has to be/);
});
