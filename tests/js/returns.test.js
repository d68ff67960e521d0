// Rows that end by a line feed, or by a return and a line feed, each as it is.
import assert from "node:assert/strict";
import { test } from "node:test";
import { parseColumn, parseTable } from "../../bindings/js/index.js";

const TWO = ["u8", "i8"];
const allows_returns = true;

test("each row may end either way", () => {
  const wanted = [Uint8Array.of(0, 1, 2), Int8Array.of(0, -1, -2)];
  for (let ends = 0; ends < 8; ends++) {
    const end = (row) => ((ends >> row) & 1 ? "\r\n" : "\n");
    const text = `0,0${end(0)}1,-1${end(1)}2,-2${end(2)}`;
    assert.deepEqual(parseTable(text, TWO, { allows_returns }), wanted);
    assert.deepEqual(parseTable(text.trimEnd(), TWO, { allows_returns }), wanted);
  }
});

test("a header may end either way", () => {
  const table = { header: true, allows_returns };
  for (const end of ["\n", "\r\n"]) {
    for (const mark of ["", "\ufeff"]) {
      const text = `${mark}a,b${end}1,2\r\n3,4\n`;
      assert.deepEqual(parseTable(text, { b: "u8" }, table), { b: Uint8Array.of(2, 4) });
    }
  }
  const missing = { message: 'no column "b": the header has "a", "b\\r"' };
  assert.throws(() => parseTable("a,b\r", { b: "u8" }, table), missing);
});

test("any other return is a byte of its cell", () => {
  const wrong = [
    ["1,2\r", 0, 3, "2\r"],
    ["1,2\r\r\n", 0, 3, "2\r"],
    ["1\r,2\r\n", 0, 1, "1\r"],
    ["1,2\n\r3,4\r\n", 1, 4, "\r3"],
    ["1,2\r\n3,4x\r\n", 1, 8, "4x"],
  ];
  for (const [text, row, place, cell] of wrong) {
    const fault = { kind: "InvalidDigit", row, place, text: cell };
    assert.throws(() => parseTable(text, TWO, { allows_returns }), fault, JSON.stringify(text));
  }
  assert.throws(() => parseTable("1,2\r\n", TWO), { kind: "InvalidDigit", place: 3 });
});

test("beside the other flags", () => {
  const text = '"1","2"\r\n\r\n\n"3","4"\n';
  const wanted = [Uint8Array.of(1, 3), Int8Array.of(2, 4)];
  const table = { has_quotes: true, skips_empty_rows: true, allows_returns };
  assert.deepEqual(parseTable(text, TWO, table), wanted);
  for (const lines of ["12\r\n34\n", "12\n34\r\n"]) {
    assert.deepEqual(parseTable(lines, TWO, { widths: [1, 1], allows_returns }), wanted);
  }
  const both = { has_returns: true, allows_returns }; // (where each row has one, none may lack it)
  assert.throws(() => parseTable("1,2\n", TWO, both), { kind: "MissingReturn", place: 3 });
  const refused = { name: "TypeError", message: "allows_returns has to be true or false, and not 1" };
  assert.throws(() => parseTable("1,2", TWO, { allows_returns: 1 }), refused);
  assert.throws(() => parseColumn("1", "u8", { allows_returns: 1 }), refused);
});
