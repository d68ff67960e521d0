// Columns of texts: by hand, at random, and misused.
import assert from "node:assert/strict";
import { test } from "node:test";
import { LONGEST_ROW, parseColumn, parseTable } from "../../bindings/js/index.js";

const BOTH = ["text", "u8"];

/** The texts of a table's first column. */
const texts = (text, columns = BOTH, table = {}) => Array.from(parseTable(text, columns, table)[0]);

test("rows by hand", () => {
  const text = 'rent,1\n"a, ""b""",2\n,3\n"",4\n  x ,5\né\u20ac,6\n"1\n2",7\n"""""",8';
  const [what, cents] = parseTable(text, BOTH, { has_quotes: true });
  assert.deepEqual([...what], ["rent", 'a, "b"', "", "", "  x ", "é€", "1\n2", '""']);
  assert.deepEqual(cents, Uint8Array.of(1, 2, 3, 4, 5, 6, 7, 8));
  assert.deepEqual(texts('"a",1\n""b"",2\n'), ['"a"', '""b""']); // (where quotes are bytes as any)
  assert.deepEqual(texts(""), []);
});

test("where each text stands", () => {
  const [what] = parseTable('rent,1\n"a""",2\n,3\n', [{ type: "text", may_miss: true }, "u8"], { has_quotes: true });
  assert.equal(what.length, 3);
  assert.deepEqual(what.starts, Float64Array.of(0, 8, 0));
  assert.deepEqual(what.sizes, Uint32Array.of(4, 3, 0));
  assert.deepEqual(what.hasDoubledQuotes, Uint8Array.of(0, 1, 0));
  assert.deepEqual(what.present, Uint8Array.of(1, 1, 0));
  assert.equal(parseTable("a,1", BOTH)[0].present, undefined);
});

test("a text of a row", () => {
  const [what] = parseTable('é,1\n"a""b",2\n,3\n', [{ type: "text", may_miss: true }, "u8"], { has_quotes: true });
  assert.deepEqual([0, 1, 2, 3, -1, -2, -3, -4].map((row) => what.at(row)),
    ["é", 'a"b', null, undefined, null, 'a"b', "é", undefined]);
  assert.deepEqual([0, 1, 2, 3].map((row) => what.bytesAt(row)),
    [Uint8Array.of(0xc3, 0xa9), Uint8Array.of(97, 34, 98), null, undefined]);
  for (const row of ["0", 0.5, NaN, Infinity, 0n, null, undefined, {}]) {
    const refused = { name: "TypeError", message: /^row has to be an integer, and not / };
    assert.throws(() => what.at(row), refused);
    assert.throws(() => what.bytesAt(row), refused);
  }
  assert.throws(() => (what.starts = []), TypeError);
});

test("missing texts, and blanks, which are part of a text", () => {
  const columns = [{ type: "text", may_miss: true }, "u8"];
  assert.deepEqual(texts("x,1\n,2\ny,3\n", columns), ["x", null, "y"]);
  assert.deepEqual(texts("NA,1\n,2\nNAN,3\n", columns, { missing: "NA" }), [null, "", "NAN"]);
  const table = { allows_blanks: true, has_quotes: true };
  const text = ' ,1\n NA ,2\n"NA",3\n,5\nNA, 6\n';
  assert.deepEqual(texts(text, columns, table), [" ", " NA ", "NA", null, "NA"]);
  assert.deepEqual(texts(text, columns, { ...table, missing: "NA" }), [" ", " NA ", null, "", null]);
});

test("encodings", () => {
  const bytes = Uint8Array.of(0x42, 0xfc, 0x2c, 0x31, 0x0a, 0xb1, 0x2c, 0x32); // Bü,1 and ą,2 of ISO 8859-2
  assert.deepEqual(texts(bytes, [{ type: "text", encoding: "iso-8859-2" }, "u8"]), ["Bü", "ą"]);
  assert.deepEqual(texts(bytes), ["B\ufffd", "\ufffd"]);
  assert.deepEqual(texts("\ufeffa,1"), ["\ufeffa"]);
  assert.deepEqual(texts("\ud800,1"), ["\ufffd"]); // (a string's bytes are those of UTF-8)
});

test("by names, widths and records, and with returns", () => {
  const days = "cents,when\n1,2024-02-29\n2,2024-03-01\n";
  const { when, cents } = parseTable(days, { when: "text", cents: "u8" }, { header: true });
  assert.deepEqual([[...when], cents], [["2024-02-29", "2024-03-01"], Uint8Array.of(1, 2)]);
  assert.deepEqual(texts("ab 1\nc  2\n", BOTH, { widths: [3, 1] }), ["ab ", "c  "]);
  assert.deepEqual(texts("ab 1c  2", BOTH, { widths: [3, 1], is_records: true }), ["ab ", "c  "]);
  const [, ends] = parseTable("1,a\r\n2,b\n3,\r\r\n4,d\r", ["u8", "text"], { allows_returns: true });
  assert.deepEqual([...ends], ["a", "b", "\r", "d\r"]);
});

test("texts of several pieces", () => {
  const part = Array.from({ length: 500 }, (_, index) => `"${index}""é",${index % 256}\n`).join("");
  const bytes = new TextEncoder().encode(part);
  const times = Math.ceil((2 * LONGEST_ROW) / bytes.length);
  const [what, numbers] = parseTable(part.repeat(times), BOTH, { has_quotes: true });
  assert.equal(what.length, 500 * times);
  for (const row of [0, 1, 499, 500, 250 * times, 500 * times - 1]) {
    assert.equal(what.at(row), `${row % 500}"é`);
    assert.equal(numbers[row], (row % 500) % 256);
  }
  assert.equal(what.starts.at(-1), times * bytes.length - 13); // (of "499""é",243 and a line feed)
});

test("random cells are returned as they were written", () => {
  const pieces = ["a", '"', ",", "\n", " ", "é", "\u{1f600}", "\r", ""];
  let state = 7;
  const draw = (below) => {
    state = (Math.imul(state, 1664525) + 1013904223) >>> 0;
    return Math.floor((state / 2 ** 32) * below);
  };
  for (let time = 0; time < 2000; time++) {
    const wanted = Array.from({ length: draw(8) }, () =>
      [0, 1].map(() => Array.from({ length: draw(5) }, () => pieces[draw(pieces.length)]).join("")));
    const written = wanted.map((row) => row.map((it) => `"${it.replaceAll('"', '""')}"`).join());
    const columns = parseTable(written.join("\n"), ["text", "text"], { has_quotes: true });
    assert.deepEqual(columns.map((it) => [...it]), [0, 1].map((column) => wanted.map((row) => row[column])));
  }
});

test("nothing is copied until a text is asked for", () => {
  const bytes = new TextEncoder().encode("ab,1\ncd,2\n");
  const [what] = parseTable(bytes, BOTH);
  bytes.set([120, 121], 5);
  assert.deepEqual([what.at(0), what.at(1)], ["ab", "xy"]);
  const copy = what.bytesAt(0);
  copy.fill(0);
  assert.equal(what.at(0), "ab");
});

test("bytes that were taken away are a TypeError", () => {
  const message = "the text of the column has lost its bytes: its buffer was transferred or cut";
  const lost = { name: "TypeError", message };
  const memory = new WebAssembly.Memory({ initial: 1 });
  new Uint8Array(memory.buffer).set(new TextEncoder().encode("ab,1\n,2\n"));
  const [what] = parseTable(new Uint8Array(memory.buffer, 0, 8), BOTH);
  assert.deepEqual([...what], ["ab", ""]);
  memory.grow(1); // (which takes the buffer from all views)
  assert.throws(() => what.at(0), lost);
  assert.throws(() => [...what], lost);
  const buffer = new ArrayBuffer(8, { maxByteLength: 16 });
  const view = new Uint8Array(buffer);
  view.set(new TextEncoder().encode("ab,1\ncd,"));
  const [grown] = parseTable(view.subarray(0, 5), BOTH);
  buffer.resize(16);
  assert.equal(grown.at(0), "ab");
  buffer.resize(1);
  assert.throws(() => grown.bytesAt(0), lost);
});

test("bytes that threads share are read", () => {
  const shared = new Uint8Array(new SharedArrayBuffer(5));
  shared.set(new TextEncoder().encode("é,7\n"));
  assert.deepEqual(texts(shared.subarray(0, 5)), ["é"]);
});

test("what is no column of texts", () => {
  const refuses = (call, message) => assert.throws(call, { name: "TypeError", message });
  const read = (column) => () => parseTable("1", [column]);
  refuses(read({ type: "text", format: null }), 'format has to be left out where the type is "text"');
  refuses(read({ type: "text", places: 2 }), 'places has to be left out where the type is "text"');
  refuses(read({ type: "text", takes_fewer: false }), 'takes_fewer has to be left out where the type is "text"');
  refuses(read({ type: "u8", encoding: "utf-8" }), 'encoding has to be left out where the type isn\'t "text"');
  refuses(read({ type: "text", may_miss: 1 }), "may_miss has to be true or false, and not 1");
  refuses(read({ type: "texts" }), /^type has to be one of u8, .*, i64, text, and not "texts"$/);
  for (const encoding of ["utf-9", 8, null, {}]) {
    refuses(read({ type: "text", encoding }), /^encoding has to be one that TextDecoder has, and not /);
  }
  refuses(() => parseColumn("1", "text"), /^type has to be one of u8, .*, i64, and not "text"$/);
});
