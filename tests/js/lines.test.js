// Columns of lines: returns, blanks, missing numbers and amounts, as tables have them.
import assert from "node:assert/strict";
import { test } from "node:test";
import { Format, LONGEST_FIELD, parseColumn, parseTable } from "../../bindings/js/index.js";

test("returns", () => {
  assert.deepEqual(parseColumn("1\r\n2\r\n", "u8", { has_returns: true }), Uint8Array.of(1, 2));
  assert.deepEqual(parseColumn("1\r\n2\n3", "u8", { allows_returns: true }), Uint8Array.of(1, 2, 3));
  assert.deepEqual(parseColumn("", "i64", { allows_returns: true }), new BigInt64Array());
  assert.throws(() => parseColumn("1\n2\r\n", "u8", { has_returns: true }), {
    name: "ParseError", kind: "MissingReturn", place: 1, field: 0,
    message: "missing carriage return at byte 1, in field 1",
  });
});

test("blanks, and commas, which are no separators of a column", () => {
  const allows_blanks = true;
  assert.deepEqual(parseColumn(" 1\n\t-2 \n", "i8", { allows_blanks }), Int8Array.of(1, -2));
  const grouped = new Format({ digit_separator: ",", integer_internal_digit_separator: true });
  assert.deepEqual(parseColumn(" 1,234 \n", "u16", { allows_blanks, format: grouped }), Uint16Array.of(1234));
  assert.throws(() => parseColumn(" 1\n 2,3\n", "u8", { allows_blanks }), {
    message: "invalid digit at byte 5, in field 2", kind: "InvalidDigit", place: 5, field: 1, row: undefined,
  });
  assert.throws(() => parseColumn("1\n\n", "u8", { allows_blanks }), { kind: "Empty", place: 2, field: 1 });
});

test("missing numbers", () => {
  const numbers = Uint8Array.of(1, 0, 3);
  const present = Uint8Array.of(1, 0, 1);
  assert.deepEqual(parseColumn("1\n\n3\n", "u8", { may_miss: true }), { numbers, present });
  assert.deepEqual(parseColumn("1\nNA\n3", "u8", { may_miss: true, missing: "NA" }), { numbers, present });
  const blanks = { may_miss: true, missing: "NA", allows_blanks: true };
  assert.deepEqual(parseColumn("1\n NA \n3", "u8", blanks), { numbers, present });
  assert.deepEqual(parseColumn("1\n2", "u8", { may_miss: false }), Uint8Array.of(1, 2));
  assert.throws(() => parseColumn("1\n\n", "u8", { may_miss: true, missing: "NA" }), { kind: "Empty", field: 1 });
});

test("amounts", () => {
  const euro = { places: 2, point: ",", group: "." };
  assert.deepEqual(parseColumn("12,50\n-1.234,05", "i64", euro), BigInt64Array.of(1250n, -123405n));
  const all = { places: 2, takes_fewer: true, allows_returns: true, may_miss: true };
  assert.deepEqual(parseColumn("1.5\r\n\n2", "u16", all),
    { numbers: Uint16Array.of(150, 0, 200), present: Uint8Array.of(1, 0, 1) });
  assert.throws(() => parseColumn("1.50\n2.505\n", "u16", { places: 2 }), {
    message: "invalid digit at byte 9, in field 2", kind: "InvalidDigit", place: 9, field: 1, start: 5,
  });
  assert.throws(() => parseColumn("1", "u8", { places: 39 }), { name: "FormatError", kind: "InvalidPlaces" });
});

test("a text larger than a piece of the memory is read whole", () => {
  const part = Array.from({ length: 1000 }, (_, index) => ` ${index * 7919}\r\n`).join("");
  const times = Math.ceil((2 * LONGEST_FIELD) / part.length);
  const text = part.repeat(times);
  const options = { allows_blanks: true, allows_returns: true };
  const wanted = parseColumn(text.replace(/[ \r]/g, ""), "i32");
  assert.deepEqual(parseColumn(text, "i32", options), wanted);
  const fault = { kind: "InvalidDigit", place: text.length + 1, field: wanted.length, start: text.length };
  assert.throws(() => parseColumn(`${text} x`, "i32", options), fault);
});

test("the longest line is read, and a longer one refused", () => {
  const longest = "7".padStart(LONGEST_FIELD, " ");
  assert.deepEqual(parseColumn(`1\n${longest}\n2`, "u8", { allows_blanks: true }), Uint8Array.of(1, 7, 2));
  assert.throws(() => parseColumn(`1\n  ${longest}\n2`, "u8", { allows_blanks: true }), {
    name: "RangeError", message: `the field at byte 2 has more than ${LONGEST_FIELD} bytes`,
  });
});

test("hostile lines are read as by a table of one column", () => {
  const parts = ["1", "-7", "x", "", " ", "\r", ",", '"', "NA", "99999999999999999999", "\0"];
  const settings = [{ allows_returns: true }, { allows_blanks: true }, { may_miss: true, missing: "NA" }];
  const answer = (call) => {
    try {
      return call();
    } catch ({ kind, place, field, row }) {
      return { kind, place, field: field ?? row };
    }
  };
  for (let code = 0; code < parts.length ** 3; code++) {
    const lines = [code, code / parts.length, code / parts.length ** 2];
    const text = lines.map((it) => parts[Math.floor(it) % parts.length]).join("\n");
    for (const { may_miss, ...table } of settings) {
      const columns = [{ type: "i16", may_miss }];
      const wanted = answer(() => parseTable(text, columns, { ...table, separator: "\n" })[0]);
      const options = may_miss ? { ...table, may_miss } : table;
      assert.deepEqual(answer(() => parseColumn(text, "i16", options)), wanted, JSON.stringify(text));
    }
  }
});

test("wrong arguments", () => {
  const refuses = (options, message) =>
    assert.throws(() => parseColumn("1", "u8", options), { name: "TypeError", message });
  const unless = "has to be left out unless the separator is a line feed";
  refuses({ separator: ",", allows_blanks: true }, `allows_blanks ${unless}`);
  refuses({ separator: ",", places: 2 }, `places ${unless}`);
  refuses({ missing: "NA" }, "missing has to be left out unless may_miss is true");
  refuses({ may_miss: true, missing: 1 }, /^missing has to be a string or a Uint8Array, and not 1$/);
  refuses({ may_miss: 1 }, "may_miss has to be true or false, and not 1");
  refuses({ has_returns: "yes" }, 'has_returns has to be true or false, and not "yes"');
  refuses({ point: "," }, "point has to be left out where there are no places");
  refuses({ allows_blanks: true, format: {} }, "format has to be a Format, and not Object");
  refuses({ has_quotes: true }, 'parseColumn has no option "has_quotes"');
  refuses({ onError: "skip" }, 'parseColumn has no option "onError"');
  assert.throws(() => parseColumn(1, "u8", { allows_blanks: true }), { message: /^text has to be a string/ });
});
