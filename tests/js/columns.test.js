// Columns: of each type, in pieces, and over hostile texts.

import assert from "node:assert/strict";
import { test } from "node:test";
import { Format, LONGEST_FIELD, parse, parseColumn, ParseError } from "../../bindings/js/index.js";

const ARRAYS = {
  u8: Uint8Array, u16: Uint16Array, u32: Uint32Array, u64: BigUint64Array,
  i8: Int8Array, i16: Int16Array, i32: Int32Array, i64: BigInt64Array,
};

/** What a text's fields are, each read alone: the numbers, or the fault as a column has it. */
function readAlone(text, type, separator, format) {
  const fields = text.split(separator);
  if (fields.at(-1) === "") fields.pop();
  let start = 0;
  const numbers = [];
  for (const field of fields) {
    try {
      numbers.push(parse(field, type, format));
    } catch (error) {
      return { kind: error.kind, place: start + error.place, field: numbers.length };
    }
    start += field.length + 1;
  }
  return ARRAYS[type].from(numbers);
}

/** The same, as parseColumn answers. */
function readColumn(text, type, separator, format) {
  try {
    return parseColumn(text, type, separator, format);
  } catch (error) {
    if (!(error instanceof ParseError)) throw error;
    return { kind: error.kind, place: error.place, field: error.field };
  }
}

test("columns of each type", () => {
  for (const [type, NumberArray] of Object.entries(ARRAYS)) {
    const numbers = parseColumn("12\n7\n0", type);
    assert.deepEqual(numbers, NumberArray.from(["12", "7", "0"].map((it) => parse(it, type))));
  }
  assert.deepEqual(parseColumn("", "u8"), new Uint8Array());
  assert.deepEqual(parseColumn("2026-11-23", "u16", "-"), Uint16Array.of(2026, 11, 23));
  assert.deepEqual(parseColumn(Uint8Array.of(49, 255, 50), "u8", 255), Uint8Array.of(1, 2));
  const hexadecimal = new Format({ mantissa_radix: 16 });
  assert.deepEqual(parseColumn("1f,FF", "u8", ",", hexadecimal), Uint8Array.of(31, 255));
});

test("a fault says in which field it is", () => {
  assert.throws(() => parseColumn("12,256,x", "u8", ","), {
    name: "ParseError",
    message: "overflow at byte 5, in field 2",
    kind: "Overflow",
    place: 5,
    field: 1,
    start: 3,
  });
});

test("hostile columns are read as their fields are", () => {
  const parts = ["1", "-7", "+0", "300", "99999999999999999999", "x", "", "\0", "00", "1_0", ","];
  const formats = [undefined, new Format({ required_mantissa_digits: false })];
  for (let code = 0; code < parts.length ** 3; code++) {
    const fields = [code, code / parts.length, code / parts.length ** 2];
    const text = fields.map((it) => parts[Math.floor(it) % parts.length]).join(",");
    for (const format of formats) {
      for (const type of ["u8", "i16", "i64"]) {
        const wanted = readAlone(text, type, ",", format);
        assert.deepEqual(readColumn(text, type, ",", format), wanted, `${text} as ${type}`);
      }
    }
  }
});

test("a text larger than a piece of the memory is read whole", () => {
  const numbers = Array.from({ length: 1000 }, (_, index) => (index * 7919) % 1_000_003);
  const lines = `${numbers.join("\n")}\n`;
  const times = Math.ceil((2 * LONGEST_FIELD) / lines.length);
  const wanted = Int32Array.from({ length: 1000 * times }, (_, index) => numbers[index % 1000]);
  const text = lines.repeat(times);
  assert.deepEqual(parseColumn(text, "i32"), wanted);
  assert.deepEqual(parseColumn(text.slice(0, -1), "u64"), BigUint64Array.from(wanted, BigInt));
  const fault = { kind: "InvalidDigit", place: text.length + 2, field: 1000 * times };
  assert.deepEqual(readColumn(`${text}12x\n1`, "i32"), fault);
  assert.throws(() => parseColumn(`${text}12x\n1`, "i32"), { start: text.length });
});

test("more numbers than the memory has room for are read", () => {
  const format = new Format({ required_mantissa_digits: false });
  const count = LONGEST_FIELD;
  assert.deepEqual(parseColumn(",".repeat(count), "u64", ",", format), new BigUint64Array(count));
});

test("the longest field is read, and a longer one refused", () => {
  const longest = "7".padStart(LONGEST_FIELD, "0");
  assert.deepEqual(parseColumn(`1\n${longest}\n2\n${longest}`, "u8"), Uint8Array.of(1, 7, 2, 7));
  assert.throws(() => parseColumn(`1\n00${longest}\n1\n`, "u8"), {
    name: "RangeError",
    message: `the field at byte 2 has more than ${LONGEST_FIELD} bytes`,
  });
});
