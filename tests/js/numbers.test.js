// Single numbers: the ends of each type, round trips, random texts beside BigInt, hostile bytes.

import assert from "node:assert/strict";
import { test } from "node:test";
import { runInNewContext } from "node:vm";
import {
  Format,
  formats,
  LONGEST,
  parse,
  parseColumn,
  ParseError,
  parseFront,
  parsePartial,
} from "../../bindings/js/index.js";
import { outcomeOf } from "./answers.js";

const SIZES = { 8: 8, 16: 16, 32: 32, 64: 64, 128: 128, size: 64 };
const TYPES = Object.entries(SIZES).flatMap(([name, bits]) => [
  { type: `u${name}`, bits, least: 0n, most: (1n << BigInt(bits)) - 1n },
  { type: `i${name}`, bits, least: -1n << BigInt(bits - 1), most: (1n << BigInt(bits - 1)) - 1n },
]);

/** A number as a type has it in JavaScript. */
const as = (bits, value) => (bits > 32 ? value : Number(value));

/** Numbers of up to 2^32 in a fixed order, which a seed begins. */
function* draws(seed) {
  for (let state = seed; ; ) {
    state = (state + 0x9e3779b9) >>> 0;
    const once = Math.imul(state ^ (state >>> 16), 0x21f0aaad);
    const twice = Math.imul(once ^ (once >>> 15), 0x735a2d97);
    yield (twice ^ (twice >>> 15)) >>> 0;
  }
}

test("the ends of each type, and one beyond", () => {
  for (const { type, bits, least, most } of TYPES) {
    assert.strictEqual(parse(`${most}`, type), as(bits, most));
    assert.strictEqual(parse(`${least}`, type), as(bits, least));
    const last = `${most}`.length - 1;
    assert.equal(outcomeOf(() => parse(`${most + 1n}`, type)), `Overflow(${last})`);
    const below = least < 0n ? `Underflow(${last + 1})` : "InvalidDigit(0)";
    assert.equal(outcomeOf(() => parse(`${least - 1n}`, type)), below);
  }
});

test("numbers come back in each radix", () => {
  const draw = draws(1);
  const word = () => BigInt(draw.next().value);
  for (let radix = 2; radix <= 36; radix++) {
    const format = new Format({ mantissa_radix: radix });
    for (const { type, bits, least } of TYPES) {
      for (let time = 0; time < 20; time++) {
        const drawn = (word() << 96n) | (word() << 64n) | (word() << 32n) | word();
        const short = drawn >> (word() % 128n);
        const value = least < 0n ? BigInt.asIntN(bits, short) : BigInt.asUintN(bits, short);
        assert.strictEqual(parse(value.toString(radix), type, format), as(bits, value));
        const front = parseFront(`${value.toString(radix)}, 1`, type, format);
        assert.strictEqual(front.value, as(bits, value));
      }
    }
  }
});

test("1,000,000 random texts are read as BigInt reads them", () => {
  Error.stackTraceLimit = 0; // half of the texts are no number
  const draw = draws(2);
  const below = (count) => draw.next().value % count;
  const next = () => {
    const digits = Array.from({ length: below(22) }, () => below(10)).join("");
    const odd = below(4) === 0 ? "+-_ x\0é\u0131"[below(8)] : "";
    const at = below(3) === 0 ? below(digits.length + 1) : 0;
    return digits.slice(0, at) + odd + digits.slice(at);
  };
  let numbers = 0;
  for (let time = 0; time < 1_000_000; time++) {
    const text = next();
    const { type, bits, least, most } = TYPES[time % TYPES.length];
    const isNumber = (least < 0n ? /^[+-]?[0-9]+$/ : /^\+?[0-9]+$/).test(text);
    const value = isNumber ? BigInt(text) : undefined;
    const wanted = isNumber && least <= value && value <= most ? as(bits, value) : undefined;
    let found;
    try {
      found = parse(text, type);
      numbers++;
    } catch (error) {
      if (!(error instanceof ParseError)) throw error;
    }
    assert.ok(found === wanted, `${JSON.stringify(text)} as ${type}: ${found}, not ${wanted}`);
  }
  assert.ok(numbers > 200_000 && numbers < 900_000);
});

test("fronts stop where their numbers end", () => {
  assert.deepEqual(parseFront("12px", "u16"), { value: 12, stop: 2 });
  assert.deepEqual(parsePartial("x", "i64"), { value: 0n, stop: 0 });
  assert.equal(outcomeOf(() => parseFront("x", "i64")), "Empty(0)");
  assert.equal(outcomeOf(() => parseFront("+a", "i64")), "Empty(1)");
  assert.equal(outcomeOf(() => parseFront("-x", "i64")), "Empty(1)");
  assert.equal(outcomeOf(() => parseFront("[- 5]", "i64", formats.JSON)), "Empty(0)");
  assert.equal(outcomeOf(() => parseFront("0xg", "u64", formats.RUST)), "Empty(2)");
  assert.deepEqual(parseFront("0x1F;", "u8", formats.RUST), { value: 31, stop: 4 });
});

test("a fault says what is wrong, and at which byte of UTF-8", () => {
  assert.throws(() => parse("18446744073709551616", "u64"), {
    name: "ParseError",
    message: "overflow at byte 19",
    kind: "Overflow",
    place: 19,
    field: undefined,
  });
  assert.equal(outcomeOf(() => parse("1é", "u8")), "InvalidDigit(1)");
  assert.equal(outcomeOf(() => parse("1\u0131", "u8")), "InvalidDigit(1)"); // its low byte is a digit
  assert.equal(outcomeOf(() => parse("12\ud800", "u8")), "InvalidDigit(2)");
  assert.equal(outcomeOf(() => parse("", "u8")), "Empty(0)");
});

test("each single byte is a digit or a fault", () => {
  for (let byte = 0; byte < 256; byte++) {
    const isDigit = byte >= 48 && byte <= 57;
    const sign = byte === 43 ? "Empty(1)" : "InvalidDigit(0)";
    const answer = outcomeOf(() => parse(Uint8Array.of(byte), "u8"));
    assert.equal(answer, isDigit ? byte - 48 : sign);
  }
});

test("bytes of another context are read", () => {
  assert.equal(parse(runInNewContext("Uint8Array.of(49, 50)"), "u8"), 12);
  assert.deepEqual(parseColumn(runInNewContext("Uint8Array.of(49, 10)"), "u8"), Uint8Array.of(1));
});

test("the longest text is read, and a longer one refused", () => {
  assert.equal(parse("7".padStart(LONGEST, "0"), "u8"), 7);
  assert.equal(parse(new Uint8Array(LONGEST).fill(48), "u8"), 0);
  const wanted = { name: "RangeError", message: `text has more than ${LONGEST} bytes` };
  assert.throws(() => parse("7".padStart(LONGEST + 1, "0"), "u8"), wanted);
  assert.throws(() => parse(new Uint8Array(LONGEST + 1), "u8"), wanted);
  assert.equal(parse("7", "u8"), 7);
});
