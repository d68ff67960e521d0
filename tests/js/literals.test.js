// Literals with their suffixes, and with the types that these name.
import assert from "node:assert/strict";
import { test } from "node:test";
import { Format, formats, LONGEST, parse, parseLiteral, parseTypedLiteral } from "../../bindings/js/index.js";
import { outcomeOf } from "./answers.js";

const TYPES = ["u8", "u16", "u32", "u64", "u128", "usize", "i8", "i16", "i32", "i64", "i128", "isize"];
const SUFFIXES = Object.freeze({ "": "i32", ...Object.fromEntries(TYPES.map((type) => [type, type])) });

/** The greatest number of a type. */
function mostOf(type) {
  const bits = type.endsWith("size") ? 64n : BigInt(type.slice(1));
  return (1n << (type[0] === "u" ? bits : bits - 1n)) - 1n;
}

/** A literal of Rust. */
const ofRust = (text) => parseTypedLiteral(text, SUFFIXES, formats.RUST);

test("literals have their suffixes", () => {
  assert.deepEqual(parseLiteral("0xFFull;", formats.C), { value: 255n, suffix: "ull", stop: 7 });
  assert.deepEqual(parseLiteral("12 px"), { value: 12n, suffix: "", stop: 2 });
  assert.equal(outcomeOf(() => parseLiteral("px")), "Empty(0)");
});

test("a suffix names the type", () => {
  assert.deepEqual(ofRust("1_000i64;"), { value: 1000n, suffix: "i64", type: "i64", stop: 8 });
  assert.deepEqual(ofRust("0xFF_u8"), { value: 255, suffix: "u8", type: "u8", stop: 7 });
  assert.deepEqual(ofRust("7 + 1"), { value: 7, suffix: "", type: "i32", stop: 1 });
  assert.deepEqual(parseTypedLiteral("7u", { u: "u128", U: "u8" }), { value: 7n, suffix: "u", type: "u128", stop: 2 });
  assert.deepEqual(parseTypedLiteral("7U", { u: "u128", U: "u8" }, {}), { value: 7, suffix: "U", type: "u8", stop: 2 });
  assert.deepEqual(parseTypedLiteral(Uint8Array.of(55, 117), { u: "i8" }), { value: 7, suffix: "u", type: "i8", stop: 2 });
  const own = JSON.parse('{ "__proto__": "u16", "constructor": "u8" }');
  assert.equal(parseTypedLiteral("1__proto__", own).type, "u16");
  assert.equal(parseTypedLiteral("1constructor", own).type, "u8");
  assert.equal(outcomeOf(() => parseTypedLiteral("1toString", {})), "UnknownSuffix(1)");
});

test("the ends of each type, and one beyond", () => {
  for (const type of TYPES) {
    const most = mostOf(type);
    assert.deepEqual(ofRust(`${most}${type}`).value, parse(`${most}`, type));
    assert.equal(outcomeOf(() => ofRust(`${most + 1n}${type}`)), `Overflow(${`${most}`.length - 1})`);
    assert.equal(outcomeOf(() => ofRust(`-1${type}`)), "Empty(0)");
  }
});

test("a fault is at the digit or the suffix that is wrong", () => {
  for (const [text, wanted] of [
    ["300u8", "Overflow(2)"], ["0b102", "InvalidDigit(4)"], ["12abc", "UnknownSuffix(2)"], ["1e5", "UnknownSuffix(1)"],
    ["128i8", "Overflow(2)"], ["", "Empty(0)"], ["u8", "Empty(0)"], ["0x", "Empty(2)"], ["1u", "UnknownSuffix(1)"],
    ["1u88", "UnknownSuffix(1)"], ["1\0u8", 1], ["1\u00e9", 1],
  ]) {
    const found = outcomeOf(() => ofRust(text).value);
    assert.equal(found, wanted, text);
  }
  assert.throws(() => ofRust("12abc"), { name: "ParseError", message: "unknown suffix at byte 2", kind: "UnknownSuffix" });
  assert.equal(outcomeOf(() => parseTypedLiteral("1", {})), "UnknownSuffix(1)");
  assert.equal(outcomeOf(() => parseTypedLiteral("12", { "": "u8" }, new Format({ mantissa_radix: 2 }))), "InvalidDigit(1)");
});

test("an object that changes between calls is read anew", () => {
  const changing = { u: "u8" };
  const typeOf = (text, table = changing) => outcomeOf(() => parseTypedLiteral(text, table).type);
  assert.equal(typeOf("1u"), "u8");
  changing.u = "u16";
  assert.equal(typeOf("1u"), "u16");
  changing.U = "u32";
  assert.deepEqual([typeOf("1u"), typeOf("1U")], ["u16", "u32"]);
  delete changing.u;
  assert.deepEqual([typeOf("1u"), typeOf("1U")], ["UnknownSuffix(1)", "u32"]);
  changing.x = "u8";
  delete changing.U;
  assert.deepEqual([typeOf("1U"), typeOf("1x")], ["UnknownSuffix(1)", "u8"]);
  changing.x = "u9";
  assert.throws(() => typeOf("1x"), TypeError);
  const other = Object.freeze({ u: "i8", long: "u32" });
  for (let time = 0; time < 3; time++) assert.deepEqual([typeOf("1u", other), typeOf("1long", other)], ["i8", "u32"]);
});

test("each number with each suffix, before any byte", () => {
  const behind = ["", ";", " ", "+1u8", "\0", "\n", "\u00e9", '"'];
  for (let time = 0; time < 20_000; time++) {
    const number = (1n << BigInt(time % 127)) + BigInt(time);
    const suffix = ["", ...TYPES, "u", "x_1"][time % 15];
    const text = `${number}${suffix}${behind[time % 8]}`;
    const [type, size] = [SUFFIXES[suffix], `${number}`.length];
    const found = outcomeOf(() => BigInt(parseTypedLiteral(text, SUFFIXES).value));
    if (type === undefined) assert.equal(found, `UnknownSuffix(${size})`, text);
    else if (number <= mostOf(type)) assert.equal(found, number, text);
    else assert.match(found, /^Overflow\(\d+\)$/, text);
  }
});

test("wrong suffixes, and long texts", () => {
  const refuses = (suffixes, message) =>
    assert.throws(() => parseTypedLiteral("1", suffixes), { name: "TypeError", message });
  refuses(undefined, "suffixes have to be an object, and not undefined");
  refuses(null, "suffixes have to be an object, and not null");
  refuses([["u", "u8"]], "suffixes have to be an object, and not Array");
  refuses(new Map([["u", "u8"]]), "suffixes have to be an object, and not Map");
  refuses(formats.C, "suffixes have to be an object, and not Object");
  refuses({ u: "u7" }, /^type has to be one of u8, .*, and not "u7"$/);
  refuses({ u: null }, /^type has to be one of u8, .*, and not null$/);
  assert.throws(() => parseTypedLiteral(1, {}), { name: "TypeError", message: /^text has to be/ });
  assert.throws(() => parseTypedLiteral("1", {}, { min: 1 }), { message: 'parseTypedLiteral has no option "min"' });
  const room = LONGEST - 24; // (an entry has 24 bytes)
  assert.equal(parseTypedLiteral("1".padStart(room, "0"), { "": "u8" }).value, 1);
  for (const size of [room + 1, LONGEST, LONGEST + 1]) {
    assert.throws(() => parseTypedLiteral("1".padStart(size, "0"), { "": "u8" }), { name: "RangeError", message: /^text has/ });
  }
  const long = { ["u".repeat(LONGEST)]: "u8" };
  assert.throws(() => parseTypedLiteral("1", long), { name: "RangeError", message: /^there is no memory for \d+ bytes/ });
  assert.equal(parseTypedLiteral("1u", { u: "u8" }).value, 1);
});
