// Options by their names, and numbers within bounds.
import assert from "node:assert/strict";
import { test } from "node:test";
import {
  Format, formats, parse, parseColumn, ParseError, parseFront, parseLiteral, parsePartial,
} from "../../bindings/js/index.js";

const refuses = (call, message) => assert.throws(call, { name: "TypeError", message });

test("a format by its name is one that is given alone", () => {
  const format = formats.RUST;
  for (const call of [parse, parseFront, parsePartial]) {
    assert.deepEqual(call("0x1F", "u8", { format }), call("0x1F", "u8", format));
    assert.deepEqual(call("12", "u8", {}), call("12", "u8"));
    assert.deepEqual(call("12", "u8", { format: undefined }), call("12", "u8"));
    refuses(() => call("1", "u8", { format: {} }), "format has to be a Format, and not Object");
    refuses(() => call("1", "u8", { format: null }), "format has to be a Format, and not null");
    refuses(() => call("1", "u8", { ...formats.C }), `${call.name} has no option "mantissa_radix"`);
    refuses(() => call("1", "u8", new Map()), "format has to be a Format, and not Map");
  }
  assert.deepEqual(parseLiteral("0x1Fu8", { format }), parseLiteral("0x1Fu8", format));
  assert.deepEqual(parseLiteral("12", {}), parseLiteral("12"));
  refuses(() => parseLiteral("1", { separator: "," }), 'parseLiteral has no option "separator"');
  refuses(() => parseFront("1", "u8", { min: 1 }), 'parseFront has no option "min"');
});

test("options of a column", () => {
  const hexadecimal = new Format({ mantissa_radix: 16 });
  assert.deepEqual(parseColumn("A,B", "u8", { separator: ",", format: hexadecimal }), Uint8Array.of(10, 11));
  assert.deepEqual(parseColumn("1\n2", "u8", {}), Uint8Array.of(1, 2));
  assert.deepEqual(parseColumn("A\nB", "u8", { format: hexadecimal }), Uint8Array.of(10, 11));
  refuses(() => parseColumn("1", "u8", { seperator: "," }), 'parseColumn has no option "seperator"');
  refuses(() => parseColumn("1", "u8", { separator: null }), /^separator has to be one ASCII character/);
  refuses(() => parseColumn("1", "u8", { separator: "," }, hexadecimal), /^parseColumn has one format/);
});

/** What a text gives within bounds. */
function within(text, type, min, max, format) {
  try {
    return parse(text, type, { min, max, format });
  } catch (error) {
    if (!(error instanceof ParseError)) throw error;
    return error.message;
  }
}

test("bounds, and what is said of others", () => {
  assert.equal(within("8080", "u16", 1, 65535), 8080);
  assert.equal(within("70000", "u16", 1, 65535), "70000 is not from 1 to 65535");
  assert.equal(within("0", "u16", 1), "0 is not from 1 to 65535");
  assert.equal(within("-1", "u16", 1), "-1 is not from 1 to 65535");
  assert.equal(within("-129", "i8", undefined, 5), "-129 is not from -128 to 5");
  assert.equal(within("6", "i8", -5n, 5n), "6 is not from -5 to 5");
  assert.equal(within("5", "u64", 1, 10), 5n);
  assert.equal(within("11", "u64", 1, 10n), "11 is not from 1 to 10");
  assert.equal(within("9".repeat(99), "u8", 0), `${"9".repeat(40)}.. is not from 0 to 255`);
  assert.equal(within(Buffer.from("9".repeat(99)), "u128", 1, 5), `${"9".repeat(40)}.. is not from 1 to 5`);
  assert.equal(within("0x1000000", "u32", 0, 0xffffff, formats.RUST), "0x1000000 is not from 0 to 16777215");
  assert.equal(within("99999x", "u8", 0, 5), "invalid digit at byte 5");
  assert.equal(within("-x", "u8", 0, 5), "invalid digit at byte 0");
  assert.equal(within("-0", "u8", 0, 5), "invalid digit at byte 0");
  assert.equal(within("", "u8", 0, 5), "missing digit at byte 0");
  assert.equal(within("07", "u8", 0, 5, formats.JSON), "forbidden leading zero at byte 0");
  assert.equal(within("300", "u8", undefined, 1000), "300 is not from 0 to 255");
  assert.equal(within("-1", "u8", -5, 1000), "-1 is not from 0 to 255");
  assert.equal(within("7", "u8", -(10n ** 40n), 10n ** 40n), 7);
  assert.equal(within("70'000", "u32", 0, 9, formats.CPP14), "70'000 is not from 0 to 9");
  const separated = new Format({ digit_separator: "\0", integer_internal_digit_separator: true });
  assert.equal(within("6\x000", "u8", 1, 5, separated), "6\\x000 is not from 1 to 5");
  assert.equal(within("", "u8", 1, 5, new Format({ required_mantissa_digits: false })), " is not from 1 to 5");
  const fault = { name: "ParseError", kind: "OutOfBounds", place: 0, min: 1, max: 65535n, field: undefined };
  assert.throws(() => parse("70000", "u16", { min: 1 }), fault);
  assert.throws(() => parse("1\0", "u8", { min: 1 }), { kind: "InvalidDigit", place: 1 });
  for (const bound of ["1", 1.5, NaN, Infinity, 2 ** 53, null, true]) {
    refuses(() => parse("1", "u8", { min: bound }), /^min has to be a safe integer or a bigint, and not /);
    refuses(() => parse("1", "u8", { max: bound }), /^max has to be a safe integer or a bigint, and not /);
  }
  for (const [min, max, more] of [[10, 1, "10 is more than 1"], [300n, 2, "300n is more than 2"]]) {
    const crossed = { name: "RangeError", message: `min has to be at most max, and ${more}` };
    for (const text of ["5", "x", ""]) assert.throws(() => parse(text, "u8", { min, max }), crossed);
  }
  const none = (bound, more) =>
    assert.throws(() => parse("5", "u8", bound), { name: "RangeError", message: `min has to be at most max, and ${more}` });
  none({ min: 256 }, "256 is more than 255n");
  none({ max: -1 }, "0n is more than -1");
  refuses(() => parse("1", "u7", { min: 1 }), /^type has to be one of u8, .*, and not "u7"$/);
});

test("bounds at the ends of each type", () => {
  for (const bits of [8n, 16n, 32n, 64n, 128n]) {
    const ends = { u: [0n, 2n ** bits - 1n], i: [-(2n ** (bits - 1n)), 2n ** (bits - 1n) - 1n] };
    for (const [sign, [min, max]] of Object.entries(ends)) {
      for (const number of [min, max]) assert.equal(BigInt(within(`${number}`, `${sign}${bits}`, min, max)), number);
      const type = `${sign}${bits}`;
      assert.equal(within(`${max + 1n}`, type, min), `${`${max + 1n}`.slice(0, 40)} is not from ${min} to ${max}`);
      assert.equal(within(`${min - 1n}`, type, min), `${min - 1n} is not from ${min} to ${max}`);
      assert.equal(within(`${max}`, type, min, max - 1n), `${max} is not from ${min} to ${max - 1n}`);
    }
  }
});
