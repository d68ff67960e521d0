// Each argument wrong once, and what its message says; and an engine that lacks what is needed.

import assert from "node:assert/strict";
import { test } from "node:test";
import {
  FIELDS,
  Format,
  FormatError,
  formats,
  JadvolniError,
  parse,
  parseColumn,
  ParseError,
  parseFront,
  parseLiteral,
  parsePartial,
} from "../../bindings/js/index.js";

const OF_ONE_NUMBER = [parse, parseFront, parsePartial];

/** Asks that a call throws a TypeError with this message. */
function refuses(call, message) {
  assert.throws(call, { name: "TypeError", message });
}

test("texts", () => {
  const wanted = "text has to be a string or a Uint8Array, and not ";
  for (const call of [...OF_ONE_NUMBER, parseColumn]) refuses(() => call(12, "u8"), `${wanted}12`);
  refuses(() => parseLiteral(undefined), `${wanted}undefined`);
  refuses(() => parse([49], "u8"), `${wanted}Array`);
  refuses(() => parse(new Uint16Array(1), "u8"), `${wanted}Uint16Array`);
  refuses(() => parse(Uint8Array.of(49).buffer, "u8"), `${wanted}ArrayBuffer`);
});

test("bytes whose buffer was taken away are no empty text", () => {
  const transferred = Uint8Array.of(49, 50);
  structuredClone(transferred.buffer, { transfer: [transferred.buffer] });
  const buffer = new ArrayBuffer(8, { maxByteLength: 8 });
  const cut = new Uint8Array(buffer, 4, 4);
  buffer.resize(4);
  for (const bytes of [transferred, cut]) {
    for (const call of [...OF_ONE_NUMBER, parseColumn, (text) => parseLiteral(text)]) {
      refuses(() => call(bytes, "u8"), "text has lost its bytes: its buffer was transferred or cut");
    }
  }
  assert.deepEqual(parseColumn(new Uint8Array(buffer, 4, 0), "u8"), new Uint8Array());
});

test("bytes are those that an array has, whatever its class says", () => {
  class Named extends Uint8Array {
    constructor(name, bytes) {
      if (typeof name !== "string") throw new Error("a name is missing");
      super(bytes);
    }

    get length() {
      return 8;
    }
  }
  parse("12345678", "u32");
  const named = new Named("a", [49, 50]);
  for (const call of OF_ONE_NUMBER) assert.equal(call(named, "u8").value ?? call(named, "u8"), 12);
  assert.equal(parseLiteral(named).stop, 2);
  assert.deepEqual(parseColumn(named, "u8"), Uint8Array.of(12));
  assert.deepEqual(parseColumn(new Named("a", []), "u8"), new Uint8Array());
  assert.throws(() => parse(new Named("a", []), "u8"), { kind: "Empty" });
});

test("types", () => {
  for (const type of ["u7", "U8", "toString", undefined, null, {}]) {
    for (const call of OF_ONE_NUMBER) {
      refuses(() => call("1", type), /^type has to be one of u8, .*, isize, and not /);
    }
  }
  const columns = "u8, u16, u32, u64, i8, i16, i32, i64";
  refuses(() => parseColumn("1", "u128"), `type has to be one of ${columns}, and not "u128"`);
  refuses(() => parse("1", "u".repeat(1e6)), new RegExp(`, and not "${"u".repeat(40)}" ..$`));
  refuses(() => parse("1", 10n ** 40n), new RegExp(`, and not 1${"0".repeat(39)} ..$`));
});

test("formats", () => {
  const wanted = "format has to be a Format, and not ";
  for (const call of OF_ONE_NUMBER) {
    refuses(() => call("1", "u8", null), `${wanted}null`);
    refuses(() => call("1", "u8", "RUST"), `${wanted}"RUST"`);
    refuses(() => call("1", "u8", Object.create(Format.prototype)), `${wanted}Object`);
  }
  refuses(() => parseLiteral("1", 10), `${wanted}10`);
  refuses(() => parseColumn("1", "u8", ",", {}), `${wanted}Object`);
});

test("separators", () => {
  for (const separator of ["", ", ", "é", -1, 256, 1.5, null]) {
    const wanted = /^separator has to be one ASCII character or a byte from 0 to 255, and not /;
    refuses(() => parseColumn("1", "u8", separator), wanted);
  }
});

test("fields of formats", () => {
  const wrong = {
    radix: [16, 'a format has no field "radix"'],
    mantissa_radix: ["16", 'mantissa_radix has to be an integer, and not "16"'],
    base_suffix: [104n, /^base_suffix has .*, and not 104n$/],
    literal_prefixes: [1, "literal_prefixes has to be true or false, and not 1"],
    base_prefix: ["0x", /^base_prefix has to be one ASCII character .*, and not "0x"$/],
  };
  for (const [name, [value, message]] of Object.entries(wrong)) {
    refuses(() => new Format({ [name]: value }), message);
  }
  refuses(() => new Format(16), "the fields of a format have to be an object, and not 16");
  refuses(() => new Format(null), "the fields of a format have to be an object, and not null");
  refuses(() => new Format(new Map([["mantissa_radix", 16]])), /^the fields .*, and not Map$/);
});

test("a field is read once", () => {
  const radixes = [16, 10];
  const format = new Format({ get mantissa_radix() { return radixes.shift(); } });
  assert.equal(parse("FF", "u8", format), 255);
});

test("a format that breaks a rule isn't made", () => {
  for (const mantissa_radix of [0, 1, 37, -1, 256 + 10, 2 ** 32 + 10, 1e300]) {
    assert.throws(() => new Format({ mantissa_radix }), {
      name: "FormatError",
      message: "the radix has to be 2 to 36",
      kind: "InvalidMantissaRadix",
    });
  }
  assert.throws(() => new Format({ digit_separator: 0xff }), { kind: "InvalidDigitSeparator" });
});

test("a format can't be changed, and begins another", () => {
  assert.throws(() => (formats.RUST.mantissa_radix = 16), TypeError);
  assert.throws(() => (formats.RUST = formats.C), TypeError);
  assert.throws(() => FIELDS.push(FIELDS[0]), TypeError);
  assert.deepEqual(Object.keys(new Format()), FIELDS.map(({ name }) => name));
  const suffixed = new Format({ ...formats.RUST, base_suffix: "u" });
  assert.equal(parse("0x1Fu", "u8", suffixed), 31);
});

test("the byte 0 may be punctuation", () => {
  const texts = [
    [{ digit_separator: "\0", integer_internal_digit_separator: true }, "1\u00002"],
    [{ base_prefix: "\0" }, "0\u000012"],
    [{ base_suffix: 0 }, "12\0"],
  ];
  for (const [fields, text] of texts) {
    assert.equal(parse(text, "u8", new Format(fields)), 12);
    assert.throws(() => parse(text, "u8"), ParseError);
  }
});

test("errors have one class above them", () => {
  for (const Kind of [ParseError, FormatError]) assert.ok(Kind.prototype instanceof JadvolniError);
  assert.ok(JadvolniError.prototype instanceof Error);
});

test("an engine without 64-bit memory: the message says which have it", async ({ mock }) => {
  const lacking = { name: "JadvolniError", message: /Chromium has it from 133 on/ };
  mock.method(WebAssembly, "validate", () => false);
  await assert.rejects(import("../../bindings/js/memory.js?without"), lacking);
  const { WebAssembly: kept } = globalThis;
  globalThis.WebAssembly = undefined; // (as where it is forbidden)
  const loaded = import("../../bindings/js/memory.js?forbidden");
  await assert.rejects(loaded, lacking).finally(() => (globalThis.WebAssembly = kept));
});
