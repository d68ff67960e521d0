// Amounts: single ones, and columns of them, by hand; and descriptions that break a rule.
import assert from "node:assert/strict";
import { test } from "node:test";
import { Format, formats, parse, parseFront, parseTable } from "../../bindings/js/index.js";
import { outcomeOf } from "./answers.js";

const EURO = { places: 2, point: ",", group: "." };
const CENTS = { places: 2, takes_fewer: true };

test("whole texts", () => {
  const right = [
    ["-1.234,50", EURO, -123450n],
    ["1.2.3,45", EURO, 12345n],
    ["0,05", EURO, 5n],
    ["-0.05", CENTS, -5n],
    ["12.5", CENTS, 1250n],
    ["12", CENTS, 1200n],
    ["12", { places: 0 }, 12n],
    ["1:05", { places: 2, point: ":" }, 105n],
    ["1|05", { places: 2, point: 0x7c }, 105n],
    ["-9.223372036854775808", { places: 18 }, -(2n ** 63n)],
    ["+1.5", { places: 1, format: new Format({ required_mantissa_sign: true }) }, 15n],
    ["1_000.5", { places: 1, format: formats.ADA }, 10005n],
    ["1.5", { places: 1, group: null }, 15n],
  ];
  for (const [text, options, wanted] of right) assert.equal(parse(text, "i64", options), wanted, text);
  assert.equal(parse(Uint8Array.of(49, 46, 53), "u8", { places: 1 }), 15);
});

test("each type has amounts, up to its ends", () => {
  for (const [name, bits] of Object.entries({ 8: 8n, 16: 16n, 32: 32n, 64: 64n, 128: 128n, size: 64n })) {
    const half = 2n ** (bits - 1n);
    const ends = [[`u${name}`, 2n * half - 1n], [`i${name}`, half - 1n], [`i${name}`, -half]];
    for (const [type, end] of ends) {
      const write = (number) => `${number}`.replace(/.$/, ".$&");
      assert.equal(BigInt(parse(write(end), type, { places: 1 })), end);
      assert.deepEqual(parseFront(`${write(end)} EUR`, type, { places: 1 }),
        { value: bits > 32n ? end : Number(end), stop: `${end}`.length + 1 });
      const beyond = outcomeOf(() => parse(write(end + (end < 0n ? -1n : 1n)), type, { places: 1 }));
      assert.equal(beyond, `${end < 0n ? "Underflow" : "Overflow"}(${`${end}`.length})`);
    }
  }
});

test("faults of whole texts", () => {
  const wrong = [
    ["12.505", CENTS, "i64", "InvalidDigit(5)"],
    ["12.", CENTS, "i64", "Empty(3)"],
    ["12.5 ", CENTS, "i64", "InvalidDigit(4)"],
    ["12.5", { places: 2 }, "i64", "Empty(4)"],
    ["12", { places: 2 }, "i64", "Empty(2)"],
    ["12.0", { places: 0 }, "i64", "InvalidDigit(2)"],
    ["", CENTS, "i64", "Empty(0)"],
    ["2.56", { places: 2 }, "u8", "Overflow(3)"],
    ["3", CENTS, "u8", "Overflow(1)"],
    ["12,505", EURO, "i64", "InvalidDigit(5)"],
    ["12.50", EURO, "i64", "Empty(5)"],
    ["-1.5", { places: 1 }, "u8", "InvalidDigit(0)"],
  ];
  for (const [text, options, type, wanted] of wrong) {
    assert.equal(outcomeOf(() => parse(text, type, options)), wanted, text);
  }
});

test("fronts", () => {
  assert.deepEqual(parseFront("12.50 EUR", "i64", CENTS), { value: 1250n, stop: 5 });
  assert.deepEqual(parseFront("12. And", "u16", CENTS), { value: 1200, stop: 2 });
  // Of a stream, this isn't final, though it stops before the text's end.
  assert.deepEqual(parseFront("12.", "u16", CENTS), { value: 1200, stop: 2 });
  assert.deepEqual(parseFront("-1.234,50 EUR", "i32", EURO), { value: -123450, stop: 9 });
  assert.equal(outcomeOf(() => parseFront("12.505", "u16", CENTS)), "InvalidDigit(5)");
  assert.equal(outcomeOf(() => parseFront("EUR 12", "u16", CENTS)), "Empty(0)");
});

test("bounds are in units of the last place", () => {
  const bounds = { ...CENTS, min: 100, max: 200 };
  assert.equal(parse("1.5", "u8", bounds), 150);
  assert.throws(() => parse("0.99", "u8", bounds), { kind: "OutOfBounds", message: "0.99 is not from 1.00 to 2.00" });
  assert.throws(() => parse("99.00", "u8", bounds), { kind: "OutOfBounds", message: "99.00 is not from 1.00 to 2.00" });
  assert.equal(outcomeOf(() => parse("1.5x", "u8", bounds)), "InvalidDigit(3)");
  const small = (places) => ({ places, point: ",", takes_fewer: true, max: 5 });
  assert.throws(() => parse("0,200", "i8", small(3)), { message: "0,200 is not from -0,128 to 0,005", min: -128n, max: 5 });
  assert.throws(() => parse("-13", "i8", small(1)), { message: "-13 is not from -12,8 to 0,5" });
  assert.throws(() => parse("6", "i8", small(0)), { message: "6 is not from -128 to 5" });
  const strange = { places: 1, point: 255, max: 5 };
  assert.throws(() => parse(Uint8Array.of(49, 255, 50), "u8", strange), { message: "1\\xff2 is not from 0\\xff0 to 0\\xff5" });
});

test("columns of each type", () => {
  const arrays = {
    u8: Uint8Array, u16: Uint16Array, u32: Uint32Array, u64: BigUint64Array,
    i8: Int8Array, i16: Int16Array, i32: Int32Array, i64: BigInt64Array,
  };
  for (const [type, NumberArray] of Object.entries(arrays)) {
    const of = NumberArray.BYTES_PER_ELEMENT === 8 ? BigInt : Number;
    assert.deepEqual(parseTable("0.7\n1.0\n", [{ type, places: 1 }]), [NumberArray.of(of(7), of(10))]);
  }
});

test("a column has its own description", () => {
  const text = "day;what;amount;rate\r\n1;rent;-1.234,50;1.5\r\n2;;0,05;-2\r\n";
  const columns = { amount: { type: "i64", ...EURO }, day: "u8", rate: { type: "i16", places: 3, takes_fewer: true } };
  const table = { separator: ";", has_returns: true, header: true };
  assert.deepEqual(parseTable(text, columns, table), {
    amount: BigInt64Array.of(-123450n, 5n), day: Uint8Array.of(1, 2), rate: Int16Array.of(1500, -2000),
  });
  const sparse = [{ type: "i32", ...EURO, may_miss: true }];
  assert.deepEqual(parseTable("1,50\nNA\n-2,00\n", sparse, { separator: ";", missing: "NA" }),
    [{ numbers: Int32Array.of(150, 0, -200), present: Uint8Array.of(1, 0, 1) }]);
  const wrong = "day;amount\n1;12,505\n";
  assert.throws(() => parseTable(wrong, { amount: columns.amount }, { separator: ";", header: true }), {
    kind: "InvalidDigit", place: 18, message: 'line 2, "amount": "12,505": invalid digit at byte 5 of the cell',
  });
});

test("a description that breaks a rule", () => {
  const wrong = [
    [{ places: 39 }, "InvalidPlaces"],
    [{ places: -1 }, "InvalidPlaces"],
    [{ places: 258 }, "InvalidPlaces"],
    [{ places: 1e300 }, "InvalidPlaces"],
    [{ places: 2, point: "7" }, "InvalidPoint"],
    [{ places: 2, point: "-" }, "InvalidPoint"],
    [{ places: 2, group: "." }, "InvalidPoint"],
    [{ places: 2, group: "7" }, "InvalidDigitSeparator"],
    [{ places: 2, format: new Format({ mantissa_radix: 16 }) }, "InvalidFixedRadix"],
    [{ places: 0, format: new Format({ base_suffix: "d" }) }, "InvalidFixedAffix"],
    [{ places: 2, format: formats.C }, "InvalidFixedAffix"],
  ];
  for (const [options, kind] of wrong) {
    const refused = { name: "FormatError", kind };
    assert.throws(() => parse("1", "u8", options), refused);
    assert.throws(() => parseFront("1", "u8", options), refused);
    assert.throws(() => parseTable("1", [{ type: "u8", ...options }]), refused);
  }
  assert.equal(parse("0.00000000000000000000000000000000000001", "u8", { places: 38 }), 1);
  const message = "fixed-point numbers have to have at most 38 places";
  assert.throws(() => parse("1", "u8", { places: 39 }), { message });
});

test("wrong arguments", () => {
  const wrong = [
    [{ places: "2" }, 'places have to be an integer, and not "2"'],
    [{ places: 1.5 }, "places have to be an integer, and not 1.5"],
    [{ places: 2n }, "places have to be an integer, and not 2n"],
    [{ places: null }, "places have to be an integer, and not null"],
    [{ places: NaN }, "places have to be an integer, and not NaN"],
    [{ places: 2, point: "" }, /^point has to be one ASCII character or a byte/],
    [{ places: 2, point: null }, /^point has to be one ASCII character or a byte/],
    [{ places: 2, point: "\0" }, "point has to be another byte than 0"],
    [{ places: 2, group: "ab" }, /^group has to be one ASCII character or a byte/],
    [{ places: 2, group: ",", format: formats.ADA }, "group has to be left out where the format has a digit_separator"],
    [{ places: 2, takes_fewer: 1 }, "takes_fewer has to be true or false, and not 1"],
    [{ places: 2, format: {} }, "format has to be a Format, and not Object"],
    [{ point: "," }, "point has to be left out where there are no places"],
    [{ group: "," }, "group has to be left out where there are no places"],
    [{ takes_fewer: true }, "takes_fewer has to be left out where there are no places"],
  ];
  for (const [options, message] of wrong) {
    const refused = { name: "TypeError", message };
    assert.throws(() => parse("1", "u8", options), refused);
    assert.throws(() => parseFront("1", "u8", options), refused);
    assert.throws(() => parseTable("1", [{ type: "u8", ...options }]), refused);
  }
  const known = { name: "TypeError", message: 'parse has no option "takesFewer", but "takes_fewer"' };
  assert.throws(() => parse("1", "u8", { places: 2, takesFewer: true }), known);
  const narrow = { name: "TypeError", message: /^type has to be one of/ };
  assert.throws(() => parseTable("1.00", [{ type: "i128", places: 2 }]), narrow);
  assert.equal(parse("12", "u8"), 12); // (a format that was put before is no format of this call)
});
