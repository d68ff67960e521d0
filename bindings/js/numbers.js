// One number, of any of the twelve types.

import { AMOUNT_FIELDS, amountOf } from "./amounts.js";
import { ofTable } from "./arguments.js";
import { boundsOf, faultBesideBounds, outOfBounds } from "./bounds.js";
import { faultOfText, ParseError } from "./errors.js";
import { STANDARD, useFormat } from "./format.js";
import * as memory from "./memory.js";
import { areNamed, formatOf, namedOptions } from "./options.js";

const { ANSWER, FORMAT, NUMBER, TEXT } = memory;

/** The place at which the last call stopped. Throws the fault that it found. */
export function stopOfCall() {
  const status = memory.status();
  if (status !== 0) throw faultOfText(status, memory.place());
  return memory.place();
}

/** A function that calls the library on a text, for a type, and returns where that stops. It leaves a number there. */
function callOf(name) {
  const call = memory.named(`jadvolni_parse_${name}`);
  const callUnderFormat = memory.named(`jadvolni_parse_${name}_with_format`);
  return (text, format) => {
    const length = BigInt(memory.putText(text));
    if (format === undefined) {
      call(ANSWER, TEXT, length, NUMBER);
    } else {
      useFormat(format);
      callUnderFormat(ANSWER, TEXT, length, FORMAT, NUMBER);
    }
    return stopOfCall();
  };
}

/** The same on an amount: its description takes the format's place. */
function callOfAmount(name) {
  const call = memory.named(`jadvolni_parse_${name}`);
  return (text, amount) => {
    const length = BigInt(memory.putText(text));
    memory.putFormat(amount);
    call(ANSWER, TEXT, length, FORMAT, NUMBER);
    return stopOfCall();
  };
}

/** A function that returns the number of the last call. */
function numberOf(NumberArray) {
  const left = memory.numberAs(NumberArray);
  return () => left[0];
}

/** The same for 128 bits: the array's type is that of the high half, which has the sign. */
function numberOfHalves(HalfArray) {
  const low = memory.numberAs(BigUint64Array);
  const halves = memory.numberAs(HalfArray, 2);
  return () => (halves[1] << 64n) | low[0];
}

/** The number that a call has left, by its type. */
export const NUMBERS = {
  u8: numberOf(Uint8Array),
  u16: numberOf(Uint16Array),
  u32: numberOf(Uint32Array),
  u64: numberOf(BigUint64Array),
  u128: numberOfHalves(BigUint64Array),
  usize: numberOf(BigUint64Array),
  i8: numberOf(Int8Array),
  i16: numberOf(Int16Array),
  i32: numberOf(Int32Array),
  i64: numberOf(BigInt64Array),
  i128: numberOfHalves(BigInt64Array),
  isize: numberOf(BigInt64Array),
};

const TYPES = new Map(
  Object.entries(NUMBERS).map(([name, number]) => [
    name,
    {
      parse: callOf(name),
      parseFront: callOf(`${name}_front`),
      parsePartial: callOf(`${name}_partial`),
      parseAmount: callOfAmount(`${name}_fixed`),
      parseAmountFront: callOfAmount(`${name}_fixed_front`),
      number,
    },
  ]),
);

/** The number of a whole text, which may be an amount. */
function numberOfWhole(text, type, format, amount) {
  const calls = ofTable(TYPES, "type", type);
  if (amount === undefined) calls.parse(text, format);
  else calls.parseAmount(text, amount);
  return calls.number();
}

/** The number of a whole text within bounds. */
function numberWithin(text, type, format, amount, bounds) {
  const beyond = () => outOfBounds(text, bounds, amount);
  let number;
  try {
    number = numberOfWhole(text, type, format, amount);
  } catch (fault) {
    if (!(fault instanceof ParseError)) throw fault;
    throw faultBesideBounds(fault, () => numberOfWhole(text, "i128", format, amount), beyond);
  }
  if (number < bounds.min || number > bounds.max) throw beyond();
  return number;
}

export function parse(text, type, options) {
  if (options === undefined || !areNamed(options)) return numberOfWhole(text, type, options);
  const named = namedOptions("parse", options, ["format", "min", "max", ...AMOUNT_FIELDS]);
  const bounds = boundsOf(type, named);
  const amount = amountOf(named);
  return bounds === undefined
    ? numberOfWhole(text, type, named.format, amount)
    : numberWithin(text, type, named.format, amount, bounds);
}

export function parseFront(text, type, options) {
  const calls = ofTable(TYPES, "type", type);
  const named = areNamed(options)
    ? namedOptions("parseFront", options, ["format", ...AMOUNT_FIELDS])
    : { __proto__: null, format: options };
  const amount = amountOf(named);
  const stop = amount === undefined ? calls.parseFront(text, named.format) : calls.parseAmountFront(text, amount);
  return { value: calls.number(), stop };
}

export function parsePartial(text, type, options) {
  const calls = ofTable(TYPES, "type", type);
  const stop = calls.parsePartial(text, formatOf("parsePartial", options));
  return { value: calls.number(), stop };
}
