// Numbers within bounds, with one fault that says the bounds and what was given.

import { writtenAs } from "./amounts.js";
import { ofTable, described } from "./arguments.js";
import { ParseError } from "./errors.js";
import { bytesOf } from "./memory.js";

// The least and the greatest number of each type.
const ENDS = new Map();
for (const [size, bits] of [["8", 8n], ["16", 16n], ["32", 32n], ["64", 64n], ["128", 128n], ["size", 64n]]) {
  ENDS.set(`u${size}`, [0n, (1n << bits) - 1n]);
  ENDS.set(`i${size}`, [-(1n << (bits - 1n)), (1n << (bits - 1n)) - 1n]);
}

/** A bound that was given. */
function boundOf(name, given) {
  if (given === undefined || Number.isSafeInteger(given) || typeof given === "bigint") return given;
  throw new TypeError(`${name} has to be a safe integer or a bigint, and not ${described(given)}`);
}

/** The bounds, if any are given, limited to the type: an end without a bound is the type's. */
export function boundsOf(type, given) {
  if (given.min === undefined && given.max === undefined) return undefined;
  const [least, greatest] = ofTable(ENDS, "type", type);
  const { min = least, max = greatest } = { min: boundOf("min", given.min), max: boundOf("max", given.max) };
  if (min > max) {
    throw new RangeError(`min has to be at most max, and ${described(min)} is more than ${described(max)}`);
  }
  return { min: min < least ? least : min, max: max > greatest ? greatest : max };
}

// At most this many bytes of a text are shown.
const MOST_SHOWN = 40;

/** A byte as a message shows it, by its number where it isn't printable ASCII. */
const shownByte = (byte) =>
  byte >= 0x20 && byte < 0x7f ? String.fromCharCode(byte) : `\\x${byte.toString(16).padStart(2, "0")}`;

/** A bound as a text would write it: of an amount with its point. */
function shownBound(bound, amount) {
  const { places, point } = amount === undefined ? { places: 0 } : writtenAs(amount);
  if (places === 0) return String(bound);
  const digits = String(bound < 0 ? -bound : bound).padStart(places + 1, "0");
  return `${bound < 0 ? "-" : ""}${digits.slice(0, -places)}${shownByte(point)}${digits.slice(-places)}`;
}

/** The fault of a text whose number, or amount, isn't within bounds. */
export function outOfBounds(text, { min, max }, amount) {
  const bytes = bytesOf(typeof text === "string" ? text.slice(0, MOST_SHOWN + 1) : text);
  const front = Array.from(bytes.subarray(0, MOST_SHOWN), shownByte).join("");
  const given = bytes.length > MOST_SHOWN ? `${front}..` : front;
  const [from, to] = [shownBound(min, amount), shownBound(max, amount)];
  return new ParseError(`${given} is not from ${from} to ${to}`, "OutOfBounds", 0, { min, max });
}

/** Whether a fault says that a number leaves its type. */
const isBeyond = (kind) => kind === "Overflow" || kind === "Underflow";

/**
 * The error for a text at fault, if bounds are given. If the text is a number, but not one of the type, as "-5" or
 * "70000", it is out of bounds: `beyond` makes that error. `wide` reads the text as the widest signed type to see this.
 */
export function faultBesideBounds(fault, wide, beyond) {
  let kind = "Ok";
  let other = fault;
  try {
    if (wide() >= 0n && !isBeyond(fault.kind)) return fault;
  } catch (error) {
    if (!(error instanceof ParseError)) throw error;
    ({ kind } = error);
    other = error;
  }
  if (kind === "Ok" || isBeyond(kind)) return beyond();
  return isBeyond(fault.kind) ? other : fault;
}
