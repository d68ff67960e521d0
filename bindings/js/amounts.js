// Amounts: fixed-point numbers, in units of the last place.

import { byteOf, flagOf, described } from "./arguments.js";
import { FormatError } from "./errors.js";
import { bytesOfFormat, Format, STANDARD } from "./format.js";
import { FORMAT, named, putFormat } from "./memory.js";

/** The options that describe amounts, besides the format of their integer part. */
export const AMOUNT_FIELDS = ["places", "point", "group", "takes_fewer"];

const faultOf = named("jadvolni_fixed_error");

/** The format of the integer part: `format`, and if `group` is given, with that byte as a separator between digits. */
function integerPart(format, group) {
  if (group === undefined || group === null) return format;
  const digit_separator = byteOf("group", group);
  if (format.digit_separator !== null) {
    throw new TypeError("group has to be left out where the format has a digit_separator");
  }
  return new Format({ ...format, digit_separator, integer_internal_digit_separator: true });
}

/** The byte before the fraction. It can't be 0, which the library reads as a full stop. */
function pointOf(point = ".") {
  const byte = byteOf("point", point);
  if (byte === 0) throw new TypeError("point has to be another byte than 0");
  return byte;
}

/** The bytes of a `jadvolni_fixed` for these options; undefined if no places are given. */
export function amountOf(given) {
  const { places, point, group, takes_fewer, format = STANDARD } = given;
  if (places === undefined) {
    const other = AMOUNT_FIELDS.find((name) => given[name] !== undefined);
    if (other !== undefined) throw new TypeError(`${other} has to be left out where there are no places`);
    return undefined;
  }
  if (!Number.isInteger(places)) {
    throw new TypeError(`places have to be an integer, and not ${described(places)}`);
  }
  bytesOfFormat(format);
  const amount = new Uint8Array(48);
  amount.set(bytesOfFormat(integerPart(format, group)));
  // (places beyond a byte become 255, which the library refuses as too many)
  amount.set([pointOf(point), places === (places & 255) ? places : 255, flagOf("takes_fewer", takes_fewer)], 32);
  putFormat(amount);
  const status = faultOf(FORMAT);
  if (status !== 0) throw new FormatError(status);
  return amount;
}

/** The places and the point of a `jadvolni_fixed`. */
export const writtenAs = (amount) => ({ point: amount[32], places: amount[33] });
