// Formats: what a text may look like.

import { byteOf, ownFields, described } from "./arguments.js";
import { FormatError } from "./errors.js";
import { FIELDS, LANGUAGES } from "./lists.js";
import { FORMAT, named, putFormat } from "./memory.js";

FIELDS.forEach(Object.freeze);
Object.freeze(FIELDS);

const UNSET = { radix: 10, punctuation: null, flag: false };
const DEFAULTS = new Map(FIELDS.map(({ name, kind }) => [name, UNSET[kind]]));
DEFAULTS.set("required_mantissa_digits", true);

const NAMES = [...DEFAULTS.keys()];
const NUL_PLACE = FIELDS.length;
const faultOf = named("jadvolni_format_error");

/** The byte of a field. A radix that is no byte is refused as 0 is. */
function byteOfField({ name, kind }, value) {
  if (kind === "punctuation") return value === null ? 0 : byteOf(name, value);
  if (kind === "radix" && Number.isInteger(value)) return value === (value & 255) ? value : 0;
  if (kind === "flag" && typeof value === "boolean") return Number(value);
  const wanted = kind === "flag" ? "true or false" : "an integer";
  throw new TypeError(`${name} has to be ${wanted}, and not ${described(value)}`);
}

/** The format as the library has it. Which punctuation is the byte 0 itself, bits behind it say. */
function bytesOfFields(fields) {
  const bytes = new Uint8Array(32);
  let bit = 1;
  FIELDS.forEach((field, place) => {
    const value = fields[field.name];
    bytes[place] = byteOfField(field, value);
    if (field.kind !== "punctuation") return;
    if (value !== null && bytes[place] === 0) bytes[NUL_PLACE] |= bit;
    bit <<= 1;
  });
  return bytes;
}

let bytesWithin;

export class Format {
  #bytes;

  constructor(given = {}) {
    const fields = ownFields("a format", given, NAMES);
    for (const [name, value] of DEFAULTS) {
      this[name] = fields[name] === undefined ? value : fields[name];
    }
    this.#bytes = bytesOfFields(this);
    putFormat(this.#bytes);
    const status = faultOf(FORMAT);
    if (status !== 0) throw new FormatError(status);
    Object.freeze(this);
  }

  static {
    bytesWithin = (format) => (#bytes in format ? format.#bytes : undefined);
  }
}

/** The bytes of a format, as the library has it. */
export function bytesOfFormat(format) {
  const bytes = format instanceof Format ? bytesWithin(format) : undefined;
  if (bytes === undefined) {
    throw new TypeError(`format has to be a Format, and not ${described(format)}`);
  }
  return bytes;
}

/** Puts a format where calls find it. */
export function useFormat(format) {
  putFormat(bytesOfFormat(format));
}

export const STANDARD = new Format();

export const formats = Object.freeze(
  Object.fromEntries(LANGUAGES.map(([name, fields]) => [name, new Format(fields)])),
);
export { FIELDS };
