// How a table is written, and what is read of each column, as a caller gives them.

import { AMOUNT_FIELDS, amountOf } from "./amounts.js";
import { byteOf, flagOf, ofTable, ownFields, described } from "./arguments.js";
import { bytesOfFormat, STANDARD } from "./format.js";
import { FLAGS } from "./layout.js";
import { bytesOf } from "./memory.js";
import { ARRAYS } from "./pieces.js";
import { decoderOf } from "./texts.js";

const FIELDS = ["separator", ...FLAGS, "missing", "widths", "header", "onError", "errors"];
const FIELDS_OF_COLUMN = ["type", "format", ...AMOUNT_FIELDS, "encoding", "may_miss"];
const TYPES_OF_COLUMNS = new Map([...Object.entries(ARRAYS), ["text", null]]);
const SKIPS = new Map([["throw", false], ["skip", true]]);

/** What is read of a column of texts. */
function readOfTexts(fields) {
  const other = ["format", ...AMOUNT_FIELDS].find((name) => fields[name] !== undefined);
  if (other !== undefined) throw new TypeError(`${other} has to be left out where the type is "text"`);
  return { type: "text", NumberArray: null, format: [], decoder: decoderOf(fields.encoding) };
}

/** What is read of a column of numbers, of which the format stands in front of what makes it one of amounts. */
function readOfNumbers(fields, NumberArray) {
  const { type, encoding, format = STANDARD } = fields;
  if (encoding !== undefined) throw new TypeError('encoding has to be left out where the type isn\'t "text"');
  return { type, NumberArray, format: amountOf(fields) ?? bytesOfFormat(format) };
}

/** What is read of a column that a caller has described. */
export function readOf(column) {
  if (column === null) return null;
  const fields = typeof column === "object"
    ? ownFields("a column", column, FIELDS_OF_COLUMN)
    : { __proto__: null, type: column };
  const NumberArray = ofTable(TYPES_OF_COLUMNS, "type", fields.type);
  const read = NumberArray ? readOfNumbers(fields, NumberArray) : readOfTexts(fields);
  return { ...read, mayMiss: flagOf("may_miss", fields.may_miss) };
}

/** How many bytes a cell has. */
function widthOf(width) {
  if (Number.isSafeInteger(width) && width >= 0) return BigInt(width);
  throw new TypeError(`a width has to be a safe integer of 0 or more, and not ${described(width)}`);
}

/** The width of each column's cells; none where these stand between separators. If a header gives the number
 * of columns, there is a width for each. */
function widthsOf({ separator, is_records, widths }, count) {
  if (widths === undefined) {
    if (is_records) throw new TypeError("a table that is_records has to have widths");
    return [];
  }
  if (separator !== undefined) throw new TypeError("a table with widths has no separator");
  if (!Array.isArray(widths)) {
    throw new TypeError(`widths have to be an array, and not ${described(widths)}`);
  }
  const sizes = Array.from(widths, widthOf);
  if (sizes.length !== (count ?? sizes.length) || sizes.length === 0) {
    if (count === undefined) throw new TypeError("widths have to be one for each column, and not 0");
    throw new TypeError(`widths have to be one for each of ${count} columns, and not ${sizes.length}`);
  }
  return sizes;
}

/** Whether bad rows are skipped, and who receives each. */
function atFault({ onError = "throw", errors }) {
  const skips = ofTable(SKIPS, "onError", onError);
  if (errors === undefined) return { skips, tell: undefined };
  if (!skips) throw new TypeError('errors has to be left out unless onError is "skip"');
  if (typeof errors === "function") return { skips, tell: (error) => errors(error) };
  if (Array.isArray(errors)) return { skips, tell: (error) => errors.push(error) };
  throw new TypeError(`errors has to be an array or a function, and not ${described(errors)}`);
}

/** How a table with these columns is written, what stands for a missing number, and what is done at a fault. */
export function tableOf(given, count) {
  const fields = ownFields("a table", given, FIELDS);
  const flags = FLAGS.map((name) => [name, flagOf(name, fields[name])]);
  const separator = byteOf("separator", fields.separator === undefined ? "," : fields.separator);
  const widths = widthsOf(fields, count);
  return {
    ...Object.fromEntries(flags),
    ...atFault(fields),
    bytes: [separator, ...flags.map(([, flag]) => Number(flag))],
    header: flagOf("header", fields.header),
    missing: bytesOf(fields.missing === undefined ? "" : fields.missing, "missing").slice(),
    recordSize: fields.is_records ? Math.max(1, Number(widths.reduce((sum, it) => sum + it, 0n))) : undefined,
    separator,
    widths,
    unit: "row",
  };
}
