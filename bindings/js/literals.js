// Literals with their suffixes, and with the types that these name.

import { ofTable, described } from "./arguments.js";
import { STANDARD, useFormat } from "./format.js";
import * as memory from "./memory.js";
import { NUMBERS, stopOfCall } from "./numbers.js";
import { areNamed, formatOf } from "./options.js";

const { ANSWER, COUNT, ENTRY, FORMAT, NUMBER, TEXT } = memory;
const call = memory.named("jadvolni_parse_literal");
const callTyped = memory.named("jadvolni_parse_typed_literal");

// A suffix and its type, as words of 64 bits: where it is, how many bytes it has, and the number of the type.
const WORDS_OF_SUFFIX = 3;
const TYPES = ["u8", "u16", "u32", "u64", "u128", "usize", "i8", "i16", "i32", "i64", "i128", "isize"];
const NUMBERS_OF_TYPES = new Map(TYPES.map((type, index) => [type, BigInt(index + 1)]));

export function parseLiteral(text, options) {
  const format = formatOf("parseLiteral", options);
  const length = BigInt(memory.putText(text));
  useFormat(format === undefined ? STANDARD : format);
  call(ANSWER, TEXT, length, FORMAT, NUMBER, COUNT);
  const stop = stopOfCall();
  return { value: NUMBERS.u128(), suffix: memory.textBetween(memory.count(), stop), stop };
}

/** A table of suffixes as the library has it, at the end of the memory. */
function tableOf(suffixes) {
  if (!areNamed(suffixes)) throw new TypeError(`suffixes have to be an object, and not ${described(suffixes)}`);
  const entries = Object.entries(suffixes);
  const types = entries.map(([, type]) => ofTable(NUMBERS_OF_TYPES, "type", type));
  const texts = entries.map(([suffix]) => memory.bytesOf(suffix));
  const sizeOfWords = 8 * WORDS_OF_SUFFIX * entries.length;
  const bytes = new Uint8Array(texts.reduce((sum, text) => sum + text.length, sizeOfWords));
  const words = new BigUint64Array(bytes.buffer, 0, WORDS_OF_SUFFIX * entries.length);
  const place = memory.placeAtEnd(bytes.length);
  let next = sizeOfWords;
  texts.forEach((text, index) => {
    words.set([BigInt(place + next), BigInt(text.length), types[index]], WORDS_OF_SUFFIX * index);
    bytes.set(text, next);
    next += text.length;
  });
  return { entries, bytes, place };
}

// The tables that were made, by what they were made of.
const tables = new WeakMap();

/** Whether an object still has the entries that it had. */
function isSame(suffixes, entries) {
  const names = Object.keys(suffixes);
  return names.length === entries.length &&
    entries.every(([suffix, type], index) => names[index] === suffix && suffixes[suffix] === type);
}

/** The table of suffixes for an object, which is made once for one that doesn't change. */
function tableFor(suffixes) {
  const known = tables.get(suffixes);
  if (known !== undefined && isSame(suffixes, known.entries)) return known;
  const table = tableOf(suffixes);
  tables.set(suffixes, table);
  return table;
}

export function parseTypedLiteral(text, suffixes, options) {
  const format = formatOf("parseTypedLiteral", options);
  const { entries, bytes, place } = tableFor(suffixes);
  const length = BigInt(memory.putTextBefore(text, place));
  memory.putAt(bytes, place);
  useFormat(format === undefined ? STANDARD : format);
  callTyped(ANSWER, TEXT, length, FORMAT, BigInt(place), BigInt(entries.length), NUMBER, COUNT, ENTRY);
  const stop = stopOfCall();
  const [suffix, type] = entries[memory.entry()];
  return { value: NUMBERS[type](), suffix, type, stop };
}
