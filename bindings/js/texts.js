// Columns of texts: where each text stands, and its string as it is asked for.

import { described } from "./arguments.js";
import * as memory from "./memory.js";
import { joined, numbersPlace } from "./pieces.js";

const { TEXT } = memory;
const FOLDED = BigInt(numbersPlace);
const fold = memory.named("jadvolni_fold_quotes");

// Where a text stands, as words of 32 bits.
export const WORDS_OF_TEXT = 6;

/** What decodes the texts of a column. */
export function decoderOf(encoding = "utf-8") {
  try {
    if (typeof encoding === "string") return new TextDecoder(encoding, { ignoreBOM: true });
  } catch {
    // (it is refused below)
  }
  throw new TypeError(`encoding has to be one that TextDecoder has, and not ${described(encoding)}`);
}

/** Bytes with each doubled quote as one. */
function folded(bytes) {
  const length = BigInt(memory.putBytes(bytes));
  const size = fold(TEXT, length, FOLDED, length);
  return new Uint8Array(memory.buffer, numbersPlace, Number(size)).slice();
}

/** The texts of a column. It holds the bytes that were read, and copies a text as it is asked for. */
export class TextColumn {
  #bytes;
  #decoder;

  constructor(bytes, decoder, { starts, sizes, hasDoubledQuotes, present }) {
    this.#bytes = bytes;
    this.#decoder = decoder;
    Object.assign(this, { starts, sizes, hasDoubledQuotes, present });
    Object.freeze(this);
  }

  get length() {
    return this.starts.length;
  }

  bytesAt(row) {
    if (!Number.isInteger(row)) throw new TypeError(`row has to be an integer, and not ${described(row)}`);
    const at = row < 0 ? this.length + row : row;
    if (at < 0 || at >= this.length) return undefined;
    if (this.present?.[at] === 0) return null;
    const stop = this.starts[at] + this.sizes[at];
    if (stop > this.#bytes.length) throw memory.lostBytes("the text of the column");
    const text = this.#bytes.slice(this.starts[at], stop); // (what is shared between threads isn't decoded)
    return this.hasDoubledQuotes[at] ? folded(text) : text;
  }

  at(row) {
    const bytes = this.bytesAt(row);
    return bytes && this.#decoder.decode(bytes);
  }

  *[Symbol.iterator]() {
    for (let row = 0; row < this.length; row++) yield this.at(row);
  }
}

/** Where a call found the texts of a piece, with the bytes before the piece added. */
export function placesOf(words, count, before) {
  const starts = new Float64Array(count);
  const sizes = new Uint32Array(count);
  const hasDoubledQuotes = new Uint8Array(count);
  for (let row = 0, at = 0; row < count; row++, at += WORDS_OF_TEXT) {
    starts[row] = before + words[at];
    sizes[row] = words[at + 2];
    hasDoubledQuotes[row] = words[at + 4] & 1;
  }
  return { starts, sizes, hasDoubledQuotes };
}

/** Where the texts of all parts stand. */
export function joinedPlaces(parts) {
  const all = (name, NumberArray) => joined(parts.map((part) => part[name]), NumberArray);
  return {
    starts: all("starts", Float64Array),
    sizes: all("sizes", Uint32Array),
    hasDoubledQuotes: all("hasDoubledQuotes", Uint8Array),
  };
}
