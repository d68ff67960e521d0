// Pieces of a text, which go through memory one behind the other, and the arrays behind them.

import * as memory from "./memory.js";

// A fifth of the memory is for text: each two bytes of it can give a number of eight bytes, in the rest.
export const PIECE = Math.floor(memory.LONGEST / 5);
export const numbersPlace = Math.ceil((memory.textPlace + PIECE) / 16) * 16;

/** The arrays of columns, by the types of their numbers. */
export const ARRAYS = {
  u8: Uint8Array,
  u16: Uint16Array,
  u32: Uint32Array,
  u64: BigUint64Array,
  i8: Int8Array,
  i16: Int16Array,
  i32: Int32Array,
  i64: BigInt64Array,
};

/** All parts joined into one array. */
export function joined(parts, NumberArray) {
  if (parts.length === 1) return parts[0];
  const all = new NumberArray(parts.reduce((sum, part) => sum + part.length, 0));
  let place = 0;
  for (const part of parts) {
    all.set(part, place);
    place += part.length;
  }
  return all;
}
