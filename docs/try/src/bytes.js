// Bytes as people type and read them: with the escapes of a Rust byte string.

const ESCAPES = { n: 10, r: 13, t: 9, 0: 0, "\\": 92, '"': 34, "'": 39 };
const ESCAPED = /\\(?:x([0-9a-fA-F]{2})|([nrt0\\"']))/g;
const utf8 = new TextEncoder();

/**
 * The bytes of what was typed: UTF-8, with the escapes `\n`, `\r`, `\t`, `\0`, `\\`, `\"`, `\'` and
 * `\x7f`. Any other backslash stands for itself.
 */
export function bytesOf(typed) {
  const pieces = [];
  let read = 0;
  for (const found of typed.matchAll(ESCAPED)) {
    const byte = found[1] === undefined ? ESCAPES[found[2]] : parseInt(found[1], 16);
    pieces.push(utf8.encode(typed.slice(read, found.index)), [byte]);
    read = found.index + found[0].length;
  }
  pieces.push(utf8.encode(typed.slice(read)));
  return Uint8Array.from(pieces.flatMap((piece) => [...piece]));
}

/** A text as a field of one line can have it, which drops line ends: these become escapes. */
export function inOneLine(text) {
  return text.replaceAll("\r", "\\r").replaceAll("\n", "\\n");
}

/** Whether a byte is a character of ASCII that can be seen, or a space. */
export function isPrintable(byte) {
  return byte >= 32 && byte < 127;
}

/** Two hexadecimal digits of a byte. */
export function hexadecimal(byte) {
  return byte.toString(16).padStart(2, "0");
}

/** A byte as it stands within quotes of Rust, Python and Rattle; the quote is escaped. */
export function escaped(byte, quote) {
  const character = String.fromCharCode(byte);
  if (character === quote || character === "\\") return `\\${character}`;
  return isPrintable(byte) ? character : `\\x${hexadecimal(byte)}`;
}
