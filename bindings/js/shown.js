// Texts as messages show them.

// What a message shows by a number or a letter: quotes, and what one can't see as what it is.
const UNSEEN = /["\\]|(?! )[\p{C}\p{Z}]/gu;
const ESCAPES = { '"': '\\"', "\\": "\\\\", "\t": "\\t", "\n": "\\n", "\r": "\\r" };
const strict = new TextDecoder("utf-8", { fatal: true, ignoreBOM: true });

const hexadecimal = (code) => code.toString(16).padStart(2, "0");

/** A character that one can't see, as a string constant has it. */
function escaped(character) {
  const code = character.codePointAt(0);
  const byNumber = code < 256 ? `\\x${hexadecimal(code)}` : `\\u{${hexadecimal(code)}}`;
  return ESCAPES[character] ?? byNumber;
}

/** A text within quotes. */
export const quoted = (text) => `"${text.replace(UNSEEN, escaped)}"`;

/** The text of bytes, of which at most `most` are shown: a character that isn't whole in them is left out. */
export function frontOf(bytes, most) {
  const decoder = new TextDecoder("utf-8", { ignoreBOM: true });
  return decoder.decode(bytes.slice(0, most), { stream: bytes.length > most });
}

/** The character that bytes begin with, or undefined where they are no UTF-8. */
function characterOf(bytes) {
  for (let size = 1; size <= Math.min(4, bytes.length); size++) {
    try {
      return strict.decode(bytes.slice(0, size));
    } catch {
      // (one more byte may make it a character)
    }
  }
  return undefined;
}

/** Bytes within quotes, at most `most` of them, and by a number what is no UTF-8. */
export function quotedBytes(bytes, most) {
  const dots = bytes.length > most ? ".." : "";
  const front = frontOf(bytes, most);
  if (!front.includes("\ufffd")) return `${quoted(front)}${dots}`;
  let all = "";
  for (let at = 0, size = 1; at < Math.min(most, bytes.length); at += size) {
    const character = characterOf(bytes.subarray(at));
    size = character === undefined ? 1 : new TextEncoder().encode(character).length;
    if (at + size > most) break;
    all += character === undefined ? `\\x${hexadecimal(bytes[at])}` : character.replace(UNSEEN, escaped);
  }
  return `"${all}"${dots}`;
}
