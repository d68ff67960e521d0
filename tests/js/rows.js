// The test vectors of tools/rows.txt and tools/languages.txt, whose heads say how a row looks.
import { readFileSync } from "node:fs";

const TOOLS = new URL("../../tools/", import.meta.url);
const PIECE = /"((?:[^"\\]|\\.)*)"(?:\*(\d+))?/g;
const ESCAPES = { '"': 34, "\\": 92, 0: 0, t: 9, r: 13, n: 10 };

function linesOf(name) {
  const lines = readFileSync(new URL(name, TOOLS), "utf8").split("\n");
  return lines.map((line, index) => ({ line, at: `tools/${name}:${index + 1}` }));
}

/** The names and kinds of fields by the words that rows have for them. */
const FIELDS = new Map(
  linesOf("fields.txt")
    .filter(({ line }) => line && !line.startsWith("#"))
    .map(({ line }) => {
      const [name, kind, word] = line.split(" | ");
      return [word, { name, kind }];
    }),
);

/** A field as a row says it, as its name and value; punctuation is a byte. */
function fieldOf(written) {
  if (written === "digits-optional") return ["required_mantissa_digits", false];
  const [word] = written.split("=");
  const value = written.slice(word.length + 1);
  const { name, kind } = FIELDS.get(word);
  if (kind === "flag") return [name, true];
  const isNumber = kind === "radix" || /^0x[0-9a-f]{2}$/.test(value);
  return [name, isNumber ? Number(value) : value.charCodeAt(0)];
}

function fieldsOf(written) {
  return written === "standard" ? {} : Object.fromEntries(written.split(" ").map(fieldOf));
}

/** The bytes of what stands between quotes: each character is a byte. */
function bytesOfPiece(quoted) {
  const bytes = [];
  for (const [written, escape] of quoted.matchAll(/\\(x[0-9a-f]{2}|.)|[^]/g)) {
    if (escape === undefined) bytes.push(written.charCodeAt(0));
    else bytes.push(escape.length > 1 ? parseInt(escape.slice(1), 16) : ESCAPES[escape]);
  }
  return bytes;
}

function textOf(written) {
  const pieces = Array.from(written.matchAll(PIECE), ([, quoted, times = 1]) => {
    const piece = Uint8Array.from(bytesOfPiece(quoted));
    return Buffer.alloc(piece.length * times, piece);
  });
  return new Uint8Array(Buffer.concat(pieces));
}

/**
 * The rows: where each stands, its `parser` ("complete", "partial", or "format", which has no type
 * and no text), the `language` whose format it names, "" where it has fields, these `fields` over the
 * standard format, with punctuation as bytes, the `type`, the bytes of the `text`, and the `answer`
 * by its `name` and `numbers`.
 */
export function rows() {
  const found = [];
  const formats = new Map();
  for (const { line, at } of [...linesOf("languages.txt"), ...linesOf("rows.txt")]) {
    const columns = line.replace(/ # .*$/, "").split(" | ").map((column) => column.trim());
    if (columns[0] === "fields") formats.set(columns[1], fieldsOf(columns[2]));
    if (!["complete", "partial", "format"].includes(columns[0])) continue;
    if (columns.at(-1) === "long") columns.pop();
    const [parser, format, ...asked] = columns;
    const [, name, numbers = ""] = asked.pop().match(/^(\w+)(?:\((.*)\))?$/);
    const isNamed = formats.has(format);
    found.push({
      at,
      parser,
      language: isNamed ? format : "",
      fields: isNamed ? formats.get(format) : fieldsOf(format),
      type: asked[0] ?? "",
      text: textOf(asked[1] ?? ""),
      answer: { name, numbers: numbers ? numbers.split(", ").map(BigInt) : [] },
    });
  }
  return found;
}
