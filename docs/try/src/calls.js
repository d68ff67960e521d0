// The call that the page makes, as each language writes it.
import { escaped, isPrintable } from "./bytes.js";

const OF_C = {
  u8: "uint8_t", u16: "uint16_t", u32: "uint32_t", u64: "uint64_t", u128: "jadvolni_uint128",
  usize: "size_t", i8: "int8_t", i16: "int16_t", i32: "int32_t", i64: "int64_t",
  i128: "jadvolni_int128", isize: "ptrdiff_t",
};
const NUL_BITS = {
  digit_separator: "JADVOLNI_NUL_IS_SEPARATOR",
  base_prefix: "JADVOLNI_NUL_IS_PREFIX",
  base_suffix: "JADVOLNI_NUL_IS_SUFFIX",
};

/** A value by its kind: what a flag, a radix, a byte or no byte is in a language. */
function valueIn(words, { kind, value }) {
  if (kind === "flag") return value ? words.yes : words.no;
  if (kind === "radix") return String(value);
  return value === null ? words.none : words.byte(value);
}

/** A byte within quotes of C, where a letter behind an octal escape is no part of it. */
function escapedInC(byte, quote) {
  if (byte === 63) return "\\?"; // (two of them begin a trigraph)
  return isPrintable(byte) ? escaped(byte, quote) : `\\${byte.toString(8).padStart(3, "0")}`;
}

function quotedInC(bytes) {
  return `"${Array.from(bytes, (byte) => escapedInC(byte, '"')).join("")}"`;
}

function quoted(bytes) {
  return `b"${Array.from(bytes, (byte) => escaped(byte, '"')).join("")}"`;
}

/** A string of JavaScript. What can't be seen, or changes how the line is shown, is escaped. */
function quotedText(text) {
  const characters = Array.from(text, (character) => {
    const code = character.codePointAt(0);
    return isPrintable(code) ? escaped(code, '"') : `\\u{${code.toString(16)}}`;
  });
  return `"${characters.join("")}"`;
}

/** Bytes as a string of JavaScript where they are UTF-8, and else as an array. */
function quotedInScript(bytes) {
  try {
    return quotedText(new TextDecoder("utf-8", { fatal: true, ignoreBOM: true }).decode(bytes));
  } catch {
    return `Uint8Array.of(${Array.from(bytes).join(", ")})`;
  }
}

const WORDS_OF_C = {
  yes: "1", no: "0", none: "0",
  byte: (byte) => (isPrintable(byte) ? `'${escapedInC(byte, "'")}'` : String(byte)),
};

/** The lines that change a format of C or C++. */
function changesInC(changes) {
  const lines = changes.map((it) => `format.${it.name} = ${valueIn(WORDS_OF_C, it)};`);
  const bits = changes.filter((it) => it.kind === "punctuation" && it.value === 0)
    .map((it) => NUL_BITS[it.name]);
  if (bits.length) lines.push(`format.nul_is_punctuation = ${bits.join(" | ")};`);
  return lines;
}

function inC({ bytes, type, call, base, changes }) {
  const under = Boolean(base || changes.length);
  const kind = call === "whole" ? "" : `_${call}`;
  const name = `jadvolni_parse_${type}${kind}${under ? "_with_format" : ""}`;
  const preset = `JADVOLNI_FORMAT_${base ? base.toUpperCase() : "STANDARD"}`;
  return [
    "#include <jadvolni.h>", "",
    `const char text[] = ${quotedInC(bytes)};`,
    ...(under ? [`jadvolni_format format = ${preset};`, ...changesInC(changes)] : []),
    `${OF_C[type]} value;`,
    `jadvolni_result r = ${name}(text, sizeof text - 1, ${under ? "&format, " : ""}&value);`,
  ];
}

function inCpp({ bytes, type, call, base, changes }) {
  const preset = base ? `jadvolni::formats::${base}` : "jadvolni::standard";
  const native = type.endsWith("128") ? OF_C[type].replace("_", "_native_") : `std::${OF_C[type]}`;
  const given = changes.length ? "format" : base && preset;
  const under = given ? `, ${given}` : "";
  const name = call === "whole" ? "parse" : `parse_${call}`;
  return [
    "#include <jadvolni.hpp>", "",
    "using namespace std::string_view_literals;",
    ...(changes.length ? [`auto format = ${preset};`, ...changesInC(changes)] : []),
    `auto r = jadvolni::${name}<${native}>(${quotedInC(bytes)}sv${under});`,
  ];
}

const WORDS_OF_RUST = {
  yes: "true", no: "false", none: "None",
  byte: (byte) => `Some(b'${escaped(byte, "'")}')`,
};

function settersOf(fields) {
  return fields.map((it) => `    .${it.name}(${valueIn(WORDS_OF_RUST, it)})`);
}

function inRust({ bytes, type, call, base, changes }) {
  const under = Boolean(base || changes.length);
  const name = `${call === "whole" ? "parse" : `parse_${call}`}${under ? "_with_format" : ""}`;
  const preset = `let format = Format::${base ? base.toUpperCase() : "STANDARD"}`;
  return [
    under ? `use jadvolni::{${name}, Format};` : `use jadvolni::${name};`, "",
    ...(under ? `${[preset, ...settersOf(changes)].join("\n")};`.split("\n") : []),
    `let answer = ${name}::<${type}>(${quoted(bytes)}${under ? ", &format" : ""});`,
  ];
}

const WORDS_OF_PYTHON = {
  yes: "True", no: "False", none: "None",
  byte: (byte) => quoted([byte]),
};

const PLACES = ["leading", "internal", "trailing"].map((it) => `integer_${it}_digit_separator`);
const BEHIND_PREFIX = "integer_prefix_digit_separator";
const PREFIXES = ["base_prefix", "literal_prefixes"];
/** What changes nothing unless one of other fields is set: Python's Format refuses it. */
const NEEDED = [
  ["digit_separator", [...PLACES, BEHIND_PREFIX]],
  ...PLACES.map((name) => [name, ["digit_separator"]]),
  ["integer_consecutive_digit_separator", ["digit_separator"]],
  [BEHIND_PREFIX, ["digit_separator"]],
  [BEHIND_PREFIX, PREFIXES],
  ["case_sensitive_base_prefix", PREFIXES],
  ["case_sensitive_base_suffix", ["base_suffix"]],
];
const LONE_SEPARATOR = "# Format takes no separator that may stand nowhere; with one, parse_partial"
  + " answers as this.";

/** Fields without those that change nothing. One that is left out may be what another one needs. */
function withEffect(fields) {
  const isSet = (name) => fields.some((it) => it.name === name && (it.value ?? false) !== false);
  const isIdle = ({ name }) => NEEDED.some(([of, needed]) => of === name && !needed.some(isSet));
  const left = fields.filter((it) => !isIdle(it));
  return left.length === fields.length ? left : withEffect(left);
}

/** Whether a format with these fields requires a digit. */
function requiresDigit(fields) {
  const valueOf = (name, standard) => fields.find((it) => it.name === name)?.value ?? standard;
  return valueOf("required_integer_digits", false) || valueOf("required_mantissa_digits", true);
}

/** The changes without fields that change nothing: those that the preset sets are cleared. */
function changesInPython({ base, changes, idle }) {
  const isIdle = ({ name }) => idle.some((it) => it.name === name);
  const isChanged = ({ name }) => changes.some((it) => it.name === name);
  const isClear = (it) => !base || (it.kind === "flag" && isChanged(it));
  const cleared = idle.filter((it) => !isClear(it))
    .map((it) => ({ ...it, value: it.kind === "flag" ? false : null }));
  return [...changes.filter((it) => !isIdle(it)), ...cleared];
}

function inPython({ bytes, type, call, base, changes, fields, isValid }) {
  // The fault of an invalid format comes before that of a field that changes nothing.
  const kept = isValid ? withEffect(fields) : fields;
  const idle = fields.filter((it) => !kept.includes(it));
  const left = changesInPython({ base, changes, idle });
  const given = left.map((it) => `${it.name}=${valueIn(WORDS_OF_PYTHON, it)}`);
  const preset = base && `jadvolni.formats.${base.toUpperCase()}`;
  const made = base ? `dataclasses.replace(${[preset, ...given].join(", ")})`
    : `jadvolni.Format(${given.join(", ")})`;
  const named = given.length ? "form" : preset;
  const under = named ? `, ${named}` : "";
  // A partial parse under any separator requires the digit even where the text goes on.
  const isFront = call === "partial" && idle.some((it) => it.name === "digit_separator")
    && requiresDigit(fields);
  const asked = isFront ? "front" : call;
  const name = asked === "whole" ? "parse" : `parse_${asked}`;
  const value = call === "whole" ? "value" : "value, place";
  return [
    ...(base && given.length ? ["import dataclasses"] : []),
    "import jadvolni",
    "",
    ...(isFront ? [LONE_SEPARATOR] : []),
    ...(given.length ? [`form = ${made}`] : []),
    `${value} = jadvolni.${name}(${quoted(bytes)}, "${type}"${under})`,
  ];
}

const WORDS_OF_SCRIPT = {
  yes: "true", no: "false", none: "null",
  byte: (byte) => (byte < 128 ? quotedText(String.fromCharCode(byte)) : String(byte)),
};

function inScript({ bytes, type, call, base, changes }) {
  const name = { whole: "parse", front: "parseFront", partial: "parsePartial" }[call];
  const preset = base && `formats.${base.toUpperCase()}`;
  const given = changes.map((it) => `${it.name}: ${valueIn(WORDS_OF_SCRIPT, it)}`);
  if (base) given.unshift(`...${preset}`);
  const made = changes.length ? [`const format = new Format({ ${given.join(", ")} });`] : [];
  const under = changes.length ? "format" : preset;
  const imports = [...(changes.length ? ["Format"] : []), ...(base ? ["formats"] : []), name];
  const value = call === "whole" ? "value" : "{ value, stop }";
  return [
    `import { ${imports.join(", ")} } from "jadvolni";`, "",
    ...made,
    `const ${value} = ${name}(${quotedInScript(bytes)}, "${type}"${under ? `, ${under}` : ""});`,
  ];
}

/** The line that imports names of the parser for Rattle, and an empty one. */
function used(names) {
  const braced = names.length > 1 ? `{${names.join(", ")}}` : names[0];
  return [`use lexical_parse_integer::${braced};`, ""];
}

/** Rattle's builder begins with the standard format: what a preset sets is written out. */
function inRattle({ bytes, type, call, base, changes, fields, isValid }) {
  const build = `    .${isValid ? "build_strict" : "build_unchecked"}();`;
  const preset = base ? [`let format = lexical_formats::${base}();`] : [];
  const made = changes.length
    ? ["let format = NumberFormatBuilder::new()", ...settersOf(fields), build]
    : preset;
  const under = made.length > 0;
  const builder = changes.length ? ["NumberFormatBuilder"] : [];
  if (call === "front") {
    const imports = [...builder, ...(under ? [] : ["format"]), "number_in_front"];
    const format = under ? "&format" : "&format::STANDARD";
    return [
      ...used(imports),
      ...made,
      `let answer = number_in_front::<${type}>(${quoted(bytes)}, ${format});`,
    ];
  }
  const name = `from_lexical${call === "partial" ? "_partial" : ""}${under ? "_with_options" : ""}`;
  const more = under ? ", &format, &options::STANDARD" : "";
  return [
    ...used(under ? ["FromLexicalWithOptions", ...builder, "options"] : ["FromLexical"]),
    ...made,
    `let answer = ${type}::${name}(${quoted(bytes)}${more});`,
  ];
}

const WRITERS = {
  C: inC, "C++": inCpp, Rust: inRust, Python: inPython, JavaScript: inScript, Rattle: inRattle,
};

/**
 * A call in a language of `CALLERS`. `wanted` has the text's `bytes`, the `type` and the `call`; as
 * `base` the name of the preset that the format is made from, "" for the standard one; the fields
 * that differ from it as `changes`, and those that differ from the standard format as `fields`,
 * each as `{ name, kind, value }`, where the value of punctuation is a byte or null; and `isValid`,
 * whether the format breaks no rule.
 */
export function callIn(caller, wanted) {
  return WRITERS[caller](wanted).join("\n");
}
