// What the page shows, and the fragment of its address that says the same.
import { inOneLine } from "./bytes.js";

/** The calls: the name in the fragment, and what the page calls it. */
export const CALLS = [
  { name: "whole", title: "the whole text" },
  { name: "front", title: "the number in front of it" },
  { name: "partial", title: "the same, where no digit has to be there" },
];

/** The types. */
export const TYPES = [
  "u8", "u16", "u32", "u64", "u128", "usize", "i8", "i16", "i32", "i64", "i128", "isize",
];

/** The languages in which a call is written. */
export const CALLERS = ["C", "C++", "Rust", "Python", "JavaScript", "Rattle"];

/** The most characters of a text that are read, and fit in an address. */
export const LONGEST = 100000;

/** What the page shows where its address says nothing. */
export const FIRST = {
  text: "18446744073709551616", type: "u64", call: "whole", format: "", fields: {}, caller: "C",
};

const FLAGS = new Map([["0", false], ["1", true]]);

/** A field's value as the fragment has it, or undefined where it means nothing. */
function fieldOf(kind, written) {
  if (kind === "flag") return FLAGS.get(written);
  if (kind === "punctuation") return inOneLine(written);
  return /^[0-9]{1,3}$/.test(written) && Number(written) < 256 ? Number(written) : undefined;
}

/** The named value if it is one of those that there are, and else the first one. */
function oneOf(names, written, first) {
  return names.includes(written) ? written : first;
}

/**
 * The state that a fragment says. What it doesn't say, or says wrongly, is as in `FIRST`; what
 * nobody knows is passed over. `known` has the names of presets as `formats`, and the `fields` of a
 * format.
 */
export function stateOf(fragment, known) {
  const written = new URLSearchParams(fragment.replace(/^#/, ""));
  const fields = {};
  for (const { name, kind } of known.fields) {
    const value = written.has(name) ? fieldOf(kind, written.get(name)) : undefined;
    if (value !== undefined) fields[name] = value;
  }
  return {
    text: inOneLine(written.get("text") ?? FIRST.text),
    type: oneOf(TYPES, written.get("type"), FIRST.type),
    call: oneOf(CALLS.map((it) => it.name), written.get("call"), FIRST.call),
    format: oneOf(known.formats, written.get("format"), FIRST.format),
    fields,
    caller: oneOf(CALLERS, written.get("caller"), FIRST.caller),
  };
}

/** The fragment that says a state, without its `#`. */
export function fragmentOf(state) {
  const written = new URLSearchParams({ text: state.text, type: state.type, call: state.call });
  if (state.format) written.set("format", state.format);
  for (const [name, value] of Object.entries(state.fields)) {
    written.set(name, typeof value === "boolean" ? String(Number(value)) : String(value));
  }
  if (state.caller !== FIRST.caller) written.set("caller", state.caller);
  return written.toString();
}
