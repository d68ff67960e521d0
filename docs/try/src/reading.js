// What the library answers of a state. No text is read here: which part of it each byte is, the
// proved parser tells, asked on parts of the text and under formats with fields taken away.
import { bytesOf, escaped } from "./bytes.js";
import {
  FIELDS,
  Format,
  FormatError,
  formats,
  ParseError,
  parse,
  parseFront,
  parsePartial,
} from "../../../bindings/js/index.js";
import { LONGEST } from "./state.js";

const CALLS = { whole: parse, front: parseFront, partial: parsePartial };
const STANDARD = plainOf(new Format());

/** What forbids or requires something, and moves no part of a text. */
const PERMISSIVE = {
  required_integer_digits: false,
  required_mantissa_digits: false,
  no_positive_mantissa_sign: false,
  required_mantissa_sign: false,
  no_integer_leading_zeros: false,
};
const RUN_FLAGS = FIELDS.map((it) => it.name).filter((it) => it.endsWith("_digit_separator"));
const ZERO = 48;
const TEN = [49, 48];

/** A control has something that it can't have: the text, where no field is named. */
export class Unfit extends Error {
  constructor(field, message) {
    super(message);
    this.field = field;
  }
}

/** The fields of a format, with punctuation as bytes. */
function plainOf(format) {
  const byteOf = (value) => (typeof value === "string" ? value.charCodeAt(0) : value);
  return Object.fromEntries(FIELDS.map(({ name }) => [name, byteOf(format[name])]));
}

/** The fields that a state's format begins with. */
export function baseOf(state) {
  return state.format ? plainOf(formats[state.format.toUpperCase()]) : STANDARD;
}

/** The byte of punctuation that was typed, null where there is none. */
function punctuationOf(name, typed) {
  const { length, 0: byte = null } = bytesOf(typed);
  if (length > 1) throw new Unfit(name, `${name} has to be one byte, and this has ${length}`);
  return byte;
}

/** Punctuation as one types it. */
export function typedOf(byte) {
  return byte === null ? "" : escaped(byte, "");
}

/** The fields of a state's format. */
function fieldsOf(state) {
  const fields = { ...baseOf(state) };
  for (const { name, kind } of FIELDS) {
    const given = state.fields[name];
    if (given === undefined) continue;
    fields[name] = kind === "punctuation" ? punctuationOf(name, given) : given;
  }
  return fields;
}

/** The fields in which two formats differ, in the order of the first one's. */
function differing(fields, others) {
  return FIELDS.filter(({ name }) => fields[name] !== others[name])
    .map(({ name, kind }) => ({ name, kind, value: fields[name] }));
}

/** What a call answers: `value` and `stop`, or the `kind` and `place` of a fault of the text. */
function answerOf(call, bytes, type, fields) {
  try {
    const answer = call(bytes, type, new Format(fields));
    return call === parse ? { value: answer, stop: bytes.length } : answer;
  } catch (fault) {
    if (!(fault instanceof ParseError)) throw fault;
    return { kind: fault.kind, place: fault.place };
  }
}

/** Where the numeral ends, by an answer under a format without suffix: a digit too many is last. */
function endOf(answer) {
  const isRange = answer.kind === "Overflow" || answer.kind === "Underflow";
  return answer.stop ?? answer.place + Number(isRange);
}

/** The parts of the numeral: separators are those bytes of it that are no digits. */
function partsOfNumeral(bytes, from, to, separator) {
  const parts = [];
  for (let at = from; at < to; at += 1) {
    const role = bytes[at] === separator ? "separator" : "digit";
    const last = parts.at(-1);
    if (last?.role === role) last.to = at + 1;
    else parts.push({ role, from: at, to: at + 1 });
  }
  return parts;
}

/** The effective radix from a place on, which is what `10` is worth there: a zero may choose it. */
function radixAt(bytes, from, type, fields) {
  const zero = bytes[from] === ZERO ? [ZERO] : [];
  const asked = Uint8Array.of(...bytes.subarray(0, from), ...zero, ...TEN);
  const { value } = answerOf(parsePartial, asked, type, fields);
  return Math.abs(Number(value));
}

/** The flags without which the numeral would end earlier: they let its separators pass. */
function flagsThatPass(bytes, end, type, fields) {
  const endWithout = (name) => endOf(
    answerOf(parsePartial, bytes.subarray(0, end), type, { ...fields, [name]: false }),
  );
  return RUN_FLAGS.filter((name) => fields[name] && endWithout(name) < end);
}

/**
 * The parts of a text under a valid format, in their order: each has its `role` (sign, prefix,
 * digit, separator, suffix or rest) and the places from which and to which it goes. All behind a
 * digit with which the number leaves its type is rest, since no answer depends on it. `radix` is the
 * effective one, and `flags` are those that let separators pass.
 */
export function partsOf(bytes, type, fields) {
  const permissive = { ...fields, ...PERMISSIVE };
  const bare = { ...permissive, base_suffix: null };
  const answer = (length, under) => answerOf(parsePartial, bytes.subarray(0, length), type, under);
  const required = { required_mantissa_sign: true, required_mantissa_digits: false };
  const signed = answer(1, required).stop === 1 ? 1 : 0;
  const front = answer(signed + 2, permissive);
  const begin = front.kind === "Empty" ? signed + 2 : signed;
  const end = endOf(answer(bytes.length, bare));
  const stop = Math.max(end, answer(bytes.length, permissive).stop ?? end);
  const parts = [
    { role: "sign", from: 0, to: signed },
    { role: "prefix", from: signed, to: begin },
    ...partsOfNumeral(bytes, begin, end, fields.digit_separator),
    { role: "suffix", from: end, to: stop },
    { role: "rest", from: stop, to: bytes.length },
  ].filter((part) => part.from < part.to);
  const has = (role) => parts.some((part) => part.role === role);
  return {
    parts,
    radix: has("digit") ? radixAt(bytes, begin, type, bare) : null,
    flags: has("separator") ? flagsThatPass(bytes, end, type, bare) : [],
  };
}

/** An answer as Rust writes it. */
function writtenOf(call, answer) {
  const { kind, place } = answer;
  if (kind) return place === undefined ? `Err(${kind})` : `Err(${kind}(${place}))`;
  return call === "whole" ? `Ok(${answer.value})` : `Ok((${answer.value}, ${answer.stop}))`;
}

/**
 * What the library answers of a state: the `bytes` of the text, the `fields` of the format, those
 * that differ from the preset as `changes` and from the standard format as `settings`, the `answer`,
 * how Rust writes it as `written`, and what `partsOf` answers. An invalid format has no parts, and
 * its answer is a `kind` with a `message`. Throws `Unfit` where the state says no format, or its
 * text is too long.
 */
export function reading(state) {
  const { call, type } = state;
  const { length } = state.text;
  if (length > LONGEST) {
    throw new Unfit("", `The page reads ${LONGEST} characters at most, and this has ${length}.`);
  }
  const bytes = bytesOf(state.text);
  const fields = fieldsOf(state);
  const changes = differing(fields, baseOf(state));
  const found = { bytes, fields, changes, settings: differing(fields, STANDARD) };
  try {
    const answer = answerOf(CALLS[call], bytes, type, fields);
    return { ...found, answer, written: writtenOf(call, answer), ...partsOf(bytes, type, fields) };
  } catch (fault) {
    if (!(fault instanceof FormatError)) throw fault;
    const answer = { kind: fault.kind, message: fault.message };
    const noParts = { parts: [], flags: [], radix: null };
    return { ...found, answer, written: writtenOf(call, answer), ...noParts };
  }
}
