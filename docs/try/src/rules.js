// Which rule of the grammar explains each part of a text and its answer, in a sentence with a link.
import { typedOf } from "./reading.js";

/** The headings of GRAMMAR.md that rules link to. */
export const HEADINGS = {
  digits: "Digits",
  sign: "The sign",
  prefix: "The prefix",
  literal: "Literal prefixes",
  octal: "Octal zeros",
  separators: "Separators",
  value: "The numeral and its value",
  range: "Values outside the type",
  zeros: "Leading zeros",
  suffix: "The suffix, and where reading stops",
  required: "Required digits",
  partial: "The partial parser",
  formats: "Valid formats",
};

/** The address of a heading. */
export function addressOf(rule) {
  const anchor = HEADINGS[rule].toLowerCase().replace(/[^\w\- ]/g, "").replaceAll(" ", "-");
  return `GRAMMAR.html#${anchor}`;
}

function hasPart(found, role) {
  return found.parts.some((part) => part.role === role);
}

function ofPrefix(found) {
  if (!found.fields.literal_prefixes) {
    return { rule: "prefix", says: "A zero and the prefix. They don't change the radix." };
  }
  const { radix } = found;
  const chosen = radix === null ? "the radix" : `the radix ${radix}`;
  return { rule: "literal", says: `A literal prefix, which selects ${chosen}.` };
}

function ofDigits(found) {
  const isOctal = found.fields.literal_octal_zero && found.radix === 8 && !hasPart(found, "prefix");
  if (isOctal) return { rule: "octal", says: "Digits of radix 8, because of the zero in front." };
  return { rule: "digits", says: `Digits of radix ${found.radix}.` };
}

function ofSeparators({ flags }) {
  const allowed = flags.length ? `, allowed by ${flags.join(" and ")}` : "";
  return { rule: "separators", says: `Separators${allowed}.` };
}

function ofSign(found, type) {
  const isMinus = found.bytes[0] === 45;
  return { rule: "sign", says: isMinus ? `A minus sign, as ${type} is signed.` : "A plus sign." };
}

/** What is said of the parts that have a role. */
const OF_ROLES = {
  sign: ofSign,
  prefix: ofPrefix,
  digit: ofDigits,
  separator: ofSeparators,
  suffix: () => ({ rule: "suffix", says: "The suffix." }),
  rest: () => ({ rule: "suffix", says: "Reading stopped here." }),
};

/** Why the whole text isn't a number: what stands where reading stopped. */
function ofInvalidDigit(found, type, place) {
  const byte = found.bytes[place];
  const named = `“${typedOf(byte)}”`;
  const isBehindSuffix = found.parts.some((part) => part.role === "suffix" && part.to === place);
  if (isBehindSuffix) return { rule: "suffix", says: `${named} follows the suffix.` };
  if (byte === found.fields.digit_separator) {
    return { rule: "separators", says: "This run of separators isn't allowed." };
  }
  if (place === 0 && byte === 45) {
    return { rule: "sign", says: `A minus sign isn't allowed: ${type} is unsigned.` };
  }
  const radix = found.radix === null ? "" : ` of radix ${found.radix}`;
  return { rule: "digits", says: `${named} isn't a digit${radix}, so the text isn't a number.` };
}

/** Why a digit is missing. */
function ofEmpty({ bytes, parts }, place) {
  const isBehindPrefix = parts.at(-1)?.role === "prefix";
  if (isBehindPrefix) return { rule: "prefix", says: "The text ends after its prefix." };
  const found = place === bytes.length ? "the text ends" : `“${typedOf(bytes[place])}” isn't one`;
  return { rule: "required", says: `A digit is required here, but ${found}.` };
}

/** What is said of a fault of the text. */
function ofFault(found, type) {
  const { kind, place } = found.answer;
  switch (kind) {
    case "InvalidPositiveSign":
      return { rule: "sign", says: "The format forbids a plus sign." };
    case "MissingSign":
      return { rule: "sign", says: "The format requires a sign." };
    case "InvalidLeadingZeros":
      return { rule: "zeros", says: "The format forbids leading zeros." };
    case "Overflow":
      return { rule: "range", says: `At this digit the number exceeds the maximum of ${type}.` };
    case "Underflow":
      return { rule: "range", says: `At this digit the number is below the minimum of ${type}.` };
    case "Empty":
      return ofEmpty(found, place);
    default:
      return ofInvalidDigit(found, type, place);
  }
}

/** What is said of a number. */
function ofNumber(found, { type, call }) {
  if (hasPart(found, "digit")) {
    const { value } = found.answer;
    return { rule: "value", says: `The value is ${value}, which fits in ${type}.` };
  }
  if (call === "partial") {
    return { rule: "partial", says: "No digit stands here, and a partial parse then returns 0." };
  }
  return { rule: "required", says: "No digit is required, so the number is 0." };
}

/**
 * The rules behind a reading, in the order of the text: each has the `rule`, a key of `HEADINGS`,
 * what it `says`, the `role` that it is about, and the `parts` that have the role. The last one is
 * about the answer, and has no role.
 */
export function rulesOf(found, { type, call }) {
  const { kind, message } = found.answer;
  if (message) return [{ rule: "formats", says: `The format is invalid: ${message}.` }];
  const roles = [...new Set(found.parts.map((part) => part.role))];
  const rules = roles.map((role) => {
    const parts = found.parts.filter((part) => part.role === role);
    return { role, parts, ...OF_ROLES[role](found, type) };
  });
  return [...rules, kind === undefined ? ofNumber(found, { type, call }) : ofFault(found, type)];
}
