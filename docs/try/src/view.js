// The page below the form: the answer, the text with its parts, their rules, and the call.
import { callIn } from "./calls.js";
import { hexadecimal, isPrintable } from "./bytes.js";
import { at, element, showWrong } from "./controls.js";
import { reading, Unfit } from "./reading.js";
import { addressOf, HEADINGS, rulesOf } from "./rules.js";

/** What the page calls each role. */
const ROLES = {
  sign: "sign",
  prefix: "prefix",
  digit: "digits",
  separator: "separators",
  suffix: "suffix",
  rest: "not read",
};
/** At most this many bytes of a longer text are shown, those around its fault. */
const SHOWN = 240;
/** At most this many parts of one role are listed with their places. */
const MOST_SHOWN = 8;

/** The field whose rule an invalid format breaks. */
const FIELD_OF_RULE = {
  InvalidMantissaRadix: "mantissa_radix",
  InvalidDigitSeparator: "digit_separator",
  InvalidBasePrefix: "base_prefix",
  InvalidBaseSuffix: "base_suffix",
  InvalidPunctuation: "digit_separator",
  InvalidLiteralPrefixes: "literal_prefixes",
};

/** A cell with a byte of the text in its part's colour, and the caret where it is the fault's. */
function cellOf(shown, role, isFault) {
  return element(
    "span",
    { className: `cell ${role} ${shown.length > 1 ? "hex" : ""}` },
    element("b", {}, shown),
    element("i", {}, isFault ? "^" : ""),
  );
}

/** A byte as its cell shows it: what can't be seen by two hexadecimal digits. */
function shownOf(byte) {
  return isPrintable(byte) ? String.fromCharCode(byte) : hexadecimal(byte);
}

/** Shows the text, one cell for each byte, and one behind it where the fault is at its end. */
function showText({ bytes, parts, answer }) {
  const fault = answer.place;
  const first = Math.max(0, Math.min((fault ?? 0) - SHOWN / 2, bytes.length - SHOWN));
  const last = Math.min(bytes.length, first + SHOWN);
  const roles = parts.flatMap(({ role, from, to }) => Array(to - from).fill(role));
  const cells = [];
  for (let place = first; place < last; place += 1) {
    cells.push(cellOf(shownOf(bytes[place]), roles[place] ?? "rest", place === fault));
  }
  if (fault === bytes.length) cells.push(cellOf(" ", "end", true));
  at("cells").replaceChildren(...cells);
  at("more").textContent = last - first === bytes.length ? ""
    : `Bytes ${first} to ${last - 1} of ${bytes.length} are shown.`;
}

/** The places of parts, as a reader of the rules sees them. */
function placesOf(parts) {
  const shown = parts.slice(0, MOST_SHOWN)
    .map(({ from, to }) => (to - from === 1 ? String(from) : `${from} to ${to - 1}`));
  const isOne = parts.length === 1 && parts[0].to - parts[0].from === 1;
  return `${isOne ? "byte" : "bytes"} ${shown.join(", ")}${parts.length > MOST_SHOWN ? " .." : ""}`;
}

/** What a rule is about: a part of the text, in its colour, or the answer. */
function subjectOf(rule, { kind, place }) {
  if (!rule.role) {
    const where = place === undefined ? "" : ` at byte ${place}`;
    return [kind ? `fault${where}` : "number"];
  }
  return [
    element("span", { className: `cell ${rule.role}` }, element("b", {}, ROLES[rule.role])),
    " ",
    element("span", { className: "places" }, placesOf(rule.parts)),
  ];
}

function ruleItem(rule, answer) {
  const isFault = !rule.role && answer.kind !== undefined;
  const link = element("a", { href: addressOf(rule.rule) }, HEADINGS[rule.rule]);
  return element(
    "li",
    { className: isFault ? "fault" : "" },
    element("span", {}, ...subjectOf(rule, answer)),
    element("span", {}, `${rule.says} `, link),
  );
}

/** Shows the rules of the parts, which are the legend of their colours too, and of the answer. */
function showRules(found, state) {
  at("rules").replaceChildren(...rulesOf(found, state).map((rule) => ruleItem(rule, found.answer)));
}

/** Shows an answer, or a sentence in its place. */
function showAnswer(text, isFault) {
  at("answer").textContent = text;
  at("answer").className = isFault ? "fault" : "";
}

/** Shows a sentence where there is no answer, and nothing below it. */
function showNothing(sentence) {
  showAnswer(sentence, true);
  for (const id of ["cells", "more", "rules", "code"]) at(id).replaceChildren();
}

/** Shows what the library answers of a state. */
export function show(state) {
  at("changed").textContent = "";
  let found;
  try {
    found = reading(state);
  } catch (fault) {
    if (!(fault instanceof Unfit)) throw fault;
    showWrong(fault.field, fault.message);
    showNothing(fault.message);
    return;
  }
  const { answer, changes } = found;
  at("changed").textContent = changes.length ? `(${changes.length} changed)` : "";
  showWrong(answer.message && FIELD_OF_RULE[answer.kind], answer.message);
  showAnswer(found.written, answer.kind !== undefined);
  showText(found);
  showRules(found, state);
  at("code").textContent = callIn(state.caller, {
    bytes: found.bytes, type: state.type, call: state.call, base: state.format, changes,
    fields: found.settings, isValid: answer.message === undefined,
  });
}
