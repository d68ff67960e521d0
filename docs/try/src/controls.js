// The form: its controls are made from the library's lists, show a state, and change it.
import { FIELDS, formats } from "../../../bindings/js/index.js";
import { inOneLine } from "./bytes.js";
import { baseOf, typedOf } from "./reading.js";
import { CALLERS, CALLS, TYPES } from "./state.js";

/** The element of an id. */
export const at = (id) => document.getElementById(id);

/** A new element with its properties and children. */
export function element(name, properties = {}, ...children) {
  const made = Object.assign(document.createElement(name), properties);
  made.append(...children);
  return made;
}

/** The names of the presets, as the fragment has them; the standard one has none. */
export const FORMATS = ["", ...Object.keys(formats).map((it) => it.toLowerCase())];

const INPUTS = {
  radix: { type: "number", min: 2, max: 36 },
  punctuation: { type: "text", maxLength: 4, spellcheck: false },
  flag: { type: "checkbox" },
};

/** The control of a field with its name, what it means, and room for what is wrong. */
function controlOf({ name, kind, meaning }) {
  const input = element("input", { id: name, ...INPUTS[kind] });
  input.setAttribute("aria-describedby", `${name}-about ${name}-wrong`);
  // A long name may break behind each underscore.
  const words = name.split(/(?<=_)/).flatMap((word) => [word, element("wbr")]);
  const label = element("label", { htmlFor: name }, ...words);
  const about = element("small", { id: `${name}-about` }, meaning);
  const wrong = element("span", { id: `${name}-wrong`, className: "wrong" });
  const order = kind === "flag" ? [input, label] : [label, input];
  return element("div", { className: `field ${kind}` }, ...order, about, wrong);
}

function options(id, values, titleOf) {
  at(id).append(...values.map((value) => element("option", { value }, titleOf(value))));
}

/** Makes the controls, which call `changed` with what changed in the state. */
export function makeControls(changed) {
  options("type", TYPES, (it) => it);
  options("call", CALLS.map((it) => it.name), (name) => CALLS.find((it) => it.name === name).title);
  options("format", FORMATS, (it) => it || "standard");
  at("controls").append(...FIELDS.map(controlOf));
  at("callers").append(...CALLERS.map((value) => element("label", {},
    element("input", { type: "radio", name: "caller", value }), ` ${value}`)));
  at("text").addEventListener("input", (event) => changed({ text: event.target.value }));
  for (const [name, given] of [["paste", "clipboardData"], ["drop", "dataTransfer"]]) {
    at("text").addEventListener(name, (event) => {
      const { target, [given]: data } = event;
      const pasted = data.getData("text/plain");
      const text = inOneLine(pasted);
      if (text === pasted) return; // (the browser's own paste can be undone)
      target.setRangeText(text, target.selectionStart, target.selectionEnd, "end");
      event.preventDefault();
      changed({ text: target.value });
    });
  }
  for (const id of ["type", "call"]) {
    at(id).addEventListener("change", (event) => changed({ [id]: event.target.value }));
  }
  // A preset takes the place of all fields.
  at("format").addEventListener("change", ({ target }) => {
    changed({ format: target.value, fields: {} });
  });
  at("controls").addEventListener("input", ({ target }) => {
    changed({ field: target.id, value: valueOf(target) });
  });
  at("callers").addEventListener("change", (event) => changed({ caller: event.target.value }));
}

/** What a field's control says. A radix that is no byte is 0, which no format may have. */
function valueOf(input) {
  if (input.type === "checkbox") return input.checked;
  if (input.type !== "number") return input.value;
  const radix = input.valueAsNumber;
  return Number.isInteger(radix) && radix >= 0 && radix < 256 ? radix : 0;
}

/** The state's value of a field, as its control has it. */
function shownOf(state, base, { name, kind }) {
  return state.fields[name] ?? (kind === "punctuation" ? typedOf(base[name]) : base[name]);
}

/** Sets a control, unless it says so already: what is being typed stays as it was typed. */
function put(input, property, value) {
  const said = property === "value" && input.type === "number" ? valueOf(input) : input[property];
  if (said !== value) input[property] = value;
}

/** Has the controls say a state. */
export function showControls(state) {
  const base = baseOf(state);
  for (const id of ["text", "type", "call", "format"]) put(at(id), "value", state[id]);
  for (const field of FIELDS) {
    put(at(field.name), field.kind === "flag" ? "checked" : "value", shownOf(state, base, field));
  }
  const callers = at("callers").querySelectorAll("input");
  for (const input of callers) input.checked = input.value === state.caller;
}

/** A state after a change of one field; a value that the preset has is no change. */
export function withField(state, name, value) {
  const fields = { ...state.fields, [name]: value };
  const field = FIELDS.find((it) => it.name === name);
  if (value === shownOf({ fields: {} }, baseOf(state), field)) delete fields[name];
  return { ...state, fields };
}

/** Says beside a field's control what is wrong with it, and takes away what was said of others. */
export function showWrong(name, message) {
  for (const { name: each } of FIELDS) {
    const isWrong = each === name;
    at(`${each}-wrong`).textContent = isWrong ? message : "";
    at(each).setAttribute("aria-invalid", String(isWrong));
  }
}
