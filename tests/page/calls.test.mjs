// The calls that the page writes for each language, and what it reads of an address: node --test tests/page
import assert from "node:assert/strict";
import { spawnSync } from "node:child_process";
import { test } from "node:test";
import { fileURLToPath } from "node:url";

import { FIELDS, LANGUAGES } from "../../bindings/js/lists.js";
import { callIn } from "../../docs/try/src/calls.js";
import { FIRST, stateOf, TYPES } from "../../docs/try/src/state.js";

const INCLUDE = fileURLToPath(new URL("../../include", import.meta.url));
const PYTHON = fileURLToPath(new URL("../../bindings/python/src/jadvolni", import.meta.url));

/** A call under a changed preset, of a text with a NUL, a quote and a byte that isn't UTF-8. */
const CHANGES = [
  { name: "digit_separator", kind: "punctuation", value: 0 },
  { name: "base_suffix", kind: "punctuation", value: 39 },
  { name: "literal_prefixes", kind: "flag", value: false },
];
const RUST_FLAGS = [
  "case_sensitive_base_prefix", "no_positive_mantissa_sign", "integer_internal_digit_separator",
  "integer_trailing_digit_separator", "integer_consecutive_digit_separator",
  "integer_prefix_digit_separator",
].map((name) => ({ name, kind: "flag", value: true }));
const CALL = {
  bytes: Uint8Array.of(49, 0, 50, 34, 0xff, 63), type: "i128", call: "front", base: "rust",
  changes: CHANGES, fields: [...CHANGES.slice(0, 2), ...RUST_FLAGS], isValid: true,
};
const WRITTEN = {
  C: `#include <jadvolni.h>

const char text[] = "1\\0002\\"\\377\\?";
jadvolni_format format = JADVOLNI_FORMAT_RUST;
format.digit_separator = 0;
format.base_suffix = '\\'';
format.literal_prefixes = 0;
format.nul_is_punctuation = JADVOLNI_NUL_IS_SEPARATOR;
jadvolni_int128 value;
jadvolni_result r = jadvolni_parse_i128_front_with_format(text, sizeof text - 1, &format, &value);`,
  "C++": `#include <jadvolni.hpp>

using namespace std::string_view_literals;
auto format = jadvolni::formats::rust;
format.digit_separator = 0;
format.base_suffix = '\\'';
format.literal_prefixes = 0;
format.nul_is_punctuation = JADVOLNI_NUL_IS_SEPARATOR;
auto r = jadvolni::parse_front<jadvolni_native_int128>("1\\0002\\"\\377\\?"sv, format);`,
  Rust: `use jadvolni::{parse_front_with_format, Format};

let format = Format::RUST
    .digit_separator(Some(b'\\x00'))
    .base_suffix(Some(b'\\''))
    .literal_prefixes(false);
let answer = parse_front_with_format::<i128>(b"1\\x002\\"\\xff?", &format);`,
  Python: `import dataclasses
import jadvolni

form = dataclasses.replace(jadvolni.formats.RUST, digit_separator=b"\\x00", base_suffix=b"'", \
literal_prefixes=False, case_sensitive_base_prefix=False, integer_prefix_digit_separator=False)
value, place = jadvolni.parse_front(b"1\\x002\\"\\xff?", "i128", form)`,
  JavaScript: `import { Format, formats, parseFront } from "jadvolni";

const format = new Format({ ...formats.RUST, digit_separator: "\\u{0}", base_suffix: "'", literal_prefixes: false });
const { value, stop } = parseFront(Uint8Array.of(49, 0, 50, 34, 255, 63), "i128", format);`,
  Rattle: `use lexical_parse_integer::{NumberFormatBuilder, number_in_front};

let format = NumberFormatBuilder::new()
    .digit_separator(Some(b'\\x00'))
    .base_suffix(Some(b'\\''))
    .case_sensitive_base_prefix(true)
    .no_positive_mantissa_sign(true)
    .integer_internal_digit_separator(true)
    .integer_trailing_digit_separator(true)
    .integer_consecutive_digit_separator(true)
    .integer_prefix_digit_separator(true)
    .build_strict();
let answer = number_in_front::<i128>(b"1\\x002\\"\\xff?", &format);`,
};

for (const [caller, written] of Object.entries(WRITTEN)) {
  test(`a call in ${caller}`, () => assert.equal(callIn(caller, CALL), written));
}

test("a call in Python has no field that its Format refuses, as one that changes nothing", () => {
  const call = { bytes: Uint8Array.of(120), type: "u8", call: "whole", base: "", isValid: true };
  const separator = { name: "digit_separator", kind: "punctuation", value: 95 };
  const fields = [separator, { name: "case_sensitive_base_suffix", kind: "flag", value: true }];
  const lone = { ...call, changes: fields, fields };
  const said = (wanted) => callIn("Python", wanted).split("\n").slice(2);
  assert.deepEqual(said(lone), ['value = jadvolni.parse(b"x", "u8")']);
  // Under the separator that is left out, a partial parse of x is Empty at 0, as that of a front is.
  assert.deepEqual(said({ ...lone, call: "partial" }), [
    "# Format takes no separator that may stand nowhere; with one, parse_partial answers as this.",
    'value, place = jadvolni.parse_front(b"x", "u8")',
  ]);
  const optional = { name: "required_mantissa_digits", kind: "flag", value: false };
  const all = [...fields, optional];
  assert.deepEqual(said({ ...lone, call: "partial", changes: all, fields: all }), [
    "form = jadvolni.Format(required_mantissa_digits=False)",
    'value, place = jadvolni.parse_partial(b"x", "u8", form)',
  ]);
  // The fault of an invalid format is another one, which the call has to show.
  assert.deepEqual(said({ ...lone, isValid: false }), [
    'form = jadvolni.Format(digit_separator=b"_", case_sensitive_base_suffix=True)',
    'value = jadvolni.parse(b"x", "u8", form)',
  ]);
});

/** Python's Format without the library: whether a format is valid isn't asked here. */
const FORMAT_IN_PYTHON = `
import sys, types
core, package = types.ModuleType("jadvolni._core"), types.ModuleType("jadvolni")
core._check_format = lambda form: None
package.__path__ = [sys.argv[1]]
sys.modules.update({"jadvolni": package, "jadvolni._core": core})
from jadvolni import formats, _format
package.Format = _format.Format
`;

/** The calls in Python under each preset with one of its fields changed. */
function changedPresets() {
  const byteOf = (value) => (typeof value === "string" ? value.charCodeAt(0) : value);
  return [["", {}], ...LANGUAGES].flatMap(([preset, given]) => FIELDS.map((changed) => {
    const standard = ({ name, kind }) => (kind === "punctuation" ? null
      : kind === "radix" ? 10 : name === "required_mantissa_digits");
    const own = (field) => byteOf(given[field.name] ?? standard(field));
    const other = { punctuation: (value) => (value === null ? 46 : null), radix: () => 8,
      flag: (value) => !value }[changed.kind](own(changed));
    const valueOf = (field) => (field === changed ? other : own(field));
    const fields = FIELDS.filter((it) => valueOf(it) !== standard(it))
      .map((it) => ({ name: it.name, kind: it.kind, value: valueOf(it) }));
    const changes = own(changed) === other ? []
      : [{ name: changed.name, kind: changed.kind, value: other }];
    return callIn("Python", { ...CALL, base: preset.toLowerCase(), changes, fields });
  }));
}

const noPython = spawnSync("python3", ["--version"]).error !== undefined && "there is no python3";
test("each format that is written in Python is made", { skip: noPython }, (context) => {
  const makers = changedPresets().map((code) => code.split("\n").slice(0, -1).join("\n"));
  const input = [FORMAT_IN_PYTHON, ...makers].join("\n");
  const { status, stderr } = spawnSync("python3", ["-B", "-", PYTHON], { input });
  assert.equal(status, 0, String(stderr));
  context.diagnostic(`${makers.length} formats`);
});

test("a flag of an address is 0 or 1, and else as if it weren't there", () => {
  const known = { formats: [""], fields: [{ name: "literal_prefixes", kind: "flag" }] };
  const fieldsOf = (written) => stateOf(`#literal_prefixes=${written}`, known).fields;
  assert.deepEqual(["0", "1"].map(fieldsOf), [{ literal_prefixes: false }, { literal_prefixes: true }]);
  for (const written of ["", "2", "01", "true", "constructor", "toString", "__proto__"]) {
    assert.deepEqual(fieldsOf(written), FIRST.fields);
  }
});

/** A program with each call, of every type and of each kind, in a function of its own. */
function programOf(caller, used) {
  const asked = TYPES.flatMap((type) => ["whole", "front", "partial"].flatMap((call) => [
    { ...CALL, type, call },
    { ...CALL, type, call, base: "" },
    { ...CALL, type, call, changes: [], fields: [] },
    { ...CALL, type, call, base: "", changes: [], fields: [], bytes: Uint8Array.of() },
  ]));
  const [include] = callIn(caller, CALL).split("\n");
  const bodies = asked.map((call, index) => {
    const body = callIn(caller, call).split("\n").slice(1).join("\n");
    return `static void call_${index}(void)\n{\n${body}\n${used}\n}`;
  });
  const all = asked.map((_, index) => `    call_${index}();`);
  return [include, ...bodies, "int main(void)\n{", ...all, "    return 0;\n}\n"].join("\n");
}

const COMPILERS = [
  ["C", "cc", ["-std=c11", "-x", "c"], "(void)r, (void)value;"],
  ["C++", "c++", ["-std=c++17", "-x", "c++"], "(void)r;"],
];
for (const [caller, compiler, flags, used] of COMPILERS) {
  const isMissing = spawnSync(compiler, ["--version"]).error !== undefined;
  const skip = isMissing && `there is no ${compiler}`;
  test(`each call in ${caller} compiles`, { skip }, () => {
    const words = [...flags, "-Wall", "-Wextra", "-Werror", "-fsyntax-only", "-I", INCLUDE, "-"];
    const { status, stderr } = spawnSync(compiler, words, { input: programOf(caller, used) });
    assert.equal(status, 0, String(stderr));
  });
}
