// The test vectors that every caller of the library answers.
import assert from "node:assert/strict";
import { test } from "node:test";
import { FIELDS, Format, formats, parse, parsePartial } from "../../bindings/js/index.js";
import { outcomeOf } from "./answers.js";
import { rows } from "./rows.js";

const ROWS = rows();

/** What the calls answer to the question of a row. */
function answerOf({ parser, language, fields, type }, text) {
  return outcomeOf(() => {
    const format = language ? formats[language.toUpperCase()] : new Format(fields);
    if (parser === "format") return "valid";
    if (parser === "complete") return `Ok(${parse(text, type, format)})`;
    const { value, stop } = parsePartial(text, type, format);
    return `Ok(${value}, ${stop})`;
  });
}

test("rows are answered, from bytes and from strings", () => {
  for (const row of ROWS) {
    const { name, numbers } = row.answer;
    const wanted = numbers.length ? `${name}(${numbers.join(", ")})` : name;
    assert.equal(answerOf(row, row.text), wanted, row.at);
    if (row.text.every((byte) => byte < 128)) {
      assert.equal(answerOf(row, Buffer.from(row.text).toString()), wanted, row.at);
    }
  }
  assert.ok(ROWS.length > 1600);
});

test("a preset has the fields of its language", () => {
  const standard = new Format();
  for (const { language, fields } of ROWS.filter((row) => row.language)) {
    const format = formats[language.toUpperCase()];
    for (const { name } of FIELDS) {
      const byte = typeof format[name] === "string" ? format[name].charCodeAt(0) : format[name];
      assert.equal(byte, fields[name] ?? standard[name], `${name} of ${language}`);
    }
  }
});
