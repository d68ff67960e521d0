// Integers from bytes, under formats, with the byte at which a text is wrong; index.d.ts says what
// each call answers.

export { LONGEST_FIELD, parseColumn } from "./columns.js";
export { FormatError, HeaderError, JadvolniError, ParseError } from "./errors.js";
export { FIELDS, Format, formats } from "./format.js";
export { parseLiteral, parseTypedLiteral } from "./literals.js";
export { LONGEST } from "./memory.js";
export { parse, parseFront, parsePartial } from "./numbers.js";
export { LONGEST_ROW } from "./rows.js";
export { parseTable } from "./tables.js";
