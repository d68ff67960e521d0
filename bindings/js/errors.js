// What the calls throw, beside TypeError and RangeError for wrong arguments.

import { STATUSES } from "./lists.js";

export class JadvolniError extends Error {
  name = "JadvolniError";
}

// The properties that only errors of columns, tables or bounds set.
const NOTHING_MORE = {
  field: undefined,
  start: undefined,
  row: undefined,
  line: undefined,
  column: undefined,
  columnName: undefined,
  rowStart: undefined,
  rowStop: undefined,
  text: undefined,
  min: undefined,
  max: undefined,
};

export class ParseError extends JadvolniError {
  name = "ParseError";

  /** An error with a message, a kind, a place, and further properties. */
  constructor(message, kind, place, more = {}) {
    super(message);
    Object.assign(this, { kind, place }, NOTHING_MORE, more);
  }
}

/** The error for a text, by the status and the place that a call returned. */
export function faultOfText(status, place) {
  const [kind, text] = STATUSES[status];
  return new ParseError(`${text} at byte ${place}`, kind, place);
}

/** The error for a field of a column, which starts at `start`. */
export function faultOfField(status, place, field, start) {
  const [kind, text] = STATUSES[status];
  return new ParseError(`${text} at byte ${place}, in field ${field + 1}`, kind, place, { field, start });
}

export class FormatError extends JadvolniError {
  name = "FormatError";

  constructor(status) {
    const [kind, text] = STATUSES[status];
    super(text);
    this.kind = kind;
  }
}

export class HeaderError extends JadvolniError {
  name = "HeaderError";

  constructor(kind, text, names) {
    super(text);
    this.kind = kind;
    this.names = names;
  }
}
