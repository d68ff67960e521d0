// Options of calls, by their names.

import { ownFields } from "./arguments.js";
import { Format } from "./format.js";

/** Whether options were given by their names, and no format alone. */
export function areNamed(given) {
  return !(given instanceof Format) && Object.prototype.toString.call(given) === "[object Object]";
}

/** The options of a call, each read once. */
export function namedOptions(call, given, names) {
  return ownFields(call, given, names, "option");
}

/** The format of a call, which was given alone or by its name. */
export function formatOf(call, given) {
  return areNamed(given) ? namedOptions(call, given, ["format"]).format : given;
}
