// What calls answer, in one word: a value, or the name of a fault and its place.
import { FormatError, ParseError } from "../../bindings/js/index.js";

export function outcomeOf(call) {
  try {
    return call();
  } catch (error) {
    if (error instanceof ParseError) return `${error.kind}(${error.place})`;
    if (error instanceof FormatError) return error.kind;
    throw error;
  }
}
