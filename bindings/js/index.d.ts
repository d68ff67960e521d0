// The types of jadvolni for JavaScript.

export * from "./columns.js";
export * from "./errors.js";
export * from "./format.js";
export * from "./literals.js";
export * from "./numbers.js";
export * from "./tables.js";
