// What is asked of arguments, and said of wrong ones.

// At most this many characters of a string or a number are shown.
const MOST_SHOWN = 40;

/** What a wrong argument is, in a message. */
export function described(value) {
  if (["string", "bigint"].includes(typeof value)) {
    const text = String(value);
    const front = text.slice(0, MOST_SHOWN);
    const rest = text.length > MOST_SHOWN ? " .." : "";
    return typeof value === "string" ? `${JSON.stringify(front)}${rest}` : `${front}${rest || "n"}`;
  }
  if (value === null || !["object", "function", "symbol"].includes(typeof value)) {
    return String(value);
  }
  return Object.prototype.toString.call(value).slice(8, -1);
}

/** The byte that a separator, prefix or suffix is. */
export function byteOf(name, value) {
  if (Number.isInteger(value) && value >= 0 && value <= 255) return value;
  if (typeof value === "string" && value.length === 1 && value <= "\x7f") {
    return value.charCodeAt(0);
  }
  throw new TypeError(
    `${name} has to be one ASCII character or a byte from 0 to 255, and not ${described(value)}`,
  );
}

/** A flag that was given. */
export function flagOf(name, value = false) {
  if (typeof value === "boolean") return value;
  throw new TypeError(`${name} has to be true or false, and not ${described(value)}`);
}

/** The entry of a map; if there is none, the error lists the names that it has. */
export function ofTable(table, name, value) {
  const found = table.get(value);
  if (found === undefined) {
    const names = [...table.keys()].join(", ");
    throw new TypeError(`${name} has to be one of ${names}, and not ${described(value)}`);
  }
  return found;
}

/** A name without what tells `hasQuotes` and `has_quotes` apart. */
const joined = (name) => name.replaceAll("_", "").toLowerCase();

/** The own fields of an object that describes a format, a table, a column or a call, each read once. It refuses
 * unknown names, and ignores the prototype. */
export function ownFields(whose, given, names, field = "field") {
  if (Object.prototype.toString.call(given) !== "[object Object]") {
    throw new TypeError(`the ${field}s of ${whose} have to be an object, and not ${described(given)}`);
  }
  for (const name of Object.keys(given)) {
    if (names.includes(name)) continue;
    const alike = names.find((it) => joined(it) === joined(name));
    const instead = alike === undefined ? "" : `, but ${described(alike)}`;
    throw new TypeError(`${whose} has no ${field} ${described(name)}${instead}`);
  }
  return { __proto__: null, ...given };
}
