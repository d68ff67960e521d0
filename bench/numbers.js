// What a number takes in JavaScript beside BigInt, Number and parseInt: node bench/numbers.js
//
// Each text is read once a round. The best of many rounds counts, in ns a text. All have to answer
// alike, where their numbers can.
import { parse, parseColumn } from "../bindings/js/index.js";

const TEXTS = 8_000;
const ROUNDS = 200;

let state = 1;
/** A number below 2^32, in an order that stays. */
function draw() {
  state = (Math.imul(state, 1_664_525) + 1_013_904_223) >>> 0;
  return state >>> 8;
}

/** A text of digits, of which the first is no zero. */
function digits(count) {
  const rest = Array.from({ length: count - 1 }, () => draw() % 10);
  return [1 + (draw() % 9), ...rest].join("");
}

/** Mostly short numbers: 70 in 100 have up to 4 digits, 25 up to 10, and 5 up to 18. */
function realistic() {
  const percent = draw() % 100;
  if (percent < 70) return digits(1 + (draw() % 4));
  return percent < 95 ? digits(5 + (draw() % 6)) : digits(11 + (draw() % 8));
}

/** The least that a round takes, in ns a text. */
function measured(round) {
  let least = Infinity;
  for (let time = 0; time < ROUNDS; time++) {
    const start = process.hrtime.bigint();
    round();
    least = Math.min(least, Number(process.hrtime.bigint() - start));
  }
  return (least / TEXTS).toFixed(0);
}

/** How long the texts take one by one, and whether all sums are one. */
function oneByOne(texts, read, sum) {
  const total = () => texts.reduce((all, text) => all + BigInt(read(text)), 0n);
  if (sum !== undefined && total() !== sum) throw new Error(`${read} has read another number`);
  let last;
  return measured(() => {
    for (const text of texts) last = read(text);
    return last;
  });
}

const SETS = {
  "1 to 3 digits": () => digits(1 + (draw() % 3)),
  realistic,
  "19 digits": () => digits(19).replace(/^9/, "8"),
};

const ROW = ["u32", "i64", "Number", "parseInt", "BigInt", "column", "split, BigInt"];
console.log(`| ns a text | ${ROW.join(" | ")} |\n|---|${"---|".repeat(ROW.length)}`);
for (const [name, next] of Object.entries(SETS)) {
  const texts = Array.from({ length: TEXTS }, next);
  const sum = texts.reduce((all, text) => all + BigInt(text), 0n);
  const isShort = texts.every((text) => text.length < 10);
  const isExact = texts.every((text) => text.length < 16);
  const column = texts.join("\n");
  const bytes = new TextEncoder().encode(column);
  console.log(`| ${[
    name,
    isShort ? oneByOne(texts, (text) => parse(text, "u32"), sum) : "",
    oneByOne(texts, (text) => parse(text, "i64"), sum),
    oneByOne(texts, (text) => Number(text), isExact ? sum : undefined),
    oneByOne(texts, (text) => parseInt(text, 10), isExact ? sum : undefined),
    oneByOne(texts, (text) => BigInt(text), sum),
    measured(() => parseColumn(bytes, "i64")),
    measured(() => column.split("\n").map(BigInt)),
  ].join(" | ")} |`);
}
