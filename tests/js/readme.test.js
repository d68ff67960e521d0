// What the package's page says: its lines answer what stands behind them.
import assert from "node:assert/strict";
import { readFileSync } from "node:fs";
import { test } from "node:test";
import { inspect } from "node:util";
import { gzipSync } from "node:zlib";
import * as jadvolni from "../../bindings/js/index.js";
import { MODULE } from "./copies.js";

const PAGE = readFileSync(new URL("../../bindings/js/README.md", import.meta.url), "utf8");

/** What an expression shows. */
function shown(expression) {
  try {
    return inspect(expression());
  } catch (error) {
    return String(error);
  }
}

test("the examples of README", () => {
  let examples = 0;
  const check = (expression, answer) => {
    assert.equal(shown(expression), answer);
    examples++;
  };
  for (const [, block] of PAGE.matchAll(/^```js\n([^]*?)^```$/gm)) {
    const code = block.replace(/^import .*$/gm, "").replace(/^(\S.*); \/\/ (.*)$/gm, (_, expression, answer) =>
      `check(() => ${expression}, ${JSON.stringify(answer)});`);
    new Function("check", ...Object.keys(jadvolni), code)(check, ...Object.values(jadvolni));
  }
  assert.equal(examples, (PAGE.match(/^\S.*; \/\/ /gm) ?? []).length);
  assert.ok(examples > 20);
});

test("the module has about the size that README says", () => {
  const [, ...stated] = PAGE.match(/^.*The module has (\d+) kB, (\d+) kB by gzip/m);
  const sizes = [MODULE.length, gzipSync(MODULE, { level: 9 }).length];
  sizes.forEach((size, index) => {
    assert.ok(Math.abs(size / 1000 / stated[index] - 1) < 0.05, `${size} bytes, and not ${stated[index]} kB`);
  });
});
