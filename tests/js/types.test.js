// The types of the package, as TypeScript reads them.
import assert from "node:assert/strict";
import { spawnSync } from "node:child_process";
import { readdirSync, readFileSync } from "node:fs";
import { test } from "node:test";
import { fileURLToPath } from "node:url";
import * as jadvolni from "../../bindings/js/index.js";

const PACKAGE = new URL("../../bindings/js/", import.meta.url);
const USES = fileURLToPath(new URL("types.ts", import.meta.url));
const WORDS = ["--noEmit", "--strict", "--target", "es2020", "--module", "node16", USES];
const skip = spawnSync("tsc", ["--version"]).error !== undefined && "there is no tsc";

test("all that the package has is declared, and nothing else", () => {
  const files = readdirSync(PACKAGE).filter((name) => name.endsWith(".d.ts"));
  const index = readFileSync(new URL("index.d.ts", PACKAGE), "utf8");
  const declared = files.flatMap((name) => {
    assert.ok(name === "index.d.ts" || index.includes(`export * from "./${name.replace(".d.ts", ".js")}";`), name);
    const text = readFileSync(new URL(name, PACKAGE), "utf8");
    return Array.from(text.matchAll(/^export (?:class|const|function) (\w+)/gm), ([, it]) => it);
  });
  assert.deepEqual([...new Set(declared)].sort(), Object.keys(jadvolni).sort());
});

test("types fit their uses", { skip }, () => {
  const { status, stdout } = spawnSync("tsc", WORDS);
  assert.equal(status, 0, String(stdout));
});
