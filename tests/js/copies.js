// Copies of the package, which tests change and load.
import assert from "node:assert/strict";
import { cpSync, mkdtempSync, readFileSync, rmSync, writeFileSync } from "node:fs";
import { tmpdir } from "node:os";
import { join } from "node:path";
import { after } from "node:test";
import { fileURLToPath, pathToFileURL } from "node:url";

export const PACKAGE = fileURLToPath(new URL("../../bindings/js", import.meta.url));
export const MODULE = readFileSync(join(PACKAGE, "jadvolni.wasm"));

/** A folder for what a test writes. */
export const folder = mkdtempSync(join(tmpdir(), "jadvolni-"));
after(() => rmSync(folder, { recursive: true }));

/** Loads a copy of the package, changed, with other bytes as its module, or without one. */
export function loadWith(name, bytes, change = () => {}) {
  const copy = join(folder, name);
  cpSync(PACKAGE, copy, { recursive: true });
  const module = join(copy, "jadvolni.wasm");
  if (bytes) writeFileSync(module, bytes);
  else rmSync(module);
  change(copy);
  return import(pathToFileURL(join(copy, "index.js")));
}

/** Changes a file of a copy, which has to have what is replaced. */
export function replacing(file, ours, theirs) {
  return (copy) => {
    const source = readFileSync(join(copy, file), "utf8");
    assert.ok(source.includes(ours), ours);
    writeFileSync(join(copy, file), source.replace(ours, theirs));
  };
}
