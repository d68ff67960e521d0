// The package as it is loaded: without its module, with a wrong one, twice, and in workers.
import assert from "node:assert/strict";
import { spawnSync } from "node:child_process";
import { once } from "node:events";
import { mkdirSync, readdirSync } from "node:fs";
import { join } from "node:path";
import { test } from "node:test";
import { fileURLToPath } from "node:url";
import { Worker } from "node:worker_threads";
import { formats, parse } from "../../bindings/js/index.js";
import { folder, loadWith, MODULE, PACKAGE, replacing } from "./copies.js";


test("a message says that a module is missing, damaged or another", async () => {
  const other = Buffer.from("0061736d01000000", "hex"); // it exports nothing
  const renamed = Buffer.from(MODULE);
  renamed.write("jadvolni_parse_none", renamed.indexOf("jadvolni_parse_u128_front"));
  const wrong = {
    missing: [undefined, /jadvolni\.wasm can't be loaded: there is none\. .*`make wasm` puts it there$/],
    empty: [Buffer.alloc(0), /jadvolni\.wasm can't be loaded: .+/],
    cut: [MODULE.subarray(0, -100), /jadvolni\.wasm can't be loaded: .+/],
    text: [Buffer.from("<!doctype html>"), /jadvolni\.wasm can't be loaded: .+/],
    other: [other, /jadvolni\.wasm is of another version: it has no memory$/],
    older: [renamed, /jadvolni\.wasm is of another version: it has no jadvolni_parse_u128_front$/],
  };
  for (const [name, [bytes, message]] of Object.entries(wrong)) {
    await assert.rejects(loadWith(name, bytes), { name: "JadvolniError", message }, name);
  }
});

test("a message says that nothing stands beside a bundle in a blob", async () => {
  const message = /^jadvolni\.wasm can't be loaded: nothing stands beside /;
  for (const url of ['"blob:nodedata:1"', '"data:text/javascript,0"', "undefined"]) {
    const loading = loadWith(`within ${url.length}`, MODULE, replacing("memory.js", "import.meta.url", url));
    await assert.rejects(loading, { name: "JadvolniError", message }, url);
  }
});

test("an engine without 64-bit memories: the message says what it lacks", () => {
  const loading = `await import(${JSON.stringify(new URL("../../bindings/js/index.js", import.meta.url).href)});`;
  const lacking = [`WebAssembly.validate = () => false; ${loading}`];
  if (parseInt(process.versions.node) < 24) lacking.push(loading); // (which is not given the flag here)
  for (const code of lacking) {
    const words = ["--input-type=module", "-e", code];
    const { status, stderr } = spawnSync(process.execPath, words, { encoding: "utf8", env: {} });
    assert.notEqual(status, 0);
    assert.match(stderr, /this engine has no 64-bit WebAssembly memory: .*from 20 with --experimental-wasm-memory64/);
  }
});

test("CommonJS has the package by import() alone", () => {
  const index = JSON.stringify(fileURLToPath(new URL("../../bindings/js/index.js", import.meta.url)));
  const flags = process.execArgv.filter((it) => it.includes("memory64"));
  const run = (code) => {
    const words = [...flags, "--input-type=commonjs", "-e", code];
    return spawnSync(process.execPath, words, { encoding: "utf8", env: {} });
  };
  const { stdout, stderr } = run(`import(${index}).then(({ parse }) => console.log(parse("12", "u8")));`);
  assert.equal(stdout, "12\n", stderr);
  const required = run(`require(${index});`);
  assert.notEqual(required.status, 0);
  assert.match(required.stderr, /ERR_REQUIRE_(ASYNC_MODULE|ESM)/);
});

const skip = spawnSync("npm", ["--version"]).status !== 0 && "there is no npm";

test("a package that was packed needs nothing beside it", { skip }, () => {
  const user = join(folder, "user");
  const installed = join(user, "node_modules", "jadvolni");
  mkdirSync(installed, { recursive: true });
  const pack = ["pack", "--offline", "--no-update-notifier", "--silent", "--pack-destination", user];
  const packed = spawnSync("npm", pack, { cwd: PACKAGE, encoding: "utf8" });
  assert.equal(packed.status, 0, packed.stderr);
  const archive = join(user, packed.stdout.trim().split("\n").at(-1));
  assert.equal(spawnSync("tar", ["-xf", archive, "-C", installed, "--strip-components", "1"]).status, 0);
  const files = readdirSync(installed);
  const types = readdirSync(PACKAGE).filter((it) => it.endsWith(".d.ts"));
  for (const file of ["jadvolni.wasm", "index.js", ...types]) assert.ok(files.includes(file), file);
  const code = 'import { parse } from "jadvolni"; console.log(parse("12.50", "u16", { places: 2 }));';
  const words = [...process.execArgv.filter((it) => it.includes("memory64")), "--input-type=module", "-e", code];
  const { stdout, stderr } = spawnSync(process.execPath, words, { cwd: user, encoding: "utf8", env: {} });
  assert.equal(stdout, "1250\n", stderr);
});

test("a message says that a module's tables have another layout", async () => {
  const layout = [
    ["WORDS = 26", "WORDS = 28"], ["FIRST_ARRAY = 6", "FIRST_ARRAY = 4"], ["BITS = 24", "BITS = 22"],
    ['"i64", "u64"', '"u64", "i64"'], ['"u32", "i16"', '"i16", "u32"'], ['"i8", "u8"', '"u8", "i8"'],
    ["[0n, 0n, ...spans]", "[0n, ...spans]"], ["[mark, sizes]", "[sizes, mark]"],
    ['"skips_empty_rows", "is_records"', '"is_records", "skips_empty_rows"'],
    ['"is_records", "allows_returns"', '"allows_returns", "is_records"'],
    ["tablePlace + 48", "tablePlace + 40"], ["[status, , column, , row,", "[status, , row, , column,"],
    ["WORDS_OF_BAD_ROW = 16", "WORDS_OF_BAD_ROW = 12"],
    ["row, , column, , place, , start, , stop]", "column, , row, , place, , start, , stop]"],
    [", , place, , start, , stop]", ", , start, , place, , stop]"],
    ["start, , stop]", "stop, , start]"],
    ["[status, , , , right, , badCount,", "[status, , , , badCount, , right,"],
  ];
  const texts = [
    ["WORDS_OF_TEXT = 6", "WORDS_OF_TEXT = 4"], ["words[at]", "words[at + 1]"], ["at + 2", "at + 3"],
    ["at + 4", "at + 5"],
  ];
  const cells = [["WORDS_OF_CELL = 4", "WORDS_OF_CELL = 2"], ["index + 2", "index + 3"], ["start + words", "words"]];
  const amounts = [["takes_fewer)], 32)", "takes_fewer)], 33)"]];
  const others = Object.entries({ layout, texts, cells, amounts }).flatMap(([file, edits]) =>
    edits.map((edit) => [file, ...edit]));
  const message = /jadvolni\.wasm is of another version: its tables have another layout$/;
  for (const [index, [file, ours, theirs]] of others.entries()) {
    const loading = loadWith(`layout${index}`, MODULE, replacing(`${file}.js`, ours, theirs));
    await assert.rejects(loading, { name: "JadvolniError", message }, theirs);
  }
});

test("two copies have a memory each, and formats of their own", async () => {
  const second = await loadWith("second", MODULE);
  assert.equal(parse("0x1F", "u8", formats.RUST), 31);
  assert.equal(second.parse("0x1F", "u8", second.formats.C), 31);
  assert.throws(() => second.parse("0x1F", "u8", formats.RUST), TypeError);
  assert.throws(() => second.parse("x", "u8"), second.ParseError);
  assert.equal(second.parse("1_0", "u8", new second.Format({ ...formats.RUST })), 10);
});

test("what is put into all objects is no field", async () => {
  const fields = {
    mantissa_radix: 16, separator: ";", may_miss: true, places: 2, group: ",", allows_returns: true,
    onError: "skip", errors: 1, tell: 1,
  };
  Object.assign(Object.prototype, fields);
  try {
    const third = await loadWith("third", MODULE);
    assert.equal(third.parse("10", "u8", new third.Format()), 10);
    assert.equal(third.parseFront("10", "u8", { format: new third.Format() }).value, 10);
    assert.deepEqual(third.parseTable("1,2", ["u8", "u8"]), [Uint8Array.of(1), Uint8Array.of(2)]);
    assert.deepEqual(third.parseTable("1", [{ type: "u8" }], { header: false }), [Uint8Array.of(1)]);
    assert.deepEqual([...third.parseTable("a", ["text"])[0]], ["a"]);
    assert.deepEqual(third.parseColumn("1\n2", "u8"), Uint8Array.of(1, 2));
    assert.deepEqual(third.parseColumn(" 1\n2", "u8", { allows_blanks: true }), Uint8Array.of(1, 2));
  } finally {
    for (const name of Object.keys(fields)) delete Object.prototype[name];
  }
});

/** A worker that runs code which has the package's names, and its first message. */
async function answerOf(code) {
  const url = new URL("../../bindings/js/index.js", import.meta.url);
  const source = `import { parentPort } from "node:worker_threads";
    import { parse, parseColumn } from "${url}";
    ${code}`;
  const worker = new Worker(new URL(`data:text/javascript,${encodeURIComponent(source)}`));
  return { worker, answer: (await once(worker, "message"))[0] };
}

test("a worker reads numbers", async () => {
  const { answer } = await answerOf('parentPort.postMessage(parse("18446744073709551615", "u64"));');
  assert.equal(answer, 18446744073709551615n);
});

test("a worker that is ended within a call leaves others as they are", async () => {
  const code = `const text = "12345678\\n".repeat(1000000);
    parentPort.postMessage("begun");
    for (;;) parseColumn(text, "i64");`;
  const { worker, answer } = await answerOf(code);
  assert.equal(answer, "begun");
  assert.equal(parse("12", "u8"), 12);
  await worker.terminate();
  assert.equal(parse("34", "u8"), 34);
});
