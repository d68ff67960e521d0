// The page docs/try/index.html in Chromium, as `make serve` gives it: node --test tests/page
//
// It reads the folder build/page, or PAGE. With PICTURES=FOLDER it writes light.png and dark.png there.
import assert from "node:assert/strict";
import { cpSync, mkdtempSync, readFileSync, rmSync, writeFileSync } from "node:fs";
import { tmpdir } from "node:os";
import { basename, dirname, join } from "node:path";
import { after, before, test } from "node:test";
import { fileURLToPath, pathToFileURL } from "node:url";

import { rows } from "../js/rows.js";
import { Browser, serve } from "./browser.mjs";
import { CASES, HOSTILE } from "./cases.mjs";

const TOP = fileURLToPath(new URL("../../", import.meta.url));
const { PAGE = join(TOP, "build", "page"), PICTURES } = process.env;
const READY = "document.getElementById('callers')?.querySelector('input')";
// A longer text is no text that one tries in a page; tests/js asks the library of it.
const LONGEST = 2000;
const WITH_FAULT = "text=0x_1FG&type=u32&call=whole&format=rust";

let browser;
let server;

before(async () => {
  server = await serve(dirname(PAGE));
  server.page = `${server.address}${basename(PAGE)}/`;
  browser = await Browser.start();
});

after(async () => {
  await browser?.close();
  server.close();
});

/** What the page shows. It is a function of the page's own, so it may name nothing of this file. */
function shown() {
  const letters = {
    sign: "s", prefix: "p", digit: "d", separator: "_", suffix: "x", rest: "r", end: "",
  };
  const text = (id) => document.getElementById(id).textContent;
  const cells = [...document.querySelectorAll("#cells .cell")];
  return {
    answer: text("answer"),
    roles: cells.map((it) => letters[it.classList[1]]).join(""),
    caret: cells.findIndex((it) => it.lastChild.textContent === "^"),
    code: text("code"),
    more: text("more"),
    rules: text("rules"),
    links: [...document.querySelectorAll("#rules a")].map((it) => it.getAttribute("href")),
  };
}

/** What the page shows under each of these fragments. Each gets a number, so that all differ. */
function shownOf(fragments) {
  return browser.value(`(async () => {
    const shown = ${shown};
    const found = [];
    for (const [number, fragment] of ${JSON.stringify(fragments)}.entries()) {
      await new Promise((resolve) => {
        addEventListener("hashchange", resolve, { once: true });
        location.hash = fragment + "&number=" + number;
      });
      found.push(shown());
    }
    location.hash = "";
    return found;
  })()`);
}

/** Nothing was said wrong, and nothing asked of any other host. */
function isQuiet() {
  assert.deepEqual(browser.errors, []);
  assert.deepEqual(server.missing, []);
  const others = browser.requests.filter((it) => !it.startsWith(server.address) && it !== "data:,");
  assert.deepEqual(others, []);
}

function asTyped(byte) {
  const isPlain = byte > 32 && byte < 127 && byte !== 92;
  return isPlain ? String.fromCharCode(byte) : `\\x${byte.toString(16).padStart(2, "0")}`;
}

/** The fragment that asks a row. */
function fragmentOf({ parser, language, fields, type, text }) {
  const asked = new URLSearchParams({
    text: Array.from(text, asTyped).join(""),
    type: type || "u8",
    call: parser === "partial" ? "partial" : "whole",
  });
  if (language) asked.set("format", language);
  for (const [name, value] of Object.entries(language ? {} : fields)) {
    const isByte = typeof value === "number" && name !== "mantissa_radix";
    asked.set(name, isByte ? asTyped(value) : String(Number(value)));
  }
  return asked.toString();
}

/** A row's answer as Rust writes it. */
function writtenOf({ parser, answer: { name, numbers } }) {
  if (name === "Ok") return parser === "partial" ? `Ok((${numbers.join(", ")}))` : `Ok(${numbers})`;
  return numbers.length ? `Err(${name}(${numbers}))` : `Err(${name})`;
}

/** The radix of a row's digits, by the text and the fields. */
function radixOf({ fields, text }, roles) {
  const prefix = roles.indexOf("p");
  if (prefix >= 0 && fields.literal_prefixes) {
    return { x: 16n, o: 8n, b: 2n }[String.fromCharCode(text[prefix + 1]).toLowerCase()];
  }
  const begin = roles.startsWith("s") ? 1 : 0;
  const isOctal = prefix < 0 && fields.literal_octal_zero && text[begin] === 48;
  return isOctal ? 8n : BigInt(fields.mantissa_radix ?? 10);
}

/** What the bytes that the page shows as digits are worth. */
function worthOf(row, roles) {
  const radix = radixOf(row, roles);
  let worth = 0n;
  for (const [place, role] of [...roles].entries()) {
    const digit = parseInt(String.fromCharCode(row.text[place]), 36);
    if (role === "d") worth = worth * radix + BigInt(digit);
  }
  return roles.startsWith("s") && row.text[0] === 45 ? -worth : worth;
}

/** The parts that a row's text is shown in have to be those that its answer speaks of. */
function checkParts(row, roles) {
  const { name, numbers } = row.answer;
  const { length } = row.text;
  const rest = roles.includes("r") ? roles.indexOf("r") : length;
  const place = Number(numbers[0]);
  assert.equal(roles.length, length, row.at);
  assert.match(roles, /^s?(pp)?[d_]*x?r*$/, row.at);
  if (name === "Ok") {
    assert.equal(worthOf(row, roles), numbers[0], row.at);
    assert.equal(rest, row.parser === "partial" ? Number(numbers[1]) : length, row.at);
  }
  if (name === "Overflow" || name === "Underflow") {
    assert.equal(roles[place], "d", row.at);
    assert.equal(rest, place + 1, row.at);
  }
  if (name === "InvalidDigit" || name === "Empty") assert.equal(rest, place, row.at);
  if (name === "InvalidLeadingZeros") assert.match(roles.slice(place), /^d_*d/, row.at);
}

/** A heading of the grammar as its anchor, by GRAMMAR.md itself. */
const ANCHORS = new Map(
  readFileSync(join(TOP, "docs", "GRAMMAR.md"), "utf8").split("\n")
    .filter((line) => line.startsWith("## "))
    .map((line) => [line.slice(3).toLowerCase().replace(/[^\w ]/g, "").replaceAll(" ", "-"), line]),
);
const GRAMMAR = readFileSync(join(PAGE, "GRAMMAR.html"), "utf8");

/** A link has to lead to a heading of the grammar. */
function checkLink(link) {
  const [page, anchor] = link.split("#");
  assert.equal(page, "GRAMMAR.html");
  assert.ok(ANCHORS.has(anchor), link);
  assert.ok(GRAMMAR.includes(`<b id="${anchor}">${ANCHORS.get(anchor)}</b>`), link);
  return anchor;
}

test("the page loads, with nothing of any other host", async () => {
  await browser.open(server.page, READY);
  assert.equal((await browser.value(`(${shown})()`)).answer, "Err(Overflow(19))");
  isQuiet();
});

test("each test vector is shown with its answer, its fault and its parts", async (context) => {
  const asked = rows().filter((row) => row.text.length <= LONGEST);
  const found = await shownOf(asked.map(fragmentOf));
  const links = new Set();
  for (const [index, row] of asked.entries()) {
    const { answer, roles, caret, more, links: each } = found[index];
    each.forEach((link) => links.add(link));
    if (row.answer.name === "valid") {
      assert.doesNotMatch(answer, /^Err\(Invalid\w+\)$/, row.at);
    } else {
      assert.equal(answer, writtenOf(row), row.at);
    }
    if (row.parser === "format" || !row.answer.numbers.length || more) continue;
    assert.equal(caret, row.answer.name === "Ok" ? -1 : Number(row.answer.numbers[0]), row.at);
    checkParts(row, roles);
  }
  links.forEach(checkLink);
  isQuiet();
  context.diagnostic(`${asked.length} test vectors, ${links.size} headings of the grammar`);
});

test("parts and rules worked out by hand", async (context) => {
  const asked = CASES.map(([fragment, text]) => `${fragment}&text=${encodeURIComponent(text)}`);
  const found = await shownOf(asked);
  for (const [index, [, , answer, roles, heading, says = ""]] of CASES.entries()) {
    const { links, rules, ...others } = found[index];
    assert.equal(others.answer, answer, asked[index]);
    assert.equal(others.roles, roles, asked[index]);
    assert.ok(rules.includes(says), `${asked[index]}: ${rules}`);
    assert.equal(links.length ? checkLink(links.at(-1)) : undefined, heading, asked[index]);
  }
  isQuiet();
  context.diagnostic(`${CASES.length} cases`);
});

test("a fragment that means harm shows an answer, and runs nothing", async (context) => {
  const texts = ["1".repeat(100000), "_".repeat(5000), "1_".repeat(5000)];
  const long = texts.map((text) => `format=rust&text=${text}`);
  for (const { answer } of await shownOf([...HOSTILE, ...long])) assert.notEqual(answer, "");
  assert.equal(await browser.value("window.harmed"), undefined);
  isQuiet();
  context.diagnostic(`${HOSTILE.length + long.length} fragments`);
});

test("the page says that a text is too long, and reads the next one", async () => {
  await browser.open(`${server.page}#text=7&type=u8`, READY);
  const typed = (text) => browser.value(`(() => {
    const input = document.getElementById("text");
    input.value = ${text};
    input.dispatchEvent(new Event("input", { bubbles: true }));
    return (${shown})();
  })()`);
  const { answer, roles, code } = await typed('"1".repeat(1e7)');
  assert.equal(answer, "The page reads 100000 characters at most, and this has 10000000.");
  assert.equal(roles + code, "");
  await browser.value("document.getElementById('copy-link').click()");
  assert.match(await browser.value("document.body.innerText"), /too long for a link/);
  await browser.value("new Promise((resolve) => setTimeout(resolve, 400))");
  assert.equal(await browser.value("location.hash"), "#text=7&type=u8");
  assert.equal((await typed('"12\\0\ud800"')).answer, "Err(InvalidDigit(2))");
  isQuiet();
});

test("line ends are read, pasted or in a link, where a field of one line drops them", async () => {
  const text = () => browser.value("document.getElementById('text').value");
  await browser.open(`${server.page}#text=1%0A&type=u8`, READY);
  assert.equal((await browser.value(`(${shown})()`)).answer, "Err(InvalidDigit(1))");
  assert.equal(await text(), "1\\n");
  await browser.value(`(() => {
    const clipboardData = new DataTransfer();
    clipboardData.setData("text/plain", "12\\r\\n");
    const input = document.getElementById("text");
    input.select();
    input.dispatchEvent(new ClipboardEvent("paste", { clipboardData, cancelable: true }));
  })()`);
  assert.equal((await browser.value(`(${shown})()`)).answer, "Err(InvalidDigit(2))");
  assert.equal(await text(), "12\\r\\n");
  await browser.value("document.getElementById('text').select()");
  const { x, y } = await browser.value("document.getElementById('text').getBoundingClientRect().toJSON()");
  const data = { items: [{ mimeType: "text/plain", data: "3\n4" }], dragOperationsMask: 1 };
  for (const type of ["dragEnter", "dragOver", "drop"]) {
    await browser.send("Input.dispatchDragEvent", { type, x: x + 9, y: y + 9, data });
  }
  assert.equal(await text(), "3\\n4");
  await browser.open(`${server.page}#text=1&type=u8&digit_separator=%0A`, READY);
  assert.equal(await browser.value("document.getElementById('digit_separator').value"), "\\n");
  isQuiet();
});

test("what is typed while the page loads stays, and Enter sends nothing", async () => {
  let come;
  server.held = new Promise((resolve) => (come = resolve));
  await browser.send("Emulation.setFocusEmulationEnabled", { enabled: true });
  await browser.open(`${server.page}#text=7&type=u8`, "document.getElementById('text')");
  await browser.send("Input.insertText", { text: "12" });
  await browser.press("Enter", "\r");
  await browser.send("Input.insertText", { text: "3" });
  come();
  await browser.value(`new Promise((resolve) => {
    const look = () => (${READY} ? resolve() : setTimeout(look, 20));
    look();
  })`);
  assert.equal((await browser.value(`(${shown})()`)).answer, "Ok(123)");
  await browser.press("Enter", "\r");
  await browser.value("new Promise((resolve) => setTimeout(resolve, 400))");
  assert.equal(await browser.value("location.href"), `${server.page}#text=123&type=u8&call=whole`);
  isQuiet();
});

test("the address keeps what is set, and a link to it shows the same", async () => {
  await browser.open(server.page, READY);
  await browser.value(`(() => {
    const set = (id, property, value, event) => {
      const input = document.getElementById(id);
      input[property] = value;
      input.dispatchEvent(new Event(event, { bubbles: true }));
    };
    set("text", "value", "0x1fu", "input");
    set("type", "value", "u16", "change");
    set("format", "value", "rust", "change");
    set("base_suffix", "value", "u", "input");
    document.querySelector("input[value=Rattle]").click();
  })()`);
  const before = await browser.value(`(${shown})()`);
  assert.equal(before.answer, "Ok(31)");
  assert.equal(before.roles, "ppddx");
  await browser.value("new Promise((resolve) => setTimeout(resolve, 400))");
  const address = await browser.value("location.href");
  await browser.open(address, READY);
  assert.deepEqual(await browser.value(`(${shown})()`), before);
  assert.equal(await browser.value("document.getElementById('base_suffix').value"), "u");
  isQuiet();
});

test("the call and a link are copied", async () => {
  await browser.send("Browser.grantPermissions", {
    permissions: ["clipboardReadWrite", "clipboardSanitizedWrite"],
  });
  await browser.send("Emulation.setFocusEmulationEnabled", { enabled: true });
  await browser.open(`${server.page}#text=7&type=u8&caller=Python`, READY);
  const copied = async (button) => {
    await browser.value(`document.getElementById("${button}").click()`);
    return browser.value("navigator.clipboard.readText()");
  };
  assert.equal(await copied("copy-call"), 'import jadvolni\n\nvalue = jadvolni.parse(b"7", "u8")');
  const link = await copied("copy-link");
  assert.equal(link, `${server.page}#text=7&type=u8&call=whole&caller=Python`);
  isQuiet();
});

test("the keyboard is enough, and each control has a name", async () => {
  await browser.open(`${server.page}#text=1&type=u8`, READY);
  const focused = () => browser.value("(({ id, tagName }) => id || tagName)(document.activeElement)");
  assert.equal(await focused(), "text");
  await browser.send("Input.insertText", { text: "23" });
  assert.equal((await browser.value(`(${shown})()`)).answer, "Ok(123)");
  const visited = [];
  for (let step = 0; step < 4; step += 1) {
    await browser.press("Tab");
    visited.push(await focused());
  }
  assert.deepEqual(visited, ["type", "call", "format", "SUMMARY"]);
  await browser.press("Enter", "\r");
  await browser.press("Tab");
  assert.equal(await focused(), "mantissa_radix");
  const { nodes } = await browser.send("Accessibility.getFullAXTree");
  const isControl = ({ properties = [], role }) => role.value !== "RootWebArea"
    && properties.some(({ name, value }) => name === "focusable" && value.value);
  const controls = nodes.filter(isControl);
  assert.ok(controls.length > 30, `${controls.length} controls`);
  assert.deepEqual(controls.filter((it) => !it.name?.value).map((it) => it.role.value), []);
});

/** The texts whose contrast with their ground is under 4.5, as WCAG counts it, in the page. */
function faint() {
  const channel = (value) => (value <= 0.04045 ? value / 12.92 : ((value + 0.055) / 1.055) ** 2.4);
  const light = (colour) => {
    const [red, green, blue] = colour.match(/[\d.]+/g).map((it) => it / 255);
    return 0.2126 * channel(red) + 0.7152 * channel(green) + 0.0722 * channel(blue);
  };
  const groundOf = (of) => {
    for (let at = of; at; at = at.parentElement) {
      const { backgroundColor } = getComputedStyle(at);
      if (backgroundColor !== "rgba(0, 0, 0, 0)") return backgroundColor;
    }
    return "rgb(255, 255, 255)";
  };
  return [...document.querySelectorAll("body *")].filter((of) => {
    if (![...of.childNodes].some((it) => it.nodeType === 3 && it.data.trim())) return false;
    const lights = [light(getComputedStyle(of).color), light(groundOf(of))];
    return (Math.max(...lights) + 0.05) / (Math.min(...lights) + 0.05) < 4.5;
  }).map((of) => `${of.tagName} ${of.className} ${of.textContent.slice(0, 20)}`);
}

test("light and dark, every text stands out from its ground", async () => {
  await browser.send("Emulation.setDeviceMetricsOverride", {
    width: 960, height: 900, deviceScaleFactor: 1, mobile: false,
  });
  const texts = [WITH_FAULT, "format=javascript&type=i64&text=-0x1_Fn%20%7D&call=front"];
  for (const value of ["light", "dark"]) {
    const features = [{ name: "prefers-color-scheme", value }];
    await browser.send("Emulation.setEmulatedMedia", { features });
    for (const fragment of texts) {
      await browser.open(`${server.page}#${fragment}`, READY);
      assert.deepEqual(await browser.value(`(${faint})()`), []);
    }
    await browser.open(`${server.page}#${WITH_FAULT}`, READY);
    const { data } = await browser.send("Page.captureScreenshot", { captureBeyondViewport: true });
    if (PICTURES) writeFileSync(join(PICTURES, `${value}.png`), data, "base64");
  }
});

const BEGUN = "!/Loading/.test(document.body.textContent)";

/** What the page answers at an address, where the browser complains too. */
async function answerAt(address) {
  await browser.open(address, BEGUN);
  browser.errors = [];
  return (await browser.value(`(${shown})()`)).answer;
}

test("the page says that an engine lacks 64-bit memory", async () => {
  const source = "WebAssembly.validate = () => false";
  const { identifier } = await browser.send("Page.addScriptToEvaluateOnNewDocument", { source });
  assert.match(await answerAt(server.page), /no 64-bit WebAssembly memory/);
  await browser.send("Page.removeScriptToEvaluateOnNewDocument", { identifier });
});

test("the page says that a module is missing or damaged", async () => {
  const folder = mkdtempSync(join(tmpdir(), "page-"));
  const page = await serve(folder);
  cpSync(join(PAGE, "index.html"), join(folder, "index.html"));
  assert.match(await answerAt(page.address), /wasm can't be loaded: there is none\. /);
  writeFileSync(join(folder, "jadvolni.wasm"), "<!doctype html>");
  assert.match(await answerAt(page.address), /wasm can't be loaded: .*magic/);
  page.close();
  rmSync(folder, { recursive: true });
});

test("a page without a server says that it needs one", async () => {
  const { href } = pathToFileURL(join(PAGE, "index.html"));
  assert.match(await answerAt(href), /wasm can't be loaded: a browser has to get it from a server$/);
});
