// Chromium without a window, driven over a pipe by the DevTools protocol, and a server for a folder.
import { spawn } from "node:child_process";
import { mkdtemp, readFile, rm } from "node:fs/promises";
import { createServer } from "node:http";
import { tmpdir } from "node:os";
import { extname, join, normalize } from "node:path";

const TYPES = {
  ".html": "text/html",
  ".css": "text/css",
  ".js": "text/javascript",
  ".wasm": "application/wasm",
};

const ENDED = "the browser has ended";
const START = 60_000; // ms until it has to answer

/** Serves a folder to this machine alone. `missing` lists what was asked for and isn't there. A module waits for
 * `held`. */
export async function serve(folder) {
  const missing = [];
  const served = { missing, held: undefined };
  const server = createServer(async (request, response) => {
    const path = normalize(decodeURIComponent(new URL(request.url, "http://localhost").pathname));
    const file = join(folder, path.endsWith("/") ? `${path}index.html` : path);
    try {
      const body = await readFile(file);
      if (extname(file) === ".wasm") await served.held;
      response.writeHead(200, { "Content-Type": TYPES[extname(file)] ?? "text/plain" }).end(body);
    } catch {
      missing.push(path);
      response.writeHead(404).end();
    }
  });
  await new Promise((resolve) => server.listen(0, "127.0.0.1", resolve));
  const address = `http://127.0.0.1:${server.address().port}/`;
  return Object.assign(served, { address, close: () => server.close() });
}

/** What an exception in the page says. */
function messageOf({ exception, text }) {
  return exception?.description ?? text;
}

/** A browser with one tab. */
export class Browser {
  #process;
  #folder;
  #session;
  #sent = 0;
  #waiting = new Map();
  #loaded = () => {};
  #rest = "";
  #hasEnded = false;

  /** What the page said wrong: errors of its console, exceptions, failed loads. */
  errors = [];
  /** The addresses of all that the page asked for. */
  requests = [];

  static async start() {
    const browser = new Browser();
    browser.#folder = await mkdtemp(join(tmpdir(), "page-"));
    browser.#process = spawn("chromium", [
      "--headless", "--no-sandbox", "--disable-gpu", "--no-first-run", "--remote-debugging-pipe",
      "--disable-ipc-flooding-protection", // (else 200 changes of the address are the most in 10 s)
      `--user-data-dir=${browser.#folder}`, "about:blank",
    ], { stdio: ["ignore", "ignore", "ignore", "pipe", "pipe"] });
    browser.#process.once("exit", () => browser.#end());
    browser.#process.stdio[3].on("error", () => {}); // (the browser has ended; its exit is reported)
    browser.#process.stdio[4].setEncoding("utf8").on("data", (data) => browser.#read(data));
    const late = setTimeout(() => browser.#process.kill(), START).unref();
    const { targetInfos } = await browser.send("Target.getTargets");
    clearTimeout(late);
    const { targetId } = targetInfos.find((it) => it.type === "page");
    const { sessionId } = await browser.send("Target.attachToTarget", { targetId, flatten: true });
    browser.#session = sessionId;
    const domains = ["Page", "Runtime", "Network", "Log", "Accessibility"];
    for (const domain of domains) await browser.send(`${domain}.enable`);
    return browser;
  }

  /** Sends a command, and answers its result. */
  send(method, params = {}) {
    this.#sent += 1;
    const id = this.#sent;
    const command = JSON.stringify({ id, method, params, sessionId: this.#session });
    this.#process.stdio[3].write(`${command}\0`);
    return new Promise((resolve, reject) => {
      if (this.#hasEnded) reject(new Error(ENDED));
      else this.#waiting.set(id, { resolve, reject });
    });
  }

  #end() {
    this.#hasEnded = true;
    for (const { reject } of this.#waiting.values()) reject(new Error(ENDED));
  }

  #read(data) {
    const messages = (this.#rest + data).split("\0");
    this.#rest = messages.pop();
    for (const message of messages) this.#take(JSON.parse(message));
  }

  #take({ id, result, error, method, params }) {
    const waiting = this.#waiting.get(id);
    this.#waiting.delete(id);
    if (error) waiting?.reject(new Error(error.message));
    else waiting?.resolve(result);
    this.#events[method]?.(params);
  }

  #events = {
    "Page.loadEventFired": () => this.#loaded(),
    "Network.requestWillBeSent": ({ request }) => this.requests.push(request.url),
    "Network.loadingFailed": ({ errorText }) => this.errors.push(errorText),
    "Runtime.exceptionThrown": ({ exceptionDetails }) => this.errors.push(messageOf(exceptionDetails)),
    "Runtime.consoleAPICalled": ({ args }) => this.errors.push(args.map((it) => it.value).join(" ")),
    "Log.entryAdded": ({ entry }) => entry.level === "error" && this.errors.push(entry.text),
  };

  /** The value of an expression in the page, where a promise is waited for. */
  async value(expression) {
    const { result, exceptionDetails } = await this.send("Runtime.evaluate", {
      expression, awaitPromise: true, returnByValue: true,
    });
    if (exceptionDetails) throw new Error(messageOf(exceptionDetails));
    return result.value;
  }

  async #load(url) {
    const loaded = new Promise((resolve) => {
      this.#loaded = resolve;
    });
    await this.send("Page.navigate", { url });
    await loaded;
  }

  /** Opens a page from nothing, and waits until an expression is true there. */
  async open(address, ready) {
    await this.#load("about:blank");
    await this.#load(address);
    await this.value(`new Promise((resolve, reject) => {
      const late = setTimeout(() => reject(new Error("the page isn't ready")), 30000);
      const look = () => (${ready} ? resolve(clearTimeout(late)) : setTimeout(look, 20));
      look();
    })`);
  }

  /** Presses a key of this name. */
  async press(key, text) {
    const code = { Tab: 9, Enter: 13, " ": 32 }[key];
    const event = { key, code: key === " " ? "Space" : key, windowsVirtualKeyCode: code, text };
    await this.send("Input.dispatchKeyEvent", { type: "keyDown", ...event });
    await this.send("Input.dispatchKeyEvent", { type: "keyUp", ...event });
  }

  async close() {
    const ended = new Promise((resolve) => this.#process.once("exit", resolve));
    this.send("Browser.close").catch(() => {}); // (it may end before it answers)
    if (!this.#hasEnded) await ended;
    await rm(this.#folder, { recursive: true, force: true });
  }
}
