// The proved library as a WebAssembly module, and its memory, through which calls get arguments and return results.
// The library never uses the memory from `__heap_base` on, so they go there.

import { described } from "./arguments.js";
import { JadvolniError } from "./errors.js";

// A module that has a memory with addresses of 64 bits, and nothing else.
const MODULE_OF_64_BITS = Uint8Array.of(0, 0x61, 0x73, 0x6d, 1, 0, 0, 0, 5, 3, 1, 4, 1);

/** Where the module is: beside this file, unless that is a part of a blob or of a page without an address. */
function placeOfModule() {
  try {
    return new URL("./jadvolni.wasm", import.meta.url);
  } catch (cause) {
    throw new JadvolniError(`jadvolni.wasm can't be loaded: nothing stands beside ${import.meta.url}`, { cause });
  }
}

const MODULE = placeOfModule();

const MISSING = "there is none. A package of a release has it beside index.js; in the repository `make wasm` puts it there";
const NOT_FOUND = "the server answers 404";

/** Whether a module wasn't found. */
const isMissing = ({ code, message }) => code === "ENOENT" || message === NOT_FOUND;

async function moduleBytes() {
  if (MODULE.protocol === "file:") {
    const { readFile } = await import("node:fs/promises").catch(() => {
      throw new Error("a browser has to get it from a server");
    });
    return readFile(MODULE);
  }
  const response = await fetch(MODULE);
  if (!response.ok) throw new Error(`the server answers ${response.status}`);
  return response.arrayBuffer();
}

async function load() {
  if (new Uint16Array(Uint8Array.of(1, 0).buffer)[0] !== 1) {
    throw new JadvolniError("this machine keeps the high byte of a number first");
  }
  if (!globalThis.WebAssembly?.validate(MODULE_OF_64_BITS)) {
    throw new JadvolniError(
      "this engine has no 64-bit WebAssembly memory: Chromium has it from 133 on, Firefox from" +
        " 134, Node from 24, and Node from 20 with --experimental-wasm-memory64",
    );
  }
  try {
    const { instance } = await WebAssembly.instantiate(await moduleBytes(), {});
    return instance.exports;
  } catch (cause) {
    const detail = isMissing(cause) ? MISSING : cause.message;
    throw new JadvolniError(`${MODULE} can't be loaded: ${detail}`, { cause });
  }
}

const exported = await load();

/** The error if the module belongs to another version of this package. */
export function otherVersion(detail) {
  return new JadvolniError(`${MODULE} is of another version: ${detail}`);
}

/** What the module exports under a name. */
export function named(name) {
  if (exported[name] === undefined) throw otherVersion(`it has no ${name}`);
  return exported[name];
}

export const buffer = named("memory").buffer;

// That memory holds, in this order: a call's result of two words, a number, a count and an entry, a format (or, with
// more bytes, a jadvolni_fixed), and the text. A call gets their addresses.
const answerPlace = Math.ceil(Number(named("__heap_base").value) / 16) * 16;
const numberPlace = answerPlace + 16;
const countPlace = numberPlace + 16;
const formatPlace = countPlace + 16;
export const textPlace = formatPlace + 48;
export const ANSWER = BigInt(answerPlace);
export const NUMBER = BigInt(numberPlace);
export const COUNT = BigInt(countPlace);
export const ENTRY = BigInt(countPlace + 8);
export const FORMAT = BigInt(formatPlace);
export const TEXT = BigInt(textPlace);
export const LONGEST = buffer.byteLength - textPlace;

const answer = new Uint32Array(buffer, answerPlace, 4);
const counted = new Uint32Array(buffer, countPlace, 4);
const formatBytes = new Uint8Array(buffer, formatPlace, 48);
const textBytes = new Uint8Array(buffer, textPlace);
const encoder = new TextEncoder();
const decoder = new TextDecoder();
// Up to this length a loop is faster than the encoder.
const SHORT = 24;

// The results of the last call. The memory has less than 4 GiB, so 32 bits are enough for each.
export const status = () => answer[0];
export const place = () => answer[2];
export const count = () => counted[0];
export const entry = () => counted[2];

/** The place where calls write a number, as an array of its type, or of its halves. */
export function numberAs(NumberArray, length = 1) {
  return new NumberArray(buffer, numberPlace, length);
}

/** The text that was put there, from a place to another. */
export function textBetween(start, stop) {
  return decoder.decode(textBytes.subarray(start, stop));
}

let putBefore;

/** Copies the bytes of a format or a jadvolni_fixed, unless they are there from the last call: they never change. */
export function putFormat(bytes) {
  if (bytes === putBefore) return;
  formatBytes.set(bytes);
  putBefore = bytes;
}

/** Copies a string; false where it isn't ASCII. */
function putAscii(text) {
  for (let at = 0; at < text.length; at++) {
    const code = text.charCodeAt(at);
    if (code > 127) return false;
    textBytes[at] = code;
  }
  return true;
}

// An array's own length, buffer and offset, which a subclass of Uint8Array may override.
const { prototype } = Object.getPrototypeOf(Uint8Array);
const getterOf = (name) => Object.getOwnPropertyDescriptor(prototype, name).get;
const [LENGTH, BUFFER, OFFSET] = ["length", "buffer", "byteOffset"].map(getterOf);
const lengthOf = (bytes) => LENGTH.call(bytes);

/** Whether the buffer of an array was transferred, or cut before the array's end. */
function hasLostBytes(bytes) {
  try {
    prototype.at.call(bytes, 0);
    return false;
  } catch {
    return true;
  }
}

/** What is thrown where a text had bytes, and hasn't any more. */
export function lostBytes(name = "text") {
  return new TypeError(`${name} has lost its bytes: its buffer was transferred or cut`);
}

/** Asks that a text that is no string has bytes. They may be another frame's or context's. */
function askBytes(text, name) {
  if (!ArrayBuffer.isView(text) || text.BYTES_PER_ELEMENT !== 1) {
    throw new TypeError(`${name} has to be a string or a Uint8Array, and not ${described(text)}`);
  }
  if (lengthOf(text) === 0 && hasLostBytes(text)) throw lostBytes(name);
}

/** The bytes of a text. */
export function bytesOf(text, name = "text") {
  if (typeof text === "string") return encoder.encode(text);
  askBytes(text, name);
  return new Uint8Array(BUFFER.call(text), OFFSET.call(text), lengthOf(text));
}

function tooLong() {
  return new RangeError(`text has more than ${LONGEST} bytes`);
}

/** Copies bytes, and answers how many they are. */
export function putBytes(bytes) {
  const length = lengthOf(bytes);
  if (length > LONGEST) throw tooLong();
  textBytes.set(bytes);
  return length;
}

/** Copies a text, and answers how many bytes it has. */
export function putText(text) {
  if (typeof text !== "string") {
    askBytes(text, "text");
    return putBytes(text);
  }
  if (text.length <= SHORT && putAscii(text)) return text.length;
  const { read, written } = encoder.encodeInto(text, textBytes);
  if (read < text.length) throw tooLong();
  return written;
}

/** The place of the last `size` bytes of the memory. */
export function placeAtEnd(size) {
  const start = Math.floor((buffer.byteLength - size) / 8) * 8;
  if (start < textPlace) throw new RangeError(`there is no memory for ${size} bytes beside a text`);
  return start;
}

/** Puts bytes to a place there. */
export function putAt(bytes, start) {
  textBytes.set(bytes, start - textPlace);
}

/** Copies a text that has to end before a place, and answers how many bytes it has. */
export function putTextBefore(text, stop) {
  const length = putText(text);
  if (length > stop - textPlace) throw new RangeError(`text has more than ${stop - textPlace} bytes`);
  return length;
}
