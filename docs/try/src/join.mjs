// Writes docs/try/index.html: page.html with its style sheet and its modules in it, as one file.
//
//     node docs/try/src/join.mjs             writes it
//     node docs/try/src/join.mjs --check     exit status 1 where it isn't what would be written
import { createHash } from "node:crypto";
import { readFileSync, writeFileSync } from "node:fs";

const TOP = new URL("../../../", import.meta.url);
const PAGE = new URL("../index.html", import.meta.url);
const FROM = /^(import|export) (?:\* as (\w+)|\{([^}]*)\}) from "(\.[^"]+)";$/gm;
const LISTED = /^export \{([^}]*)\};$/gm;
const DECLARED = /^export ((?:async )?(?:const|class|function) (\w+))/gm;
const LOADED = /\bimport\("(\.[^"]+)"\)/g;
const OTHER = /^(?:import|export)\b.*|.*(?:<\/script|<!--).*/im;

const read = (url) => readFileSync(url, "utf8");
const hashOf = (text) => `'sha256-${createHash("sha256").update(text).digest("base64")}'`;

/** A module as a function that answers what it exports. `named` gives a module's name by its path. */
function functionOf(source, named) {
  const exported = [];
  const body = source
    .replace(FROM, (_, word, whole, names, path) => {
      if (word === "export") exported.push(names);
      return `const ${whole ?? `{${names}}`} = await moduleOf("${named(path)}");`;
    })
    .replace(LISTED, (_, names) => (exported.push(names), ""))
    .replace(DECLARED, (_, declared, name) => (exported.push(name), declared))
    .replace(LOADED, (_, path) => `moduleOf("${named(path)}")`);
  const other = body.match(OTHER);
  if (other) throw new Error(`this can't be joined: ${other[0]}`);
  return `async () => {\n${body}return { ${exported.map((it) => it.trim()).join(", ")} };\n}`;
}

/** A module and all that it imports. Each runs once, when it is first asked for. */
function joined(first) {
  const functions = new Map();
  const add = (path, from) => {
    const url = new URL(path, from);
    const name = url.href.slice(TOP.href.length);
    if (functions.has(name)) return name;
    functions.set(name, undefined);
    functions.set(name, functionOf(read(url), (it) => add(it, url)));
    return name;
  };
  const name = add(first, import.meta.url);
  const modules = Array.from(functions, ([each, code]) => `"${each}": ${code},`);
  return `
const modules = {
${modules.join("\n")}
};
const begun = {};
const moduleOf = (name) => (begun[name] ??= modules[name]());
moduleOf("${name}");
`;
}

const styles = `\n${read(new URL("try.css", import.meta.url))}`;
const script = joined("./page.js");
const page = read(new URL("page.html", import.meta.url))
  .replace("<!doctype html>", (it) => `${it}\n<!-- Written by docs/try/src/join.mjs. -->`)
  .replace("script-src 'self'", `script-src ${hashOf(script)}`)
  .replace("style-src 'self'", `style-src ${hashOf(styles)}`)
  .replace('<link rel="stylesheet" href="try.css">', () => `<style>${styles}</style>`)
  .replace(' src="page.js">', () => `>${script}`);

/** Does what is asked, and answers the exit status and what is wrong. */
function done(asked) {
  if (asked !== "" && asked !== "--check") return [2, "usage: node docs/try/src/join.mjs [--check]"];
  try {
    if (asked === "") writeFileSync(PAGE, page);
    else if (read(PAGE) !== page) return [1, "docs/try/index.html isn't what node docs/try/src/join.mjs writes"];
    return [0];
  } catch (error) {
    return [1, `docs/try/src/join.mjs: ${error.message}`];
  }
}

const [status, wrong] = done(process.argv.slice(2).join(" "));
if (wrong) console.error(wrong);
process.exitCode = status;
