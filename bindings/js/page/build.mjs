// node build.mjs: makes ../out/page.html, one file that needs no other, of the page's parts, the package's and the module. The worker's
// script lies in it as text, since a file that is opened from a disk may begin no worker of another one.
import { createHash } from "node:crypto";
import { readFileSync, renameSync, writeFileSync } from "node:fs";

const read = (path) => readFileSync(new URL(path, import.meta.url));

/** A module's text as a part of one script: without its imports, and with its exports as ordinary names. */
function part(path) {
  const text = read(path).toString();
  return text.replace(/^import .*;\n/gm, "").replace(/^export \{.*\}.*;\n/gm, "").replace(/^export /gm, "");
}

const script = (...paths) => paths.map((path) => part(`${path}.js`)).join("\n");
const names = ["errors", "bytes", "container", "definitions", "values", "encode", "rows", "calls", "records", "comparison", "schema"];
const packaged = names.map((name) => `../${name}`);
const hash = (text) => `sha256-${createHash("sha256").update(text).digest("base64")}`;
const pieces = {
  script: script("../container", "kinds", "helper", "rolling", "views", "page"),
  style: read("page.css").toString(),
  worker: `"use strict";\n${script(...packaged, "kinds", "sources", "parts", "worker")}`,
  module: read("../out/borsh.wasm").toString("base64"),
};
Object.assign(pieces, { "script hash": hash(pieces.script), "style hash": hash(pieces.style) });
for (const [name, text] of Object.entries(pieces)) {
  if (/<\/(script|style)|<!--/i.test(text)) throw new Error(`the page's ${name} would end its element`);
}
const page = read("page.html").toString().replace(/@@(.*?)@@/g, (_, name) => pieces[name]);
const [made, place] = [`../out/page.html.${process.pid}`, "../out/page.html"].map((path) => new URL(path, import.meta.url));
writeFileSync(made, page);
renameSync(made, place);
