// borsh.d.ts declares what the package has, and nothing else.
import assert from "node:assert/strict";
import { readFileSync } from "node:fs";
import { test } from "node:test";
import * as library from "../borsh.js";

const declared = readFileSync(new URL("../borsh.d.ts", import.meta.url), "utf8");

/** The names of the members that a class is declared with. */
function membersOf(name) {
  const body = new RegExp(`^export class ${name} .*?^}`, "ms").exec(declared)[0];
  return [...body.matchAll(/^ {2}(?:static |readonly )*(\w+)\??[(:]/gm)].map((it) => it[1]).filter((it) => it !== "constructor").sort();
}

test("the exports", () => assert.deepEqual(Object.keys(library).sort(), ["BorshError", "Schema", "compare"]));

test("the members of Schema", () => {
  const own = [...Object.getOwnPropertyNames(library.Schema), ...Object.getOwnPropertyNames(library.Schema.prototype)];
  assert.deepEqual(membersOf("Schema"), own.filter((it) => !["length", "name", "prototype", "constructor"].includes(it)).sort());
});

test("the members of BorshError", () => {
  const own = Object.keys(new library.BorshError("no", "text")).filter((it) => it !== "name");
  assert.deepEqual(membersOf("BorshError"), own.sort());
});
