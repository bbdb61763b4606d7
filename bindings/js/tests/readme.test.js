// The examples of the README print what their comments say, as files of the package, or of the folder BORSH_ROOM, where it is installed.
import assert from "node:assert/strict";
import { execFileSync } from "node:child_process";
import { readFileSync, rmSync, writeFileSync } from "node:fs";
import { test } from "node:test";
import { fileURLToPath, pathToFileURL } from "node:url";

const readme = readFileSync(new URL("../README.md", import.meta.url), "utf8");
const examples = [...readme.matchAll(/^```js\n(.*?)^```$/gms)].map((it) => it[1]);

const folder = process.env.BORSH_ROOM ? pathToFileURL(`${process.env.BORSH_ROOM}/`) : new URL("../out/", import.meta.url);

/** Run as a file that imports the package by its name. */
function printed(example) {
  const file = new URL("example.mjs", folder);
  writeFileSync(file, example);
  try {
    return execFileSync(process.execPath, [fileURLToPath(file)]).toString();
  } finally {
    rmSync(file);
  }
}

test("there are five examples", () => assert.equal(examples.length, 5));

examples.forEach((example, index) => {
  test(`example ${index + 1}`, () => {
    const wanted = [...example.matchAll(/^(?:.*console\.log\(.*\); )?\/\/ (.*)$/gm)].map((it) => `${it[1]}\n`).join("");
    assert.equal(printed(example), wanted);
  });
});
