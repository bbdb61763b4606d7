// The module's answers beside those of the native library, out/native, on containers and values that are changed at random: the code, the
// place, and each byte of the answer. BORSH_CASES says how many.
import assert from "node:assert/strict";
import { spawnSync } from "node:child_process";
import { fileURLToPath } from "node:url";
import { test } from "node:test";
import { calls, hexOf } from "./load.js";
import { randomNumbers } from "./random.js";
import { bytesOf, rowsIn, textOf } from "./suite.js";

const CASES = Number(process.env.BORSH_CASES ?? 100000);
const AT_ONCE = 10000;
const CODES = ["yes", "no", "malformed", "out of memory", "null", "undecided", "short"];
/** Longer rows are of the tests of values. */
const MOST_BYTES = 3000;

const encoder = new TextEncoder();
const random = randomNumbers(3);

/** The rows of values, each with the bytes of its schema, its value and its JSON. */
function originals() {
  return ["json.tsv", "formats.tsv", "members.tsv", "nodes.tsv", "types.tsv"].flatMap((file) => rowsIn(file).rows).flatMap(({ kind, columns, schema }) => {
    const bytes = schema().bytes;
    const value = kind === "text" ? new Uint8Array() : bytesOf(columns[0]);
    const text = textOf(columns.slice(1));
    const json = encoder.encode(text.startsWith("! ") ? "null" : text);
    return bytes.length < MOST_BYTES && value.length + json.length < MOST_BYTES ? [{ bytes, value, json }] : [];
  });
}

/** A text of types, and one of them. */
const SOURCES = [
  ["pub struct A<T> { x: [T; 1 << 2], y: Option<Box<A<u8>>> } enum E { B, C(A<u64>) }", "E"],
  ["", "HashMap<String, (u8, Vec<bool>)>"],
  ['{"types": [{"name": "A", "type": {"kind": "struct", "fields": [{"name": "x", "type": {"vec": "u8"}}]}}], "accounts": []}', "A"],
  ['{"struct": {"x": "u8", "y": {"array": {"type": "string", "len": 4}}}}', "Schema"],
].map((texts) => texts.map((text) => encoder.encode(text)));

/** A few bytes changed, left out, put in or cut off. */
function changed(bytes) {
  const result = [...bytes];
  for (let count = random(4); count > 0 && result.length > 0; count--) {
    const at = random(result.length);
    const byte = [random(4), random(256), result[random(result.length)]][random(3)];
    result.splice(at, [0, 1, 1, 1, 1, 2][random(6)], ...[[byte], [byte], [byte], []][random(4)]);
  }
  return Uint8Array.from(random(12) ? result : result.slice(0, random(result.length + 1)));
}

/** Of each call whether its answer may be no, and what it is given of a case. */
const CALLS = [
  // tools/calls.py writes: calls
  ["valid", true, (it) => [it.schema]],
  ["size", true, (it) => [it.schema]],
  ["names", false, (it) => [it.schema]],
  ["member", true, (it) => [it.schema, it.value]],
  ["toJson", true, (it) => [it.schema, it.value, random(2) === 1, random(2) === 1]],
  ["fromJson", true, (it) => [it.schema, it.json]],
  ["records", true, (it) => [it.schema, it.bytes, MOST_VALUES]],
  ["jsonLines", true, (it) => [it.schema, it.values, it.lengths, random(2) === 1]],
  ["compile", true, (it) => [it.text, it.typeText]],
  ["compare", true, (it) => [it.oldSchema, it.newSchema]],
  // tools/calls.py: end
];
const MOST_VALUES = 64;

/** As the native program prints it. */
function said(answer) {
  const number = answer.number ?? 0n;
  const place = `${answer.offset ?? ""}${answer.path ? `:${answer.path.start}+${answer.path.end - answer.path.start}` : ""}`;
  return `${CODES.indexOf(answer.kind)} ${number} ${place} ${hexOf(answer.bytes)} ${answer.lengths?.join(" ") ?? ""}`.trimEnd();
}

/** The line for the native program. */
function lineOf([name, given]) {
  const words = given.map((it) => {
    if (it instanceof Uint8Array) return hexOf(it) || "-";
    return Array.isArray(it) ? it.join() || "-" : Number(it);
  });
  return [name.replace(/[A-Z]/g, (letter) => `_${letter.toLowerCase()}`), ...words].join(" ");
}

function native(cases) {
  const program = fileURLToPath(new URL("../out/native", import.meta.url));
  const { stdout, status } = spawnSync(program, { input: `${cases.map(lineOf).join("\n")}\n`, maxBuffer: 2 ** 30 });
  assert.equal(status, 0);
  return stdout.toString().split("\n").map((line) => line.trimEnd());
}

test(`${CASES} changed containers and values: the native library's code and bytes`, () => {
  const rows = originals();
  const kinds = {};
  for (let done = 0; done < CASES; done += AT_ONCE) {
    const cases = Array.from({ length: Math.min(AT_ONCE, CASES - done) }, () => {
      const row = rows[random(rows.length)];
      const isOther = random(8) === 0;
      const { value, json } = isOther ? rows[random(rows.length)] : row;
      const [schema, bytes, text] = [row.bytes, value, json].map((it) => (random(2) ? changed(it) : it));
      const [items, typeText] = SOURCES[random(SOURCES.length)].map((it) => (random(4) ? it : changed(it)));
      const oldSchema = random(2) ? rows[random(rows.length)].bytes : row.bytes;
      const lengths = bytes.length === 0 ? [] : [bytes.length >> 1, 1, bytes.length];
      const [name, , givenOf] = CALLS[random(CALLS.length)];
      return [name, givenOf({ schema, value: bytes, values: bytes, bytes, lengths, json: text, text: items, typeText, oldSchema, newSchema: schema })];
    });
    const wanted = native(cases);
    cases.forEach(([name, given], index) => {
      const answer = calls[name](...given);
      assert.equal(said(answer), wanted[index], lineOf([name, given]));
      kinds[`${name} ${answer.kind}`] = (kinds[`${name} ${answer.kind}`] ?? 0) + 1;
    });
  }
  console.log(Object.entries(kinds).map(([kind, count]) => `${kind}: ${count}`).sort().join(", "));
  for (const [name, mayBeNo] of CALLS) assert.ok(kinds[`${name} yes`] > CASES / 100 && (!mayBeNo || kinds[`${name} no`] > CASES / 200), name);
});
