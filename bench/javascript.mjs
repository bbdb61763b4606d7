// node javascript.mjs NATIVE: the WebAssembly module against the native library, the program NATIVE made of native.c, and against
// JavaScript that is written for the layout by hand. The least microseconds of one call, in a table.
import { execFileSync } from "node:child_process";
import { mkdtempSync, rmSync, writeFileSync } from "node:fs";
import { tmpdir } from "node:os";
import { join } from "node:path";
import { Schema } from "../bindings/js/borsh.js";

const DEFINITIONS = {
  "Vec<A>": { Sequence: { length_width: 4, length_range: { start: 0, end: 4294967295 }, elements: "A" } },
  A: { Struct: { fields: { NamedFields: [["x", "u64"], ["y", "String"]] } } },
  String: { Sequence: { length_width: 4, length_range: { start: 0, end: 4294967295 }, elements: "u8" } },
  u64: { Primitive: 8 },
  u8: { Primitive: 1 },
};
const texts = { encoder: new TextEncoder(), decoder: new TextDecoder("utf-8", { fatal: true }) };

/** As one would write it for this layout: a reader and a writer of `Vec<A>`. */
function decodeByHand(bytes) {
  const view = new DataView(bytes.buffer, bytes.byteOffset, bytes.byteLength);
  let at = 0;
  const u32 = () => { at += 4; return view.getUint32(at - 4, true); };
  const text = () => { const length = u32(); at += length; return texts.decoder.decode(bytes.subarray(at - length, at)); };
  const list = Array.from({ length: u32() }, () => { const x = view.getBigUint64(at, true); at += 8; return { x, y: text() }; });
  if (at !== bytes.length) throw new RangeError("bytes are left");
  return list;
}

function encodeByHand(list) {
  const parts = list.map((it) => texts.encoder.encode(it.y));
  const bytes = new Uint8Array(parts.reduce((sum, part) => sum + 12 + part.length, 4));
  const view = new DataView(bytes.buffer);
  view.setUint32(0, list.length, true);
  let at = 4;
  list.forEach((it, index) => {
    view.setBigUint64(at, it.x, true);
    view.setUint32(at + 8, parts[index].length, true);
    bytes.set(parts[index], at + 12);
    at += 12 + parts[index].length;
  });
  return bytes;
}

function least(times, call) {
  let found = Infinity;
  for (let count = 0; count < times; count++) {
    const start = performance.now();
    call();
    found = Math.min(found, performance.now() - start);
  }
  return 1000 * found;
}

function nativeTimes(schema, value, json, times) {
  const room = mkdtempSync(join(tmpdir(), "borsh-"));
  const files = Object.entries({ schema, value, json }).map(([name, content]) => {
    writeFileSync(join(room, name), content);
    return join(room, name);
  });
  const printed = execFileSync(process.argv[2], [...files, String(times)]).toString();
  rmSync(room, { recursive: true });
  return printed.trim().split("\n").map(Number);
}

/** How often native and module take turns: the least of each counts. */
const TURNS = 6;

console.log("what\tbytes\tnative\tmodule\tby hand");
for (const [count, times] of [[1, 3000], [1000, 100], [20000, 20]]) {
  const schema = Schema.from(Schema.ofSchemas().fromJson(JSON.stringify({ declaration: "Vec<A>", definitions: DEFINITIONS })));
  const list = Array.from({ length: count }, (_, index) => ({ x: BigInt(index) * 1000003n, y: `item number ${index}` }));
  const bytes = encodeByHand(list);
  const json = schema.toJson(bytes, { longNumbers: "string" });
  // The first three are what the native program times.
  const calls = [
    ["check", () => schema.check(bytes)],
    ["to JSON", () => schema.toJson(bytes, { longNumbers: "string" })],
    ["from JSON", () => schema.fromJson(json)],
    ["to values", () => schema.decode(bytes), () => decodeByHand(bytes)],
    ["from values", () => schema.encode(list), () => encodeByHand(list)],
  ];
  const rows = calls.map(() => [Infinity, Infinity, Infinity]);
  for (let turn = 0; turn < TURNS; turn++) {
    const native = nativeTimes(schema.bytes, bytes, json, times);
    calls.forEach(([, module, hand], index) => {
      const found = [native[index], least(times, module), hand && least(times, hand)];
      rows[index] = rows[index].map((time, column) => Math.min(time, found[column] ?? Infinity));
    });
  }
  const shown = (time) => (time === Infinity ? "" : time.toFixed(1));
  calls.forEach(([what], index) => console.log([`${what}, ${count}`, bytes.length, ...rows[index].map(shown)].join("\t")));
}
