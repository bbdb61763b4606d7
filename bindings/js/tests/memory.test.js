// Failures of memory: each allocation of each call is refused in turn, by the module that counts them.
import assert from "node:assert/strict";
import { test } from "node:test";
import { BorshError, Schema, attempt, compare, compiled, moduleName, repositoryFile } from "./load.js";
import { answerOf } from "../errors.js";
import { useModule } from "../schema.js";
import { schemaOf } from "./suite.js";
import { readFileSync } from "node:fs";

const counted = useModule(compiled(moduleName.replace("borsh", "counted")));
const schema = Schema.from(readFileSync(repositoryFile("crates/borsh_tool/data/readme.borsh")));
const value = readFileSync(repositoryFile("crates/borsh_tool/data/value.borsh"));
const broken = schemaOf("A", { A: { Tuple: { elements: ["B"] } } });

/** How many allocations the call asks for, each of which was refused once. */
function refuseEach(call) {
  const right = attempt(call);
  for (let granted = 0; ; granted++) {
    counted.exports.heap_refuse_after(BigInt(granted));
    const found = attempt(call);
    counted.exports.heap_refuse_after(2n ** 64n - 1n);
    if (found?.kind !== "out of memory") {
      assert.deepEqual(found, right);
      return granted;
    }
    assert.ok(found instanceof BorshError && found.message === "out of memory");
  }
}

/** Without the host's two blocks, which `heap_clear` takes back: what the call itself leaves. */
function blocksLeft(name, ...given) {
  const before = counted.exports.heap_blocks();
  counted[name](...given);
  return counted.exports.heap_blocks() - before - 2n;
}

const calls = {
  "validate": () => schema.validate(),
  "validate, no": () => broken.validate(),
  "maxSize": () => schema.maxSize(),
  "maxSize, no": () => broken.maxSize(),
  "check": () => schema.check(value),
  "check, no": () => schema.check("0c"),
  "toJson": () => schema.toJson(value),
  "toJson, no": () => schema.toJson("0c0000000000000001000000ff"),
  "fromJson": () => schema.fromJson('{"y":"h\\u00e9","x":12}'),
  "fromJson, no": () => schema.fromJson('{"y":7,"x":12}'),
  "decode": () => schema.decode(value),
  "parse": () => Schema.parse("struct A(u8, Vec<A>);", "A").bytes,
  "parse, no": () => Schema.parse("struct A(u8, Vec<B>);", "A"),
  "compare": () => compare(schema, schema),
  "compare, no": () => compare(schema, broken),
  "records": () => answerOf(counted.records(schema.bytes, value, 2)),
  "jsonLines": () => answerOf(counted.jsonLines(schema.bytes, value, [value.length], false)),
};

for (const [name, call] of Object.entries(calls)) {
  test(`${name}: each allocation is refused in turn`, () => assert.ok(refuseEach(call) > 2));
}

test("no call leaves a block", () => {
  const bytes = schema.bytes;
  const json = new TextEncoder().encode('{"y":"h\\u00e9","x":12}');
  for (const granted of [2n ** 64n - 1n, 7n, 9n, 12n, 20n]) {
    const left = (...words) => {
      counted.exports.heap_refuse_after(granted);
      const count = blocksLeft(...words);
      counted.exports.heap_refuse_after(2n ** 64n - 1n);
      return count;
    };
    assert.equal(left("valid", bytes), 0n);
    assert.equal(left("member", bytes, value), 0n);
    assert.equal(left("toJson", bytes, value, true, true), 0n);
    assert.equal(left("fromJson", bytes, json), 0n);
    assert.equal(left("compile", json, bytes), 0n);
    assert.equal(left("compile", new Uint8Array(), new TextEncoder().encode("(u8, Vec<u16>)")), 0n);
    assert.equal(left("compare", bytes, broken.bytes), 0n);
    assert.equal(left("records", bytes, value, 2), 0n);
    assert.equal(left("jsonLines", bytes, value, [value.length], true), 0n);
  }
});

test("the memory doesn't grow from call to call, and a large one is given back", () => {
  const list = schemaOf("Vec<u8>", { "Vec<u8>": { Sequence: { length_width: 4, length_range: { start: "0", end: "4294967295" }, elements: "u8" } }, u8: { Primitive: 1 } });
  const of = (length) => {
    const bytes = new Uint8Array(4 + length);
    new DataView(bytes.buffer).setUint32(0, length, true);
    return bytes;
  };
  for (let round = 0; round < 300; round++) list.toJson(of(100000 - round));
  assert.ok(counted.exports.memory.buffer.byteLength < 8 * 2 ** 20);
  list.toJson(of(20 * 10 ** 6));
  assert.ok(counted.exports.memory.buffer.byteLength < 2 * 2 ** 20);
});

test("a value of 100,000 variants in one another needs no deep stack", () => {
  const deep = schemaOf("List", { List: { Enum: { tag_width: 1, variants: [["0", "End", "()"], ["1", "More", "List"]] } }, "()": { Primitive: 0 } });
  const bytes = new Uint8Array(100001).fill(1, 0, 100000);
  deep.check(bytes);
  assert.match(attempt(() => deep.decode(bytes)).reason, /nests more than 128 deep/);
});

test("after a call that didn't end the next one has a new instance", () => {
  const before = counted.exports;
  const spoiled = { length: 1, get 0() { throw new RangeError("in the midst of a call"); } };
  assert.throws(() => counted.valid(spoiled), RangeError);
  assert.notEqual(counted.exports, before);
  assert.equal(schema.maxSize(), 4294967307n);
});
