// Values one after another: however the bytes come, faults, ends, limits; and the suite's values in a stream.
import assert from "node:assert/strict";
import { Readable } from "node:stream";
import { test } from "node:test";
import { BorshError, Schema } from "./load.js";
import { bytesOf, rowsIn, schemaOf, textOf } from "./suite.js";

const RANGE = { start: "0", end: "4294967295" };
const DEFINITIONS = {
  A: { Struct: { fields: { NamedFields: [["x", "u64"], ["y", "Vec<bool>"]] } } },
  "Vec<bool>": { Sequence: { length_width: 4, length_range: RANGE, elements: "bool" } },
  "Option<bool>": { Enum: { tag_width: 1, variants: [["0", "None", "()"], ["1", "Some", "bool"]] } },
  "()": { Tuple: { elements: [] } },
  bool: { Primitive: 1 },
  u64: { Primitive: 8 },
};
const schema = schemaOf("A", DEFINITIONS);
const option = schemaOf("Option<bool>", DEFINITIONS);
const lists = schemaOf("Vec<bool>", DEFINITIONS);

const values = [0, 1, 2, 3].map((x) => ({ x: BigInt(x), y: Array(2 * x).fill(false) }));
const parts = values.map((value) => schema.encode(value));
const bytes = joined(parts);
const ends = parts.map((_, index) => joined(parts.slice(0, index + 1)).length);

function joined(parts) {
  return Uint8Array.from(parts.flatMap((part) => [...part]));
}

function* piecesOf(bytes, size) {
  for (let at = 0; at < bytes.length; at += size) yield bytes.subarray(at, at + size);
}

/** The values that a loop is given, and the error that ends it. */
async function given(schema, source, options) {
  const found = [];
  try {
    for await (const value of schema.records(source, options)) found.push(value);
  } catch (error) {
    return { found, error };
  }
  return { found };
}

test("values are given however the bytes come", async () => {
  for (let size = 1; size <= bytes.length; size++) assert.deepEqual(await given(schema, piecesOf(bytes, size)), { found: values });
  for (let at = 0; at <= bytes.length; at++) {
    assert.deepEqual(await given(schema, [bytes.subarray(0, at), new Uint8Array(), bytes.subarray(at)]), { found: values });
  }
});

test("each kind of source", async () => {
  const stream = () => new ReadableStream({ start: (it) => { for (const piece of piecesOf(bytes, 5)) it.enqueue(piece); it.close(); } });
  const oldStream = () => ({ getReader: () => stream().getReader() }); // which is no iterable, as in some browsers
  for (const source of [bytes, bytes.slice().buffer, Readable.from(piecesOf(Buffer.from(bytes), 5)), new Blob([bytes]).stream(), stream(), oldStream()]) {
    assert.deepEqual(await given(schema, source), { found: values });
  }
  for (const source of [7, null, undefined, "00", ["00"], { read() {} }]) assert.ok((await given(schema, source)).error instanceof TypeError);
  assert.deepEqual(await given(schema, []), { found: [] });
});

test("what is cut short tells where the last value begins", async () => {
  for (let length = 0; length < bytes.length; length++) {
    const { found, error } = await given(schema, piecesOf(bytes.subarray(0, length), 7));
    const whole = ends.filter((end) => end <= length).length;
    assert.deepEqual(found, values.slice(0, whole));
    if (length === 0 || ends.includes(length)) {
      assert.equal(error, undefined);
    } else {
      const start = whole === 0 ? 0 : ends[whole - 1];
      assert.ok(error instanceof BorshError);
      assert.deepEqual([error.kind, error.record, error.reason], ["no", start, "too few bytes are left"]);
      assert.ok(error.message.startsWith(`value at byte ${start}: cut short: A`));
    }
  }
});

test("a fault of the bytes, or of a name, comes behind the values before it", async () => {
  const cases = [
    ["0001010200", 'value at byte 3: "Option<bool>" (`Option<bool>` at byte 0): no variant has this tag', 0, "no variant has this tag"],
    ["000101010200", 'value at byte 3: "Option<bool>"::Some: neither 0 nor 1', undefined, "neither 0 nor 1"],
  ];
  for (const [digits, message, offset, reason] of cases) {
    for (let size = 1; size < 7; size++) {
      const { found, error } = await given(option, piecesOf(Buffer.from(digits, "hex"), size));
      assert.deepEqual(found, [null, true]);
      assert.deepEqual([error.message, error.kind, error.record, error.offset, error.reason], [message, "no", 3, offset, reason]);
    }
  }
});

test("a schema with an empty value is refused", async () => {
  const unit = schemaOf("()", DEFINITIONS);
  const { found, error } = await given(unit, [new Uint8Array(1)]);
  const message = "the type has a value without bytes, so that any bytes are any number of values";
  assert.deepEqual([found, error.kind, error.message, error.record], [[], "no", message, undefined]);
  assert.deepEqual(await given(unit, []), { found: [] });
});

test("a longer value than is wanted is refused", async () => {
  for (let maxLength = 1; maxLength < 20; maxLength++) {
    for (const size of [1, 5, 1000]) {
      const { found, error } = await given(schema, piecesOf(bytes, size), { maxLength });
      const at = parts.findIndex((part) => part.length > maxLength);
      assert.deepEqual(found, at < 0 ? values : values.slice(0, at));
      assert.equal(error?.message, at < 0 ? undefined : `value at byte ${at === 0 ? 0 : ends[at - 1]}: longer than the limit`);
    }
  }
});

test("many and long values", async () => {
  const lengths = [...Array(9000).fill(0), 300000, 1, 2, 3000000];
  const all = Buffer.concat(lengths.map((length) => { const it = Buffer.alloc(4 + length); it.writeUInt32LE(length); return it; }));
  for (const size of [2 ** 14, 2 ** 18, all.length]) {
    const found = [];
    for await (const record of lists.recordBytes(piecesOf(all, size))) found.push(record.length - 4);
    assert.deepEqual(found, lengths);
  }
  const { found } = await given(lists, all.subarray(0, -3000004));
  assert.deepEqual(found.map((it) => it.length), lengths.slice(0, -1));
});

test("the bytes of values are copies", async () => {
  const source = Buffer.from(bytes);
  const found = [];
  for await (const record of schema.recordBytes(source)) found.push(record);
  source.fill(255);
  assert.deepEqual(found, parts);
});

test("long numbers, and a schema without answers", async () => {
  const { found } = await given(schema, bytes, { longNumbers: "string" });
  assert.equal(found[3].x, "3");
  assert.ok((await given(schema, bytes, { longNumbers: "number" })).error instanceof TypeError);
  const twice = schemaOf("E", { E: { Enum: { tag_width: 1, variants: [["0", "a", "u8"], ["0", "b", "()"]] } }, u8: { Primitive: 1 }, "()": { Tuple: { elements: [] } } });
  const { error } = await given(twice, bytes);
  assert.deepEqual([error.kind, error.message, error.record], ["undecided", "`E` is ambiguous", undefined]);
});

test("a loop that is left cancels its stream", async () => {
  let isCancelled = false;
  const stream = new ReadableStream({ pull: (it) => it.enqueue(parts[3]), cancel: () => { isCancelled = true; } });
  for await (const value of schema.records(stream)) {
    assert.deepEqual(value, values[3]);
    break;
  }
  assert.ok(isCancelled);
});

test("the suite's rows: where values begin, and why they end", async () => {
  const rows = rowsIn("members.tsv").rows.filter((it) => it.kind === "records");
  assert.ok(rows.length > 10);
  for (const { line, columns, schema } of rows) {
    const bytes = bytesOf(columns[0]);
    const wanted = textOf(columns.slice(1));
    for (const size of [1, 7, 1000000]) {
      const told = [];
      let at = 0;
      try {
        for await (const record of schema().recordBytes(piecesOf(bytes, size), { maxLength: 1000 })) {
          told.push(`${at}+`);
          at += record.length;
        }
        told.push("end");
      } catch (error) {
        told.push(`! ${error.message}`);
      }
      // Of no bytes nothing is asked.
      assert.equal(told.join(""), bytes.length === 0 ? "end" : wanted, line);
    }
  }
});

test("the suite's values follow one another in a stream", async () => {
  const found = new Map();
  for (const { kind, columns, schema } of ["members.tsv", "json.tsv", "formats.tsv", "types.tsv"].flatMap((file) => rowsIn(file).rows)) {
    if (kind !== "value" || textOf(columns.slice(1)).startsWith("! ")) continue;
    const it = schema();
    found.set(it, [...(found.get(it) ?? []), bytesOf(columns[0])]);
  }
  let count = 0;
  for (const [schema, parts] of found) {
    if (parts.some((part) => part.length === 0)) continue;
    const source = Buffer.concat(parts);
    const records = [];
    for await (const record of schema.recordBytes(piecesOf(source, 1000))) records.push(record);
    assert.deepEqual(records, parts);
    assert.deepEqual(await given(schema, source), { found: parts.map((part) => schema.decode(part)) });
    count += parts.length;
  }
  assert.ok(count > 100, String(count));
});
