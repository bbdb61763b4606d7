// The suite's rows of values: each call says of them what the rows say.
import assert from "node:assert/strict";
import { test } from "node:test";
import { BorshError, attempt, bytesOfHex, hexOf } from "./load.js";
import { nameText } from "../definitions.js";
import { bytesOf, rowsIn, textOf } from "./suite.js";

const TOO_DEEP = "nests more than 128 deep";

/** That an error has this text, after what tells the call, and that its parts are those of the text. */
function assertRefused(error, wanted) {
  assert.ok(error instanceof BorshError, `${error}`);
  assert.equal(error.message.replace(/^no member: /, ""), wanted);
  if (error.kind === "undecided") assert.match(wanted, /is ambiguous$/);
  else if (error.type !== undefined) assert.equal(`${error.path} (\`${error.type}\` at byte ${error.offset}): ${error.reason}`, wanted);
  else if (error.path !== undefined) assert.equal(`${error.path}: ${error.reason}`, wanted);
}

/** That a value is what JSON with long numbers as strings says: bytes are digits there, and infinities words. */
function assertSaid(value, json) {
  if (typeof value === "bigint") return assert.equal(String(value), json);
  if (value instanceof Uint8Array) return assert.equal(`0x${hexOf(value)}`, json);
  if (Math.abs(value) === Infinity) return assert.equal(value > 0 ? "inf" : "-inf", json);
  if (value === null || typeof value !== "object") return assert.equal(value, json);
  assert.deepEqual([Array.isArray(value), Object.keys(value)], [Array.isArray(json), Object.keys(json)]);
  for (const key of Object.keys(value)) assertSaid(value[key], json[key]);
}

/** The rows of a value are its bytes, one after another, and each has a definition. */
function assertRows(schema, bytes) {
  let offset = 0;
  for (const row of schema.rows(bytes)) {
    assert.equal(row.offset, offset);
    assert.deepEqual(row.bytes, bytes.subarray(offset, offset + row.bytes.length));
    assert.ok(row.path.startsWith(nameText(schema.root)) && schema.definitions.has(row.type));
    offset += row.bytes.length;
  }
  assert.equal(offset, bytes.length);
}

function assertValue(schema, bytes, json) {
  schema.check(bytes);
  assert.equal(schema.toJson(bytes), json);
  assert.deepEqual(schema.fromJson(json), bytes);
  assert.deepEqual(schema.fromJson(schema.toJson(bytes, { compact: false })), bytes);
  const value = schema.decode(bytes);
  assert.deepEqual(schema.encode(value), bytes);
  const quoted = JSON.parse(schema.toJson(bytes, { longNumbers: "string" }));
  assertSaid(value, quoted);
  assertSaid(schema.decode(bytes, { longNumbers: "string" }), quoted);
  assertRows(schema, bytes);
}

function assertNoMember(schema, bytes, wanted) {
  for (const call of [() => schema.check(bytes), () => schema.toJson(bytes), () => schema.decode(bytes), () => schema.rows(bytes)]) {
    assertRefused(attempt(call), wanted);
  }
  for (const row of schema.rowsBefore(bytes)) assert.ok(row.offset + row.bytes.length <= bytes.length);
}

/** The rows of a value are the nodes that have bytes of their own. */
function assertNodes(schema, bytes, nodes) {
  const wanted = nodes.map((node) => /^(\d+) (\d+) (.*): (.*?) ([0-9a-f]+|-)( [#=].*)?$/.exec(node)).filter((it) => it[5] !== "-");
  const rows = schema.rows(bytes).map((row) => [row.depth, row.offset, row.path, row.type, hexOf(row.bytes)].map(String));
  assert.deepEqual(rows, wanted.map((it) => it.slice(1, 6)));
}

function judge({ kind, columns, schema }) {
  const [first, ...others] = columns;
  const text = textOf(others);
  const it = schema();
  switch (kind) {
    case "value":
      return text.startsWith("! ") ? assertNoMember(it, bytesOf(first), text.slice(2)) : assertValue(it, bytesOf(first), text);
    case "refused": {
      it.check(bytesOf(first));
      // A part within 128 others has a row, also if it is a list, which in JSON would be one more.
      const rows = attempt(() => it.rows(bytesOf(first)));
      if (rows instanceof Error) assert.ok(text.endsWith(TOO_DEEP) && rows.message.endsWith(TOO_DEEP));
      else assertRows(it, bytesOf(first));
      return assertRefused(attempt(() => it.decode(bytesOf(first))), text.slice(2));
    }
    case "quoted":
      assert.deepEqual(it.fromJson(text), bytesOf(first));
      return assert.equal(it.toJson(bytesOf(first), { longNumbers: "string" }), text);
    case "member":
      return it.check(bytesOf(first));
    case "text": {
      const read = attempt(() => it.fromJson(text));
      return first.startsWith("! ") ? assertRefused(read, first.slice(2)) : assert.deepEqual(read, bytesOfHex(first));
    }
    case "nodes":
      return assertNodes(it, bytesOf(first), others);
    case "records": // records.test.js judges these
      return undefined;
    default:
      throw new Error(`no row is ${kind}`);
  }
}

for (const file of ["json.tsv", "formats.tsv", "members.tsv", "nodes.tsv", "types.tsv"]) {
  const { rows, skipped } = rowsIn(file);
  test(`${file}: ${rows.length} rows; ${skipped} are of no call here`, () => {
    for (const row of rows) assert.doesNotThrow(() => judge(row), undefined, row.line.slice(0, 200));
  });
}
