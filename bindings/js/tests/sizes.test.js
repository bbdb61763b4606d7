// Values up to BORSH_MEGABYTES, 100 by default: lists of bytes, of numbers and of structs.
import assert from "node:assert/strict";
import { test } from "node:test";
import { attempt } from "./load.js";
import { schemaOf } from "./suite.js";

const most = Number(process.env.BORSH_MEGABYTES ?? 100) * 10 ** 6;
const list = (elements) => ({ Sequence: { length_width: 4, length_range: { start: "0", end: "4294967295" }, elements } });
const definitions = {
  "Vec<u8>": list("u8"),
  "Vec<u32>": list("u32"),
  "Vec<Row>": list("Row"),
  Row: { Struct: { fields: { NamedFields: [["id", "u64"], ["price", "u32"], ["open", "bool"]] } } },
  u8: { Primitive: 1 },
  u32: { Primitive: 4 },
  u64: { Primitive: 8 },
  bool: { Primitive: 1 },
};
const elementBytes = { "Vec<u8>": 1, "Vec<u32>": 4, "Vec<Row>": 13 };

function valueOf(root, length) {
  const count = Math.floor((length - 4) / elementBytes[root]);
  const bytes = new Uint8Array(4 + count * elementBytes[root]);
  const view = new DataView(bytes.buffer);
  view.setUint32(0, count, true);
  for (let at = 4; at < bytes.length; at += elementBytes[root]) bytes[at] = (at * 31) % 251;
  return bytes;
}

for (const root of Object.keys(elementBytes)) {
  for (const length of [10 ** 4, 10 ** 6, 10 ** 7, most]) {
    test(`${root} of ${length} bytes`, () => {
      const schema = schemaOf(root, definitions);
      const bytes = valueOf(root, length);
      const started = performance.now();
      schema.check(bytes);
      const checked = performance.now();
      const json = attempt(() => schema.toJson(bytes));
      const written = performance.now();
      const read = json instanceof Error ? json : attempt(() => schema.fromJson(json));
      if (read instanceof Error) {
        // The parts of many structs, and their JSON, may need more than the memory that there is.
        assert.ok(read.kind === "out of memory" && root === "Vec<Row>" && length > 10 ** 7, `${read}`);
        console.log(`${root} of ${length} bytes: check ${(checked - started).toFixed(0)} ms, JSON ${read.message}`);
        return schema.check(bytes);
      }
      assert.deepEqual(read, bytes);
      const times = [checked - started, written - checked, performance.now() - written].map((it) => `${it.toFixed(0)} ms`);
      console.log(`${root} of ${length} bytes: check ${times[0]}, to JSON ${times[1]}, from JSON ${times[2]}`);
    });
  }
}
