// What a program in TypeScript writes: compiled with all checks, and then run. What a line below `@ts-expect-error` says isn't so.
import { BorshError, Schema, compare, type ArgumentError, type Comparison, type Definition, type DefinitionJson, type Encodable, type ErrorKind, type Row, type Value } from "borsh-proved";

function assert(holds: boolean): asserts holds {
  if (!holds) throw new Error("a sample is wrong");
}

const list = (elements: string): DefinitionJson => ({ Sequence: { length_width: 4, length_range: { start: 0, end: 4294967295n }, elements } });
const definitions: Record<string, DefinitionJson> = {
  A: { Struct: { fields: { NamedFields: [["x", "u64"], ["y", "String"]] } } },
  Choice: { Enum: { tag_width: 1, variants: [[0, "None", "()"], ["7", "Some", "f32"]] } },
  Pair: { Struct: { fields: { UnnamedFields: ["A", "Choice"] } } },
  "()": { Struct: { fields: "Empty" } },
  "Vec<A>": list("A"),
  "BTreeMap<(u64, u8), u8>": list("((u64, u8), u8)"),
  "((u64, u8), u8)": { Tuple: { elements: ["(u64, u8)", "u8"] } },
  "(u64, u8)": { Tuple: { elements: ["u64", "u8"] } },
  String: list("u8"),
  u8: { Primitive: 1 },
  f32: { Primitive: 4 },
  u64: { Primitive: 8 },
};

// A class's or an interface's value is encoded as it is.
interface A {
  x: bigint;
  readonly y: string;
}
const schema: Schema = Schema.of("A", definitions);
const a: A = { x: 12n, y: "hé" };
const bytes: Uint8Array = schema.encode(a);
const value: Value = schema.decode(bytes);
// @ts-expect-error: nothing is inferred of a value
assert(value.x === 12n);
assert(typeof value === "object" && value !== null && !Array.isArray(value) && !(value instanceof Uint8Array) && value["x"] === 12n);
const strings: Value = schema.decode(bytes.buffer, { longNumbers: "string" });
assert(JSON.stringify(strings) === '{"x":"12","y":"hé"}');
const json: string = schema.toJson(bytes, { compact: true, longNumbers: "number" });
const again: Uint8Array = schema.fromJson(json);
assert(again.length === bytes.length);
// @ts-expect-error: no long number is decoded as a `number`
assert(attempt(() => schema.decode(bytes, { longNumbers: "number" })) instanceof TypeError);

// Each thing that a schema says.
const size: bigint = schema.maxSize();
const root: string = schema.root;
const container: Uint8Array = schema.bytes;
const defined: ReadonlyMap<string, Definition> = schema.definitions;
assert(size === 4294967307n && root === "A" && container[0] === 1);
const struct = defined.get("A");
assert(struct?.kind === "struct" && struct.fields[0]?.name === "x" && struct.fields[0].type === "u64");
const text = defined.get("String");
assert(text?.kind === "sequence" && text.lengthWidth === 4 && text.least === 0n && text.greatest === 4294967295n && text.elements === "u8");
const number = defined.get("u64");
assert(number?.kind === "primitive" && number.size === 8);
const choice = Schema.of("Pair", new Map(Object.entries(definitions))).definitions.get("Choice");
assert(choice?.kind === "enum" && choice.tagWidth === 1 && choice.variants[1]?.tag === 7n && choice.variants[1].type === "f32");
assert(String(Schema.of("A", defined).bytes) === String(container));
// @ts-expect-error: definitions aren't to be changed
defined.clear?.call(new Map());
// @ts-expect-error: Schema.of and Schema.from make schemas
assert(attempt(() => new Schema(container)) instanceof TypeError);

// By texts, and compared.
const written: Schema = Schema.parse("struct A { x: u64, y: String }", "A");
const ofObject: Schema = Schema.parse({ struct: { x: "u64", y: "string" } });
const compared: Comparison = compare(written, ofObject);
const changes: readonly string[] = compared.changes;
const evidence: string | undefined = compared.evidence;
assert(String(written.bytes) === String(Schema.of("A", written.definitions).bytes) && Schema.parse("Vec<u8>").root === "Vec<u8>");
assert(compared.answer === "the same" && compared.isCompatible && changes.length === 0 && evidence === undefined && compared.text !== "");
// @ts-expect-error: a text is no schema
assert(attempt(() => compare(written, "u8")) instanceof TypeError);

const rows: Row[] = schema.rows(bytes);
const part: Uint8Array | undefined = rows[1]?.bytes;
assert(rows[0]?.path === "A.x" && rows[0].offset === 0 && rows[0].depth === 1 && rows[0].type === "u64" && rows[0].value === "12" && part?.length === 7);
assert(schema.rowsBefore(bytes.subarray(0, 9)).length === 1);

// Kinds of values.
const keys = Schema.of("BTreeMap<(u64, u8), u8>", definitions);
assert(keys.encode(new Map([[[1n, 2], 3]])).length === 14);
const values: readonly Encodable[] = [null, true, 1, 1n, "a", bytes, [a], { a }, a, new Map()];
assert(values.every((it) => attempt(() => schema.encode(it)) instanceof (it === a ? Uint8Array : BorshError)));
// @ts-expect-error: undefined is no value
assert(attempt(() => schema.encode(undefined)) instanceof BorshError);

function attempt(call: () => unknown): unknown {
  try {
    return call();
  } catch (error) {
    return error;
  }
}

// Each property of an error has its declared type, and is there.
const malformed = attempt(() => Schema.from("00"));
const errors = [malformed, attempt(() => schema.check("0c")), attempt(() => schema.encode({ x: 1, y: 2 })), attempt(() => Schema.of("B", {}).validate())];
for (const error of errors) {
  assert(error instanceof BorshError);
  const kind: ErrorKind = error.kind;
  const [path, type, offset, record, reason]: [string | undefined, string | undefined, number | undefined, number | undefined, string] = [
    error.path, error.type, error.offset, error.record, error.reason];
  assert(["no", "malformed"].includes(kind) && reason !== "" && record === undefined);
  assert(["string", "undefined"].includes(typeof path) && ["string", "undefined"].includes(typeof type) && ["number", "undefined"].includes(typeof offset));
  for (const name of ["kind", "path", "type", "offset", "record", "reason"]) assert(Object.hasOwn(error, name));
}
// @ts-expect-error: seven is no bytes
const wrong = attempt(() => schema.check(7)) as ArgumentError;
assert(wrong instanceof TypeError && wrong.kind === "argument" && wrong.path === undefined && wrong.offset === undefined && wrong.reason !== "");

// Values one after another, of each kind of source.
async function* pieces(): AsyncGenerator<Uint8Array> {
  yield bytes.subarray(0, 5);
  yield bytes.subarray(5);
}
const stream = new ReadableStream<Uint8Array>({ start: (it) => { it.enqueue(bytes); it.close(); } });
for (const source of [bytes, bytes.buffer, [bytes], pieces(), stream]) {
  for await (const record of schema.records(source, { maxLength: 100, longNumbers: "string" })) {
    const it: Value = record;
    assert(JSON.stringify(it) === '{"x":"12","y":"hé"}');
  }
}
for await (const record of schema.recordBytes([bytes])) {
  const it: Uint8Array = record;
  assert(it.length === bytes.length);
}
