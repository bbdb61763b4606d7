// Values, bytes and texts that may be anything: each is taken as what it is, or refused with its place, and none by half.
import assert from "node:assert/strict";
import { test } from "node:test";
import vm from "node:vm";
import { BorshError, Schema, attempt, hexOf } from "./load.js";

const list = (elements) => ({ Sequence: { length_width: 4, length_range: { start: 0, end: 2 ** 32 - 1 }, elements } });
const option = (part) => ({ Enum: { tag_width: 1, variants: [[0, "None", "()"], [1, "Some", part]] } });
const DEFINITIONS = {
  A: { Struct: { fields: { NamedFields: [["x", "u64"], ["y", "String"], ["__proto__", "Vec<u8>"]] } } },
  P: { Struct: { fields: { NamedFields: [["x", "u64"]] } } },
  Odd: { Struct: { fields: { NamedFields: [["__proto__", "u8"], ["constructor", "u8"], ["", "u8"], ["1", "u8"]] } } },
  E: { Enum: { tag_width: 1, variants: [[0, "__proto__", "u8"], [1, "hasOwnProperty", "()"], [2, "0x00", "()"]] } },
  New: { Struct: { fields: { UnnamedFields: ["Option<String>"] } } },
  Deep: list("Deep"),
  "Option<String>": option("String"),
  "Vec<u8>": list("u8"),
  "Vec<u64>": list("u64"),
  "Vec<New>": list("New"),
  "Vec<f32>": list("f32"),
  "(u8, f64)": { Tuple: { elements: ["u8", "f64"] } },
  "BTreeMap<String, New>": list("(String, New)"),
  "(String, New)": { Tuple: { elements: ["String", "New"] } },
  "BTreeMap<u64, String>": list("(u64, String)"),
  "(u64, String)": { Tuple: { elements: ["u64", "String"] } },
  "HashMap<bool, u8>": list("(bool, u8)"),
  "(bool, u8)": { Tuple: { elements: ["bool", "u8"] } },
  String: list("u8"),
  "()": { Tuple: { elements: [] } },
  bool: { Primitive: 1 }, u8: { Primitive: 1 }, u64: { Primitive: 8 }, u128: { Primitive: 16 }, f32: { Primitive: 4 }, f64: { Primitive: 8 }, char: { Primitive: 4 },
};
const of = (root) => Schema.of(root, DEFINITIONS);
const own = (properties) => Object.defineProperties({}, Object.fromEntries(Object.entries(properties).map(([name, get]) => [name, { get, enumerable: true }])));

function assertRefused(error, path, reason) {
  assert.ok(error instanceof BorshError, `${error}`);
  assert.deepEqual([error.kind, error.path, error.offset, error.reason], ["no", path, undefined, reason]);
  assert.equal(error.message, path === undefined ? reason : `${path}: ${reason}`);
}

function assertArgument(error) {
  assert.ok(error instanceof TypeError, `${error}`);
  assert.deepEqual([error.kind, error.path, error.offset, error.reason], ["argument", undefined, undefined, error.message]);
}

function detached() {
  const bytes = new Uint8Array(4);
  structuredClone(bytes.buffer, { transfer: [bytes.buffer] });
  return bytes;
}

function shrunk() {
  if (!ArrayBuffer.prototype.resize) return detached();
  const buffer = new ArrayBuffer(8, { maxByteLength: 8 });
  const bytes = new Uint8Array(buffer, 4, 4);
  buffer.resize(2);
  return bytes;
}

function revoked() {
  const { proxy, revoke } = Proxy.revocable({}, {});
  revoke();
  return proxy;
}

const a = (y, others = {}) => ({ x: 1, y, __proto__: null, ...others });
const GONE = "the bytes are gone: their buffer is detached, or shorter";
const LONE = "a lone surrogate is no character";
const STRING = "expected a string";
const WHOLE = "expected a whole number, or a decimal string, of 64 bits, unsigned";
const VARIANT = 'expected a variant: "Name" or {"Name": value}';
const KEYS = "expected keys that are strings";
const KEYS_OF_NUMBERS = "expected keys that are whole numbers of 64 bits, unsigned";
const again = [];
again.push(again, again);

test("what is refused, where and why", () => {
  const rows = [
    ["A", a("\ud800"), "A.y", LONE],
    ["A", a("a\udc00\ud800b"), "A.y", LONE],
    ["A", { ...a(""), "\ud800": 1 }, "A", LONE],
    ["A", own({ x: () => { throw new Error("no"); } }), "A", "it can't be read"],
    ["A", revoked(), "A", "it can't be read"],
    ["A", new Proxy({}, { ownKeys: () => { throw new RangeError("no"); } }), "A", "it can't be read"],
    ["A", a(undefined), "A.y", "undefined is no value"],
    ["A", a(Symbol("a")), "A.y", "symbol is no value"],
    ["A", a(() => ""), "A.y", "function is no value"],
    ["A", a(new String("a")), "A.y", "String is no value"],
    ["A", a(Uint8Array.of(104)), "A.y", STRING],
    ["A", { __proto__: { x: 1n, y: "" } }, "A.x", "missing"],
    ["A", new Date(), "A", "Date is no value"],
    ["A", new Set([1]), "A", "Set is no value"],
    ["A", 2 ** 53, "A", "expected an object"],
    ["u64", 2 ** 53, "u64", "9007199254740992 isn't exact as a number: give a bigint"],
    ["u64", -(2 ** 60), "u64", "-1152921504606847000 isn't exact as a number: give a bigint"],
    ["u64", 2n ** 64n, "u64", WHOLE],
    ["u64", 10n ** 100000n, "u64", WHOLE],
    ["u64", -1, "u64", WHOLE],
    ["u64", 1.5, "u64", WHOLE],
    ["u64", NaN, "u64", WHOLE],
    ["u64", Infinity, "u64", WHOLE],
    ["u64", new Number(7), "u64", "Number is no value"],
    ["u64", Object(7n), "u64", "BigInt is no value"],
    ["u64", { toJSON: () => 7, valueOf: () => 7 }, "u64", WHOLE],
    ["f64", NaN, "f64", 'expected a number, "inf" or "-inf"'],
    ["f32", 1e39, "f32", 'expected a number, "inf" or "-inf"'],
    ["f32", 10n ** 400n, "f32", 'expected a number, "inf" or "-inf"'],
    ["f64", 10n ** 400n, "f64", 'expected a number, "inf" or "-inf"'],
    ["f64", true, "f64", 'expected a number, "inf" or "-inf"'],
    ["f32", Uint8Array.of(0, 0, 192, 63), "f32", 'expected a number, "inf" or "-inf"'],
    ["char", 7, "char", 'expected "0x.." of 4 bytes'],
    ["Vec<u64>", new BigUint64Array(2), '"Vec<u64>"', "BigUint64Array is no value"],
    ["Vec<u64>", new Map(), '"Vec<u64>"', "expected an array"],
    ["Vec<u64>", [1, , 3], '"Vec<u64>"[1]', "undefined is no value"],
    ["Vec<u64>", new Array(2 ** 32 - 1), '"Vec<u64>"[0]', "undefined is no value"],
    ["Vec<u64>", new Proxy([], { get: (it, name) => (name === "length" ? "many" : it[name]) }), '"Vec<u64>"', "it has no length"],
    ["Vec<u64>", new Proxy([1], { get: (it, name) => (name === "length" ? 2 : it[name]) }), '"Vec<u64>"[1]', "undefined is no value"],
    ["Vec<u64>", { [Symbol.toStringTag]: "Array" }, '"Vec<u64>"', "it has no length"],
    ["Vec<u64>", { [Symbol.toStringTag]: "Map" }, '"Vec<u64>"', "it can't be read"],
    ["Vec<u8>", detached(), '"Vec<u8>"', GONE],
    ["Vec<u8>", shrunk(), '"Vec<u8>"', GONE],
    ["Vec<u8>", new Proxy(Uint8Array.of(1), {}), '"Vec<u8>"', "expected an array"],
    ["Vec<u8>", Object.create(Uint8Array.prototype), '"Vec<u8>"', "expected an array"],
    ["Vec<u8>", new Uint8ClampedArray(2), '"Vec<u8>"', "Uint8ClampedArray is no value"],
    ["Vec<u8>", new ArrayBuffer(2), '"Vec<u8>"', "ArrayBuffer is no value"],
    ["Vec<u8>", { length: 1, 0: 7 }, '"Vec<u8>"', "expected an array"],
    ["(u8, f64)", [1], '"(u8, f64)"', "expected an array of 2"],
    ["(u8, f64)", [1, 2, "\ud800"], '"(u8, f64)"', "expected an array of 2"],
    ["E", Uint8Array.of(0), "E", VARIANT],
    ["E", new Map([[1, 2]]), "E", KEYS],
    ["Vec<New>", ["", null, "\udfff"], '"Vec<New>"[2].0::Some', LONE],
    ["BTreeMap<String, New>", { b: "\ud800", a: "" }, '"BTreeMap<String, New>"[1].1.0::Some', LONE],
    ["BTreeMap<String, New>", { "\uffff": "", "\u{10000}": "\ud800" }, '"BTreeMap<String, New>"[1].1.0::Some', LONE],
    ["BTreeMap<String, New>", { "\ud800": "" }, '"BTreeMap<String, New>"', LONE],
    ["BTreeMap<String, New>", new Map([[1, ""]]), '"BTreeMap<String, New>"', KEYS],
    ["BTreeMap<u64, String>", new Map([[10, ""], [9n, "\ud800"], [11, ""]]), '"BTreeMap<u64, String>"[0].1', LONE],
    ["BTreeMap<u64, String>", new Map([[1, ""], [1n, ""]]), '"BTreeMap<u64, String>"', "`1` comes twice"],
    ["BTreeMap<u64, String>", new Map([[1, ""], ["1", ""]]), '"BTreeMap<u64, String>"', "`1` comes twice"],
    ["BTreeMap<u64, String>", new Map([[1.5, ""]]), '"BTreeMap<u64, String>"', KEYS_OF_NUMBERS],
    ["BTreeMap<u64, String>", new Map([[null, ""]]), '"BTreeMap<u64, String>"', KEYS_OF_NUMBERS],
    ["BTreeMap<u64, String>", new Map([[2 ** 53, ""]]), '"BTreeMap<u64, String>"', KEYS_OF_NUMBERS],
    ["HashMap<bool, u8>", {}, '"HashMap<bool, u8>"', "expected an array"],
    ["HashMap<bool, u8>", new Map([[true, 1], [1, 2]]), '"HashMap<bool, u8>"[1].0', "expected true or false"],
    ["Deep", again, "Deep", "nests more than 128 deep"],
    ["()", "\ud800", '"()"', LONE],
    ["()", {}, '"()"', "expected null"],
  ];
  for (const [root, value, path, reason] of rows) assertRefused(attempt(() => of(root).encode(value)), path, reason);
});

test("what is taken is what it is", () => {
  const other = vm.runInNewContext("({ bytes: Uint8Array.of(1, 2), map: new Map([[1, 'a']]), list: [1n] })");
  const shared = new Uint8Array(new SharedArrayBuffer(4), 1, 2).fill(7);
  class Lying extends Uint8Array {
    static get [Symbol.species]() { return Array; }
    get length() { return 1; }
    get byteLength() { return 1; }
    slice() { return this; }
  }
  class Point { constructor(x) { this.x = x; } get y() { return "inherited"; } }
  const rows = [
    ["A", { ...a("\u{1f600}\u2028"), ["__proto__"]: [9] }, "0100000000000000" + "07000000f09f9880e280a8" + "0100000009"],
    ["A", new Map([["__proto__", Buffer.of(9)], ["y", ""], ["x", 1n]]), "0100000000000000" + "00000000" + "0100000009"],
    ["P", new Point(2), "0200000000000000"],
    ["Odd", { 1: 4, "": 3, constructor: 2, ["__proto__"]: 1 }, "01020304"],
    ["E", { ["__proto__"]: 5 }, "0005"],
    ["E", "hasOwnProperty", "01"],
    ["E", "0x00", "02"],
    ["u64", 2 ** 53 - 1, "ffffffffffff1f00"],
    ["u64", 2n ** 64n - 1n, "ffffffffffffffff"],
    ["u64", "18446744073709551615", "ffffffffffffffff"],
    ["u64", -0, "0000000000000000"],
    ["u8", 7n, "07"],
    ["u128", 7, "07000000000000000000000000000000"],
    ["f64", 1, "000000000000f03f"],
    ["f64", 1n, "000000000000f03f"],
    ["f64", 2n ** 53n + 1n, "0000000000004043"],
    ["f64", -0, "0000000000000080"],
    ["f64", -Infinity, "000000000000f0ff"],
    ["f32", 0.1, "cdcccc3d"],
    ["f32", 2 ** 60, "0000805d"],
    ["f32", 7.038531e-26, "fd43ae15"],
    ["Vec<f32>", [1, 1.5, 2n], "03000000" + "0000803f" + "0000c03f" + "00000040"],
    ["Vec<u8>", new Lying([1, 2, 3]), "03000000010203"],
    ["Vec<u8>", Buffer.from("abc").subarray(1), "020000006263"],
    ["Vec<u8>", other.bytes, "020000000102"],
    ["Vec<u8>", shared, "020000000707"],
    ["Vec<u8>", new Uint8Array(), "00000000"],
    ["Vec<u64>", other.list, "01000000" + "0100000000000000"],
    ["Vec<u64>", new Proxy([1], {}), "01000000" + "0100000000000000"],
    ["BTreeMap<u64, String>", other.map, "01000000" + "0100000000000000" + "0100000061"],
    ["BTreeMap<u64, String>", { 10: "b", 9: "a" }, "02000000" + "0900000000000000" + "0100000061" + "0a00000000000000" + "0100000062"],
    ["HashMap<bool, u8>", new Map([[false, 1], [true, 2]]), "02000000" + "0001" + "0102"],
    ["HashMap<bool, u8>", [[false, 1], [true, 2]], "02000000" + "0001" + "0102"],
    ["BTreeMap<String, New>", new Map([["__proto__", null], ["a", ""]]), "02000000" + "090000005f5f70726f746f5f5f00" + "0100000061" + "0100000000"],
  ];
  for (const [root, value, digits] of rows) assert.equal(hexOf(of(root).encode(value)), digits, root);
});

test("names of the language's own are names like others in what is decoded", () => {
  for (const [root, digits] of [["Odd", "01020304"], ["E", "0005"], ["BTreeMap<String, New>", "01000000" + "090000005f5f70726f746f5f5f" + "00"]]) {
    const value = of(root).decode(digits);
    assert.equal(Object.getPrototypeOf(value), Object.prototype);
    assert.ok(Object.hasOwn(value, "__proto__"));
    assert.equal(hexOf(of(root).encode(value)), digits);
  }
  const named = Schema.of("__proto__", { ["__proto__"]: { Primitive: 1 }, constructor: { Primitive: 2 } });
  assert.deepEqual([named.root, [...named.definitions.keys()].sort()], ["__proto__", ["__proto__", "constructor"]]);
  assert.equal(hexOf(named.decode("07")), "07");
});

test("each property is read once, and its value is the one that is written", () => {
  const read = [];
  let count = 0;
  const changing = own({ x: () => (read.push("x"), ++count), y: () => (read.push("y"), `${++count}`), ["__proto__"]: () => (read.push("__proto__"), Uint8Array.of(++count)) });
  assert.equal(hexOf(of("A").encode(changing)), "0100000000000000" + "0100000032" + "0100000003");
  assert.deepEqual(read, ["x", "y", "__proto__"]);
  let length = 0;
  const growing = new Proxy([], { get: (_, name) => (name === "length" ? ++length : 7) });
  assert.equal(hexOf(of("Vec<u64>").encode(growing)), "01000000" + "0700000000000000");
  // One that encodes by the same schema in the midst of it.
  const schema = of("Deep");
  const within = new Proxy([[]], { get: (it, name) => (schema.encode([[], []]), it[name]) });
  assert.equal(hexOf(schema.encode([[], within])), "02000000" + "00000000" + "01000000" + "00000000");
});

test("the error of a getter is the cause", () => {
  const cause = new BorshError("undecided", "theirs");
  const error = attempt(() => of("A").encode(own({ x: () => { throw cause; } })));
  assertRefused(error, "A", "it can't be read");
  assert.equal(error.cause, cause);
});

test("a value that contains itself, or is too deep, is refused, and the next call is as before", () => {
  const schema = of("Deep");
  const deep = (count) => { let value = []; while (--count > 0) value = [value]; return value; };
  assert.equal(schema.encode(deep(128)).length, 4 * 128);
  assert.deepEqual(schema.decode(schema.encode(deep(128))), deep(128));
  for (const count of [129, 1000, 100000]) assertRefused(attempt(() => schema.encode(deep(count))), "Deep", "nests more than 128 deep");
  const knot = { Tuple: { elements: [] } };
  knot.Tuple.elements.push(knot);
  assertRefused(attempt(() => Schema.of("A", { A: knot })), "BorshSchemaContainer.definitions[0].1::Tuple.elements[0]", STRING);
});

test("bytes: what they are when the call is made", () => {
  const schema = of("Vec<u8>");
  const container = Buffer.from(schema.bytes);
  const kept = Schema.from(container);
  container.fill(0);
  assert.deepEqual(kept.bytes, schema.bytes);
  assert.deepEqual(kept.decode("0100000007"), Uint8Array.of(7));
  const shared = new SharedArrayBuffer(5);
  new Uint8Array(shared).set([1, 0, 0, 0, 7]);
  for (const source of [shared, new Uint8Array(shared), new Uint8Array(shared).slice().buffer]) {
    schema.check(source);
    assert.deepEqual(schema.decode(source), Uint8Array.of(7));
    assert.equal(schema.rows(source)[0].value, "1 element");
  }
  const like = { length: 5, byteLength: 5, buffer: shared, byteOffset: 0, 0: 1 };
  for (const source of [detached(), detached().buffer, shrunk(), like, Object.setPrototypeOf({ ...like }, Uint8Array.prototype), new Proxy(new Uint8Array(5), {}), revoked()]) {
    for (const call of ["check", "decode", "toJson", "rows", "rowsBefore"]) assertArgument(attempt(() => schema[call](source)));
    assertArgument(attempt(() => Schema.from(source)));
  }
});

test("an argument of another type", async () => {
  const schema = of("u8");
  for (const source of [undefined, null, 7, 7n, {}, [], () => {}, "0", "0x0g", new Uint16Array(1), new DataView(new ArrayBuffer(1))]) {
    assertArgument(attempt(() => schema.check(source)));
    assertArgument(attempt(() => Schema.from(source)));
  }
  for (const json of [undefined, null, 7, {}, new String("7")]) assertArgument(attempt(() => schema.fromJson(json)));
  assertArgument(attempt(() => schema.decode("07", { longNumbers: "number" })));
  assertArgument(attempt(() => schema.toJson("07", { longNumbers: "bigint" })));
  assertArgument(attempt(() => new Schema(schema.bytes)));
  for (const root of [undefined, 7, new String("u8")]) assertArgument(attempt(() => Schema.of(root, DEFINITIONS)));
  for (const definitions of [undefined, null, "u8", 7]) assertArgument(attempt(() => Schema.of("u8", definitions)));
  for (const options of [{ maxLength: NaN }, { maxLength: -1 }, { maxLength: "7" }]) {
    await assert.rejects(schema.records([], options).next(), (error) => (assertArgument(error), true));
  }
  for (const source of [7, null, "07", [7], [detached()]]) await assert.rejects(schema.records(source).next(), (error) => (assertArgument(error), true));
});

test("a text that isn't Unicode is no JSON", () => {
  for (const json of ['"\ud800"', "\udfff", '{"\ud800":1}']) assertRefused(attempt(() => of("String").fromJson(json)), undefined, "not UTF-8");
});

test("Schema.of: definitions as JSON has them, as a schema gives them, and no others", () => {
  for (const root of Object.keys(DEFINITIONS)) {
    const schema = of(root);
    assert.deepEqual(Schema.of(root, Schema.ofSchemas().decode(schema.bytes).definitions).bytes, schema.bytes);
    assert.deepEqual(Schema.of(root, new Map(Object.entries(DEFINITIONS))).bytes, schema.bytes);
    assert.deepEqual(Schema.of(root, schema.definitions).bytes, schema.bytes);
  }
  const at = "BorshSchemaContainer.definitions[0].1";
  const rows = [
    ["A", { A: { Primitive: 256 } }, `${at}::Primitive.0`, "expected a whole number of 8 bits, unsigned"],
    ["A", { A: { Primitive: 1, Tuple: { elements: [] } } }, at, VARIANT],
    ["A", { A: 7 }, at, VARIANT],
    ["A", { A: null }, at, VARIANT],
    ["A", { A: { kind: "primitive", size: undefined } }, `${at}::Primitive.0`, "undefined is no value"],
    ["A", { A: { kind: "struct", fields: 7 } }, undefined, "the definitions can't be read"],
    ["A", { B: { Primitive: 1 }, A: { Tuple: { elements: ["\ud800"] } } }, `${at}::Tuple.elements[0]`, LONE],
    ["\ud800", {}, "BorshSchemaContainer.declaration", LONE],
    ["A", new Map([[1, { Primitive: 1 }]]), "BorshSchemaContainer.definitions", KEYS],
    ["A", own({ A: () => { throw new Error("no"); } }), undefined, "the definitions can't be read"],
    ["A", { A: { Struct: { fields: { Empty: null } } } }, `${at}::Struct.fields`, "expected the variant's name alone, since it has no value"],
  ];
  for (const [root, definitions, path, reason] of rows) assertRefused(attempt(() => Schema.of(root, definitions)), path, reason);
});

test("a source that puts the next bytes in the place of those before", async () => {
  const bytes = new Uint8Array(3);
  function* pieces() {
    for (const piece of [[1, 0, 2], [0, 3, 0]]) {
      bytes.set(piece);
      yield bytes;
    }
  }
  const schema = Schema.of("u16", { u16: { Primitive: 2 } });
  const found = [];
  for await (const value of schema.records(pieces())) found.push(value);
  assert.deepEqual(found, [1, 2, 3]);
});
