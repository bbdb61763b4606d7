// Types by their text, and schemas compared: the rows of `crates`, whose answers aren't this library's.
import assert from "node:assert/strict";
import { readFileSync } from "node:fs";
import { test } from "node:test";
import { BorshError, Schema, attempt, bytesOfHex, compare, repositoryFile } from "./load.js";
import { rowsIn } from "./suite.js";

const read = (path) => readFileSync(repositoryFile(path), "utf8");
const ITEMS = read("crates/borsh_tool/tests/types.rs");

/** The types of `schema` rows, each with its container. */
const types = new Map();
for (const name of ["generated", "lines", "replay", "schemas"]) {
  for (const line of read(`crates/test_rows/data/${name}.tsv`).split("\n")) {
    const [kind, written, said] = line.split("\t");
    if (kind === "schema" && said.includes(" ")) types.set(written, said.split(" ")[1]);
  }
}

test(`${types.size} types have the containers that they state, or break a rule`, () => {
  assert.ok(types.size > 50);
  for (const [written, container] of types) {
    const wanted = Schema.from(container);
    const broken = attempt(() => wanted.validate());
    const found = attempt(() => Schema.parse(ITEMS, written));
    if (broken === undefined) assert.deepEqual(found.bytes, bytesOfHex(container), `${written}: ${found}`);
    else assertRefused(found, new RegExp(`^type: .* breaks the rule ${broken.message.split(" ")[1]}$`), found.offset);
  }
});

function assertRefused(error, says, offset) {
  assert.ok(error instanceof BorshError, `${error}`);
  assert.match(error.message, says);
  const path = /^(text|type): /.exec(error.message)?.[1];
  assert.deepEqual([error.kind, error.path, error.offset], ["no", path, offset]);
  assert.equal(path === undefined ? error.reason : `${path}: ${error.reason}`, error.message);
}

test("texts without a schema say what is wrong, and where", () => {
  for (const [given, says, offset] of [
    [["struct A {\n  x u8,\n}", "A"], /^text: line 2, column 5: met `u8`, expected `:`$/, 15],
    [["/* é */ struct B(u8)", "B"], /^text: line 1, column 21: the text ends, expected `;`$/, 21],
    [["struct Vault;", "Vec<Valt>"], /^type: column 5: `Valt` is no type that has a schema; `Vault` is$/, 4],
    [["Vec<()>"], /^type: column 1: `Vec<\(\)>` breaks the rule ZSTSequence$/, 0],
    [['{"types": }', "A"], /^text: line 1, column 11: met `}`, expected a value of JSON$/, 10],
    [[{ strcut: {} }], /^text: line 1, column 2: met `"strcut"`, expected a type$/, 1],
    [["", undefined], /^type: line 1, column 1: the text ends, expected a type$/, 0],
    [["\ud800", "A"], /^text: not UTF-8$/, 0],
    [[own({ struct: () => { throw new Error(); } })], /^the object can't be read$/],
  ]) {
    assertRefused(attempt(() => Schema.parse(...given)), says, offset);
  }
  const cycle = {};
  cycle.struct = cycle;
  assertRefused(attempt(() => Schema.parse(cycle)), /^the object can't be read$/);
  for (const given of [[], [7], [null, "A"], ["u8", 7]]) {
    const error = attempt(() => Schema.parse(...given));
    assert.deepEqual([error instanceof TypeError, error.kind], [true, "argument"]);
  }
});

function own(getters) {
  return Object.defineProperties({}, Object.fromEntries(Object.entries(getters).map(([name, get]) => [name, { get, enumerable: true }])));
}

test("texts that nest deep, or are long", () => {
  const nested = (open, close, count) => `${open.repeat(count)}u8${close.repeat(count)}`;
  assert.equal(Schema.parse(nested("Box<", ">", 120)).root, "u8");
  for (const count of [200, 100000]) {
    for (const [open, close] of [["Box<", ">"], ["(", ")"], ["[", "; 1]"], ["&", ""]]) {
      assertRefused(attempt(() => Schema.parse(nested(open, close, count))), /at most 128 types or brackets in one another$/, 128 * open.length);
    }
    for (const [text, offset] of [[nested('{"option":', "}", count), 1280], [`{"struct":${"[".repeat(count)}`, 137]]) {
      assertRefused(attempt(() => Schema.parse(text)), /^text: line 1, column \d+: met `[{[]`, expected at most 128/, offset);
    }
  }
  const items = Array.from({ length: 10000 }, (_, index) => `struct S${index} { x: u8, next: Vec<S${(index + 1) % 10000}> }`).join("\n");
  assert.equal(Schema.parse(items, "S0").definitions.size, 20001);
});

/** Each schema object, and the same in Rust. */
const OBJECTS = [
  [{ struct: { x: "u8", y: { array: { type: "u8", len: 4 } } } }, "struct Schema { x: u8, y: [u8; 4] }"],
  [{ struct: { m: { map: { key: "string", value: "u64" } }, s: { set: "u32" } } }, "struct Schema { m: HashMap<String, u64>, s: HashSet<u32> }"],
  [{ option: "f64" }, "type Schema = Option<f64>;"],
  [{ array: { type: { option: "bool" } } }, "type Schema = Vec<Option<bool>>;"],
  [
    { enum: [{ struct: { None: { struct: {} } } }, { struct: { One: { struct: { v: "u8" } } } }, { struct: { Two: "string" } }] },
    "enum Schema { None, One { v: u8 }, Two(String) }",
  ],
];

test("schema objects of borsh-js, as objects and as JSON", () => {
  for (const [object, rust] of OBJECTS) {
    const wanted = Schema.parse(rust, "Schema");
    for (const given of [[object], [JSON.stringify(object)], [object, "Schema"]]) assert.deepEqual(Schema.parse(...given).bytes, wanted.bytes);
  }
});

test("an account of an IDL begins with its discriminator", () => {
  const idl = { instructions: [], accounts: [{ name: "A", type: { kind: "struct", fields: [{ name: "x", type: "u8" }] } }] };
  for (const source of [idl, JSON.stringify(idl)]) {
    assert.deepEqual(Schema.parse(source, "A").decode("000102030405060708"), { discriminator: bytesOfHex("0001020304050607"), x: 8 });
  }
});

/** What is said of two schemas, as a row says it. */
function said(old, now) {
  const { answer, isCompatible, hasSameJson, changes, evidence, text } = compare(old, now);
  assert.equal(isCompatible, answer === "the same" || answer === "compatible");
  assert.ok(text.startsWith(`${answer}: `));
  assert.equal(evidence === undefined, answer !== "incompatible");
  let found = hasSameJson ? ", same JSON" : "";
  if (evidence !== undefined) {
    const [digits, why] = evidence.split(" is a value of the old schema and no value of the new one: ");
    old.check(digits);
    assert.throws(() => now.check(digits), BorshError);
    found = ` ${digits} ${why}`;
  }
  return [answer.replace("the same", "same") + found, ...changes].join("; ");
}

const compared = rowsIn("compared.tsv").rows.filter(({ kind }) => kind === "compare");

test(`${compared.length} rows of schemas compared`, () => {
  assert.ok(compared.length >= 60);
  for (const { line, columns, schema } of compared) assert.equal(said(schema(), schema(columns[0])), columns[1], line);
  const named = (field) => Schema.of("\n  A", { "\n  A": { Struct: { fields: { NamedFields: [[field, "u8"]] } } }, u8: { Primitive: 1 } });
  assert.deepEqual(compare(named(" x\n  y\r"), named("z")).changes, ['"\\x0a  A"." x\\x0a  y\r" is now "\\x0a  A".z']);
  for (const pair of [[7, Schema.parse("u8")], [Schema.parse("u8")]]) assert.equal(attempt(() => compare(...pair)).kind, "argument");
});
