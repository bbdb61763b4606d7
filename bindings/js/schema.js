// A schema, over the calls of a compiled module.
import { bytesOfHex, bytesOfSource } from "./bytes.js";
import { Calls } from "./calls.js";
import { comparisonOf } from "./comparison.js";
import { CONTAINER_OF_CONTAINERS } from "./container.js";
import { Definitions, definitionGiven } from "./definitions.js";
import { isWellFormed, jsonOfValue } from "./encode.js";
import { BorshError, answerOf, decoded, wrongArgument } from "./errors.js";
import { batchesOf } from "./records.js";
import { rowsOf } from "./rows.js";
import { valueOfJson } from "./values.js";

export { BorshError };

/** How long a value of a stream may be, unless it is said: 64 MiB. */
const MAX_LENGTH = 2 ** 26;

let calls;

/** Has all schemas call this compiled module. `borsh.js` does so with the package's own. */
export function useModule(module) {
  calls = new Calls(module);
  return calls;
}

const encoder = new TextEncoder();

/** In the place of a text that has no UTF-8. */
const NOT_UTF8 = Uint8Array.of(0xff);

/** What only this file has. */
const MAKER = Symbol("maker");

/** The schema of schemas, once it was asked for. */
let schemas;

function utf8Of(text) {
  return isWellFormed(text) ? encoder.encode(text) : NOT_UTF8;
}

/** The JSON of an object, as of an IDL, or of a schema of borsh-js. */
function jsonOfObject(object) {
  if (object === null || typeof object !== "object") throw wrongArgument("neither a text of types, nor an object");
  try {
    return JSON.stringify(object) ?? "";
  } catch (cause) {
    throw new BorshError("no", "the object can't be read", { cause });
  }
}

/** The name of a schema of borsh-js. */
const OBJECT_NAME = "Schema";

/** The bytes of a `Uint8Array`, of a buffer or of hexadecimal digits. */
function bytesFrom(source) {
  const bytes = typeof source === "string" ? bytesOfHex(source) : bytesOfSource(source);
  if (bytes === undefined) throw wrongArgument("neither a Uint8Array, nor an ArrayBuffer, nor hexadecimal digits");
  return bytes;
}

/** Definitions by their names, as JSON has them. */
function definitionsFrom(definitions) {
  if (definitions === null || typeof definitions !== "object") throw wrongArgument("the definitions are no object");
  try {
    const entries = definitions instanceof Map ? [...definitions] : Object.entries(definitions);
    return new Map(entries.map(([name, definition]) => [name, definitionGiven(definition)]));
  } catch (cause) {
    throw new BorshError("no", "the definitions can't be read", { cause });
  }
}

function takesBigints(longNumbers) {
  if (longNumbers !== "bigint" && longNumbers !== "string") throw wrongArgument('longNumbers is neither "bigint" nor "string"');
  return longNumbers === "bigint";
}

export class Schema {
  #bytes;
  #definitions;

  constructor(bytes, maker) {
    if (maker !== MAKER) throw wrongArgument("Schema.parse, Schema.from and Schema.of make schemas");
    this.#bytes = bytes;
  }

  static from(source) {
    const schema = new Schema(bytesFrom(source).slice(), MAKER);
    const answer = calls.valid(schema.#bytes);
    if (answer.kind !== "no") answerOf(answer);
    return schema;
  }

  static parse(source, type) {
    const text = typeof source === "string" ? source : jsonOfObject(source);
    if (type !== undefined && typeof type !== "string") throw wrongArgument("the type is no string");
    const isItself = type === undefined && !/^\s*\{/.test(text);
    const [items, name] = isItself ? ["", text] : [text, type ?? OBJECT_NAME];
    return new Schema(answerOf(calls.compile(utf8Of(items), utf8Of(name))), MAKER);
  }

  /** The container of containers. */
  static ofSchemas() {
    schemas ??= Schema.from(CONTAINER_OF_CONTAINERS);
    return schemas;
  }

  static of(root, definitions) {
    if (typeof root !== "string") throw wrongArgument("the name of the type is no string");
    return Schema.from(Schema.ofSchemas().encode({ declaration: root, definitions: definitionsFrom(definitions) }));
  }

  get bytes() {
    return this.#bytes.slice();
  }

  get root() {
    return this.#defined().root;
  }

  get definitions() {
    return this.#defined().map;
  }

  validate() {
    answerOf(calls.valid(this.#bytes));
  }

  maxSize() {
    const answer = calls.size(this.#bytes);
    answerOf(answer);
    return answer.number;
  }

  check(value) {
    answerOf(calls.member(this.#bytes, bytesFrom(value)));
  }

  decode(value, { longNumbers = "bigint" } = {}) {
    const isBigint = takesBigints(longNumbers);
    const json = JSON.parse(this.toJson(value, { longNumbers: "string" }));
    return valueOfJson(this.#defined(), this.root, json, isBigint);
  }

  encode(value) {
    return this.#fromText(encoder.encode(jsonOfValue(this.#defined(), value)));
  }

  toJson(value, { compact = true, longNumbers = "number" } = {}) {
    if (longNumbers !== "number" && longNumbers !== "string") throw wrongArgument('longNumbers is neither "number" nor "string"');
    return decoded(answerOf(calls.toJson(this.#bytes, bytesFrom(value), compact, longNumbers === "string")));
  }

  fromJson(json) {
    if (typeof json !== "string") throw wrongArgument("JSON is a string");
    return this.#fromText(utf8Of(json));
  }

  #fromText(bytes) {
    return answerOf(calls.fromJson(this.#bytes, bytes));
  }

  async *records(source, { longNumbers = "bigint", maxLength } = {}) {
    const isBigint = takesBigints(longNumbers);
    for await (const batch of this.#batches(source, maxLength)) {
      let { start, values, lengths } = batch;
      while (lengths.length > 0) {
        const answer = calls.jsonLines(this.#bytes, values, lengths, true);
        // No text of JSON has a line end in it, which is written as its escape.
        const lines = decoded(answerOf(answer, start)).slice(0, -1);
        const list = JSON.parse(`[${lines.replaceAll("\n", ",")}]`);
        for (const json of list) yield valueOfJson(this.#defined(), this.root, json, isBigint);
        const size = lengths.slice(0, list.length).reduce((sum, length) => sum + length, 0);
        start += size;
        values = values.subarray(size);
        lengths = lengths.slice(list.length);
      }
    }
  }

  async *recordBytes(source, { maxLength } = {}) {
    for await (const { values, lengths } of this.#batches(source, maxLength)) {
      let at = 0;
      for (const length of lengths) yield values.slice(at, (at += length));
    }
  }

  #batches(source, maxLength = MAX_LENGTH) {
    return batchesOf(source, maxLength, (bytes, most) => calls.records(this.#bytes, bytes, most));
  }

  rows(value) {
    const bytes = bytesFrom(value);
    this.check(bytes);
    const { rows, stop } = rowsOf(this.#defined(), bytes);
    if (stop !== undefined) throw new BorshError("no", `${stop.path}: ${stop.reason}`, stop);
    return rows;
  }

  /** The rows up to where bytes stop being a value. */
  rowsBefore(value) {
    return rowsOf(this.#defined(), bytesFrom(value)).rows;
  }

  #defined() {
    this.#definitions ??= definitionsOf(this.#bytes);
    return this.#definitions;
  }
}

/** What the encoding of a schema defines. */
export function definitionsOf(bytes) {
  const said = (answer) => JSON.parse(decoded(answerOf(answer)));
  return new Definitions(said(calls.toJson(Schema.ofSchemas().bytes, bytes, true, true)), said(calls.names(bytes)));
}

/** Whether data of the old schema is still read by the new one. */
export function compare(old, now) {
  if (!(old instanceof Schema) || !(now instanceof Schema)) throw wrongArgument("what is compared is no Schema");
  const answer = calls.compare(old.bytes, now.bytes);
  if (!["yes", "no", "undecided"].includes(answer.kind)) answerOf(answer);
  return comparisonOf(answer.kind, decoded(answer.bytes));
}
