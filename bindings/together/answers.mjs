// What the JavaScript package answers of each case (cases.py), in lines like those of answers.c, and behind a tab what is JavaScript's own: the
// value, and what it is encoded to, as answers.py tells it. `answers.mjs FILE [CALLS]`.
import { readFileSync, writeSync } from "node:fs";
import { BorshError, Schema, compare } from "../js/borsh.js";

const CODES = { no: 1, malformed: 2, undecided: 5 };
const COMPARED = { "the same": 0, compatible: 0, incompatible: 1, "not known": 5 };
const WRONG = [null, true, 7, -1, 1.5, "x", "0x00", "5", Uint8Array.of(1), [], new Map(), [1], new Map([["a", 1]]), "\ud800", 2n ** 64n];
WRONG.push(NaN, Infinity, 2n ** 200n, "0x0a0b0c0d0e0f0a0b", new Map([[1, 2]]));

const bytesOf = (digits) => new Uint8Array(digits === "-" ? Buffer.alloc(0) : Buffer.from(digits, "hex"));
const hexOf = (bytes) => Buffer.from(bytes.buffer, bytes.byteOffset, bytes.byteLength).toString("hex");

/** Names that were changed may have characters that end a line, or part what is in it. */
const plain = (text) => text.replace(/[\0-\x1f]/g, "?");

function refusal(error) {
  if (!(error instanceof BorshError)) throw error;
  return plain(`${CODES[error.kind]}|${error.path ?? ""}|${error.offset ?? ""}|${error.message}`);
}

/** What a call says: a refusal, or `0` and what it returns. */
function told(call) {
  try {
    const found = call();
    return found === undefined ? "0" : `0 ${found instanceof Uint8Array ? hexOf(found) : found}`;
  } catch (error) {
    return refusal(error);
  }
}

/** The same, and nothing behind `0` where it returns these bytes. */
function toldOfBytes(call, bytes) {
  const found = told(call);
  return found === `0 ${hexOf(bytes)}` ? "0" : found;
}

const view = new DataView(new ArrayBuffer(8));

/** A value by what it is, in words that Python has for it too. */
function shown(value) {
  if (value === null) return "n";
  if (Array.isArray(value)) return `[${value.map(shown).join()}]`;
  if (value instanceof Uint8Array) return `b${hexOf(value)}`;
  switch (typeof value) {
    case "boolean":
      return value ? "t" : "f";
    case "string":
      return JSON.stringify(value);
    case "bigint":
      return String(value);
    case "number":
      if (Number.isInteger(value) && !Object.is(value, -0)) return String(BigInt(value));
      view.setFloat64(0, value);
      return `x${hexOf(new Uint8Array(view.buffer))}`;
    default:
      return `{${inOrder(value).map((key) => `${JSON.stringify(key)}:${shown(value[key])}`).join()}}`;
  }
}

function inOrder(value) {
  const keys = Object.keys(value);
  return keys.length < 2 ? keys : keys.sort((a, b) => Buffer.compare(Buffer.from(a), Buffer.from(b)));
}

const isObject = (value) => value !== null && typeof value === "object" && !(value instanceof Uint8Array);

/** How many parts a value has, with itself. */
function partsOf(value) {
  return isObject(value) ? Object.values(value).reduce((sum, part) => sum + partsOf(part), 1) : 1;
}

/** The value with the part of this number in its order exchanged. */
function exchanged(value, number, wrong) {
  let at = number;
  const walk = (part) => {
    if (at-- === 0) return wrong;
    if (Array.isArray(part)) return part.map(walk);
    return isObject(part) ? Object.fromEntries(inOrder(part).map((key) => [key, walk(part[key])])) : part;
  };
  return walk(value);
}

class Answers {
  calls = 0;
  #write;

  constructor(write) {
    this.#write = write;
  }

  /** The schema that is made, or undefined. */
  schema(encoding) {
    this.calls += 2;
    try {
      const schema = Schema.from(encoding);
      this.#write(`${told(() => schema.validate())} ; ${told(() => schema.maxSize())}\n`);
      return schema;
    } catch (error) {
      return this.#write(`${refusal(error)} ; ${refusal(error)}\n`);
    }
  }

  value(schema, bytes, numbers) {
    this.calls += 4 + (numbers?.length ?? 0);
    const member = told(() => schema.check(bytes));
    let value;
    try {
      value = schema.decode(bytes);
    } catch (error) {
      return this.#write(`${member} ; ${refusal(error)}\n`);
    }
    const text = schema.toJson(bytes);
    const mine = toldOfBytes(() => schema.encode(value), bytes);
    const again = numbers ? toldOfBytes(() => schema.fromJson(text), bytes) : mine;
    const wrong = numbers?.map((number) => ` ; ${this.wrong(schema, value, number)}`).join("") ?? "";
    return this.#write(`${member} ; ${text} ; ${again}\t${shown(value)} ; ${mine}${wrong}\n`);
  }

  types(items, name, old, now) {
    this.calls += 2;
    const { answer, text } = compare(old, now);
    this.#write(`${told(() => Schema.parse(items, name).bytes)} ; ${COMPARED[answer]} ${plain(text)}\n`);
  }

  wrong(schema, value, number) {
    return told(() => schema.encode(exchanged(value, number % partsOf(value), WRONG[Math.floor(number / 50)])));
  }

  case(line) {
    const words = line.split(" ");
    const [encoding, value, masks] = [words[0], words[3], words[4]].map(bytesOf);
    const schema = this.schema(encoding);
    encoding[words[1]] ^= Number(words[2]);
    const other = this.schema(encoding);
    this.types(...words.slice(5, 7).map((word) => Buffer.from(word, "hex").toString()), schema, other ?? schema);
    this.value(schema, value, words.slice(7).map(Number));
    masks.forEach((mask, at) => {
      value[at] ^= mask;
      this.value(schema, value);
      value[at] ^= mask;
    });
  }
}

const lines = readFileSync(process.argv[2], "utf8").trimEnd().split("\n");
const most = Number(process.argv[3] ?? 0);

function answerAll() {
  let piece = "";
  const answers = new Answers((text) => {
    piece += text;
    if (piece.length > 2 ** 20) piece = flushed(piece);
  });
  lines.forEach((line) => answers.case(line));
  flushed(piece);
}

function flushed(text) {
  for (let bytes = Buffer.from(text); bytes.length > 0; ) bytes = bytes.subarray(writeSync(1, bytes));
  return "";
}

/** How many bytes are taken of the engine's heap and of the module's memories. */
function taken() {
  for (let count = 0; count < 4; count++) globalThis.gc();
  const { heapUsed, arrayBuffers, external } = process.memoryUsage();
  return [heapUsed, arrayBuffers + external];
}

function measure() {
  const answers = new Answers(() => {});
  let before;
  for (let at = 0; ; at++) {
    answers.case(lines[at % lines.length]);
    if (before === undefined && answers.calls >= most / 10) [answers.calls, before] = [0, taken()];
    if (before !== undefined && answers.calls >= most) {
      const after = taken();
      return console.log(before.flatMap((number, index) => [number, after[index]]).join(" "));
    }
  }
}

if (most === 0) answerAll();
else measure();
