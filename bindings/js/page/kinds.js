// What a text may be that is given as a schema or as bytes. The page says which kind it took, and has an example of each.
const EXAMPLE_HEX = "0100000041040000000100000041040002000000010000007803000000753634010000007906000000537472696e6706000000537472696e6701" +
  "040000000000000000ffffffff000000000200000075380300000075363400080200000075380001";

const EXAMPLE_VALUE = "0c000000000000000300000068c3a9";

/**
 * The kinds of text that are taken as a schema, in the order in which they are tried. **Another kind is another entry.** `read` returns
 * undefined of a text of another kind. Else it says how a schema is made of it, by `make`, which throws what is wrong with the text; and
 * which types there are to choose from, if there are some, and which is `meant` where none is chosen. It is given the text without white
 * space around it, what it is as JSON, and the page's choice of how bytes are written, which a kind with a `format` is about. `value` is
 * one of the example's.
 */
const SCHEMA_KINDS = [
  {
    name: "Rust source",
    example: `pub enum State {
    Empty,
    Open(u64),
}

/// Any type that Borsh encodes.
pub struct Vault {
    pub owner: [u8; 4],
    pub state: State,
}`,
    value: "11223344010700000000000000",
    read: (text, given) => readRust(text, given),
  },
  {
    name: "an Anchor IDL",
    example: `{
  "instructions": [],
  "accounts": [{ "name": "Counter", "discriminator": [255, 176, 4, 245, 188, 253, 124, 25] }],
  "types": [
    { "name": "Counter", "type": { "kind": "struct", "fields": [
      { "name": "count", "type": "u64" },
      { "name": "label", "type": { "option": "string" } }
    ] } }
  ]
}`,
    value: "ffb004f5bcfd7c190c00000000000000010300000068c3a9",
    read: (_, { literal }) => readIdl(literal),
  },
  {
    name: "a schema of borsh-js",
    example: `const schema = {
  struct: {
    x: 'u64',
    y: 'string', // or an option, an array, a set, a map, an enum
  },
};`,
    value: EXAMPLE_VALUE,
    read: (_, { literal }) => readObject(literal),
  },
  {
    name: "JSON of a container",
    example: `{
  "declaration": "A",
  "definitions": {
    "A": { "Struct": { "fields": { "NamedFields": [["x", "u64"], ["y", "String"]] } } },
    "String": { "Sequence": { "length_width": 4, "length_range": { "start": 0, "end": 4294967295 }, "elements": "u8" } },
    "u64": { "Primitive": 8 },
    "u8": { "Primitive": 1 }
  }
}`,
    value: EXAMPLE_VALUE,
    read: (text) => (text.startsWith("{") ? { make: () => Schema.from(Schema.ofSchemas().fromJson(text)) } : undefined),
  },
  { name: "hexadecimal digits", format: "hex", example: EXAMPLE_HEX, value: EXAMPLE_VALUE, read: (text) => readDigits(text, HEX) },
  {
    name: "base64",
    format: "base64",
    example: "AQAAAEEEAAAAAQAAAEEEAAIAAAABAAAAeAMAAAB1NjQBAAAAeQYAAABTdHJpbmcGAAAAU3RyaW5nAQQAAAAAAAAAAP////8AAAAAAgAAAHU4AwAAAHU2NAAIAgAAAHU4AAE=",
    value: EXAMPLE_VALUE,
    read: (text) => readDigits(text, BASE64),
  },
];

function readDigits(text, digits) {
  const bytes = bytesOfDigits(text, digits);
  return bytes && { make: () => Schema.from(bytes) };
}

function bytesOfDigits(text, digits) {
  const reader = new DigitReader(digits, text.length);
  return reader.add(text) ? reader.end() : undefined;
}

/** The schema of a text, or the error that it has none; which kind it is, which types there are, and which of them the schema is of. */
function schemaOfText(text, format, chosen) {
  const trimmed = text.trim();
  const given = { format, literal: literalIn(trimmed) };
  for (const kind of SCHEMA_KINDS) {
    if (kind.format !== undefined && format !== "any" && format !== kind.format) continue;
    const found = kind.read(trimmed, given);
    if (found === undefined) continue;
    const { types = [], meant, make } = found;
    const told = { kind: kind.name, types, type: types.includes(chosen) ? chosen : meant };
    try {
      return { ...told, schema: make(told.type) };
    } catch (error) {
      return { ...told, error };
    }
  }
  const others = SCHEMA_KINDS.filter((kind) => kind.format === undefined).map((kind) => `, nor ${kind.name}`);
  throw new Error(`this is ${refusalOf(format)}${others.join("")}`);
}

/** The digits that bytes are written in: how many bits each has, and its value by its code. */
const HEX = { name: "hexadecimal digits", bits: 4, values: valuesOf("0123456789abcdef", "0123456789ABCDEF") };
const BASE64_LETTERS = "ABCDEFGHIJKLMNOPQRSTUVWXYZabcdefghijklmnopqrstuvwxyz0123456789";
const BASE64 = { name: "base64", bits: 6, values: valuesOf(`${BASE64_LETTERS}+/`, `${BASE64_LETTERS}-_`) };

const NO_DIGIT = 255;

function valuesOf(...alphabets) {
  const values = new Uint8Array(128).fill(255);
  for (const letters of alphabets) [...letters].forEach((letter, value) => (values[letter.charCodeAt(0)] = value));
  return values;
}

/** Makes bytes of digits that come in pieces; white space is passed over, and `0x` before hexadecimal ones. */
class DigitReader {
  #digits;
  #bytes;
  #length = 0;
  #held = 0;
  #bits = 0;
  #count = 0;
  #padding = 0;

  constructor(digits, mostDigits) {
    this.#digits = digits;
    this.#bytes = new Uint8Array(Math.floor((mostDigits * digits.bits) / 8));
  }

  /** Whether all are digits so far. */
  add(text) {
    const { bits, values } = this.#digits;
    let digits = text.replace(/\s+/g, "");
    if (this.#count === 0 && bits === 4) digits = digits.replace(/^0x/i, "");
    if (bits === 6) {
      const plain = digits.replace(/=+$/, "");
      if (this.#padding > 0 && plain !== "") return false;
      this.#padding += digits.length - plain.length;
      digits = plain;
    }
    for (let index = 0; index < digits.length; index++) {
      const value = values[digits.charCodeAt(index)] ?? NO_DIGIT;
      if (value === NO_DIGIT) return false;
      this.#held = (this.#held << bits) | value;
      this.#bits += bits;
      if (this.#bits >= 8) {
        this.#bits -= 8;
        this.#bytes[this.#length++] = this.#held >> this.#bits;
        this.#held &= (1 << this.#bits) - 1;
      }
    }
    this.#count += digits.length;
    return true;
  }

  /** The bytes; undefined if the last ones aren't whole. */
  end() {
    const isWhole = this.#digits.bits === 4 ? this.#bits === 0 : this.#count % 4 !== 1 && isPadded(this.#count, this.#padding);
    return isWhole ? this.#bytes.subarray(0, this.#length) : undefined;
  }
}

function isPadded(count, padding) {
  return padding === 0 || (padding <= 2 && (count + padding) % 4 === 0);
}

/** So many bytes of a text are read at once. */
const TEXT_PIECE = 2 ** 20;

/** The bytes that a text in UTF-8 writes, and which kind of digits; `goOn` is told how much of it is read. */
async function bytesOfText(utf8, format, goOn) {
  for (const digits of [HEX, BASE64].filter((it) => format === "any" || (format === "hex") === (it === HEX))) {
    const reader = new DigitReader(digits, utf8.length);
    const decoder = new TextDecoder();
    let isRight = true;
    for (let at = 0; isRight && at < utf8.length; at += TEXT_PIECE) {
      isRight = reader.add(decoder.decode(utf8.subarray(at, at + TEXT_PIECE), { stream: true }));
      await goOn(digits.name, at / utf8.length);
    }
    const bytes = isRight ? reader.end() : undefined;
    if (bytes !== undefined) return { kind: digits.name, bytes };
  }
  throw new Error(`this is ${refusalOf(format)}`);
}

function refusalOf(format) {
  if (format === "hex") return "no text of hexadecimal digits, in pairs";
  return format === "base64" ? "no base64" : "neither hexadecimal digits, in pairs, nor base64";
}
