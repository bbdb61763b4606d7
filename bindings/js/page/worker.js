// What the page's worker does: it is asked, and answers. A question about a schema or a value ends the work on an earlier one.

/** Values of at most so many bytes are judged at once, and have their JSON shown: 64 KiB. */
const SMALL = 2 ** 16;

/** So many characters of JSON, and lines of definitions, are shown at most. */
const MOST_JSON = 2 ** 16;
const MOST_DEFINITIONS = 1000;

/** So many bytes of a file are read at once, and for so many milliseconds parts are gone through before anything else is heard. */
const FILE_PIECE = 2 ** 22;
const AT_ONCE = 12;

/** The JSON of a value has to be written to know whether its type refuses a part. Of more bytes it isn't: 256 MiB. */
const MOST_JUDGED = 2 ** 28;

/** So many bytes a schema has at most: 16 MiB. */
const MOST_SCHEMA = 2 ** 24;

/** So many bytes fit into a link, of the schema and of the value. */
const MOST_LINK = 2 ** 16;

const held = { schema: undefined, bytes: undefined, parts: undefined };
let turn = 0;
let work = Promise.resolve();

/** A turn that is over, since something else was asked. */
class Over extends Error {}

const channel = new MessageChannel();
let resume;
channel.port1.onmessage = () => resume();

/** Hears what was asked meanwhile. */
function pause(mine) {
  return new Promise((resolve, reject) => {
    resume = () => (turn === mine ? resolve() : reject(new Over()));
    channel.port2.postMessage(undefined);
  });
}

/** The bytes of a file, a piece at a time. */
async function bytesOfFile(file, goOn) {
  let bytes;
  try {
    bytes = new Uint8Array(file.size);
  } catch {
    throw new Error(tooLarge(file.size));
  }
  for (let at = 0; at < file.size; at += FILE_PIECE) {
    bytes.set(new Uint8Array(await file.slice(at, at + FILE_PIECE).arrayBuffer()), at);
    await goOn("reading", at / file.size);
  }
  return bytes;
}

const CHANGES = {
  /** Has no schema, or no value. */
  async forget({ id }) {
    held[id === "schema" ? "schema" : "bytes"] = held.parts = undefined;
    return {};
  },

  /** The schema of a text, or of a file: a container's bytes, or such a text; where a text has several types, of the one that is chosen. */
  async schema({ text, file, isText, format, chosen }, goOn) {
    held.schema = held.parts = undefined;
    if (file?.size > MOST_SCHEMA) throw new Error(`a schema has at most ${sizeText(MOST_SCHEMA)} here, and this has ${sizeText(file.size)}`);
    const bytes = file === undefined ? undefined : await bytesOfFile(file, goOn);
    await goOn("reading the schema");
    const found = bytes === undefined ? { text, ...schemaOfText(text, format, chosen) } : schemaOfFile(bytes, isText, format, chosen);
    const { kind, types, type, schema, error } = found;
    const said = { kind, types, type, text: found.text?.length <= SMALL ? found.text : undefined };
    if (error !== undefined) return { ...said, said: beginOf(error.message), isRight: false };
    held.schema = schema;
    return { ...said, lines: definitionLines(schema), ...judged(schema) };
  },

  /** The bytes that a text writes, or that a file has. */
  async value({ text, file, isText, format }, goOn) {
    held.bytes = held.parts = undefined;
    const given = file === undefined ? new TextEncoder().encode(text) : await bytesOfFile(file, goOn);
    const found = file === undefined || isText ? await bytesOfText(given, format, goOn) : { kind: "bytes of a file", bytes: given };
    held.bytes = found.bytes;
    return { kind: found.kind, ...told(held.bytes, file === undefined || isText) };
  },

  /** The bytes of the value that JSON describes. */
  async json({ text, file }, goOn) {
    if (held.schema === undefined) throw new Error("there is no schema");
    const json = file === undefined ? text : new TextDecoder().decode(await bytesOfFile(file, goOn));
    await goOn("making the bytes of the JSON");
    const bytes = held.schema.fromJson(json);
    Object.assign(held, { bytes, parts: undefined });
    return { kind: "JSON", ...told(bytes, true) };
  },

  /** Goes through the parts; of a small value says what it is, with its JSON. */
  async open(_, goOn) {
    const { schema, bytes } = held;
    if (schema === undefined || bytes === undefined) return {};
    const parts = new Parts(definitionsOf(schema.bytes), bytes);
    held.parts = parts;
    let verdict;
    if (bytes.length <= SMALL) {
      verdict = verdictOf(schema, bytes);
      parts.goOn(Infinity);
      verdict.fault = faultIn(parts, verdict);
    }
    while (!parts.isWhole) {
      parts.goOn(AT_ONCE);
      await goOn("going through the parts", parts.end / bytes.length, { rows: parts.count, end: parts.end });
    }
    return { rows: parts.count, end: parts.end, verdict };
  },

  /** Whether the bytes of a file are a value, by the bytes of the schema: at first by the definitions alone, and then with what types refuse. */
  async judge({ schema: schemaBytes, file }, goOn) {
    const schema = Schema.from(schemaBytes);
    const bytes = await bytesOfFile(file, goOn);
    await goOn("checking the bytes by the definitions");
    try {
      schema.check(bytes);
    } catch (error) {
      return error.kind === "out of memory" ? { said: tooLarge(bytes.length), isRight: false } : refusal(error);
    }
    const described = `${sizeText(bytes.length)} that the definitions of ${schema.root} describe`;
    const untold = "whether its type refuses a text, number or key isn't checked, as it is by the tool's `borsh member --strict`";
    if (bytes.length > MOST_JUDGED) return { said: `${described}; ${untold}`, isRight: true };
    await goOn("checking texts, numbers and keys, and writing the JSON", undefined, { described });
    try {
      return { said: saidOf(schema, bytes), isRight: true, json: new Blob([jsonBytes(schemaBytes, bytes)], { type: "application/json" }) };
    } catch (error) {
      if (error.kind !== "out of memory") return refusal(error);
      return { said: `${described}; there is no memory for more: ${untold}`, isRight: true };
    }
  },
};

const QUESTIONS = {
  /** Has the proved calls made of this module. */
  start: ({ module }) => void useModule(module),

  /** Bytes, and the rows that have some of them. */
  bytes({ first, end }) {
    const bytes = held.bytes?.slice(first, end) ?? new Uint8Array();
    return { first, bytes, rows: held.parts?.rowsOver(first, end) ?? [], partsEnd: held.parts?.end ?? 0 };
  },

  rows: ({ first, count }) => ({ first, rows: held.parts?.rows(first, count) ?? [] }),

  /** Where a value that is no value is wrong; without what comes behind that. */
  fault: (verdict) => ({ fault: faultIn(held.parts, verdict), rows: held.parts.count, end: held.parts.end }),

  link() {
    const { schema, bytes } = held;
    if (schema === undefined || bytes === undefined) throw new Error("a link has a schema and a value, and one of them is missing");
    const schemaBytes = schema.bytes;
    if (schemaBytes.length + bytes.length > MOST_LINK) throw new Error(`a link has room for ${sizeText(MOST_LINK)}: send the files`);
    return { schema: base64Of(schemaBytes), value: base64Of(bytes) };
  },
};

/** The schema of a file, which is a container, or a text. A container has bytes that no text has, in the length of its root's name. */
function schemaOfFile(bytes, isText, format, chosen) {
  if (!isText && (bytes.length < 4 || bytes.subarray(0, 4).includes(0))) {
    const text = bytes.length <= SMALL / 2 ? hexOf(bytes) : undefined;
    return { text, kind: "bytes of a file", schema: Schema.from(bytes) };
  }
  const text = new TextDecoder().decode(bytes);
  return { text, ...schemaOfText(text, format, chosen) };
}

/** The JSON of a value, which may be longer than a text can be. */
function jsonBytes(schemaBytes, bytes) {
  return answerOf(calls.toJson(schemaBytes, bytes, true, false));
}

/** How many bytes there are; their digits where they are few, or else a file of them, if there is none. */
function told(bytes, needsFile) {
  if (bytes.length <= SMALL / 2) return { length: bytes.length, hex: hexOf(bytes) };
  return { length: bytes.length, isLarge: bytes.length > SMALL, file: needsFile ? new Blob([bytes]) : undefined };
}

function base64Of(bytes) {
  return btoa(Array.from(bytes, (byte) => String.fromCharCode(byte)).join("")).replace(/\+/g, "-").replace(/\//g, "_").replace(/=/g, "");
}

function tooLarge(size) {
  return `there is no memory here to check ${sizeText(size)}: try the tool \`borsh\``;
}

function sizeText(size) {
  return `${size.toLocaleString("en")} ${size === 1 ? "byte" : "bytes"}`;
}

function saidOf(schema, bytes) {
  return `a value of ${schema.root}, of ${bytes.length} ${bytes.length === 1 ? "byte" : "bytes"}`;
}

function verdictOf(schema, bytes) {
  try {
    const json = schema.toJson(bytes, { compact: false });
    return { said: saidOf(schema, bytes), isRight: true, json: json.length <= MOST_JSON ? json : new Blob([json], { type: "application/json" }) };
  } catch (error) {
    return refusal(error);
  }
}

/** Bytes that are no value have a place; a part that the type refuses is known by its path. */
function refusal({ message, offset, path, type, reason }) {
  const said = type === undefined ? message : `${path} (\`${type}\` at byte ${offset}): ${reason}`;
  return { said: beginOf(said), isRight: false, offset, path, isCut: type !== undefined };
}

function faultIn(parts, { isRight, offset, path, isCut }) {
  if (isRight) return undefined;
  const fault = offset ?? parts.rowOfPath(path)?.offset;
  if (isCut) parts.cut(fault);
  return fault;
}

/** Whether the schema keeps the rules, and the greatest size of a value; and whether the first is so. */
function judged(schema) {
  let size;
  try {
    const most = schema.maxSize();
    size = `a value has at most ${most} ${most === 1n ? "byte" : "bytes"}`;
  } catch (error) {
    size = `no greatest size: ${error.message}`;
  }
  const { bytes } = schema;
  try {
    schema.validate();
    return { bytes, said: `valid; ${size}`, isRight: true };
  } catch (error) {
    return { bytes, said: `${beginOf(error.message)}; ${beginOf(size)}`, isRight: false };
  }
}

function definitionLines(schema) {
  const others = [...schema.definitions.keys()].filter((name) => name !== schema.root).sort();
  const lines = [schema.root, ...others.slice(0, MOST_DEFINITIONS - 1)].map((name) => beginOf(definitionLine(name, schema.definitions.get(name))));
  if (others.length >= MOST_DEFINITIONS) lines.push(`.. and ${others.length + 1 - MOST_DEFINITIONS} more`);
  return lines;
}

function definitionLine(name, definition) {
  const inBytes = (size) => `${size} ${size === 1 ? "byte" : "bytes"}`;
  const variants = (it) => it.variants.map((variant) => `${variant.name} = ${variant.tag}: ${variant.type}`).join(", ");
  switch (definition?.kind) {
    case "primitive":
      return `primitive ${name} = ${inBytes(definition.size)}`;
    case "sequence": {
      const { lengthWidth, least, greatest, elements } = definition;
      if (lengthWidth === 0 && least === greatest) return `array ${name} = [${elements}; ${least}]`;
      return `sequence ${name} = [${elements}; ${least}..=${greatest}], length in ${inBytes(lengthWidth)}`;
    }
    case "tuple":
      return `tuple ${name} = (${definition.elements.join(", ")})`;
    case "struct":
      return `struct ${name} { ${definition.fields.map((it, index) => `${it.name ?? index}: ${it.type}`).join(", ")} }`;
    case "enum":
      return `enum ${name} { ${variants(definition)} }, tag in ${inBytes(definition.tagWidth)}`;
    default:
      return `missing ${name}`;
  }
}

/** Does a change, unless there was another since. */
async function change(name, given, id, mine) {
  let last = 0;
  const goOn = async (said, part, found) => {
    const now = performance.now();
    // What is done at once, and how far it is some times in a second.
    if (part === undefined || last === 0 || now - last > 100) {
      last = now;
      postMessage({ id, progress: { said, part, ...found } });
    }
    await pause(mine);
  };
  try {
    await pause(mine);
    postMessage({ id, answer: await CHANGES[name](given, goOn) });
  } catch (error) {
    postMessage({ id, error: beginOf(error.message), isOver: error instanceof Over });
  }
}

addEventListener("message", ({ data: { id, name, given } }) => {
  if (name in CHANGES) {
    const mine = ++turn;
    work = work.then(() => change(name, given, id, mine));
    return;
  }
  try {
    postMessage({ id, answer: QUESTIONS[name](given) });
  } catch (error) {
    postMessage({ id, error: error.message });
  }
});
