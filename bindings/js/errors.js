// What is thrown, and what the answer of a call says of it.

/** What a call has no answer for. */
export class BorshError extends Error {
  constructor(kind, text, found) {
    super(text, found?.cause === undefined ? undefined : { cause: found.cause });
    this.name = "BorshError";
    this.kind = kind;
    this.path = found?.path;
    this.type = found?.type;
    this.offset = found?.offset;
    this.record = found?.record;
    this.reason = found?.reason ?? text;
  }
}

/** What is thrown of an argument of another type: a `TypeError` with the properties of a `BorshError`. */
export function wrongArgument(text) {
  return Object.assign(new TypeError(text), { kind: "argument", path: undefined, offset: undefined, reason: text });
}

/** What a call returns that makes texts; an error of the engine, as of a text that is longer than its own may be, is want of memory. */
export function withinMemory(call) {
  try {
    return call();
  } catch (error) {
    if (error instanceof BorshError) throw error;
    throw new BorshError("out of memory", "out of memory", { cause: error });
  }
}

/** Texts of the proved code are UTF-8. */
const decoder = new TextDecoder("utf-8", { ignoreBOM: true });

export function decoded(bytes) {
  return withinMemory(() => decoder.decode(bytes));
}

/** The bytes of the answer, or else an error: of a part of one of many values with the byte at which the value begins. */
export function answerOf(answer, record) {
  if (answer.kind === "yes") return answer.bytes;
  const kind = answer.kind === "short" ? "no" : answer.kind;
  const text = decoded(answer.bytes);
  if (record === undefined || answer.path === undefined) throw new BorshError(kind, text, foundIn(answer));
  throw errorOf(record, kind, answer.kind === "short" ? `cut short: ${text}` : text, foundIn(answer));
}

/** The error of a value that begins at a byte of a stream. */
export function errorOf(record, kind, text, found) {
  return new BorshError(kind, `value at byte ${record}: ${text}`, { reason: text, ...found, record });
}

/** What the text of an answer says: `PATH: REASON`, or of a fault of bytes ``PATH (`TYPE` at byte OFFSET): REASON``. Of text the path is which. */
function foundIn({ bytes, offset, path }) {
  if (path === undefined) return { offset };
  const rest = decoded(bytes.subarray(path.end));
  const found = { offset, path: decoded(bytes.subarray(path.start, path.end)), reason: rest.slice(": ".length) };
  if (offset === undefined || rest.startsWith(":")) return found;
  // No reason of a fault has such words.
  const middle = `\` at byte ${offset}): `;
  const at = rest.lastIndexOf(middle);
  return { ...found, type: rest.slice(" (`".length, at), reason: rest.slice(at + middle.length) };
}
