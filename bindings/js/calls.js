// The calls of the WebAssembly module, over bytes: the only file that knows the module's memory.
//
// An address is a BigInt, in a memory of 32 bits too. A call may have grown the memory, so no view of it is kept over a call. The
// proved code leaves nothing in the heap, so that all memory is taken back after each call.

/** What a call's code says: those of `crates/borsh_c`. */
// tools/calls.py writes: codes
const KINDS = ["yes", "no", "malformed", "out of memory", "null", "undecided", "short"];
// tools/calls.py: end

/** In the place of an argument: where the call writes a number of 8 bytes. */
const RESULT = Symbol("result");
const NUMBER_BYTES = 8;

/** What a call is given begins at multiples of so many bytes. */
const PART = 16;

/** In the place of an argument: where the call writes the place of a refusal, the `Place` of `crates/borsh_c`. */
const PLACE = Symbol("place");
const PLACE_BYTES = 32;

/** In the place of an argument: room for so many numbers, of which the call says by RESULT how many it has written. */
class Room {
  constructor(count) {
    this.count = count;
  }
}

/** A memory that is larger than this after a call is given back to the engine: 64 MiB. */
const KEPT_BYTES = 2 ** 26;

/** An answer has at first four times the room of what it is made of, in which most fit; but not more than this: 512 MiB. */
const MOST_ROOM = 2 ** 29;

/**
 * What a call answers: a kind, which is "yes" or says why not, and the bytes that were asked for, or a text that says why; and the place
 * that this names: an offset, and the part of the text that is a path. Both may be undefined, as what only some calls answer: a number,
 * a bigint, and as many lengths.
 */
class Answer {
  constructor(kind, bytes) {
    this.kind = kind;
    this.bytes = bytes;
    this.offset = undefined;
    this.path = undefined;
    this.number = undefined;
    this.lengths = undefined;
  }
}

/** The calls of a compiled module, which has no imports. */
export class Calls {
  #module;
  #instance;

  constructor(module) {
    this.#module = module;
    this.#instance = new WebAssembly.Instance(module);
  }

  // Those of `borsh.h`, which says what they answer. Of a room for numbers it is given for how many.
  // tools/calls.py writes: calls
  valid(schema) {
    return this.#call("borsh_c_valid", [schema], 256);
  }

  size(schema) {
    return this.#call("borsh_c_size", [schema, RESULT], 256);
  }

  names(schema) {
    return this.#call("borsh_c_names", [schema], roomFor(schema));
  }

  member(schema, value) {
    return this.#call("borsh_c_member", [schema, value, PLACE], 256);
  }

  toJson(schema, value, isCompact, hasQuotedNumbers) {
    return this.#call("borsh_c_to_json", [schema, value, Number(isCompact), Number(hasQuotedNumbers), PLACE], roomFor(value));
  }

  fromJson(schema, json) {
    return this.#call("borsh_c_from_json", [schema, json, PLACE], roomFor(json));
  }

  records(schema, bytes, lengthsRoom) {
    return this.#call("borsh_c_records", [schema, bytes, new Room(lengthsRoom), RESULT, PLACE], 256);
  }

  jsonLines(schema, values, lengths, hasQuotedNumbers) {
    return this.#call("borsh_c_json_lines", [schema, values, lengths, Number(hasQuotedNumbers), RESULT, PLACE], roomFor(values));
  }

  compile(text, typeText) {
    return this.#call("borsh_c_compile", [text, typeText, PLACE], roomFor(text));
  }

  compare(oldSchema, newSchema) {
    return this.#call("borsh_c_compare", [oldSchema, newSchema], 256);
  }
  // tools/calls.py: end

  /** What the module exports, for tests. */
  get exports() {
    return this.#instance.exports;
  }

  #call(name, given, roomLength) {
    const used = this.#instance;
    let isWhole = false;
    try {
      const answer = ask(used.exports, name, given, roomLength);
      isWhole = used.exports.memory.buffer.byteLength <= KEPT_BYTES;
      return answer;
    } finally {
      // After a trap, as where the engine's stack is full, the heap may be half written: another instance has a new one.
      if (isWhole) used.exports.heap_clear();
      else this.#instance = new WebAssembly.Instance(this.#module);
    }
  }
}

function roomFor(bytes) {
  return Math.min(4 * bytes.length, Math.max(bytes.length, MOST_ROOM)) + 256;
}

/** What a call is given, and where it writes, are parts of one block; the first is how long the answer is. */
function ask(it, name, given, roomLength) {
  const starts = [];
  let size = PART;
  for (const argument of given) {
    starts.push(size);
    size += PART * Math.ceil(sizeOf(argument) / PART);
  }
  const block = Number(it.heap_take(BigInt(size)));
  if (block === 0) return outOfMemory();
  const words = given.flatMap((argument, index) => writePart(it, argument, block + starts[index]));
  // A call whose answer doesn't fit asks for a larger room, and no answer to a question is longer than a certain one: so one fits.
  for (;;) {
    const room = Number(it.heap_take(BigInt(roomLength)));
    if (room === 0) return outOfMemory();
    const kind = KINDS[it[name](...words, BigInt(room), BigInt(roomLength), BigInt(block))];
    const length = numberAt(viewOf(it, block), 0);
    if (length <= roomLength) {
      const answer = new Answer(kind, bytesAt(it, room, length).slice());
      // The last first, since how many numbers there are is told behind the room for them.
      for (let index = given.length - 1; index >= 0; index--) readPart(answer, given[index], viewOf(it, block + starts[index]));
      return answer;
    }
    it.heap_give_back(BigInt(room));
    roomLength = length;
  }
}

function sizeOf(argument) {
  if (argument === RESULT) return NUMBER_BYTES;
  if (argument === PLACE) return PLACE_BYTES;
  if (argument instanceof Room) return NUMBER_BYTES * argument.count;
  if (Array.isArray(argument)) return NUMBER_BYTES * argument.length;
  return typeof argument === "number" ? 0 : argument.length;
}

/** Writes an argument to its part of the block, and returns the words by which it is passed. */
function writePart(it, argument, at) {
  if (typeof argument === "number") return [argument];
  if (typeof argument === "symbol") return [BigInt(at)];
  if (argument instanceof Room) return [BigInt(at), BigInt(argument.count)];
  if (Array.isArray(argument)) {
    const view = viewOf(it, at);
    argument.forEach((number, index) => view.setBigUint64(NUMBER_BYTES * index, BigInt(number), true));
  } else {
    bytesAt(it, at, argument.length).set(argument);
  }
  return [BigInt(at), BigInt(argument.length)];
}

/** Has the answer what the call has written to an argument's part of the block. */
function readPart(answer, argument, view) {
  if (answer.kind === "yes" && argument === RESULT) answer.number = view.getBigUint64(0, true);
  if (answer.kind === "yes" && argument instanceof Room) {
    answer.lengths = Array.from({ length: Number(answer.number) }, (_, index) => numberAt(view, index));
  }
  if ((answer.kind === "no" || answer.kind === "short") && argument === PLACE) {
    // A `Place`: two bytes that say what there is, and three numbers.
    if (view.getUint8(0)) answer.offset = numberAt(view, 1);
    if (view.getUint8(1)) answer.path = { start: numberAt(view, 2), end: numberAt(view, 2) + numberAt(view, 3) };
  }
}

/** One of the numbers of 8 bytes that lie there one after another; less than 2^53. */
function numberAt(view, index) {
  return view.getUint32(NUMBER_BYTES * index, true) + 2 ** 32 * view.getUint32(NUMBER_BYTES * index + 4, true);
}

function viewOf(it, at) {
  return new DataView(it.memory.buffer, at);
}

function bytesAt(it, at, length) {
  return new Uint8Array(it.memory.buffer, at, length);
}

function outOfMemory() {
  return new Answer("out of memory", new TextEncoder().encode("out of memory"));
}
