// Values one after another, whose bytes come in pieces.
import { bytesOfSource } from "./bytes.js";
import { answerOf, errorOf, wrongArgument } from "./errors.js";

/** So many values are asked for at once, of so many bytes, unless one is longer. */
const MOST_VALUES = 4096;
const WINDOW = 2 ** 18;

/** A value that is longer is tried again once an eighth more has come: so it isn't gone through again for each piece of it. */
const LONG = 2 ** 20;

/**
 * Some values at a time: where they begin in the stream, their bytes, and the length of each. `measure` says how long the values are that
 * bytes begin with. Throws where the bytes are no value, or end within one, or a value is longer than `maxLength`.
 */
export async function* batchesOf(source, maxLength, measure) {
  if (typeof maxLength !== "number" || !(maxLength >= 0)) throw wrongArgument("maxLength is no number of bytes");
  const batches = new Batches(maxLength, measure);
  const bytes = bytesOfSource(source);
  if (bytes !== undefined) yield* batches.add(bytes);
  // Whose piece it is may put others in its place.
  else for await (const piece of piecesOf(source)) yield* batches.add(bytesOfPiece(piece).slice());
  yield* batches.whole(true);
}

/** What the source iterates over, or a stream reads where it is no iterable, as in some browsers. */
function piecesOf(source) {
  if (source?.[Symbol.asyncIterator] || (source?.[Symbol.iterator] && typeof source !== "string")) return source;
  if (typeof source?.getReader === "function") return piecesRead(source);
  throw wrongArgument("neither a ReadableStream, nor an iterable of Uint8Arrays, nor bytes");
}

async function* piecesRead(stream) {
  const reader = stream.getReader();
  try {
    for (let it = await reader.read(); !it.done; it = await reader.read()) yield it.value;
  } finally {
    await reader.cancel();
  }
}

function bytesOfPiece(piece) {
  const bytes = bytesOfSource(piece);
  if (bytes === undefined) throw wrongArgument("a piece is neither a Uint8Array nor an ArrayBuffer");
  return bytes;
}

class Batches {
  #maxLength;
  #measure;
  #start = 0;
  #pieces = [];
  #length = 0;
  /** How many bytes there have to be before they are asked about. */
  #wanted = 1;
  #window = WINDOW;

  constructor(maxLength, measure) {
    this.#maxLength = maxLength;
    this.#measure = measure;
  }

  *add(piece) {
    this.#pieces.push(piece);
    this.#length += piece.length;
    yield* this.whole(false);
  }

  /** The values that are whole, after the last piece up to the end. */
  *whole(isAll) {
    while (this.#length > 0 && (isAll || this.#length >= this.#wanted)) {
      const bytes = this.#joined();
      const window = bytes.subarray(0, this.#window);
      const answer = this.#measure(window, MOST_VALUES);
      if (answer.kind === "short") {
        if (window.length >= this.#maxLength) throw this.#longer(this.#start);
        if (window.length < bytes.length) {
          this.#window *= 2;
          continue;
        }
        if (isAll) answerOf(answer, this.#start);
        this.#wanted = bytes.length + (bytes.length < LONG ? 1 : bytes.length >> 3);
        this.#window = Math.max(WINDOW, 2 * this.#wanted);
        return;
      }
      answerOf(answer, this.#start);
      yield* this.#batch(bytes, answer.lengths);
    }
  }

  *#batch(bytes, found) {
    const longer = found.findIndex((length) => length > this.#maxLength);
    const lengths = longer < 0 ? found : found.slice(0, longer);
    const size = lengths.reduce((sum, length) => sum + length, 0);
    if (size > 0) yield { start: this.#start, values: bytes.subarray(0, size), lengths };
    this.#start += size;
    if (longer >= 0) throw this.#longer(this.#start);
    this.#pieces = [bytes.subarray(size)];
    this.#length -= size;
    this.#wanted = 1;
    this.#window = WINDOW;
  }

  #joined() {
    if (this.#pieces.length > 1) {
      const bytes = new Uint8Array(this.#length);
      let at = 0;
      for (const piece of this.#pieces) {
        bytes.set(piece, at);
        at += piece.length;
      }
      this.#pieces = [bytes];
    }
    return this.#pieces[0];
  }

  #longer(start) {
    return errorOf(start, "no", "longer than the limit");
  }
}
