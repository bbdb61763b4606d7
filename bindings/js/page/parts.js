// The parts of a value, of which only those that are asked for are made: between places that are kept, the bytes are gone through again.

/** How many places are kept at most. Beyond, every other one is dropped. */
const MOST_PLACES = 2 ** 14;

/** How many bytes of a text are shown, and how many characters of a name or path. */
const MOST_TEXT = 200;
const MOST_NAME = 1000;

class Parts {
  #definitions;
  #bytes;
  #walk;
  #places;
  #step = 256;
  /** How many rows there are so far, and the byte after the last. */
  count = 0;
  end = 0;
  isWhole = false;

  constructor(definitions, bytes) {
    this.#definitions = definitions;
    this.#bytes = bytes;
    this.#walk = new Walk(definitions, bytes);
    this.#places = [this.#walk.place];
  }

  /** Goes on for some time. */
  goOn(milliseconds) {
    const until = performance.now() + milliseconds;
    while (!this.isWhole) {
      for (let count = 0; count < 4096 && !this.isWhole; count++) this.#next();
      if (performance.now() >= until) return;
    }
  }

  #next() {
    if (!this.#walk.next()) {
      this.isWhole = true;
      return;
    }
    this.end = this.#walk.end;
    if (++this.count % this.#step !== 0) return;
    this.#places.push(this.#walk.place);
    if (this.#places.length < MOST_PLACES) return;
    this.#places = this.#places.filter((_, index) => index % 2 === 0);
    this.#step *= 2;
  }

  /** Leaves out the rows that end behind a byte. */
  cut(end) {
    let count = 0;
    this.#from(this.#placeBefore((place) => place.offset <= end), (walk, index) => {
      if (walk.end > end) return false;
      count = index + 1;
      return true;
    });
    this.count = Math.min(this.count, count);
    this.end = Math.min(this.end, end);
  }

  /** So many rows from one on. */
  rows(first, count) {
    const rows = [];
    this.#from(this.#placeBefore((place) => place.rows <= first), (walk, index) => {
      if (index >= first) rows.push(rowOf(walk, index));
      return index + 1 < Math.min(first + count, this.count);
    });
    return rows;
  }

  /** The rows that have bytes from one byte up to another. */
  rowsOver(first, end) {
    const rows = [];
    this.#from(this.#placeBefore((place) => place.offset <= first), (walk, index) => {
      if (walk.start < end && walk.end > first) rows.push(rowOf(walk, index));
      return walk.end < end;
    });
    return rows;
  }

  /** The last row with this path, if there is one. */
  rowOfPath(path) {
    let found;
    if (path === undefined) return found;
    this.#from(this.#places[0], (walk, index) => {
      if (walk.isAt(path)) found = rowOf(walk, index);
      return true;
    });
    return found;
  }

  /** The last place of which it is true; it is true of the first ones. */
  #placeBefore(isBefore) {
    let [first, end] = [0, this.#places.length];
    while (end - first > 1) {
      const middle = (first + end) >> 1;
      if (isBefore(this.#places[middle])) first = middle;
      else end = middle;
    }
    return this.#places[first];
  }

  /** Goes through the rows from a place on, with their indices, as long as it is told to. */
  #from(place, take) {
    const walk = new Walk(this.#definitions, this.#bytes, place);
    for (let index = place.rows; index < this.count && walk.next() && take(walk, index); index++);
  }
}

function rowOf(walk, index) {
  const { offset, path, type, value, bytes } = walk.row(MOST_TEXT);
  const digits = () => `0x${hexOf(bytes.subarray(0, 16))}${bytes.length > 16 ? "…" : ""}`;
  const end = offset + bytes.length;
  return { index, offset, end, path: endOf(path), type: beginOf(type), value: value === "" ? digits() : beginOf(value) };
}

function beginOf(text) {
  return text.length > MOST_NAME ? `${text.slice(0, MOST_NAME)}…` : text;
}

function endOf(text) {
  return text.length > MOST_NAME ? `…${text.slice(-MOST_NAME)}` : text;
}
