// What each byte of a value is. The bytes are gone through here, and not by the proved code, which has said before that they are a
// value, or where they stop being one.
import { nameText } from "./definitions.js";

/** How many values a part may be in, as for the proved code's JSON. */
const MOST_DEPTH = 128;

/** How many bytes a number has at most that is exact as a number of JavaScript. */
const MOST_EXACT = 6;

/** Where and why the bytes aren't gone through any further. */
class Stop {
  constructor(path, reason) {
    this.path = path;
    this.reason = reason;
  }
}

/**
 * What the bytes are, in order: an array of `{ offset, depth, bytes, path, type, value }`, one for each number, text, list of
 * primitives, count and tag; and `stop`, the path and reason for which they were gone through no further, which is undefined after a
 * whole value. A text or list has its count. Parts without bytes have no row.
 */
export function rowsOf(definitions, bytes) {
  const walk = new Walk(definitions, bytes);
  const rows = [];
  while (walk.next()) rows.push(walk.row());
  return { rows, stop: walk.stop };
}

/** A value that a walk is in: its definition, which of its parts the walk is at, of how many, and the value that it is itself in. */
class Inside {
  /** Whether it is of a place that was given away, and so has to stay as it is. */
  isKept = false;

  constructor(definition, index, count, variant, outer) {
    this.definition = definition;
    this.index = index;
    this.count = count;
    this.variant = variant;
    this.outer = outer;
    this.depth = outer === undefined ? 0 : outer.depth + 1;
  }

  /** This, at the next part. */
  next() {
    if (this.isKept) return new Inside(this.definition, this.index + 1, this.count, this.variant, this.outer);
    this.index++;
    return this;
  }

  /** The type of the part. */
  get type() {
    const { definition, index } = this;
    switch (definition.kind) {
      case "sequence":
        return definition.elements;
      case "struct":
        return definition.fields[index].type;
      case "enum":
        return this.variant.type;
      default:
        return definition.elements[index];
    }
  }

  /** The last step of the part's path. */
  get step() {
    const { definition, index } = this;
    switch (definition.kind) {
      case "sequence":
        return `[${index}]`;
      case "enum":
        return `::${nameText(this.variant.name)}`;
      case "root":
        return nameText(this.type);
      default: {
        const name = definition.fields?.[index].name ?? null;
        return `.${name === null ? index : nameText(name)}`;
      }
    }
  }

  get path() {
    return (this.outer?.path ?? "") + this.step;
  }

  /** Whether the path is this, up to an end, from which it is gone through. */
  isAt(path, end = path.length) {
    const start = end - this.step.length;
    if (start < 0 || !path.startsWith(this.step, start)) return false;
    return this.outer === undefined ? start === 0 : this.outer.isAt(path, start);
  }
}

/** Goes through the bytes, a row at a time. `place` is where it is: another walk through the same bytes is taken up there. */
export class Walk {
  #definitions;
  #bytes;
  /** What the walk is in, and the row's part in turn; where the row begins, and the next one. */
  #inside;
  #part;
  #start = 0;
  #end;
  #rows;
  #type;
  /** What the row has, by which its value is told, and what is needed for that. */
  #kind;
  #count;
  #lengthWidth;
  #variant;
  /** The path and reason for which it goes no further. */
  stop = undefined;

  constructor(definitions, bytes, place) {
    this.#definitions = definitions;
    this.#bytes = bytes;
    this.#inside = place?.inside ?? new Inside({ kind: "root", elements: [definitions.root] }, -1, 1);
    this.#end = place?.offset ?? 0;
    this.#rows = place?.rows ?? 0;
  }

  /** After so many rows, at this byte. */
  get place() {
    for (let it = this.#inside; it !== undefined && !it.isKept; it = it.outer) it.isKept = true;
    return { inside: this.#inside, offset: this.#end, rows: this.#rows };
  }

  /** Goes to the next row, if there is one. */
  next() {
    if (this.stop !== undefined) return false;
    try {
      return this.#goOn();
    } catch (stop) {
      if (!(stop instanceof Stop)) throw stop;
      this.stop = stop;
      return false;
    }
  }

  /** Where the row begins, and where the next one does. */
  get start() {
    return this.#start;
  }
  get end() {
    return this.#end;
  }

  /** Whether the row's part has this path. */
  isAt(path) {
    return this.#part.isAt(path);
  }

  /** The row, with at most so many bytes of a text. */
  row(most = Infinity) {
    const bytes = this.#bytes.subarray(this.#start, this.#end);
    const { path, depth } = this.#part;
    return { offset: this.#start, depth, bytes, path, type: this.#type, value: this.#value(bytes, most) };
  }

  #value(bytes, most) {
    switch (this.#kind) {
      case "text":
        return textOf(bytes.subarray(this.#lengthWidth), most);
      case "elements":
        return elementsText(this.#count);
      case "tag":
        return this.#variant.name;
      default:
        return textOfPrimitive(this.#definitions, this.#type, bytes);
    }
  }

  #goOn() {
    while (this.#inside !== undefined) {
      const at = this.#inside.next();
      if (at.index >= at.count) {
        this.#inside = at.outer;
        continue;
      }
      this.#inside = at;
      if (this.#definitions.kind(at.type) === "empty") {
        // So are all elements of a list.
        if (at.definition.kind === "sequence") this.#inside = at.outer;
      } else if (this.#enter(at)) {
        return true;
      }
    }
    return false;
  }

  /** Goes into a part, and says whether it begins with a row. */
  #enter(at) {
    const { type } = at;
    const definition = this.#definitions.get(type);
    if (definition === undefined) throw new Stop(at.path, "it has no definition");
    if (at.depth > MOST_DEPTH) throw new Stop(at.path, "nests more than 128 deep");
    switch (definition.kind) {
      case "primitive":
        return this.#row(at, type, definition.size, "primitive");
      case "sequence":
        return this.#sequence(at, type, definition);
      case "enum": {
        const tag = this.#number(definition.tagWidth, at);
        const variant = this.#definitions.variant(definition, BigInt(tag));
        if (variant === undefined) throw new Stop(at.path, "no variant has this tag");
        this.#inside = new Inside(definition, -1, 1, variant, at);
        this.#variant = variant;
        return this.#row(at, type, definition.tagWidth, "tag");
      }
      default:
        this.#inside = new Inside(definition, -1, (definition.elements ?? definition.fields).length, undefined, at);
        return false;
    }
  }

  #sequence(at, type, definition) {
    const { lengthWidth, least, greatest, elements } = definition;
    if (lengthWidth === 0 && least !== greatest) throw new Stop(at.path, "its count isn't known");
    const count = lengthWidth === 0 ? least : this.#number(lengthWidth, at);
    if (count < least || count > greatest) throw new Stop(at.path, "the number of elements isn't allowed");
    this.#count = count;
    this.#lengthWidth = lengthWidth;
    const element = this.#definitions.get(elements);
    if (element?.kind === "primitive" && element.size > 0) {
      const kind = this.#definitions.kind(type) === "text" ? "text" : "elements";
      return this.#row(at, type, lengthWidth + this.#inBytes(count, at) * element.size, kind);
    }
    const isRow = this.#row(at, type, lengthWidth, "elements");
    if (this.#definitions.kind(elements) !== "empty") this.#inside = new Inside(definition, -1, this.#inBytes(count, at), undefined, at);
    return isRow;
  }

  /** A count of elements that have bytes, of which there can't be more than bytes. */
  #inBytes(count, at) {
    if (count > this.#bytes.length) throw new Stop(at.path, "too few bytes are left");
    return Number(count);
  }

  /** The number that the next bytes are: a bigint where it may not be exact otherwise. */
  #number(size, at) {
    if (size > this.#bytes.length - this.#end) throw new Stop(at.path, "too few bytes are left");
    if (size > MOST_EXACT) return unsigned(this.#bytes.subarray(this.#end, this.#end + size));
    let number = 0;
    for (let index = this.#end + size - 1; index >= this.#end; index--) number = 256 * number + this.#bytes[index];
    return number;
  }

  #row(at, type, size, kind) {
    if (size > this.#bytes.length - this.#end) throw new Stop(at.path, "too few bytes are left");
    if (size === 0) return false;
    this.#part = at;
    this.#type = type;
    this.#kind = kind;
    this.#start = this.#end;
    this.#end += size;
    this.#rows++;
    return true;
  }
}

function textOfPrimitive(definitions, type, bytes) {
  const kind = definitions.kind(type);
  if (kind === "bool") return ["false", "true"][bytes[0]] ?? "neither true nor false";
  if (kind !== "number") return "";
  const value = unsigned(bytes);
  return String(definitions.isSigned(type) ? BigInt.asIntN(8 * bytes.length, value) : value);
}

/** A text, or how it begins. */
function textOf(bytes, most) {
  const isCut = bytes.length > most;
  try {
    const text = new TextDecoder("utf-8", { fatal: true, ignoreBOM: true }).decode(isCut ? bytes.subarray(0, most) : bytes, { stream: isCut });
    return isCut ? `"${text}…` : `"${text}"`;
  } catch {
    return "not UTF-8";
  }
}

function elementsText(count) {
  return Number(count) === 1 ? "1 element" : `${count} elements`;
}

/** The number that bytes are, the least first. */
function unsigned(bytes) {
  let number = 0n;
  for (let index = bytes.length - 1; index >= 0; index--) number = (number << 8n) | BigInt(bytes[index]);
  return number;
}
