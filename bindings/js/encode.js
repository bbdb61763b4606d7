// The JSON of JavaScript values, of which the proved code makes bytes. A value is taken as what its definition has for it, or refused:
// each of its properties is read once, and what JSON would change is refused here. What doesn't fit its definition is written as some JSON
// that doesn't either, so that the proved code says what was expected, and where.
import { hexOf, isBytes, viewOfBytes } from "./bytes.js";
import { nameText } from "./definitions.js";
import { BorshError, withinMemory } from "./errors.js";

/** How many arrays and objects may be in one another, as in the JSON that the proved code reads. */
const MOST_NESTED = 128;

/** More than any number may be, and a number that isn't whole. */
const TOO_LARGE = 2n ** 128n;
const NOT_WHOLE = "0.5";

/** The JSON of a value of the definitions' root. */
export function jsonOfValue(definitions, value) {
  return withinMemory(() => new Writer(definitions).part(definitions.root, value, 0));
}

/** A walk through one value. The steps to the part where it is are those up to the part's level; a number is an index. */
class Writer {
  #definitions;
  #steps = [];

  constructor(definitions) {
    this.#definitions = definitions;
  }

  /** The JSON of a part. The level is twice as many as arrays and objects are around it. */
  part(name, value, level) {
    if (value === null) return "null";
    const form = this.#definitions.form(name);
    this.#steps[level] = form.steps;
    switch (typeof value) {
      case "boolean":
        return String(value);
      case "number":
      case "bigint":
        return this.#number(form, value, level);
      case "string":
        return this.#text(value, level);
      case "object":
        return this.#object(form, value, level);
      default:
        throw this.#refusal(level, `${typeof value} is no value`);
    }
  }

  #number({ kind, size }, value, level) {
    if (kind === "float") return jsonOfFloat(size, value);
    if (kind !== "number") return "0";
    if (typeof value === "bigint") value = value > TOO_LARGE || value < -TOO_LARGE ? TOO_LARGE : value;
    else if (!Number.isInteger(value)) return NOT_WHOLE;
    else if (!Number.isSafeInteger(value)) throw this.#refusal(level, `${value} isn't exact as a number: give a bigint`);
    return size === 16 ? `"${value}"` : String(value);
  }

  #text(value, level) {
    if (!isWellFormed(value)) throw this.#refusal(level, "a lone surrogate is no character");
    return JSON.stringify(value);
  }

  #object(form, value, level) {
    if (isBytes(value)) {
      const bytes = viewOfBytes(value);
      if (bytes === undefined) throw this.#refusal(level, "the bytes are gone: their buffer is detached, or shorter");
      return form.kind === "text" || form.kind === "enum" ? "[]" : `"0x${hexOf(bytes)}"`;
    }
    const kind = this.#read(level, () => (Array.isArray(value) ? "Array" : Object.prototype.toString.call(value).slice(8, -1)));
    switch (kind) {
      case "Array":
        return this.#array(form, value, level);
      case "Map":
        return this.#entries(form, this.#read(level, () => [...Map.prototype.entries.call(value)]), level, true);
      case "Object":
        return this.#entries(form, this.#properties(value, level), level, false);
      default:
        throw this.#refusal(level, `${kind} is no value`);
    }
  }

  /** What a caller's object gives, which may run code of theirs. */
  #read(level, read) {
    try {
      return read();
    } catch (cause) {
      throw this.#refusal(level, "it can't be read", cause);
    }
  }

  #array({ kind, element, parts }, value, level) {
    if (kind !== "list" && kind !== "row") return "[]";
    const length = this.#read(level, () => value.length);
    if (!Number.isSafeInteger(length) || length < 0) throw this.#refusal(level, "it has no length");
    if (kind === "row" && length !== parts.length) return "[]";
    this.#enter(level);
    let json = "[";
    for (let index = 0; index < length; index++) {
      this.#steps[level + 1] = kind === "list" ? `[${index}]` : `.${index}`;
      const part = this.#read(level + 1, () => value[index]);
      json += (index === 0 ? "" : ",") + this.part(kind === "list" ? element : parts[index], part, level + 2);
    }
    return `${json}]`;
  }

  /** The properties of an object that are its own and have a name. */
  #properties(value, level) {
    const names = this.#read(level, () => Object.keys(value));
    return names.map((name) => [name, this.#read(level, () => value[name])]);
  }

  #entries(form, entries, level, isMap) {
    const { kind, element, step, types, value } = form;
    // A `Map` is a list of pairs where JSON has no objects.
    if (kind === "list" && isMap && isPair(this.#definitions.get(element))) return this.#array(form, entries, level);
    if (kind !== "map" && types === undefined) return "{}";
    this.#enter(level);
    const parts = entries.map(([key, part], index) => {
      const text = this.#key(form, key, level);
      this.#steps[level + 1] = kind === "map" ? { entries, index, hasNumbers: form.hasNumbers } : step + nameText(String(key));
      const type = kind === "map" ? value : types.get(key);
      return `${text}:${type === undefined ? "null" : this.part(type, part, level + 2)}`;
    });
    return `{${parts.join()}}`;
  }

  #key(form, key, level) {
    if (typeof key === "string") return this.#text(key, level);
    if (form.kind !== "map" || !form.hasNumbers) throw this.#refusal(level, "expected keys that are strings");
    if (typeof key === "bigint") return `"${key > TOO_LARGE || key < -TOO_LARGE ? TOO_LARGE : key}"`;
    return Number.isSafeInteger(key) ? `"${key}"` : `"${NOT_WHOLE}"`;
  }

  #enter(level) {
    if (level >= 2 * MOST_NESTED) throw refused(nameText(this.#definitions.root), `nests more than ${MOST_NESTED} deep`);
  }

  #refusal(level, reason, cause) {
    const steps = this.#steps.slice(0, level + 1).map((step) => (typeof step === "string" ? step : `[${rankOf(step)}].1`));
    return refused(nameText(this.#definitions.root) + steps.join(""), reason, cause);
  }
}

function refused(path, reason, cause) {
  return new BorshError("no", `${path}: ${reason}`, { path, reason, cause });
}

/** The decimal of a float, or the word of an infinity; no float where a number is too large for one. */
function jsonOfFloat(size, number) {
  const value = size === 4 ? Math.fround(Number(number)) : Number(number);
  if (Math.abs(value) !== Infinity) return Object.is(number, -0) ? "-0.0" : Number.isNaN(value) ? '"NaN"' : String(number);
  if (value !== number) return "[]";
  return value > 0 ? '"inf"' : '"-inf"';
}

/** Whether a text has no half of a pair of surrogates, which is no character. */
export function isWellFormed(text) {
  return text.isWellFormed?.() ?? !/\p{Surrogate}/u.test(text);
}

function isPair(definition) {
  return definition?.kind === "tuple" && definition.elements.length === 2;
}

/** How many keys come before one of them in the order of their type, which for texts is that of their bytes. */
function rankOf({ entries, index, hasNumbers }) {
  const orderOf = (key) => (hasNumbers ? BigInt(/^-?[0-9]+$/.test(key) ? key : 0) : hexOf(new TextEncoder().encode(key)));
  const order = entries.map(([key]) => orderOf(key));
  return order.filter((key) => key < order[index]).length;
}
