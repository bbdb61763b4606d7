// The rows of values of crates/test_values/data, and schemas of their definitions.
import { readFileSync } from "node:fs";
import { Schema, repositoryFile } from "./load.js";

/** Words of `type` rows whose definitions the library has itself. */
const CONTAINER = "container";

/** The rows of a file in order, each `{ kind, root, columns, schema }`, the schema of it or another name; `skipped` counts the others. */
export function rowsIn(file) {
  const rows = [];
  let definitions = {};
  let isKnown = true;
  let skipped = 0;
  for (const line of readFileSync(repositoryFile(`crates/test_values/data/${file}`), "utf8").split("\n")) {
    if (line === "" || line.startsWith("#")) continue;
    const [kind, name, ...columns] = line.split("\t");
    const definition = definitionOf(kind, columns);
    if (definition) {
      definitions = { ...definitions, [name]: definition };
    } else if (kind === "type") {
      isKnown = name === CONTAINER;
      if (isKnown) definitions = Schema.ofSchemas().decode(Schema.ofSchemas().bytes).definitions;
      else skipped++;
    } else if (!isKnown || kind === "random" || kind === "ambiguous") {
      skipped++;
    } else {
      const known = definitions;
      rows.push({ line, kind, root: name, columns, schema: (root = name) => schemaOf(root, known) });
    }
  }
  return { rows, skipped };
}

const schemas = new Map();

/** The schema of a root, with the definitions that it reaches. */
export function schemaOf(root, definitions) {
  const reached = {};
  const open = [root];
  for (const name of open) {
    if (Object.hasOwn(reached, name) || !Object.hasOwn(definitions, name)) continue;
    reached[name] = definitions[name];
    open.push(...referencesOf(definitions[name]));
  }
  const json = JSON.stringify({ declaration: root, definitions: reached }, (_, it) => (typeof it === "bigint" ? String(it) : it));
  if (!schemas.has(json)) schemas.set(json, Schema.from(Schema.ofSchemas().fromJson(json)));
  return schemas.get(json);
}

function referencesOf({ Sequence, Tuple, Struct, Enum }) {
  if (Sequence) return [Sequence.elements];
  if (Tuple) return Tuple.elements;
  if (Enum) return Enum.variants.map(([, , type]) => type);
  return Struct?.fields.UnnamedFields ?? Struct?.fields.NamedFields?.map(([, type]) => type) ?? [];
}

/** The definition of a row, as the JSON of containers has it; undefined of other rows. */
function definitionOf(kind, columns) {
  switch (kind) {
    case "primitive":
      return { Primitive: Number(columns[0]) };
    case "sequence": {
      const [start, end] = columns[1].split("..");
      return { Sequence: { length_width: Number(columns[0]), length_range: { start, end }, elements: columns[2] } };
    }
    case "tuple":
      return { Tuple: { elements: columns } };
    case "unit":
      return { Struct: { fields: "Empty" } };
    case "unnamed":
      return { Struct: { fields: { UnnamedFields: columns } } };
    case "struct":
      return { Struct: { fields: { NamedFields: inParts(columns, 2) } } };
    case "enum":
      return { Enum: { tag_width: Number(columns[0]), variants: inParts(columns.slice(1), 3) } };
    case "many":
      return manyVariants(...columns);
    default:
      return undefined;
  }
}

function inParts(columns, length) {
  return Array.from({ length: columns.length / length }, (_, index) => columns.slice(length * index, length * (index + 1)));
}

const MOST_TAG = 2n ** 63n - 1n;

function manyVariants(width, first, step, count, ...parts) {
  const variants = [];
  let tag = BigInt(first);
  for (let index = 0; index < Number(count); index++) {
    variants.push([tag, `v${index}`, parts[index % parts.length]]);
    tag = tag + BigInt(step) > MOST_TAG ? MOST_TAG : tag + BigInt(step);
  }
  return { Enum: { tag_width: Number(width), variants } };
}

/** The bytes of a column: `-`, or pieces with `+` between, as digits `*` times, or `FIRST..END/WIDTH`. */
export function bytesOf(column) {
  if (column === "-") return new Uint8Array();
  return Uint8Array.from(column.split("+").flatMap((piece) => {
    const numbers = /^(\d+)\.\.(\d+)\/(\d+)$/.exec(piece)?.slice(1).map(Number);
    if (numbers) return numbersOf(...numbers);
    const [part, times] = repeated(piece);
    return Array(times).fill([...Buffer.from(part, "hex")]).flat();
  }));
}

function numbersOf(first, end, width) {
  const bytes = [];
  for (let number = first; number < end; number++) {
    for (let index = 0; index < width; index++) bytes.push(Number((BigInt(number) >> BigInt(8 * index)) & 255n));
  }
  return bytes;
}

/** The text of columns that are joined; one that ends with `*` and a number comes so often. */
export function textOf(columns) {
  return columns.map((column) => repeated(column)).map(([part, times]) => part.repeat(times)).join("");
}

function repeated(piece) {
  const found = /^(.*)\*(\d+)$/s.exec(piece);
  return found ? [found[1], Number(found[2])] : [piece, 1];
}
