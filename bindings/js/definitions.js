// What a container defines, and what of it decides how values are written in JSON.

/** A name as it stands in a path: an identifier as it is, any other in quotation marks. */
export function nameText(name) {
  return /^[A-Za-z_][A-Za-z0-9_]*$/.test(name) ? name : `"${name.replace(/["\\]/g, "\\$&")}"`;
}

/** How many structs with one part without a name, and options, are gone through to see how values are written. */
const MOST_NEWTYPES = 128;

/** The definitions of a container: by name, and how the values of names are written. */
export class Definitions {
  #words;
  #variants = new Map();
  #forms = new Map();

  /** Of the container's JSON, with numbers of 64 bits as strings, and of the words of its names, as the proved code says both. */
  constructor(json, words) {
    this.root = json.declaration;
    this.map = new Map(Object.entries(json.definitions).map(([name, definition]) => [name, definitionOf(definition)]));
    this.#words = new Map(Object.entries(words));
  }

  get(name) {
    return this.map.get(name);
  }

  /** How values of a name that the root leads to are written: the last of its words. */
  kind(name) {
    return this.#words.get(name).split(" ").pop();
  }

  /** Whether a number has a sign. */
  isSigned(name) {
    return this.#words.get(name).startsWith("signed");
  }

  /** The variant of an enum with this tag, in as many bits as the enum's tags have, or with this name; else undefined. */
  variant(definition, tagOrName) {
    if (!this.#variants.has(definition)) this.#variants.set(definition, variantsOf(definition));
    return this.#variants.get(definition).get(tagOrName);
  }

  /**
   * How values of a name that aren't null are written: by `kind`, with what that needs. Where it is told by what is in a newtype or an
   * `Option`, `steps` lead there.
   */
  form(name) {
    if (!this.#forms.has(name)) this.#forms.set(name, this.#formOf(name));
    return this.#forms.get(name);
  }

  #formOf(name) {
    let steps = "";
    for (let count = 0; count < MOST_NEWTYPES; count++) {
      const kind = this.kind(name);
      if (kind !== "newtype" && kind !== "option") break;
      steps += kind === "newtype" ? ".0" : "::Some";
      const { fields, variants } = this.map.get(name);
      name = kind === "newtype" ? fields[0].type : variants[1].type;
    }
    return { steps, kind: this.kind(name), ...this.#contentOf(this.kind(name), this.map.get(name)) };
  }

  #contentOf(kind, definition) {
    switch (kind) {
      case "number":
      case "float":
        return { size: definition.size };
      case "list":
        return { element: definition.elements };
      case "map": {
        const [key, value] = this.map.get(definition.elements).elements;
        return { hasNumbers: this.kind(key) === "number", value };
      }
      case "row":
        return { parts: definition.elements ?? definition.fields.map((field) => field.type) };
      case "object":
        return { step: ".", types: new Map(definition.fields.map((field) => [field.name, field.type])) };
      case "enum":
        return { step: "::", types: new Map(definition.variants.map((it) => [it.name, it.type])) };
      default:
        return {};
    }
  }
}

/** A definition as JSON has it, of one as `Schema.definitions` gives it; any other as it is. */
export function definitionGiven(it) {
  switch (it?.kind) {
    case "primitive":
      return { Primitive: it.size };
    case "sequence":
      return { Sequence: { length_width: it.lengthWidth, length_range: { start: it.least, end: it.greatest }, elements: it.elements } };
    case "tuple":
      return { Tuple: { elements: it.elements } };
    case "struct":
      return { Struct: { fields: fieldsGiven([...it.fields]) } };
    case "enum":
      return { Enum: { tag_width: it.tagWidth, variants: Array.from(it.variants, ({ tag, name, type }) => [tag, name, type]) } };
    default:
      return it;
  }
}

function fieldsGiven(fields) {
  if (fields.length === 0) return "Empty";
  if (fields[0].name === null) return { UnnamedFields: fields.map((field) => field.type) };
  return { NamedFields: fields.map(({ name, type }) => [name, type]) };
}

function definitionOf(json) {
  const [[kind, it]] = Object.entries(json);
  switch (kind) {
    case "Primitive":
      return { kind: "primitive", size: it };
    case "Sequence": {
      const { start, end } = it.length_range;
      return { kind: "sequence", lengthWidth: it.length_width, least: BigInt(start), greatest: BigInt(end), elements: it.elements };
    }
    case "Tuple":
      return { kind: "tuple", elements: it.elements };
    case "Struct":
      return { kind: "struct", fields: fieldsOf(it.fields) };
    default:
      return { kind: "enum", tagWidth: it.tag_width, variants: it.variants.map(([tag, name, type]) => ({ tag: BigInt(tag), name, type })) };
  }
}

function fieldsOf(json) {
  if (json === "Empty") return [];
  if (json.UnnamedFields) return json.UnnamedFields.map((type) => ({ name: null, type }));
  return json.NamedFields.map(([name, type]) => ({ name, type }));
}

/** The variants of an enum by tag and by name; the first of several with one tag. */
function variantsOf({ tagWidth, variants }) {
  const found = new Map();
  for (const variant of [...variants].reverse()) {
    found.set(BigInt.asUintN(8 * tagWidth, variant.tag), variant);
    found.set(variant.name, variant);
  }
  return found;
}
