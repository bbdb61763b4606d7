// Texts of types: Rust source, Anchor IDLs, and schemas of borsh-js. Which they are, and which types they have, is found here; what a type is,
// the proved code says.

/** A word of fewer characters is a type, and no base64 of a container, which would be longer. */
const LEAST_BASE64 = 16;

/** Rust source, or a type that stands alone. */
function readRust(text, { format, literal }) {
  if (literal !== undefined || text.startsWith("{")) return undefined;
  if (/\b(struct|enum|type)\s+\w/.test(text)) {
    const types = typesOfRust(text);
    return { types, meant: types[types.length - 1], make: (type) => schemaOfType(text, type) };
  }
  const isWord = format === "any" && text.length < LEAST_BASE64 && /^[a-z_]\w*$/i.test(text) && bytesOfDigits(text, HEX) === undefined;
  const isType = isWord || /^[&([]|^(::)?[a-z_]\w*\s*(<|::)/i.test(text);
  return isType ? { make: () => Schema.parse(text) } : undefined;
}

/** What has no items: comments, strings, characters; of one that isn't closed all that follows. */
const NO_ITEMS = /\/\/.*|\/\*[^]*?(?:\*\/|$)|r(#*)"[^]*?(?:"\1|$)|"(?:[^"\\]|\\[^])*(?:"|$)|'(?:[^'\\]|\\.[^']*)'/g;

/** The names of the items that are types without parameters, in order: those in braces behind `impl`, `trait`, `fn` or a macro are none. */
function typesOfRust(text) {
  const code = text.replace(NO_ITEMS, " ");
  const names = new Set();
  let depth = 0;
  let skipped = 0; // how deep the braces are that have no items
  let isHead = false; // of what has braces without items
  let last = "";
  // A semicolon in an array's type ends nothing.
  for (const { 0: token, index } of code.matchAll(/[a-z_]\w*!?|;\s*[\w:]+\s*\]|[{};]/gi)) {
    if (token === "{" && ++depth && isHead && skipped === 0) skipped = depth;
    if (token === "}" && depth-- === skipped) skipped = 0;
    if (["{", "}", ";"].includes(token)) isHead = false;
    else if (/!$|^(impl|trait|fn)$/.test(token)) isHead = true;
    else if (!isHead && skipped === 0 && ["struct", "enum", "type"].includes(last) && !hasParameters(code, index + token.length)) names.add(token);
    last = token;
  }
  return [...names];
}

/** Whether the name that ends there has parameters beside lifetimes. */
function hasParameters(code, end) {
  const [, parameters = ""] = /^\s*(?:<([^>]*)>)?/.exec(code.slice(end, end + 1000));
  return parameters.split(",").some((it) => /^\s*[^\s']/.test(it));
}

function readIdl(literal) {
  const idl = literal?.object;
  if (!hasOne(idl, ["types", "accounts", "instructions"])) return undefined;
  const listOf = (name) => (Array.isArray(idl[name]) ? idl[name] : []);
  const accounts = listOf("accounts").map((it) => it?.name);
  const plain = listOf("types").filter((it) => !(it?.generics?.length > 0)).map((it) => it?.name);
  const types = [...new Set([...plain, ...accounts])].filter((it) => typeof it === "string");
  return { types, meant: accounts.find((it) => types.includes(it)) ?? types[types.length - 1], make: (type) => schemaOfType(literal.text, type) };
}

function schemaOfType(text, type) {
  if (type === undefined) throw new Error("this text has no type without parameters");
  return Schema.parse(text, type);
}

function readObject(literal) {
  const isOther = literal === undefined || hasOne(literal.object, ["declaration", "definitions"]);
  return isOther ? undefined : { make: () => Schema.parse(literal.text) };
}

function hasOne(object, names) {
  return Object.keys(object ?? {}).some((name) => names.includes(name));
}

/** The object that a text is as JSON, or as JavaScript writes it, and its JSON. */
function literalIn(text) {
  const body = text.replace(/^(?:export\s+)?(?:default\s+|(?:const|let|var)\s+\w+[^={]*=\s*)/, "").replace(/;$/, "");
  if (!body.startsWith("{")) return undefined;
  for (const json of [body, jsonOfLiteral(body)]) {
    try {
      return { text: json, object: JSON.parse(json) };
    } catch {
      // It isn't JSON.
    }
  }
  return undefined;
}

/** JSON of an object as JavaScript writes it: with names and strings in other quotation marks or in none, comments, and commas at ends. */
function jsonOfLiteral(text) {
  const quoted = text.replace(/"(?:[^"\\]|\\[^])*"|'((?:[^'\\]|\\[^])*)'|\/\/.*|\/\*[^]*?(?:\*\/|$)|[a-z_$][\w$]*/gi, (found, inner) => {
    if (inner !== undefined) return `"${inner.replace(/\\'/g, "'").replace(/"/g, '\\"')}"`;
    if (found.startsWith("/")) return "";
    return found.startsWith('"') || ["true", "false", "null"].includes(found) ? found : `"${found}"`;
  });
  return quoted.replace(/"(?:[^"\\]|\\[^])*"|,(?=\s*[}\]])/g, (found) => (found === "," ? "" : found));
}
