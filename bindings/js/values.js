// JavaScript values from the JSON of a value. What is JSON is the proved code's; here its texts become numbers and bytes.
import { bytesOfHex } from "./bytes.js";

/** The JavaScript value of JSON that a value of that name is written as, with long numbers as strings. JSON's objects are reused. */
export function valueOfJson(definitions, name, json, takesLongNumbers) {
  if (json === null) return json;
  const form = definitions.form(name);
  const valueOf = (type, part) => valueOfJson(definitions, type, part, takesLongNumbers);
  switch (form.kind) {
    case "number":
      return takesLongNumbers && typeof json === "string" ? BigInt(json) : json;
    case "float":
      return Number(json === "inf" ? Infinity : json === "-inf" ? -Infinity : json);
    case "bytes":
      return bytesOfHex(json);
    case "list":
      return typeof json === "string" ? bytesOfHex(json) : replaceAll(json, () => form.element, valueOf);
    case "map":
      return replaceAll(json, () => form.value, valueOf);
    case "row":
      return replaceAll(json, (index) => form.parts[index], valueOf);
    case "object":
      return replaceAll(json, (field) => form.types.get(field), valueOf);
    case "enum":
      return typeof json === "string" ? json : replaceAll(json, (variant) => form.types.get(variant), valueOf);
    default:
      return json;
  }
}

/** Each part by its value, of the type that its key tells. */
function replaceAll(parts, typeOf, valueOf) {
  for (const key of Object.keys(parts)) parts[key] = valueOf(typeOf(key), parts[key]);
  return parts;
}
