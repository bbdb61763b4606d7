// The package: Borsh bytes by their schema. See borsh.d.ts for what each call does.
import { useModule } from "./schema.js";

export { BorshError, Schema, compare } from "./schema.js";

const place = new URL("./out/borsh.wasm", import.meta.url);

/** The module, which lies beside this file: read in Node, fetched elsewhere. */
async function compiled() {
  if (place.protocol !== "file:") return WebAssembly.compileStreaming(fetch(place));
  const { readFile } = await import("node:fs/promises");
  return WebAssembly.compile(await readFile(place));
}

useModule(await compiled());
