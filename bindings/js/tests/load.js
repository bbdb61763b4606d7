// The library over the module that the tests are about: BORSH_MODULE, a name in out/, or the package's own.
import { readFileSync } from "node:fs";
import { useModule } from "../schema.js";

export { BorshError, Schema, compare } from "../schema.js";
export { bytesOfHex, hexOf } from "../bytes.js";

/** A module of `out/`. */
export function compiled(name) {
  return new WebAssembly.Module(readFileSync(new URL(`../out/${name}.wasm`, import.meta.url)));
}

export const moduleName = process.env.BORSH_MODULE ?? "borsh";
export const calls = useModule(compiled(moduleName));

/** A file of the repository. */
export function repositoryFile(path) {
  return new URL(`../../../${path}`, import.meta.url);
}

/** What a call returns, or its error. */
export function attempt(call) {
  try {
    return call();
  } catch (error) {
    return error;
  }
}
