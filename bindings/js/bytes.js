// Bytes as a caller gives them. What an object is, the engine is asked: its class, its prototype and its properties may say anything.
import { wrongArgument } from "./errors.js";

function getterOf(prototype, name) {
  return Object.getOwnPropertyDescriptor(prototype, name).get;
}

const TYPED = Object.getPrototypeOf(Uint8Array.prototype);
const classOf = getterOf(TYPED, Symbol.toStringTag);
const bufferOf = getterOf(TYPED, "buffer");
const offsetOf = getterOf(TYPED, "byteOffset");
const lengthOf = getterOf(TYPED, "byteLength");
const lengthOfBuffer = getterOf(ArrayBuffer.prototype, "byteLength");
// A page that isn't isolated may have no such buffers.
const lengthOfShared = globalThis.SharedArrayBuffer && getterOf(SharedArrayBuffer.prototype, "byteLength");

/** Whether it is a `Uint8Array`, of any window or subclass. */
export function isBytes(value) {
  return classOf.call(value) === "Uint8Array";
}

/** The bytes of a `Uint8Array`, of memory that other threads change as a copy; undefined if they are gone with their buffer. */
export function viewOfBytes(value) {
  const buffer = bufferOf.call(value);
  const length = lengthOf.call(value);
  if (length === 0 && !isThere(value)) return undefined;
  const view = new Uint8Array(buffer, offsetOf.call(value), length);
  return isBuffer(lengthOfBuffer, buffer) ? view : new Uint8Array(view);
}

/** Whether an array has its bytes still, and not a buffer that was detached, or made shorter. */
function isThere(array) {
  try {
    return new Uint8Array(array).length === 0;
  } catch {
    return false;
  }
}

function isBuffer(lengthOfKind, value) {
  try {
    return lengthOfKind.call(value) !== undefined;
  } catch {
    return false;
  }
}

/** The bytes of a `Uint8Array` or of a buffer; undefined of anything else. */
export function bytesOfSource(source) {
  if (!isBytes(source)) return isBuffer(lengthOfBuffer, source) || isBuffer(lengthOfShared, source) ? bytesOfBuffer(source) : undefined;
  const bytes = viewOfBytes(source);
  if (bytes === undefined) throw wrongArgument(GONE);
  return bytes;
}

const GONE = "the bytes are gone: their buffer is detached, or shorter";

function bytesOfBuffer(buffer) {
  try {
    return viewOfBytes(new Uint8Array(buffer));
  } catch {
    throw wrongArgument(GONE);
  }
}

/** The bytes that hexadecimal digits are, in pairs; undefined if the text is anything else. White space and `0x` are passed over. */
export function bytesOfHex(text) {
  const digits = text.replace(/\s+/g, "").replace(/^0x/i, "");
  if (digits.length % 2 !== 0 || /[^0-9a-f]/i.test(digits)) return undefined;
  const bytes = new Uint8Array(digits.length / 2);
  for (let index = 0; index < bytes.length; index++) bytes[index] = Number.parseInt(digits.slice(2 * index, 2 * index + 2), 16);
  return bytes;
}

const DIGITS = Array.from({ length: 256 }, (_, byte) => byte.toString(16).padStart(2, "0"));

/** The hexadecimal digits of bytes, in lower case. */
export function hexOf(bytes) {
  return Array.from(bytes, (byte) => DIGITS[byte]).join("");
}
