// The heap and the helpers for 128 bits, alone, against a model. BORSH_OUT is the folder of the module.
import assert from "node:assert/strict";
import { readFileSync } from "node:fs";
import { test } from "node:test";
import { pathToFileURL } from "node:url";
import { moduleName } from "./load.js";
import { randomNumbers } from "./random.js";

const folder = process.env.BORSH_OUT ? pathToFileURL(`${process.env.BORSH_OUT}/`) : new URL("../out/", import.meta.url);
const name = moduleName.endsWith("64") ? "heap64.wasm" : "heap.wasm";
const module = new WebAssembly.Module(readFileSync(new URL(name, folder)));

/** The module's exports, with a room of 16 bytes in which a call that returns two words leaves them. */
class Heap {
  constructor() {
    this.it = new WebAssembly.Instance(module).exports;
    this.answer = this.it.heap_take(16n);
  }

  bytes(at, length) {
    return new Uint8Array(this.it.memory.buffer, Number(at), length);
  }

  words() {
    const view = new DataView(this.it.memory.buffer);
    return [view.getBigUint64(Number(this.answer), true), view.getBigUint64(Number(this.answer) + 8, true)];
  }

  /** The address of a block, or undefined where there is none. */
  alloc(length, alignment = 16) {
    this.it.rattle_alloc(this.answer, BigInt(length), BigInt(alignment));
    const [isGiven, at] = this.words();
    return isGiven ? at : undefined;
  }

  realloc(at, kept, length) {
    this.it.rattle_realloc(this.answer, at, BigInt(kept), BigInt(length), 16n);
    const [isGiven, to] = this.words();
    return isGiven ? to : undefined;
  }
}

/** Lengths of all magnitudes, and around those of the lists. */
function someLength(random) {
  const power = 2 ** random(21);
  return [power, power + random(3) - 1, random(power + 1), 1 + random(64)][random(4)];
}

test("blocks keep their bytes, apart from one another, and are given again", () => {
  const random = randomNumbers(1);
  const heap = new Heap();
  const blocks = new Map(); // by address: the length, and what each byte is
  const fill = (at, length) => {
    assert.equal(at % 16n, 0n);
    const byte = random(256);
    heap.bytes(at, length).fill(byte);
    blocks.set(at, { length, byte });
  };
  const assertKept = (at, length, byte) => assert.ok(heap.bytes(at, length).every((it) => it === byte), `block ${at} of ${length} bytes`);
  for (let step = 0; step < 3000; step++) {
    const at = [...blocks.keys()][random(blocks.size || 1)];
    if (at === undefined || (blocks.size < 60 && random(2))) {
      const length = someLength(random);
      const given = heap.alloc(length);
      assert.ok(given !== undefined && !blocks.has(given));
      fill(given, length);
      continue;
    }
    const { length, byte } = blocks.get(at);
    assertKept(at, length, byte);
    blocks.delete(at);
    if (random(2)) {
      heap.it.rattle_dealloc(at);
      continue;
    }
    const kept = random(length + 1);
    const wanted = kept + someLength(random);
    const to = heap.realloc(at, kept, wanted);
    assert.ok(to !== undefined && !blocks.has(to));
    assertKept(to, kept, byte);
    fill(to, wanted);
  }
  assert.equal(heap.it.heap_blocks(), BigInt(blocks.size + 1));
  for (const [at, { length, byte }] of blocks) assertKept(at, length, byte);
  assert.ok(heap.it.memory.buffer.byteLength < 400 * 2 ** 20);
});

test("what is given back is given again, and after heap_clear all is", () => {
  const heap = new Heap();
  for (const length of [0, 1, 16, 17, 100, 65536, 10 ** 6]) {
    const at = heap.alloc(length);
    heap.it.rattle_dealloc(at);
    assert.equal(heap.alloc(length), at);
  }
  const three = [1, 2, 3].map(() => heap.alloc(1000));
  for (const at of three) heap.it.rattle_dealloc(at);
  assert.deepEqual([1, 2, 3].map(() => heap.alloc(1000)).sort(), three.sort());
  const pages = heap.it.memory.buffer.byteLength;
  for (let round = 0; round < 100; round++) {
    heap.it.heap_clear();
    const first = heap.it.heap_take(16n);
    assert.equal(first, heap.answer);
    assert.ok(heap.alloc(10 ** 6) > first);
    for (const length of [16, 1000]) heap.it.rattle_dealloc(heap.alloc(length));
  }
  assert.equal(heap.it.memory.buffer.byteLength, pages);
});

test("the last block grows where it is, and is then as long as it was made", () => {
  const heap = new Heap();
  const at = heap.alloc(1000);
  for (let length = 1000; length < 10 ** 6; length *= 2) assert.equal(heap.realloc(at, length, 2 * length), at);
  heap.it.rattle_dealloc(at);
  assert.equal(heap.alloc(10 ** 6), at);
  const other = heap.alloc(1000);
  assert.notEqual(heap.realloc(at, 1000, 4 * 10 ** 6), at);
  assert.equal(heap.realloc(other, 1000, 1001), other);
});

test("what can't be given is refused, and nothing changes", () => {
  const heap = new Heap();
  const at = heap.alloc(100);
  heap.bytes(at, 100).fill(7);
  for (const length of [2n ** 32n, 2n ** 36n, 2n ** 36n + 1n, 2n ** 63n, 2n ** 64n - 1n]) {
    assert.equal(heap.alloc(length), undefined);
    assert.equal(heap.realloc(at, 100, length), undefined);
    assert.equal(heap.it.heap_take(length), 0n);
  }
  assert.equal(heap.alloc(16, 32), undefined);
  heap.it.heap_refuse_after(1n);
  assert.notEqual(heap.alloc(16), undefined);
  assert.equal(heap.alloc(16), undefined);
  assert.notEqual(heap.alloc(16), undefined);
  assert.ok(heap.bytes(at, 100).every((it) => it === 7));
  assert.equal(heap.it.heap_blocks(), 4n);
});

test("products and shifts of 128 bits are those of bigints", () => {
  const random = randomNumbers(2);
  const heap = new Heap();
  const half = () => [0n, 1n, 2n ** 32n - 1n, 2n ** 32n, 2n ** 63n, 2n ** 64n - 1n, BigInt(random(2 ** 32)) << BigInt(random(33))][random(7)];
  const result = () => {
    const [low, high] = heap.words();
    return low | (high << 64n);
  };
  for (let step = 0; step < 3000; step++) {
    const [a, b, c, d] = [half(), half(), half(), half()];
    const [left, right, bits] = [a | (b << 64n), c | (d << 64n), random(128)];
    heap.it.__multi3(heap.answer, a, b, c, d);
    assert.equal(result(), BigInt.asUintN(128, left * right));
    heap.it.__ashlti3(heap.answer, a, b, bits);
    assert.equal(result(), BigInt.asUintN(128, left << BigInt(bits)));
    heap.it.__lshrti3(heap.answer, a, b, bits);
    assert.equal(result(), left >> BigInt(bits));
  }
});
