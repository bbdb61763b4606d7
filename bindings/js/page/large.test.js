// Large values in the page (BORSH_PAGE, or ../out/page.html) in headless Chromium: only what is seen is in the page, it hears keys at once,
// says how far the work is, and ends it when it is told to. BORSH_MEGABYTES is how large the largest value is: 100.
import assert from "node:assert/strict";
import { mkdtempSync, readFileSync, readdirSync, rmSync, writeFileSync } from "node:fs";
import { tmpdir } from "node:os";
import { join } from "node:path";
import { after, before, test } from "node:test";
import { pathToFileURL } from "node:url";
import { Browser } from "./browser.mjs";

const PAGE = process.env.BORSH_PAGE ? pathToFileURL(process.env.BORSH_PAGE).href : new URL("../out/page.html", import.meta.url).href;
const MEGABYTES = Number(process.env.BORSH_MEGABYTES ?? 100);
const MOST_NODES = 5000;
const MOST_MEMORY = 300; // in megabytes

/** How long a person waits at most, also on a busy machine, in milliseconds. */
const AT_ONCE = 2000;

const list = (elements) => ({ Sequence: { length_width: 4, length_range: { start: 0, end: 4294967295 }, elements } });
const SCHEMA = JSON.stringify({
  declaration: "Vec<A>",
  definitions: {
    "Vec<A>": list("A"),
    A: { Struct: { fields: { NamedFields: [["x", "u64"], ["y", "String"]] } } },
    String: list("u8"),
    u64: { Primitive: 8 },
    u8: { Primitive: 1 },
  },
});
const SIZE = 17; // of `A { x: index, y: "abcde" }`

/** The encoding of so many bytes of structs, and the index of the last. */
function valueOf(megabytes) {
  const count = Math.floor((1e6 * megabytes) / SIZE);
  const bytes = Buffer.alloc(4 + count * SIZE);
  bytes.writeUInt32LE(count, 0);
  for (let index = 0; index < count; index++) {
    const at = 4 + SIZE * index;
    bytes.writeUInt32LE(index, at);
    bytes.writeUInt32LE(5, at + 8);
    bytes.write("abcde", at + 12);
  }
  return { bytes, last: count - 1 };
}

const room = mkdtempSync(join(tmpdir(), "borsh-large-"));
const ten = valueOf(10);

/** A file with these bytes. */
function fileOf(name, bytes) {
  const path = join(room, name);
  writeFileSync(path, bytes);
  return path;
}

let browser;
before(async () => { browser = await Browser.start(); });
after(async () => {
  await browser.end();
  rmSync(room, { recursive: true });
});

const text = (id) => browser.value(`document.getElementById("${id}").textContent`);
const nodes = () => browser.value(`(() => {
  const all = document.createTreeWalker(document);
  let count = 1;
  while (all.nextNode()) count++;
  return count;
})()`);
const lastOf = (selector) => browser.value(`[...document.querySelectorAll("${selector}")].at(-1)?.id`);
const faults = () => browser.value(`[...document.querySelectorAll(".is-fault")].map((it) => it.id)`);
const scrollTo = (id, share) => browser.value(`document.getElementById("${id}").scrollTop = ${share} * document.getElementById("${id}").scrollHeight`);

/** Writes into a field as a person does. */
const write = (id, content) => browser.value(`(() => {
  const it = document.getElementById("${id}");
  it.value = ${JSON.stringify(content)};
  it.dispatchEvent(new Event("input", { bubbles: true }));
})()`);

/** The page with the schema. */
async function open() {
  await browser.visit(PAGE);
  await write("schema", SCHEMA);
  await browser.settle();
}

/** The most memory of its own that a process of the browser's pages has had, in megabytes. */
function memory() {
  const sizes = readdirSync("/proc").filter((it) => /^\d+$/.test(it)).map((id) => {
    try {
      const command = readFileSync(`/proc/${id}/cmdline`, "utf8");
      if (!command.includes("--type=renderer") || !command.includes(browser.profile)) return 0;
      return Number(readFileSync(`/proc/${id}/status`, "utf8").match(/^RssAnon:\s+(\d+)/m)[1]);
    } catch {
      return 0;
    }
  });
  return Math.max(...sizes) / 1000;
}

test("10 MB in 1,176,471 parts: a picture, few nodes, the last bytes, and keys are heard", async (context) => {
  await open();
  const picture = `document.querySelectorAll("#parts .part").length > 10 && document.querySelectorAll("#grid .byte").length > 100`;
  await browser.value(`(globalThis.drawn = new Promise((resolve) => {
    document.getElementById("value-file").addEventListener("change", () => {
      const start = performance.now();
      const look = () => (${picture} ? resolve(performance.now() - start) : setTimeout(look, 5));
      look();
    }, { once: true });
  })), 0`);
  let [mostNodes, mostMemory, isWhole] = [0, 0, false];
  await browser.setFiles("#value-file", fileOf("ten", ten.bytes));
  context.diagnostic(`the first picture after ${Math.round(await browser.value("drawn"))} ms`);
  while (!isWhole) {
    mostNodes = Math.max(mostNodes, await nodes());
    mostMemory = Math.max(mostMemory, memory());
    isWhole = await browser.value(`document.querySelector("main").getAttribute("aria-busy") === "false"`);
  }
  context.diagnostic(`at most ${mostNodes} nodes, and ${Math.round(mostMemory)} MB of the page's own`);
  assert.ok(mostNodes < MOST_NODES, `${mostNodes} nodes`);
  assert.ok(mostMemory < MOST_MEMORY, `${mostMemory} MB`);
  assert.equal(await text("value-said"), `a value of Vec<A>, of ${ten.bytes.length} bytes`);
  assert.equal(await text("parts-count"), "1,176,471 parts");
  assert.match(await browser.value(`document.getElementById("json").placeholder`), /^The JSON has [\d,]+ bytes, which are too many/);

  await scrollTo("grid", 1);
  await browser.eventually(() => lastOf("#grid .byte"), `byte-${ten.bytes.length - 1}`);
  await scrollTo("parts", 1);
  await browser.eventually(() => lastOf("#parts .part"), "part-1176470");
  assert.deepEqual(
    await browser.value(`[...document.querySelector("#part-1176470").children].map((it) => it.textContent)`),
    [String(ten.bytes.length - 9), `"Vec<A>"[${ten.last}].y`, "String", '"abcde"'],
  );
  await scrollTo("grid", 0.5);
  await browser.eventually(async () => Math.abs(Number((await lastOf("#grid .byte")).slice(5)) - ten.bytes.length / 2) < 1000, true);
  assert.ok((await nodes()) < MOST_NODES);

  await browser.value(`document.getElementById("grid").focus()`);
  await browser.press("End");
  const { length } = ten.bytes;
  await browser.eventually(() => text("part"), `bytes ${length - 9} to ${length - 1} · "Vec<A>"[${ten.last}].y · String · "abcde"`);
  await browser.press("Home");
  await browser.eventually(() => text("part"), 'bytes 0 to 3 · "Vec<A>" · Vec<A> · 588235 elements');

  await browser.value(`document.getElementById("link").click()`);
  await browser.eventually(() => text("linked"), "a link has room for 65,536 bytes: send the files");
  await browser.value(`{ const make = URL.createObjectURL; URL.createObjectURL = (blob) => make.call(URL, (globalThis.saved = blob)); }`);
  await browser.value(`document.getElementById("save-json").click()`);
  const saved = await browser.value(`saved.text().then((json) => [JSON.parse(json).length, JSON.parse(json).at(-1)])`);
  assert.deepEqual(saved, [ten.last + 1, { x: ten.last, y: "abcde" }]);

  const start = Date.now();
  await write("schema", SCHEMA.replace('"x"', '"key"'));
  await browser.eventually(() => browser.value(`document.getElementById("part-1")?.children[1].textContent`), '"Vec<A>"[0].key');
  context.diagnostic(`parts by a changed schema after ${Date.now() - start} ms`);
  assert.ok(Date.now() - start < AT_ONCE, `${Date.now() - start} ms`);
  await browser.settle();
  assert.equal(await text("value-said"), `a value of Vec<A>, of ${ten.bytes.length} bytes`);
});

test("10 MB that are no value: the wrong byte is shown, at the end or in a text", async () => {
  await open();
  await browser.setFiles("#value-file", fileOf("short", ten.bytes.subarray(0, -1)));
  await browser.eventually(() => text("value-said"), `"Vec<A>"[${ten.last}].y (\`String\` at byte ${ten.bytes.length - 9}): too few bytes are left`);
  await browser.eventually(faults, [`byte-${ten.bytes.length - 9}`]);
  await browser.eventually(() => text("parts-count"), "1,176,470 parts");
  const wrong = Buffer.from(ten.bytes);
  wrong[wrong.length - 1] = 0xff;
  await browser.setFiles("#value-file", fileOf("wrong", wrong));
  await browser.eventually(() => text("value-said"), `"Vec<A>"[${ten.last}].y: not UTF-8`);
  await browser.eventually(faults, [`byte-${ten.bytes.length - 9}`]);
});

/** Pastes into a field a text that the page itself makes of the file's bytes, which `of` returns. */
const paste = (id, of) => browser.value(`document.getElementById("value-file").files[0].arrayBuffer().then((buffer) => {
  const clipboardData = new DataTransfer();
  clipboardData.setData("text/plain", (${of})(new Uint8Array(buffer)));
  document.getElementById("${id}").dispatchEvent(new ClipboardEvent("paste", { clipboardData, bubbles: true, cancelable: true }));
})`);

test("long texts: hexadecimal, base64, JSON, a schema of many definitions", async () => {
  await open();
  const one = valueOf(1);
  const said = `a value of Vec<A>, of ${one.bytes.length} bytes`;
  await browser.setFiles("#value-file", fileOf("one", one.bytes));
  await browser.eventually(() => text("value-said"), said);
  await browser.value(`document.querySelector("#value-held button").click()`);
  await browser.setFiles("#value-file", fileOf("one", one.bytes));
  await paste("value", `(bytes) => Array.from(bytes, (byte) => byte.toString(16).padStart(2, "0")).join(" ")`);
  await browser.eventually(() => text("value-kind"), "Taken as hexadecimal digits.");
  await browser.eventually(() => text("value-said"), said);
  await paste("value", `(bytes) => btoa(Array.from(bytes, (byte) => String.fromCharCode(byte)).join("")).replace(/.{76}/g, "$&\\n")`);
  await browser.eventually(() => text("value-kind"), "Taken as base64.");
  await browser.eventually(() => text("value-said"), said);
  assert.equal(await browser.value(`document.getElementById("value").value`), "");
  await paste("json", `() => JSON.stringify(Array.from({ length: 50000 }, (_, x) => ({ x, y: "é" })))`);
  await browser.eventually(() => text("value-said"), "a value of Vec<A>, of 700004 bytes");
  const definitions = Object.fromEntries(Array.from({ length: 5000 }, (_, index) => [`T${index}`, { Tuple: { elements: ["u8"] } }]));
  await write("schema", JSON.stringify({ declaration: "T7", definitions: { ...definitions, u8: { Primitive: 1 } } }));
  await browser.settle();
  assert.match(await text("schema-said"), /^valid; a value has at most 1 byte$/);
  assert.match(await text("definitions"), /^tuple T7 = \(u8\)\n[^]*\n\.\. and 4001 more$/);
  await browser.setFiles("#schema-file", fileOf("twenty", Buffer.alloc(20e6)));
  await browser.eventually(() => text("schema-said"), "a schema has at most 16,777,216 bytes here, and this has 20,000,000 bytes");
});

test(`${MEGABYTES} MB: it says how far it is, is stopped, and answers, or says why not`, async (context) => {
  await open();
  const path = fileOf("hundred", valueOf(MEGABYTES).bytes);
  await browser.setFiles("#value-file", path);
  await browser.eventually(() => browser.value(`document.getElementById("work").hidden`), false);
  assert.match(await text("work-said"), /: (\d+ %|[\d.]+ s)/);
  await browser.value(`document.getElementById("stop").click()`);
  assert.match(await text("value-said"), /^Stopped/);
  await browser.eventually(() => browser.value(`document.getElementById("work").hidden`), true);
  assert.equal(await browser.value(`document.querySelector("main").getAttribute("aria-busy")`), "false");
  await browser.value(`document.getElementById("again").click()`);
  await browser.eventually(() => browser.value(`document.getElementById("part-0")?.children[1].textContent`), '"Vec<A>"');
  const start = Date.now();
  await write("schema", SCHEMA.replaceAll("A", "B"));
  await browser.eventually(() => text("definitions").then((it) => it.split("\n")[0]), "sequence Vec<B> = [B; 0..=4294967295], length in 4 bytes");
  assert.ok(Date.now() - start < AT_ONCE, `${Date.now() - start} ms`);
  let mostNodes = 0;
  await browser.eventually(async () => {
    mostNodes = Math.max(mostNodes, await nodes());
    return browser.value(`document.querySelector("main").getAttribute("aria-busy")`);
  }, "false", 300);
  const whyNot = /^[\d,]+ bytes that the definitions of Vec<B> describe; (whether|there is no memory) /;
  assert.match(await text("value-said"), new RegExp(`^a value of Vec<B>, of \\d+ bytes$|${whyNot.source}`));
  context.diagnostic(`after ${Date.now() - start} ms: ${await text("value-said")}`);
  assert.ok(mostNodes < MOST_NODES);
  // The lines of so many bytes are higher than an element may be: the bar's end is theirs, and a wheel moves by what it says.
  const last = Math.floor((1e6 * MEGABYTES) / SIZE) * SIZE + 3;
  await scrollTo("grid", 1);
  await browser.eventually(() => lastOf("#grid .byte"), `byte-${last}`);
  const place = await browser.point(`#byte-${last}`);
  await browser.send("Input.dispatchMouseEvent", { type: "mouseWheel", ...place, deltaX: 0, deltaY: -100 });
  const moved = async () => last - Number((await lastOf("#grid .byte")).slice("byte-".length));
  await browser.eventually(async () => (await moved()) > 0 && (await moved()) < 200, true);
  assert.deepEqual(browser.messages, []);
});
