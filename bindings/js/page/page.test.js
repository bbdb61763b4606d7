// The page (BORSH_PAGE, or ../out/page.html) in headless Chromium: what it says and marks, by its own document; and pictures of it, in
// ../out/pictures.
import assert from "node:assert/strict";
import { mkdirSync, readFileSync, writeFileSync } from "node:fs";
import { createServer } from "node:http";
import { after, before, test } from "node:test";
import { pathToFileURL } from "node:url";
import { Browser } from "./browser.mjs";

const PAGE = process.env.BORSH_PAGE ? pathToFileURL(process.env.BORSH_PAGE).href : new URL("../out/page.html", import.meta.url).href;
const PICTURES = new URL("../out/pictures/", import.meta.url);
const SCHEMA = "0100000041040000000100000041040002000000010000007803000000753634010000007906000000537472696e6706000000537472696e6701040000000000000000ffffffff000000000200000075380300000075363400080200000075380001";
const VALUE = "0c000000000000000300000068c3a9";

let browser;
before(async () => { browser = await Browser.start(); });
after(() => browser.end());

const text = (id) => browser.value(`document.getElementById("${id}").textContent`);
const input = (id) => browser.value(`document.getElementById("${id}").value`);
const marked = () => browser.value(`[...document.querySelectorAll(".byte.is-marked")].map((it) => Number(it.dataset.at))`);
const markedPaths = () => browser.value(`[...document.querySelectorAll(".part.is-marked")].map((it) => it.children[1].textContent)`);
const parts = () => browser.value(`[...document.querySelectorAll("#parts .part")].map((it) => [...it.children].map((cell) => cell.textContent))`);
const eventually = (read, wanted) => browser.eventually(read, wanted);
const faults = () => browser.value(`[...document.querySelectorAll(".is-fault")].map((it) => Number(it.dataset.at))`);

/** Writes into a field as a person does, and waits until the page knows what that is. */
async function write(id, content, event = "input") {
  await browser.value(`(() => {
    const it = document.getElementById("${id}");
    it.value = ${JSON.stringify(content)};
    it.dispatchEvent(new Event("${event}", { bubbles: true }));
  })()`);
  await browser.settle();
}
const range = (first, end) => Array.from({ length: end - first }, (_, index) => first + index);

test("it begins with an example: the definitions, the greatest size, the JSON", async () => {
  await browser.visit(PAGE);
  assert.equal(await text("schema-said"), "valid; a value has at most 4294967307 bytes");
  assert.match(await text("definitions"), /^struct A \{ x: u64, y: String \}\nsequence String = \[u8; 0\.\.=4294967295\], length in 4 bytes\n/);
  assert.equal(await text("value-said"), "a value of A, of 15 bytes");
  assert.deepEqual(JSON.parse(await input("json")), { x: 12, y: "hé" });
  await eventually(parts, [["0", "A.x", "u64", "12"], ["8", "A.y", "String", '"hé"']]);
  assert.equal(await text("bytes-count"), "15 bytes");
  assert.equal(await text("parts-count"), "2 parts");
});

test("a part marks its bytes, and a byte its part", async () => {
  await browser.visit(PAGE);
  await eventually(async () => (await parts()).length, 2);
  assert.deepEqual(await marked(), []);
  await browser.point("#part-1");
  await eventually(marked, range(8, 15));
  await browser.point("#byte-3");
  await eventually(marked, range(0, 8));
  assert.deepEqual(await markedPaths(), ["A.x"]);
  assert.equal(await text("part"), "bytes 0 to 7 · A.x · u64 · 12");
});

test("the arrow keys move among the bytes", async () => {
  await browser.visit(PAGE);
  const active = () => browser.value(`document.activeElement.getAttribute("aria-activedescendant")`);
  await browser.value(`document.getElementById("grid").focus()`);
  for (const key of ["ArrowRight", "ArrowRight", "End", "ArrowLeft"]) await browser.press(key);
  assert.equal(await active(), "byte-13");
  await eventually(() => text("part"), 'bytes 8 to 14 · A.y · String · "hé"');
  await eventually(() => browser.value(`document.querySelector(".is-cursor")?.id`), "byte-13");
  await browser.press("Home");
  await eventually(marked, range(0, 8));
  await browser.value(`document.getElementById("parts").focus()`);
  for (const key of ["ArrowDown", "ArrowDown"]) await browser.press(key);
  assert.equal(await active(), "part-1");
  await eventually(marked, range(8, 15));
});

test("bytes that are no value: what is wrong, at its byte, and the parts before it", async () => {
  await browser.visit(PAGE);
  await write("example", "broken", "change");
  assert.equal(await text("value-said"), "A.y (`String` at byte 8): too few bytes are left");
  await eventually(faults, [8]);
  await eventually(async () => (await parts()).length, 1);
  assert.equal(await input("json"), "");
  await write("value", VALUE.slice(0, 16));
  await eventually(() => browser.value(`[...document.querySelectorAll(".is-fault")].map((it) => it.id + it.textContent)`), ["byte-8end"]);
  await write("value", `${VALUE}00`);
  assert.match(await text("value-said"), /at byte 15\): the value ends, and bytes are left$/);
  await eventually(faults, [15]);
});

test("a part that the type refuses is marked", async () => {
  await browser.visit(PAGE);
  await write("value", "0c0000000000000001000000ff");
  assert.equal(await text("value-said"), "A.y: not UTF-8");
  await eventually(faults, [8]);
});

test("changed JSON changes the bytes, and wrong JSON says where", async () => {
  await browser.visit(PAGE);
  await write("json", '{"x": 258, "y": ""}');
  assert.equal(await input("value"), "020100000000000000000000");
  assert.equal(await input("json"), '{"x": 258, "y": ""}');
  assert.equal(await text("value-said"), "a value of A, of 12 bytes");
  await write("json", '{"x": true, "y": ""}');
  assert.match(await text("json-said"), /^A\.x: expected a whole number/);
  assert.equal(await input("value"), "020100000000000000000000");
  await write("json", "{");
  assert.match(await text("json-said"), /^not JSON, near byte 1/);
});

/** The kinds of schemas, each with what is said of its example's value. */
const KINDS = {
  "Rust source": "a value of Vault, of 13 bytes",
  "an Anchor IDL": "a value of Counter, of 24 bytes",
  "a schema of borsh-js": "a value of Schema, of 15 bytes",
  "JSON of a container": "a value of A, of 15 bytes",
  "hexadecimal digits": "a value of A, of 15 bytes",
  base64: "a value of A, of 15 bytes",
};

test("each kind of schema by its example, a broken one, and what is none", async () => {
  await browser.visit(PAGE);
  const kinds = await browser.value(`[...document.querySelectorAll("#kinds button")].map((it) => it.textContent)`);
  assert.deepEqual(kinds, Object.keys(KINDS));
  for (const [index, kind] of kinds.entries()) {
    await browser.value(`document.querySelectorAll("#kinds button")[${index}].click()`);
    await browser.settle();
    assert.equal(await text("schema-kind"), `Taken as ${kind}.`);
    assert.match(await text("schema-said"), /^valid/);
    assert.equal(await text("value-said"), KINDS[kind]);
  }
  await write("schema", '{"declaration": "A"}');
  assert.match(await text("schema-said"), /definitions/);
  await write("schema", "010000004100000000");
  assert.equal(await text("schema-said"), "invalid MissingDefinition A; no greatest size: missing A");
  await write("schema", "00");
  assert.match(await text("schema-said"), /^not a schema container/);
  await write("schema", "§");
  const others = "Rust source, nor an Anchor IDL, nor a schema of borsh-js, nor JSON of a container";
  assert.equal(await text("schema-said"), `this is neither hexadecimal digits, in pairs, nor base64, nor ${others}`);
});

/** Each text of a schema, with its kind, the root that it has, or what is said of it, and the types to choose from. */
const TEXTS = [
  ["HashMap<String, u64>", "Rust source", "sequence HashMap<String, u64> = "],
  ["u8", "Rust source", "primitive u8 = "],
  ["[(u8, bool); 2]", "Rust source", "array [(u8, bool); 2] = "],
  ["std::string::String", "Rust source", "sequence String = "],
  ["AQAAAEEAAAAAAAAA", "base64", "not a schema container"],
  ["Vec<Sting>", "Rust source", "type: column 5: `Sting` is no type that has a schema; `String` is"],
  ["struct A {\n  x u8,\n}", "Rust source", "text: line 2, column 5: met `u8`, expected `:`"],
  [
    `mod m { /* enum No { A } */ pub struct Pair<T>(T); }
     impl Iterator for [It; 2] { type Item = u8; fn f() { struct Inner; let open = '{'; } }
     struct Held<'a> { text: &'a str } const TEXT: &str = "struct Not;"; macro_rules! m { () => { enum Nor {} } }
     struct Callback { f: fn() } type Both = m::Pair<u8>; impl Held<'_> {}`,
    "Rust source",
    "struct Pair<u8> { 0: u8 }",
    ["Held", "Callback", "Both"],
  ],
  ["struct Pair<A, B>(A, B);", "Rust source", "this text has no type without parameters"],
  ["export const schema: Schema = {struct: {'a-b': {array: {type: 'u8', len: 2}}, c: \"string\",},};", "a schema of borsh-js", "struct Schema { a-b: [u8; 2], c: String }"],
  ['{"struct": {"x": "u9"}}', "a schema of borsh-js", "text: line 1, column 18: `u9` is no type that has a schema"],
  [
    JSON.stringify({ accounts: [{ name: "B" }], types: ["A", "B", "C"].map((name) => ({ name, type: { kind: "struct", fields: [{ name: "x", type: "u8" }] } })) }),
    "an Anchor IDL",
    "struct B { discriminator: [u8; 8], x: u8 }",
    ["A", "B", "C"],
  ],
  ['{"types": ', "JSON of a container", "not JSON, near byte"],
];

const options = () => browser.value(`[...document.querySelectorAll("#type option")].map((it) => it.value)`);

test("texts of types: which kind they are, their types, and what is wrong", async () => {
  await browser.visit(PAGE);
  for (const [content, kind, says, types = []] of TEXTS) {
    await write("schema", content);
    assert.equal(await text("schema-kind"), `Taken as ${kind}.`, content);
    const said = (await text("definitions")) || (await text("schema-said"));
    assert.ok(said.startsWith(says), `${content}: ${said}`);
    assert.equal(await browser.value(`document.getElementById("typed").hidden`), types.length < 2);
    if (types.length > 1) assert.deepEqual(await options(), types);
  }
});

test("the type of a text with several is chosen, and stays chosen while the text changes", async () => {
  await browser.visit(PAGE);
  const source = "struct A { x: u8 } struct Kept(u16); struct Z { x: u32 }";
  await write("schema", source);
  await write("value", "0102");
  assert.equal(await text("value-said"), "Z.x (`u32` at byte 0): too few bytes are left");
  await write("type", "Kept", "change");
  assert.equal(await text("value-said"), "a value of Kept, of 2 bytes");
  await write("schema", `${source} enum More { One }`);
  assert.deepEqual(await options(), ["A", "Kept", "Z", "More"]);
  assert.equal(await input("type"), "Kept");
  assert.equal(await text("value-said"), "a value of Kept, of 2 bytes");
  await write("schema", "struct A(u8, u8); struct B { x: Callback } struct Callback(fn());");
  assert.match(await text("schema-said"), /is no type that has a schema/);
  await write("type", "A", "change");
  assert.equal(await text("value-said"), "a value of A, of 2 bytes");
});

test("a container by the container of containers", async () => {
  await browser.visit(PAGE);
  await write("example", "container", "change");
  assert.match(await text("value-said"), /^a value of BorshSchemaContainer/);
  assert.equal(JSON.parse(await input("json")).declaration, "A");
});

/** Drops files with these bytes on an element. */
const drop = (selector, ...bytes) => browser.value(`(() => {
  const dataTransfer = new DataTransfer();
  dataTransfer.items.add(new File([new Uint8Array(${JSON.stringify(bytes)})], "dropped"));
  document.querySelector("${selector}").dispatchEvent(new DragEvent("drop", { dataTransfer, bubbles: true, cancelable: true }));
})()`);

test("a file of a value, and files that are dropped", async () => {
  await browser.visit(PAGE);
  await write("value", "");
  await browser.setFiles("#value-file", new URL("../../../crates/borsh_tool/data/value.borsh", import.meta.url).pathname);
  await eventually(() => input("value"), VALUE);
  assert.equal(await text("value-kind"), "Taken as bytes of a file.");
  await drop("#value", 7, 0, 0, 0, 0, 0, 0, 0, 0, 0, 0, 0);
  await eventually(() => input("value"), "070000000000000000000000");
  await drop("h1", ...Buffer.from(VALUE, "hex"));
  await eventually(() => input("value"), VALUE);
  await drop("#json", ...Buffer.from('{"x": 1, "y": ""}'));
  await eventually(() => input("value"), "010000000000000000000000");
  await drop("#schema", ...Buffer.from('{"declaration": "u8", "definitions": {"u8": {"Primitive": 1}}}'));
  await eventually(() => text("schema-kind"), "Taken as JSON of a container.");
  await drop("#schema", ...Buffer.from("pub struct Dropped { x: u8 }"));
  await eventually(() => text("definitions"), "struct Dropped { x: u8 }\nprimitive u8 = 1 byte");
  await drop("#schema", ...Buffer.from(SCHEMA, "hex"));
  await eventually(() => input("schema"), SCHEMA);
});

test("a link has the schema and the value, and nothing is sent", async () => {
  await browser.visit(PAGE);
  await write("json", '{"x": 7, "y": "link"}');
  await browser.value(`document.getElementById("link").click()`);
  await eventually(() => browser.value("/#schema=[\\w-]+&value=[\\w-]+$/.test(location.href)"), true);
  const address = await browser.value("location.href");
  await browser.visit(address);
  assert.deepEqual(JSON.parse(await input("json")), { x: 7, y: "link" });
  const sent = browser.requests.filter((url) => !url.startsWith(PAGE) && !url.startsWith("blob:") && url !== "about:blank");
  assert.deepEqual(sent, []);
  assert.equal(await browser.value(`fetch("https://example.org").then(() => "sent", () => "refused")`), "refused");
  assert.ok(browser.messages.some((it) => it.includes("Content Security Policy")));
  assert.equal(browser.messages.filter((it) => !it.includes("example.org")).join("\n"), "");
});

/** Serves the package's folder while the action runs, which is given the address. */
async function served(action) {
  const types = { js: "text/javascript", wasm: "application/wasm" };
  const server = createServer(({ url }, response) => {
    const isFile = /^\/(\w+\.js|out\/borsh\.wasm)$/.test(url);
    response.writeHead(200, { "content-type": types[url.split(".").pop()] ?? "text/html" });
    response.end(isFile ? readFileSync(new URL(`..${url}`, import.meta.url)) : "<!doctype html>");
  });
  await new Promise((resolve) => server.listen(0, "127.0.0.1", resolve));
  try {
    await action(`http://127.0.0.1:${server.address().port}/`);
  } finally {
    server.closeAllConnections();
    server.close();
  }
}

test("the package in a browser, from a server", () => served(async (address) => {
  await browser.send("Page.navigate", { url: address });
  const said = await browser.value(`import("${address}borsh.js").then(({ Schema }) => {
    const schema = Schema.from("${SCHEMA}");
    return [String(schema.maxSize()), String(schema.decode("${VALUE}").x), schema.toJson("${VALUE}")];
  })`);
  assert.deepEqual(said, ["4294967307", "12", '{"x":12,"y":"hé"}']);
}));

/** The relative luminance of a colour `rgb(..)`, and the contrast of two, as the accessibility guidelines of the web define them. */
function luminance(color) {
  const [red, green, blue] = color.match(/[\d.]+/g).map((it) => it / 255).map((it) => (it <= 0.03928 ? it / 12.92 : ((it + 0.055) / 1.055) ** 2.4));
  return 0.2126 * red + 0.7152 * green + 0.0722 * blue;
}
function contrast(one, other) {
  const [light, dark] = [luminance(one), luminance(other)].sort((a, b) => b - a);
  return (light + 0.05) / (dark + 0.05);
}

for (const theme of ["light", "dark"]) {
  for (const width of [1200, 400]) {
    test(`${theme}, ${width} wide: contrast, names of fields, no scrolling sideways, a picture`, async () => {
      await browser.send("Emulation.setEmulatedMedia", { features: [{ name: "prefers-color-scheme", value: theme }] });
      await browser.send("Emulation.setDeviceMetricsOverride", { width, height: width === 400 ? 1900 : 1150, deviceScaleFactor: 1, mobile: false });
      mkdirSync(PICTURES, { recursive: true });
      for (const example of ["broken", "container", "struct"]) {
        await browser.visit(PAGE);
        await write("example", example, "change");
        await browser.point({ container: "#byte-40", broken: ".is-fault", struct: "#part-1" }[example]);
        await browser.value("scrollTo(0, 0)");
        writeFileSync(new URL(`${example}-${theme}-${width}.png`, PICTURES), await browser.picture());
        assert.ok(await browser.value("document.documentElement.scrollWidth <= innerWidth"), "it scrolls sideways");
      }
      const texts = "h1, h2, small, p, label, textarea, select, button, pre, .byte, .offset, .letters, .part span, .part div";
      const pairs = await browser.value(`[...document.querySelectorAll("${texts}")].map((it) => {
        let back = it;
        while (back && /rgba\\(0, 0, 0, 0\\)/.test(getComputedStyle(back).backgroundColor)) back = back.parentElement;
        return [getComputedStyle(it).color, getComputedStyle(back ?? document.body).backgroundColor, it.outerHTML.slice(0, 60)];
      })`);
      for (const [color, back, html] of pairs) assert.ok(contrast(color, back) >= 4.5, `${color} on ${back}: ${html}`);
      const { nodes } = await browser.send("Accessibility.getFullAXTree");
      const controls = nodes.filter((it) => ["textbox", "combobox", "button", "gridcell"].includes(it.role?.value) && !it.ignored);
      assert.ok(controls.length >= 7);
      for (const it of controls) assert.notEqual(it.name?.value ?? "", "", JSON.stringify(it.role));
    });
  }
}
