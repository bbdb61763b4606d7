// The page: what is given in its fields or as files is read by a worker at each change, and all that it shows is made of the answers.

/** A text of more characters isn't kept in a field, but as a file. */
const LONG = 2 ** 17;

/** After so many milliseconds of work the page says how far it is. */
const PATIENCE = 200;

const HELP = "Point at a byte or a part, or move among them with the arrow keys.";

const field = (id) => document.getElementById(id);

/** What is given: a text, or a file, which may itself be a text; and whether the worker has read it. */
const given = { schema: { text: "" }, value: { text: "" } };
const isRead = { schema: false, value: false };

/** The type that was chosen of the schema's text, if one was. */
let chosen;

/** What is shown: how many bytes and rows, the wrong byte, the marked row, and where the keys are among bytes and parts. */
const shown = { length: 0, rows: 0, fault: undefined, marked: undefined, cursor: 0, bytesSeen: undefined, partsSeen: undefined };

/** Of the schema and the value as the worker has read them: the container's bytes; the value's file, where it is large; its JSON. */
const found = { schema: undefined, file: undefined, json: undefined };

const module = await WebAssembly.compile(Uint8Array.from(atob(field("module").textContent), (letter) => letter.charCodeAt(0)));
const script = URL.createObjectURL(new Blob([field("worker").textContent], { type: "text/javascript" }));

/** The worker that reads and shows, and one that judges a large value, which takes the proved code a while. */
let reader = new Helper(script, module);
let judge;

/** Counts changes: what belongs to an earlier one is passed over. */
let turn = 0;

/** Whether all is known of the value, and whether at least its parts are. */
let isSettled = true;
let isOpen = true;

function know(parts, all) {
  isOpen = parts;
  isSettled = all;
  document.querySelector("main").setAttribute("aria-busy", String(!all));
}

const askBytes = (first, end) => reader.ask("bytes", { first: first * lineLength(), end: Math.min(end * lineLength(), shown.length) });
const bytesView = new View("grid", askBytes, byteLines);
const partsView = new View("parts", (first, end) => reader.ask("rows", { first, count: end - first }), partLines);

function say(id, text, isRight) {
  field(id).textContent = text;
  field(id).className = text === "" || isRight === undefined ? "" : isRight ? "is-right" : "is-wrong";
}

const numberText = (number) => number.toLocaleString("en");
const countText = (number, name) => `${numberText(number)} ${number === 1 ? name : `${name}s`}`;

// What is being done

const works = new Set();
let isWatching;

/** Asks for what may take a while; until it is answered the page says how far it is. */
function ask(helper, name, question, onProgress) {
  const it = { said: "working", part: undefined, since: performance.now(), ofSaid: performance.now() };
  works.add(it);
  isWatching ??= setInterval(showWork, PATIENCE / 2);
  return helper
    .ask(name, question, (progress) => {
      if (progress.said !== it.said) it.ofSaid = performance.now();
      Object.assign(it, progress);
      onProgress?.(progress);
    })
    .finally(() => {
      works.delete(it);
      if (works.size === 0) showWork();
    });
}

function showWork() {
  const now = performance.now();
  const long = [...works].filter((it) => now - it.since >= PATIENCE);
  if (works.size === 0) {
    clearInterval(isWatching);
    isWatching = undefined;
  }
  field("work").hidden = long.length === 0;
  if (long.length === 0) return;
  const howFar = ({ part, ofSaid }) => (part === undefined ? `${((now - ofSaid) / 1000).toFixed(1)} s` : `${Math.floor(100 * part)} %`);
  field("work-said").textContent = long.map((it) => `${it.said}: ${howFar(it)}`).join("; ");
  const part = long.find((it) => it.part !== undefined)?.part;
  if (part === undefined) field("progress").removeAttribute("value");
  else field("progress").value = part;
}

function endJudge() {
  judge?.end();
  judge = undefined;
}

/** Ends the work: what isn't known yet stays unknown, until it is begun again. */
function stop() {
  turn++;
  endJudge();
  field("again").hidden = false;
  if (isOpen) {
    say("value-said", "Stopped: whether these bytes are a value isn't known, and the parts are as the definitions read them.", false);
  } else {
    reader.end();
    reader = new Helper(script, module);
    for (const id of ["schema", "value"]) {
      if (!isRead[id] || id === "value") say(`${id}-said`, "Stopped.", false);
      isRead[id] = false;
    }
    show({ length: 0, rows: 0 });
  }
  know(true, true);
}

// Reading

/** Reads what has changed, and shows it. */
async function read({ schema = false, value = false } = {}) {
  const mine = ++turn;
  endJudge();
  field("again").hidden = true;
  know(false, false);
  if (schema) isRead.schema = false;
  if (value || given.value.text?.trim() === "") isRead.value = false;
  for (const id of ["schema", "value"]) {
    if (!isRead[id] && !(await readOne(id, mine))) return;
  }
  await open(mine);
}

/** Has the worker read the schema or the value; false if there was another change since. */
async function readOne(id, mine) {
  const question = { ...given[id], format: field("format").value, chosen };
  const isEmpty = question.file === undefined && question.text.trim() === "" && (id === "schema" || given.schema.text === "");
  try {
    const answer = await ask(reader, isEmpty ? "forget" : id, isEmpty ? { id } : question);
    if (mine !== turn) return false;
    if (id === "schema") showSchema(answer);
    else takeValue(answer);
    isRead[id] = true;
  } catch (error) {
    if (error instanceof Unanswered || mine !== turn) return false;
    if (id === "schema") showSchema({ said: error.message, isRight: false });
    else takeValue({ said: error.message });
    // The worker has none, as long as nothing changes.
    isRead[id] = true;
  }
  return true;
}

function showSchema({ kind, types = [], type, text, lines = [], said = "", isRight, bytes }) {
  found.schema = bytes;
  field("typed").hidden = types.length < 2;
  field("type").replaceChildren(...types.map((name) => element("option", { value: name, textContent: name })));
  if (type !== undefined) field("type").value = type;
  if (given.schema.file !== undefined && text !== undefined) give("schema", { text });
  field("definitions").textContent = lines.join("\n");
  field("schema-kind").textContent = kind === undefined ? "" : `Taken as ${kind}.`;
  say("schema-said", said, isRight);
}

function takeValue({ kind, length, file, hex, said = "", isLarge = false }) {
  found.length = length;
  found.isLarge = isLarge;
  found.file = file ?? (length === undefined ? undefined : given.value.file);
  if (given.value.file !== undefined && hex !== undefined) give("value", { text: hex });
  field("value-kind").textContent = kind === undefined ? "" : `Taken as ${kind}.`;
  say("value-said", said, false);
}

/** Shows the value's bytes and parts, and says what it is. Its JSON is kept where that is what it was made of. */
async function open(mine, { keepsJson = false } = {}) {
  const hasBoth = found.schema !== undefined && found.length !== undefined;
  if (!keepsJson) showJson(undefined, hasBoth ? "It isn't known yet." : undefined);
  field("save-value").disabled = found.length === undefined;
  if (!hasBoth) {
    show({ length: found.length ?? 0, rows: 0 });
    know(true, true);
    return;
  }
  try {
    const judging = found.isLarge ? judgeFile(mine) : undefined;
    let isDrawn = false;
    const opened = await ask(reader, "open", undefined, (progress) => {
      if (mine !== turn || progress.rows === undefined) return;
      if (isDrawn) showMore(progress);
      else show({ length: found.length, rows: progress.rows });
      isDrawn = true;
    });
    if (mine !== turn) return;
    if (isDrawn) showMore(opened);
    else show({ length: found.length, rows: opened.rows, fault: opened.verdict?.fault });
    know(true, false);
    const verdict = opened.verdict ?? (await judging);
    if (mine !== turn) return;
    if (found.isLarge && !verdict.isRight) showFault(await reader.ask("fault", verdict));
    if (mine !== turn) return;
    say("value-said", verdict.said, verdict.isRight);
    // JSON that is being written stays as it is.
    if (!keepsJson || verdict.json instanceof Blob) showJson(verdict.json);
    else found.json = new Blob([verdict.json ?? ""], { type: "application/json" });
    know(true, true);
  } catch (error) {
    if (error instanceof Unanswered || mine !== turn) return;
    say("value-said", error.message, false);
    know(true, true);
  }
}

/** What a worker of its own says of a large value. */
async function judgeFile(mine) {
  const own = new Helper(script, module);
  judge = own;
  try {
    const verdict = await ask(own, "judge", { schema: found.schema, file: found.file }, ({ described }) => {
      if (mine === turn && described !== undefined) say("value-said", `${described}; the rest is being checked`);
    });
    if (mine === turn) say("value-said", verdict.said, verdict.isRight);
    return verdict;
  } finally {
    own.end();
  }
}

/** Shows that there are more parts by now. */
function showMore({ rows, end }) {
  const isSeen = end > (shown.bytesSeen?.partsEnd ?? 0);
  shown.rows = rows;
  partsView.setLines(rows, { stays: true });
  if (isSeen) {
    bytesView.kept.forget({ stays: true });
    bytesView.rolling.redraw();
  }
  showCounts();
}

function show({ length, rows, fault }) {
  Object.assign(shown, { length, rows, fault, marked: undefined, cursor: fault ?? 0, partCursor: -1 });
  setByteLines();
  partsView.setLines(rows);
  showCounts();
  mark(undefined);
  if (fault !== undefined) bytesView.rolling.show(lineOfByte(fault));
}

function setByteLines(options) {
  const size = lineLength();
  field("grid").setAttribute("aria-colcount", size + 1);
  bytesView.setLines(Math.ceil((shown.length + (shown.fault === shown.length ? 1 : 0)) / size), options);
}

function showFault({ fault, rows }) {
  Object.assign(shown, { fault, rows: rows ?? shown.rows, cursor: fault ?? 0 });
  setByteLines({ stays: true });
  partsView.setLines(shown.rows, { stays: true });
  showCounts();
  if (fault !== undefined) bytesView.rolling.show(lineOfByte(fault));
}

function showCounts() {
  field("bytes-count").textContent = shown.length === 0 ? "" : countText(shown.length, "byte");
  field("parts-count").textContent = shown.rows === 0 ? "" : countText(shown.rows, "part");
  field("grid").setAttribute("aria-rowcount", Math.ceil(shown.length / lineLength()));
  field("parts").setAttribute("aria-rowcount", shown.rows);
}

// The JSON

/** Shows the JSON of the value, or where it is long says so, or why there is none. */
function showJson(json, whyNot = "There is no value.") {
  const isLong = json instanceof Blob;
  found.json = json === undefined || isLong ? json : new Blob([json], { type: "application/json" });
  field("json").value = isLong || json === undefined ? "" : json;
  field("json").placeholder = isLong ? `The JSON has ${countText(json.size, "byte")}, which are too many to be shown.` : whyNot;
  field("save-json").disabled = found.json === undefined;
  say("json-said", "");
}

/** The bytes become those of the JSON, if it describes a value. */
async function readJson(source) {
  if (found.schema === undefined) return say("json-said", "there is no schema", false);
  const mine = ++turn;
  const wasSettled = isSettled;
  endJudge();
  know(false, false);
  try {
    const answer = await ask(reader, "json", source);
    if (mine !== turn) return;
    say("json-said", "");
    give("value", answer.hex === undefined ? { file: answer.file, name: "bytes of the JSON" } : { text: answer.hex });
    takeValue(answer);
    isRead.value = true;
    await open(mine, { keepsJson: source.file === undefined });
  } catch (error) {
    if (error instanceof Unanswered || mine !== turn) return;
    say("json-said", error.message, false);
    know(true, true);
    if (!wasSettled) await read();
  }
}

function save(content, name) {
  const address = URL.createObjectURL(content);
  element("a", { href: address, download: name }).click();
  setTimeout(() => URL.revokeObjectURL(address), 60000);
}

async function saveValue() {
  const { bytes } = await reader.ask("bytes", { first: 0, end: found.length });
  save(found.file ?? new Blob([bytes]), "value.borsh");
}

// Marks

/** Marks a row's bytes and its line among the parts, and says what it is; or nothing. */
function mark(row, at) {
  shown.marked = row;
  for (const cell of field("grid").querySelectorAll(".byte")) {
    const place = Number(cell.dataset.at);
    cell.classList.toggle("is-marked", row !== undefined && row.offset <= place && place < row.end);
    cell.classList.toggle("is-cursor", place === shown.cursor);
  }
  for (const line of field("parts").querySelectorAll(".part")) {
    const isMarked = Number(line.dataset.index) === row?.index;
    line.classList.toggle("is-marked", isMarked);
    line.setAttribute("aria-selected", String(isMarked));
  }
  const texts = row ? [partText(row)] : [];
  if (at !== undefined && at === shown.fault) texts.unshift(field("value-said").textContent);
  else if (!row) texts.push(at === undefined ? HELP : `byte ${at}`);
  field("part").textContent = texts.join("; ");
}

/** What the pointer is at. It marks as it moves: lines that are drawn under one that rests don't take the mark from the keys. */
let pointed;

function markOf({ target }) {
  if (target === pointed) return;
  pointed = target;
  const cell = target.closest("[data-at]");
  if (cell) return mark(rowOfSeen(Number(cell.dataset.at)), Number(cell.dataset.at));
  const line = target.closest("[data-index]");
  if (line) mark(shown.partsSeen?.find((row) => row.index === Number(line.dataset.index)));
}

const lineOfByte = (at) => Math.floor(at / lineLength());

/** Goes to a byte, and to its part. */
async function goToByte(at) {
  shown.cursor = at;
  field("grid").setAttribute("aria-activedescendant", `byte-${at}`);
  bytesView.rolling.show(lineOfByte(at));
  const { rows } = await reader.ask("bytes", { first: at, end: at + 1 });
  if (shown.cursor !== at) return;
  mark(rows[0], at);
  if (rows[0]) partsView.rolling.show(rows[0].index);
}

/** Goes to a part, and to its first byte. */
async function goToPart(index) {
  shown.partCursor = index;
  field("parts").setAttribute("aria-activedescendant", `part-${index}`);
  partsView.rolling.show(index);
  const { rows } = await reader.ask("rows", { first: index, count: 1 });
  if (shown.partCursor !== index || rows.length === 0) return;
  shown.cursor = rows[0].offset;
  mark(rows[0]);
  bytesView.rolling.show(lineOfByte(rows[0].offset));
}

/** The keys that move among so many bytes or parts. */
function moveBy(event, { at, count, line, seen, goTo }) {
  const page = Math.max(seen - 1, 1) * line;
  const moves = { ArrowUp: -line, ArrowDown: line, PageUp: -page, PageDown: page, Home: -count, End: count };
  if (line > 1) Object.assign(moves, { ArrowLeft: -1, ArrowRight: 1 });
  if (!(event.key in moves) || count === 0 || event.altKey || event.metaKey) return;
  event.preventDefault();
  goTo(Math.min(Math.max(at + moves[event.key], 0), count - 1));
}

// What is given

/** Gives the schema or the value a text, which its field shows, or a file, whose name is shown in the field's place. */
function give(id, source) {
  given[id] = source;
  const isFile = source.file !== undefined;
  field(id).value = isFile ? "" : source.text;
  field(id).hidden = isFile;
  field(`${id}-held`).hidden = !isFile;
  if (isFile) field(`${id}-held`).firstElementChild.textContent = `${source.name}, ${countText(source.file.size, "byte")}`;
}

/** Takes what a field has, or will have: as a file if it is long. */
function takeText(id, text) {
  const source = text.length > LONG ? { file: new Blob([text]), isText: true, name: "a long text" } : { text };
  if (id === "json") {
    if (source.file !== undefined) field("json").value = "";
    return readJson(source);
  }
  if (source.file !== undefined) give(id, source);
  else given[id] = source;
  return read({ [id]: true });
}

/** A long text isn't pasted, since the field would take as long as it has lines. */
function paste(id, event, text) {
  const { value, selectionStart, selectionEnd } = field(id);
  if (value.length + text.length <= LONG) return;
  event.preventDefault();
  takeText(id, value.slice(0, selectionStart) + text + value.slice(selectionEnd));
}

async function takeFile(id, file) {
  if (!file) return;
  const source = { file, name: file.name };
  if (id === "json") return readJson(source);
  give(id, source);
  return read({ [id]: true });
}

function takeBoth(schema, value) {
  field("format").value = "any";
  chosen = undefined;
  give("schema", { text: schema });
  give("value", { text: value });
  return read({ schema: true, value: true });
}

const EXAMPLE_STRUCT = `struct A {
    x: u64,
    y: String,
}`;
const EXAMPLES = {
  struct: { schema: EXAMPLE_STRUCT, value: EXAMPLE_VALUE },
  container: { schema: CONTAINER_OF_CONTAINERS, value: EXAMPLE_HEX },
  broken: { schema: EXAMPLE_STRUCT, value: "0c000000000000000900000068c3a9" },
};

function takeExample() {
  const example = EXAMPLES[field("example").value];
  return example && takeBoth(example.schema, example.value);
}

/** Puts the schema and the value into the page's address, behind `#`, which no browser sends. */
async function makeLink() {
  try {
    const { schema, value } = await reader.ask("link");
    // It is read already.
    history.replaceState(undefined, "", `#schema=${schema}&value=${value}`);
  } catch (error) {
    return say("linked", error.message, false);
  }
  try {
    await navigator.clipboard.writeText(location.href);
    say("linked", "the link is in the address bar, and copied", true);
  } catch {
    say("linked", "the link is in the address bar", true);
  }
}

async function takeLink() {
  const link = new URLSearchParams(location.hash.slice(1));
  if (!link.has("schema")) return;
  const texts = {};
  for (const id of ["schema", "value"]) {
    try {
      const binary = atob((link.get(id) ?? "").replace(/-/g, "+").replace(/_/g, "/"));
      texts[id] = Array.from(binary, (letter) => byteText(letter.charCodeAt(0))).join("");
    } catch {
      return say("linked", `the link's ${id} isn't base64`, false);
    }
  }
  await takeBoth(texts.schema, texts.value);
}

function listen() {
  // Of a worker that was ended nobody waits for the answers.
  addEventListener("unhandledrejection", (event) => event.reason instanceof Unanswered && event.preventDefault());
  for (const id of ["schema", "value", "json"]) {
    field(id).addEventListener("input", () => takeText(id, field(id).value));
    field(id).addEventListener("paste", (event) => paste(id, event, event.clipboardData.getData("text/plain")));
  }
  for (const id of ["schema", "value"]) {
    field(`${id}-file`).addEventListener("change", (event) => takeFile(id, event.target.files[0]));
    field(`${id}-held`).querySelector("button").addEventListener("click", () => {
      give(id, { text: "" });
      field(`${id}-file`).value = "";
      field(id).focus();
      read({ [id]: true });
    });
  }
  for (const { name, example, value } of SCHEMA_KINDS) {
    const button = element("button", { type: "button", textContent: name });
    button.addEventListener("click", () => takeBoth(example, value));
    field("kinds").append(button);
  }
  listenForDrops();
  field("format").addEventListener("change", () => read({ schema: true, value: true }));
  field("example").addEventListener("change", takeExample);
  field("type").addEventListener("change", () => {
    chosen = field("type").value;
    read({ schema: true });
  });
  field("link").addEventListener("click", makeLink);
  field("stop").addEventListener("click", stop);
  field("again").addEventListener("click", () => read({ schema: true, value: true }));
  field("save-json").addEventListener("click", () => save(found.json, "value.json"));
  field("save-value").addEventListener("click", saveValue);
  for (const id of ["grid", "parts"]) field(id).addEventListener("mousemove", markOf);
  field("grid").addEventListener("click", ({ target }) => target.dataset.at && goToByte(Number(target.dataset.at)));
  field("parts").addEventListener("click", ({ target }) => {
    const line = target.closest("[data-index]");
    if (line) goToPart(Number(line.dataset.index));
  });
  // A click goes to its own byte.
  field("grid").addEventListener("focus", ({ target }) => target.matches(":focus-visible") && shown.length > 0 && goToByte(shown.cursor));
  field("grid").addEventListener("keydown", (event) => {
    const count = shown.length + (shown.fault === shown.length ? 1 : 0);
    moveBy(event, { at: shown.cursor, count, line: lineLength(), seen: bytesView.rolling.seen, goTo: goToByte });
  });
  field("parts").addEventListener("keydown", (event) => {
    moveBy(event, { at: shown.partCursor, count: shown.rows, line: 1, seen: partsView.rolling.seen, goTo: goToPart });
  });
  addEventListener("hashchange", takeLink);
  narrow.addEventListener("change", () => {
    setByteLines({ stays: false });
    partsView.rolling.setLines(shown.rows);
  });
}

/** Files go where they are dropped; what is dropped beside a field would make the browser leave the page, and is a value. */
function listenForDrops() {
  const zoneOf = (event) => event.target.closest?.("[data-drop]");
  addEventListener("dragover", (event) => {
    if (![...event.dataTransfer.types].includes("Files")) return;
    event.preventDefault();
    for (const zone of document.querySelectorAll("[data-drop]")) zone.classList.toggle("is-target", zone === zoneOf(event));
  });
  addEventListener("dragleave", (event) => event.relatedTarget === null && endDrag());
  addEventListener("drop", (event) => {
    endDrag();
    const id = zoneOf(event)?.dataset.drop ?? "value";
    const { files } = event.dataTransfer;
    if (files.length > 0) {
      event.preventDefault();
      takeFile(id, files[0]);
    } else if (event.target === field(id)) {
      paste(id, event, event.dataTransfer.getData("text/plain"));
    }
  });
}

function endDrag() {
  for (const zone of document.querySelectorAll(".is-target")) zone.classList.remove("is-target");
}

listen();
if (location.hash.length > 1) {
  await takeLink();
} else {
  field("example").value = "struct";
  await takeExample();
}
document.documentElement.dataset.ready = "yes";
