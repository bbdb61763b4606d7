// The bytes, and the parts, of which only what is seen is asked for and drawn.

/** How many colours there are. */
const COLOURS = 6;

/** So many lines are asked for before and behind those that are seen. */
const AROUND = 24;

const byteText = (byte) => byte.toString(16).padStart(2, "0");

/** Lines of a worker's, of which the last ones that were asked for are kept. */
class Kept {
  #ask;
  #redraw;
  #found;
  #wanted;

  /** `ask(first, end)` returns a promise of what there is from the first up to the end. */
  constructor(ask, redraw) {
    this.#ask = ask;
    this.#redraw = redraw;
  }

  /** Has all of it asked anew. What is there is shown until then, if it `stays`. */
  forget({ stays = false } = {}) {
    if (stays && this.#found) this.#found.isOld = true;
    else this.#found = undefined;
    this.#wanted = undefined;
  }

  /** What there is of these, or undefined, if that comes later. */
  get(first, end) {
    const found = this.#found;
    const isThere = found && found.first <= first && end <= found.end;
    if (!isThere || found.isOld) this.#want(first, end);
    return isThere ? found.answer : undefined;
  }

  async #want(first, end) {
    if (this.#wanted && this.#wanted.first <= first && end <= this.#wanted.end) return;
    const wanted = { first: Math.max(first - AROUND, 0), end: end + AROUND };
    this.#wanted = wanted;
    const answer = await this.#ask(wanted.first, wanted.end);
    if (this.#wanted !== wanted) return;
    this.#found = { ...wanted, answer };
    this.#wanted = undefined;
    this.#redraw();
  }
}

/** Marks a part in both views: `marked` has the row, and the byte that is pointed at, where there is one. */
class View {
  constructor(id, ask, draw) {
    this.field = field(id);
    this.rolling = new Rolling(this.field, (first, count) => (count === 0 ? [] : this.#lines(first, count, draw)));
    this.kept = new Kept(ask, () => this.rolling.redraw());
  }

  #lines(first, count, draw) {
    const found = this.kept.get(first, first + count);
    return found && draw(found, first, count);
  }

  setLines(lines, options) {
    this.kept.forget(options);
    this.rolling.setLines(lines, options);
  }
}

function cellOf(role, properties, ...children) {
  const made = element("div", properties, ...children);
  made.setAttribute("role", role);
  return made;
}

/** How many bytes a line of the grid has. */
function lineLength() {
  return narrow.matches ? 8 : 16;
}
const narrow = matchMedia("(max-width: 52rem)");

/** The lines of bytes, and behind the last byte the place where more were expected. */
function byteLines({ first: from, bytes, rows, partsEnd }, firstLine, count) {
  const size = lineLength();
  const { length, fault } = shown;
  shown.bytesSeen = { rows, partsEnd };
  const rowOfByte = [];
  for (const row of rows) {
    for (let at = Math.max(row.offset, from); at < Math.min(row.end, from + bytes.length); at++) rowOfByte[at] = row;
  }
  return Array.from({ length: count }, (_, line) => {
    const start = (firstLine + line) * size;
    // Where the bytes are still those of an earlier value, it may have been shorter.
    const end = Math.max(start, Math.min(start + size, length, from + bytes.length));
    const cells = [];
    for (let at = start; at < end; at++) cells.push(byteCell(at, byteText(bytes[at - from]), rowOfByte, at >= partsEnd));
    if (fault === length && start <= length && length < start + size) cells.push(byteCell(length, "end", rowOfByte, true));
    const offset = cellOf("rowheader", { className: "offset", textContent: String(start) });
    const letters = element("span", { className: "letters", textContent: lettersOf(bytes.subarray(start - from, end - from)) });
    letters.setAttribute("aria-hidden", "true");
    const made = cellOf("row", { className: "line" }, offset, ...cells, letters);
    made.setAttribute("aria-rowindex", firstLine + line + 1);
    return made;
  });
}

function lettersOf(bytes) {
  return Array.from(bytes, (byte) => (byte > 32 && byte < 127 ? String.fromCharCode(byte) : "·")).join("");
}

function byteCell(at, text, rowOfByte, isUnknown) {
  const row = rowOfByte[at];
  const isFirst = row ? row.offset === at : at === 0 || rowOfByte[at - 1] !== undefined;
  const isLast = row ? row.end === at + 1 : rowOfByte[at + 1] !== undefined;
  const classes = ["byte", row ? `part${row.index % COLOURS}` : "", isFirst && !isUnknown ? "first" : "", isLast && !isUnknown ? "last" : ""];
  if (at === shown.fault) classes.push("is-fault");
  if (row && row.index === shown.marked?.index) classes.push("is-marked");
  if (at === shown.cursor) classes.push("is-cursor");
  const cell = cellOf("gridcell", { id: `byte-${at}`, className: classes.join(" "), textContent: text });
  cell.dataset.at = at;
  const wrong = at === shown.fault ? ", wrong here" : "";
  cell.setAttribute("aria-label", `byte ${at}, ${text}${row ? `, ${row.path}` : ""}${wrong}`);
  return cell;
}

/** The lines of parts. */
function partLines({ first: from, rows }, first, count) {
  shown.partsSeen = rows;
  return rows.slice(first - from, first - from + count).map((row) => {
    const swatch = element("span", { className: `swatch part${row.index % COLOURS}` });
    swatch.setAttribute("aria-hidden", "true");
    const cut = Math.max(row.path.lastIndexOf("."), row.path.lastIndexOf("["), row.path.lastIndexOf("::"), 0);
    // Of a long path the end is seen.
    const outer = element("bdi", { dir: "ltr", textContent: row.path.slice(0, cut) });
    const inner = element("span", { className: "inner", textContent: row.path.slice(cut) });
    const path = [element("span", { className: "outer" }, outer), inner];
    const cells = [[swatch, String(row.offset)], path, [row.type], [row.value]].map((content) => cellOf("gridcell", {}, ...content));
    const isMarked = row.index === shown.marked?.index;
    const made = cellOf("row", { id: `part-${row.index}`, className: isMarked ? "part is-marked" : "part", title: row.path }, ...cells);
    made.setAttribute("aria-rowindex", row.index + 1);
    made.setAttribute("aria-selected", String(isMarked));
    made.dataset.index = row.index;
    return made;
  });
}

/** The row that has a byte which is seen. */
function rowOfSeen(at) {
  return shown.bytesSeen?.rows.find((row) => row.offset <= at && at < row.end);
}

function partText({ offset, end, path, type, value }) {
  const place = end === offset + 1 ? `byte ${offset}` : `bytes ${offset} to ${end - 1}`;
  return `${place} · ${path} · ${type}${value === "" ? "" : ` · ${value}`}`;
}
