// A list of any length, of which only the lines that are seen are in the page. All lines have one height.

/** How high an element is at most, in pixels: engines have a limit. In a list that is higher, the bar moves by larger steps. */
const MOST_HEIGHT = 8e6;

/** How long after it was last scrolled the bar is put where the lines are. */
const REST = 150;

class Rolling {
  #scroller;
  #pane;
  #draw;
  #lines = 0;
  #at = 0; // how many pixels of all lines are above
  #bar = 0;
  #settling;
  #isAsked = false;

  /** `draw(first, count)` returns the elements of these lines, or undefined where it calls `redraw` once it has them. */
  constructor(scroller, draw) {
    this.#scroller = scroller;
    this.#draw = draw;
    this.#pane = element("div", { className: "pane" });
    this.#pane.setAttribute("role", "presentation");
    const room = element("div", { className: "room" }, this.#pane);
    room.setAttribute("role", "presentation");
    scroller.append(room);
    scroller.addEventListener("scroll", () => this.#scrolled());
    new ResizeObserver(() => {
      this.#layOut();
      this.redraw();
    }).observe(scroller);
  }

  /** How many lines there are, of which the first is shown unless it `stays`. */
  setLines(lines, { stays = false } = {}) {
    this.#lines = lines;
    if (!stays) this.#at = 0;
    this.#layOut();
    this.redraw();
  }

  get lineHeight() {
    const rems = Number.parseFloat(getComputedStyle(this.#scroller).getPropertyValue("--line-height"));
    return rems * Number.parseFloat(getComputedStyle(document.documentElement).fontSize);
  }

  /** How many whole lines are seen. */
  get seen() {
    return Math.max(1, Math.floor(this.#scroller.clientHeight / this.lineHeight));
  }

  /** Scrolls no more than is needed for a line to be seen; to the middle if it is far. */
  show(line) {
    const height = this.lineHeight;
    const view = this.#scroller.clientHeight;
    const top = line * height;
    if (top < this.#at) this.#at = top < this.#at - view ? top - view / 2 : top;
    else if (top + height > this.#at + view) this.#at = top > this.#at + 2 * view ? top - view / 2 : top + height - view;
    else return;
    this.#layOut();
    this.redraw();
  }

  /** Draws before the next frame. */
  redraw() {
    if (this.#isAsked) return;
    this.#isAsked = true;
    requestAnimationFrame(() => {
      this.#isAsked = false;
      this.drawNow();
    });
  }

  drawNow() {
    const height = this.lineHeight;
    const first = Math.floor(this.#at / height);
    const count = Math.min(Math.ceil(this.#scroller.clientHeight / height) + 1, this.#lines - first);
    const lines = this.#draw(first, Math.max(count, 0));
    if (lines === undefined) return;
    this.#pane.replaceChildren(...lines);
    this.#pane.style.setProperty("--shift", `${first * height - this.#at}px`);
  }

  get #height() {
    return this.#lines * this.lineHeight;
  }

  /** Gives the room its height, and puts the bar where the lines are. */
  #layOut() {
    const height = this.#height;
    this.#scroller.style.setProperty("--height", `${Math.min(height, MOST_HEIGHT)}px`);
    const most = Math.max(height - this.#scroller.clientHeight, 0);
    this.#at = Math.min(Math.max(this.#at, 0), most);
    const mostBar = Math.max(Math.min(height, MOST_HEIGHT) - this.#scroller.clientHeight, 0);
    this.#scroller.scrollTop = most === 0 ? 0 : (this.#at / most) * mostBar;
    this.#bar = this.#scroller.scrollTop;
  }

  #scrolled() {
    const { scrollTop, clientHeight } = this.#scroller;
    const moved = scrollTop - this.#bar;
    if (moved === 0) return;
    this.#bar = scrollTop;
    const height = this.#height;
    const mostBar = Math.min(height, MOST_HEIGHT) - clientHeight;
    const most = height - clientHeight;
    const isEnd = scrollTop <= 0 || scrollTop >= mostBar - 1;
    // A wheel or a finger moves lines; who draws the bar wants a place.
    if (most > mostBar && !isEnd && Math.abs(moved) <= clientHeight) this.#at = Math.min(Math.max(this.#at + moved, 0), most);
    else this.#at = isEnd && scrollTop > 0 ? most : (scrollTop / mostBar) * most;
    this.redraw();
    clearTimeout(this.#settling);
    if (most > mostBar) this.#settling = setTimeout(() => this.#layOut(), REST);
  }
}

function element(name, properties, ...children) {
  const made = Object.assign(document.createElement(name), properties);
  made.append(...children);
  return made;
}
