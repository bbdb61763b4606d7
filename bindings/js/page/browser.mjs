// A headless Chromium that answers over a pipe, by the protocol of its own developer tools.
import assert from "node:assert/strict";
import { spawn } from "node:child_process";
import { mkdtempSync, rmSync } from "node:fs";
import { tmpdir } from "node:os";
import { join } from "node:path";
import { isDeepStrictEqual } from "node:util";

/** Whether there is one: CHROMIUM, or `chromium`. */
export const program = process.env.CHROMIUM ?? "chromium";

export class Browser {
  #process;
  /** The folder of its own that it was given. */
  profile = mkdtempSync(join(tmpdir(), "borsh-page-"));
  #waiting = new Map();
  #last = 0;
  #session;
  /** What the page said in its console, and what it asked the network for. */
  messages = [];
  requests = [];

  static async start() {
    const browser = new Browser();
    await browser.#open();
    return browser;
  }

  async #open() {
    const words = ["--headless", "--no-sandbox", "--disable-gpu", "--hide-scrollbars", "--remote-debugging-pipe", `--user-data-dir=${this.profile}`];
    this.#process = spawn(program, words, { stdio: ["ignore", "ignore", "ignore", "pipe", "pipe"] });
    let rest = "";
    this.#process.stdio[4].setEncoding("utf8").on("data", (text) => {
      const parts = (rest + text).split("\0");
      rest = parts.pop();
      for (const part of parts) this.#take(JSON.parse(part));
    });
    const { targetId } = await this.send("Target.createTarget", { url: "about:blank" });
    this.#session = (await this.send("Target.attachToTarget", { targetId, flatten: true })).sessionId;
    for (const domain of ["Page", "Runtime", "Log", "Network", "DOM", "Accessibility"]) await this.send(`${domain}.enable`);
  }

  #take(message) {
    if (message.id !== undefined) {
      const { resolve, reject } = this.#waiting.get(message.id);
      this.#waiting.delete(message.id);
      return message.error ? reject(new Error(JSON.stringify(message.error))) : resolve(message.result);
    }
    if (message.method === "Network.requestWillBeSent") this.requests.push(message.params.request.url);
    if (message.method === "Log.entryAdded") this.messages.push(message.params.entry.text);
    if (message.method === "Runtime.exceptionThrown") this.messages.push(message.params.exceptionDetails.exception?.description);
  }

  send(method, params = {}) {
    const id = ++this.#last;
    this.#process.stdio[3].write(`${JSON.stringify({ id, method, params, sessionId: this.#session })}\0`);
    return new Promise((resolve, reject) => this.#waiting.set(id, { resolve, reject }));
  }

  /** The value of an expression in the page. */
  async value(expression) {
    const { result, exceptionDetails } = await this.send("Runtime.evaluate", { expression, awaitPromise: true, returnByValue: true });
    if (exceptionDetails) throw new Error(exceptionDetails.exception?.description ?? exceptionDetails.text);
    return result.value;
  }

  /** Goes to an address and waits until the page is ready. */
  async visit(url) {
    await this.send("Page.navigate", { url: "about:blank" });
    await this.send("Page.navigate", { url });
    for (let tries = 0; tries < 200; tries++) {
      if (await this.value("document.documentElement?.dataset.ready === 'yes'")) return;
      await new Promise((resolve) => setTimeout(resolve, 50));
    }
    throw new Error(`the page isn't ready: ${this.messages.join("; ")}`);
  }

  /** Waits until the page knows all of what it was given. */
  async settle() {
    await this.eventually(() => this.value(`document.querySelector("main").getAttribute("aria-busy")`), "false");
  }

  /** Waits until it is so, for some seconds. */
  async eventually(read, wanted, seconds = 20) {
    for (const start = Date.now(); Date.now() - start < 1000 * seconds; ) {
      if (isDeepStrictEqual(await read(), wanted)) return;
      await new Promise((resolve) => setTimeout(resolve, 10));
    }
    assert.deepEqual(await read(), wanted);
  }

  /** Gives a field for files some, as a person does. */
  async setFiles(selector, ...files) {
    const { root } = await this.send("DOM.getDocument");
    const { nodeId } = await this.send("DOM.querySelector", { nodeId: root.nodeId, selector });
    await this.send("DOM.setFileInputFiles", { nodeId, files });
  }

  async picture() {
    return Buffer.from((await this.send("Page.captureScreenshot", { format: "png" })).data, "base64");
  }

  /** Moves the pointer to the middle of an element, once there is one, and returns where that is. */
  async point(selector) {
    await this.eventually(() => this.value(`document.querySelector(${JSON.stringify(selector)}) !== null`), true);
    const { x, y } = await this.value(`(() => {
      const it = document.querySelector(${JSON.stringify(selector)});
      it.scrollIntoView({ block: "center" });
      const { left, top, width, height } = it.getBoundingClientRect();
      return { x: left + width / 2, y: top + height / 2 };
    })()`);
    await this.send("Input.dispatchMouseEvent", { type: "mouseMoved", x, y });
    return { x, y };
  }

  async press(key) {
    for (const type of ["keyDown", "keyUp"]) await this.send("Input.dispatchKeyEvent", { type, key, code: key });
  }

  async end() {
    const ended = new Promise((resolve) => this.#process.once("exit", resolve));
    await this.send("Browser.close");
    await ended;
    rmSync(this.profile, { recursive: true, force: true, maxRetries: 5 });
  }
}
