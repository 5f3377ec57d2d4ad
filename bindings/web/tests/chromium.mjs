// Chromium without a window, over its pipe for tools.
import { spawn } from "node:child_process";
import { mkdtempSync, rmSync } from "node:fs";
import { tmpdir } from "node:os";
import { join } from "node:path";

const FLAGS = ["--headless", "--no-sandbox", "--disable-gpu", "--hide-scrollbars", "--window-size=900,1400", "--remote-debugging-pipe"];

/** A running browser. `stop` ends it. */
export class Browser {
  #folder = mkdtempSync(join(tmpdir(), "calendars-"));
  #child;
  /** Calls that wait for an answer, by their numbers. */
  #waiting = new Map();
  #calls = 0;
  #unread = "";

  /** @param {string} program */
  constructor(program) {
    const stdio = ["ignore", "ignore", "ignore", "pipe", "pipe"];
    this.#child = spawn(program, [...FLAGS, `--user-data-dir=${this.#folder}`, "about:blank"], { stdio });
    this.#child.stdio[4].setEncoding("utf8").on("data", (text) => this.#read(text));
  }

  #read(text) {
    const messages = (this.#unread + text).split("\0");
    this.#unread = messages.pop();
    for (const message of messages.map((it) => JSON.parse(it))) {
      this.#waiting.get(message.id)?.(message);
      this.#waiting.delete(message.id);
    }
  }

  /** Asks the browser, and waits for its answer. */
  call(method, params = {}, sessionId = undefined) {
    const id = ++this.#calls;
    this.#child.stdio[3].write(`${JSON.stringify({ id, method, params, sessionId })}\0`);
    return new Promise((settle, refuse) => {
      this.#waiting.set(id, ({ result, error }) => (error ? refuse(new Error(`${method}: ${error.message}`)) : settle(result)));
    });
  }

  /** Opens a page, and returns its session. */
  async open(url) {
    const { targetId } = await this.call("Target.createTarget", { url });
    return (await this.call("Target.attachToTarget", { targetId, flatten: true })).sessionId;
  }

  /** The value of an expression in a page. */
  async value(session, expression) {
    const { result, exceptionDetails } = await this.call("Runtime.evaluate", { expression, awaitPromise: true, returnByValue: true }, session);
    if (exceptionDetails) throw new Error(exceptionDetails.exception?.description ?? exceptionDetails.text);
    return result.value;
  }

  /** A picture of a page. */
  async picture(session) {
    return Buffer.from((await this.call("Page.captureScreenshot", { format: "png" }, session)).data, "base64");
  }

  stop() {
    this.#child.kill();
    // Other processes of the browser may write there for a moment yet.
    const gently = { recursive: true, force: true, maxRetries: 20, retryDelay: 250 };
    this.#child.once("exit", () => rmSync(this.#folder, gently));
  }
}

/** Numbers that are the same in each run: a function that returns one from 0 to below its argument. */
export function random(seed) {
  let state = seed;
  return (below) => {
    state = (Math.imul(state, 1664525) + 1013904223) >>> 0;
    return Math.floor((state / 2 ** 32) * below);
  };
}
