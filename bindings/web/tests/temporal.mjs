// The module beside the browser's own Temporal. The words: the browser, the module, and how many days are compared in each way.
import assert from "node:assert/strict";
import { readFileSync } from "node:fs";

import { Browser } from "./chromium.mjs";

const [program, module, count = "8000"] = process.argv.slice(2);
const SEED = 20240210;

/** A file as an address that a page can import or fetch. */
function address(type, bytes) {
  return `data:${type};base64,${bytes.toString("base64")}`;
}

const script = (name) => address("text/javascript", readFileSync(new URL(name, import.meta.url)));
const browser = new Browser(program);
try {
  const session = await browser.open("about:blank");
  const version = await browser.value(session, `navigator.userAgent.match(/Chrome\\/\\d+/)?.[0]`);
  if (await browser.value(session, `typeof Temporal === "undefined"`)) {
    console.log(`${version} has no Temporal: nothing is compared with it`);
  } else {
    await browser.value(session, `(async () => {
      const [{ load }, beside] = await Promise.all([import("${script("../icu_calendar.mjs")}"), import("${script("beside_temporal.mjs")}")]);
      globalThis.calendars = await load(fetch("${address("application/wasm", readFileSync(module))}"));
      globalThis.beside = beside;
    })()`);
    const { counts, known, failures, failed } = await browser.value(session, `beside.compare(calendars, ${SEED}, ${Number(count)})`);
    const total = Object.values(counts).reduce((sum, it) => sum + it, 0);
    const written = (pairs) => Object.entries(pairs).map(([name, number]) => `${name}: ${number}`).join("; ");
    console.log(`${version}: ${total} values compared with Temporal (${written(counts)}); known differences (${written(known)})`);
    for (const failure of failures) console.log(failure);
    assert.equal(failed, 0, "values differ from Temporal's");
    const rates = await browser.value(session, `beside.measure(calendars, ${SEED})`);
    for (const [name, [ours, theirs]] of Object.entries(rates)) console.log(`| ${name} | ${ours} | ${theirs} | ${(ours / theirs).toFixed(2)} |`);
  }
} finally {
  browser.stop();
}
