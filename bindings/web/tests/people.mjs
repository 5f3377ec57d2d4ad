// The page for people: by keyboard alone, contrast, widths, motion, languages from right to left, pasted texts, copies, files, and a page without its
// module. Ratios are those of WCAG 2.2 (1.4.3, 1.4.11), computed from what the browser says of each element.
import assert from "node:assert/strict";
import { existsSync, mkdtempSync, readFileSync, readdirSync, rmSync } from "node:fs";
import { tmpdir } from "node:os";
import { join } from "node:path";

const KEYS = { Tab: 9, Enter: 13, Space: 32 };
const SETTLED = "new Promise((settle) => setTimeout(settle, 150))";

/** Presses a key, as a person does. */
async function press(browser, session, key, modifiers = 0) {
  const text = { Enter: "\r", Space: " " }[key];
  const event = { key: key === "Space" ? " " : key, code: key, windowsVirtualKeyCode: KEYS[key], modifiers, text };
  await browser.call("Input.dispatchKeyEvent", { ...event, type: text ? "keyDown" : "rawKeyDown" }, session);
  await browser.call("Input.dispatchKeyEvent", { ...event, type: "keyUp" }, session);
}

/** What is in focus, and how its focus shows. */
const FOCUSED = `(() => {
  const it = document.activeElement;
  const { outlineStyle, outlineWidth } = getComputedStyle(it);
  return { id: it.id || it.getAttribute("aria-label") || it.textContent.trim(), shows: outlineStyle !== "none" && parseFloat(outlineWidth) >= 2 };
})()`;

/** The controls that a person reaches, in the order of the document. */
const REACHED = `[...document.querySelectorAll("a[href], button, input, select")].filter((it) => !it.disabled && it.checkVisibility())
  .map((it) => it.id || it.getAttribute("aria-label") || it.textContent.trim())`;

/** Tab leads through all controls in the order of the document, each shows its focus, and keys do what buttons do. */
export async function testKeyboard(browser, session) {
  await browser.value(session, `document.activeElement.blur(); getSelection().removeAllRanges(); scrollTo(0, 0); ${SETTLED}`);
  const wanted = await browser.value(session, REACHED);
  await browser.value(session, `document.querySelector("a[href]").focus()`);
  const found = [(await browser.value(session, FOCUSED)).id];
  for (let count = 1; count < wanted.length; count += 1) {
    await press(browser, session, "Tab");
    const { id, shows } = await browser.value(session, FOCUSED);
    assert.ok(shows, `the focus of ${id} doesn't show`);
    found.push(id);
  }
  assert.deepEqual(found, wanted);
  for (const key of ["Enter", "Space"]) {
    await browser.value(session, `type("first-year", "1999"); document.getElementById("first-today").focus()`);
    await press(browser, session, key);
    const [year, now] = await browser.value(session, `[rows().iso.slice(0, 4), String(new Date().getFullYear())]`);
    assert.equal(year, now, key);
  }
}

/** The least ratios of the contrast of texts, and of the edges of controls, with the elements that have them. */
const CONTRASTS = `(() => {
  const brush = Object.assign(document.createElement("canvas"), { width: 1, height: 1 }).getContext("2d", { willReadFrequently: true });
  const canvas = document.body.appendChild(document.createElement("i"));
  canvas.style.background = "Canvas";
  const ground = getComputedStyle(canvas).backgroundColor;
  canvas.remove();
  const over = (colors) => {
    for (const color of colors) {
      brush.fillStyle = color;
      brush.fillRect(0, 0, 1, 1);
    }
    return [...brush.getImageData(0, 0, 1, 1).data].slice(0, 3).map((it) => it / 255);
  };
  const light = (rgb) => rgb.map((it) => (it <= 0.04045 ? it / 12.92 : ((it + 0.055) / 1.055) ** 2.4)).reduce((sum, it, at) => sum + it * [0.2126, 0.7152, 0.0722][at], 0);
  const ratio = (below, color) => {
    const [a, b] = [light(over(below)), light(over([...below, color]))];
    return (Math.max(a, b) + 0.05) / (Math.min(a, b) + 0.05);
  };
  const behind = (it) => (it ? [...behind(it.parentElement), getComputedStyle(it).backgroundColor] : [ground]);
  const seen = [...document.querySelectorAll("body *")].filter((it) => it.checkVisibility() && !it.matches("script, option, :disabled"));
  const hasText = (it) => it.matches("input, select") || [...it.childNodes].some((node) => node.nodeType === 3 && node.textContent.trim());
  const least = (all) => all.reduce((least, it) => (it[0] < least[0] ? it : least), [99, "none", ""]);
  const named = (it) => it.id || it.tagName + " " + it.textContent.trim().slice(0, 20);
  const texts = seen.filter(hasText).map((it) => [ratio(behind(it), getComputedStyle(it).color), named(it)]);
  const edges = seen.filter((it) => it.matches("input, select, button")).map((it) => [ratio(behind(it.parentElement), getComputedStyle(it).borderTopColor), named(it)]);
  const mark = getComputedStyle(document.documentElement).getPropertyValue("--mark");
  const probe = document.body.appendChild(document.createElement("i"));
  probe.style.color = "var(--mark)";
  const focus = [ratio([ground], getComputedStyle(probe).color), "the mark of focus"];
  probe.remove();
  return { texts: least(texts), edges: least([...edges, focus]), count: texts.length };
})()`;

/** Texts stand out by 4.5 to 1 and controls by 3 to 1, in light and in dark, also where a field is wrong. Returns the least ratios. */
export async function testContrast(browser, session) {
  const found = [];
  await browser.value(session, `type("first-day", "99"); type("second-day", "x")`);
  for (const value of ["light", "dark"]) {
    await browser.call("Emulation.setEmulatedMedia", { features: [{ name: "prefers-color-scheme", value }] }, session);
    for (const day of ["99", "1"]) {
      await browser.value(session, `type("first-day", "${day}"); ${SETTLED}`);
      const { texts, edges, count } = await browser.value(session, CONTRASTS);
      assert.ok(texts[0] >= 4.5 && count > 10, `${value}: ${texts}`);
      assert.ok(edges[0] >= 3, `${value}: ${edges}`);
      found.push(texts[0], edges[0]);
    }
  }
  await browser.call("Emulation.setEmulatedMedia", { features: [] }, session);
  await browser.value(session, `type("second-day", "1")`);
  const [text, edge] = [0, 1].map((part) => Math.min(...found.filter((_, place) => place % 2 === part)).toFixed(1));
  return `texts stand out by ${text}, controls by ${edge} at least`;
}

/** Nothing moves for a person who wants no motion, and nothing is wider than the window. */
export async function testMotionAndWidth(browser, session) {
  await browser.call("Emulation.setEmulatedMedia", { features: [{ name: "prefers-reduced-motion", value: "reduce" }] }, session);
  const moving = `document.getAnimations().length + [...document.querySelectorAll("*")].filter((it) => getComputedStyle(it).transitionDuration !== "0s").length`;
  assert.equal(await browser.value(session, moving), 0);
  await browser.call("Emulation.setEmulatedMedia", { features: [] }, session);
  for (const width of [320, 1600]) {
    await browser.call("Emulation.setDeviceMetricsOverride", { width, height: 900, deviceScaleFactor: 1, mobile: false }, session);
    const wider = `[...document.querySelectorAll("body *")].filter((it) => it.getBoundingClientRect().right > innerWidth + 1).map((it) => it.id || it.tagName)`;
    assert.deepEqual(await browser.value(session, wider), [], `${width} pixels`);
    assert.ok(await browser.value(session, "document.documentElement.scrollWidth <= innerWidth"), `the page is wider than ${width} pixels`);
  }
  await browser.call("Emulation.clearDeviceMetricsOverride", {}, session);
}

/** Pasted texts fill the fields, and what is copied is said. */
export async function testPasteAndCopy(browser, session) {
  const paste = (text) => browser.value(session, `(() => {
    const clipboardData = new DataTransfer();
    clipboardData.setData("text/plain", ${JSON.stringify(text)});
    document.getElementById("first-year").dispatchEvent(new ClipboardEvent("paste", { clipboardData, bubbles: true, cancelable: true }));
    return rows();
  })()`);
  await browser.value(session, `type("first-calendar", "hebrew")`);
  assert.equal((await paste("2024-02-19")).hebrew, "5784-M05L-10");
  assert.equal((await paste("5785-M01-01")).iso, "2024-10-03");
  assert.equal((await paste("nothing")).iso, "2024-10-03");
  const copied = `document.querySelector('#shown tr[data-calendar="hebrew"] button').click(); ${SETTLED}.then(() => document.getElementById("said").textContent)`;
  assert.match(await browser.value(session, copied), /5785-M01-01$/);
}

/** In a language from right to left, dates stand apart from the text around them. */
export async function testRightToLeft(browser, session, url) {
  const userAgent = await browser.value(session, "navigator.userAgent");
  await browser.call("Emulation.setUserAgentOverride", { userAgent, acceptLanguage: "ar" }, session);
  await browser.call("Page.enable", {}, session);
  await browser.call("Page.navigate", { url }, session);
  await ready(browser, session);
  const bare = `[...document.querySelectorAll("#shown td, #anniversaries li")].flatMap((it) => [...it.childNodes])
    .filter((it) => /[\\u0590-\\u06ff]/.test(it.textContent) && it.nodeName !== "BDI" && it.nodeName !== "SMALL").map((it) => it.textContent)`;
  const isolated = `[...document.querySelectorAll("bdi[lang=ar]")].filter((it) => /[\\u0600-\\u06ff]/.test(it.textContent) && getComputedStyle(it).unicodeBidi === "isolate").length`;
  assert.ok((await browser.value(session, isolated)) > 10);
  const weekdays = (await browser.value(session, bare)).filter((it) => !/^: [\u0600-\u06ff]+, $/.test(it));
  assert.deepEqual(weekdays, []);
}

/** Waits until all of the page stands. */
export async function ready(browser, session) {
  for (let tries = 0; tries < 300; tries += 1) {
    const isReady = await browser.value(session, `document.documentElement.dataset.page === "ready"`).catch(() => false);
    if (isReady) return;
    await new Promise((settle) => setTimeout(settle, 100));
  }
  assert.fail("the page doesn't become ready");
}

/** The holidays of a place and a year, and the file that they are saved as. */
export async function testHolidays(browser, session) {
  const list = `${SETTLED}.then(() => [...document.querySelectorAll("#holidays li")].map((it) => it.querySelector("code").textContent + " " + it.querySelector("bdi").textContent))`;
  assert.ok((await browser.value(session, `document.getElementById("holiday-place").options.length`)) > 50);
  await browser.value(session, `type("holiday-place", "england-and-wales"); type("holiday-year", "2022")`);
  assert.deepEqual(await browser.value(session, list), [
    "2022-01-03 New Year's Day", "2022-04-15 Good Friday", "2022-04-18 Easter Monday", "2022-05-02 Early May bank holiday", "2022-06-02 Spring bank holiday",
    "2022-06-03 Platinum Jubilee", "2022-08-29 Summer bank holiday", "2022-09-19 State funeral of Elizabeth II", "2022-12-26 Boxing Day", "2022-12-27 Christmas Day",
  ]);
  await browser.value(session, `type("holiday-place", "germany-bavaria")`);
  assert.ok((await browser.value(session, list)).includes("2022-11-01 All Saints' Day"));
  const file = await saved(browser, session, "holidays-save");
  assert.match(file, /^BEGIN:VCALENDAR\r\n.*DTSTART;VALUE=DATE:20221101\r\n.*SUMMARY:All Saints' Day\r\n.*END:VCALENDAR\r\n$/s);
  await browser.value(session, `type("holiday-year", "0")`);
  assert.deepEqual(await browser.value(session, list), []);
  assert.match(await browser.value(session, `document.getElementById("holiday-error").textContent`), /^Year:/);
  await browser.value(session, `type("holiday-year", "2024"); type("holiday-place", "")`);
}

/** What a button saves. */
async function saved(browser, session, button) {
  const folder = mkdtempSync(join(tmpdir(), "saved-"));
  try {
    await browser.call("Browser.setDownloadBehavior", { behavior: "allow", downloadPath: folder });
    await browser.value(session, `document.getElementById("${button}").click()`);
    for (let tries = 0; tries < 100; tries += 1) {
      const name = readdirSync(folder).find((it) => it.endsWith(".ics"));
      if (name && existsSync(join(folder, name))) {
        const text = readFileSync(join(folder, name), "utf8");
        if (text.endsWith("END:VCALENDAR\r\n")) return text;
      }
      await new Promise((settle) => setTimeout(settle, 100));
    }
    return "";
  } finally {
    rmSync(folder, { recursive: true, force: true });
  }
}

/** A page without its module says so, and how it is made. */
export async function testWithoutModule(browser, url) {
  const session = await browser.open(url);
  const said = `new Promise((settle) => setTimeout(settle, 300)).then(() => [document.getElementById("unloaded").checkVisibility(), document.getElementById("unloaded").textContent])`;
  for (let tries = 0; tries < 50; tries += 1) {
    const [isShown, text] = await browser.value(session, said).catch(() => [false, ""]);
    if (isShown) return assert.match(text, /bindings\/web\/build\.sh makes calendars\.html/);
  }
  return assert.fail("nothing is said of the module");
}
