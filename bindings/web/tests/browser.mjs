// The page in a real browser, over its pipe for tools: the time to the first date, a date typed in, the texts that appear, a refusal that names its
// field, what people need (`people.mjs`), the time that a change takes, and a thousand random dates against the program. The words: the browser, the
// page in one file, the program, and a picture to write (or `-`).
import assert from "node:assert/strict";
import { execFileSync } from "node:child_process";
import { readFileSync, readdirSync, writeFileSync } from "node:fs";
import { pathToFileURL } from "node:url";

import { Browser, random } from "./chromium.mjs";
import * as people from "./people.mjs";

const [program, page, calspan, picture] = process.argv.slice(2);
const browser = new Browser(program);

/** Types a value into a field, as a person does, and gives the milliseconds that the page took. */
const TYPE = `globalThis.type = (id, value) => {
  const field = document.getElementById(id);
  field.value = value;
  const began = performance.now();
  field.dispatchEvent(new Event("input", { bubbles: true }));
  document.body.getBoundingClientRect();
  return performance.now() - began;
};
globalThis.rows = () => Object.fromEntries([...document.querySelectorAll("#shown tr")].map((row) => [row.dataset.calendar, row.dataset.date]));`;

// The lists stand a moment after the table.
const LATER = "new Promise((settle) => setTimeout(settle, 100))";

/** What the program shows of ISO dates in each calendar, over the published years. */
function programsAnswers(dates, calendars) {
  const folder = new URL("../../../rows/", import.meta.url);
  const rows = readdirSync(folder).filter((it) => it.endsWith(".rows")).map((it) => readFileSync(new URL(it, folder), "utf8")).join("");
  const requests = dates.flatMap(({ year, month, day }) => calendars.map((it) => `span iso ${it} days reject none from ${fields(year, month, day)} to ${fields(year, month, day)}`));
  const out = execFileSync(calspan, ["span"], { input: `${rows}${requests.join("\n")}\n`, encoding: "utf8", maxBuffer: 2 ** 26 }).split("\n");
  return requests.map((_, place) => out[place].split(" ")[2]);
}

const fields = (year, month, day) => `year=${year} month=M${String(month).padStart(2, "0")} day=${day}`;

/** A date of the program as the page writes it. */
function plain(written) {
  const [year, , month, rest] = written.split("/");
  const digits = `${year.startsWith("-") ? "-" : ""}${year.replace("-", "").padStart(4, "0")}`;
  return `${digits}-${month.endsWith("L") ? month : month.slice(1)}-${rest.slice(0, 2)}`;
}

async function testThePage(session) {
  await browser.value(session, TYPE);
  const set = (values) => browser.value(session, `Object.entries(${JSON.stringify(values)}).map(([id, value]) => type(id, value))`);
  const text = (id) => browser.value(session, `${LATER}.then(() => document.getElementById("${id}").textContent)`);

  await set({ "first-calendar": "hebrew", "first-year": "5784", "first-month": "M05L", "first-day": "10" });
  const rows = await browser.value(session, "rows()");
  assert.equal(rows.iso, "2024-02-19");
  assert.equal(rows.hebrew, "5784-M05L-10");
  assert.equal(Object.keys(rows).length, 20);
  assert.match(await text("shown"), /10 Adar I 5784/);
  assert.match(await text("weekday"), /^Monday, week 8 of 2024/);
  assert.match(await text("anniversaries"), /5787.*5790/s);

  await set({ "first-year": "5783" });
  assert.equal(await browser.value(session, `[...document.getElementById("first-month").options].some((it) => it.value === "M05L")`), false);

  await set({ "first-calendar": "gregorian", "first-year": "2023", "first-month": "M02", "first-day": "29" });
  assert.equal(await text("first-error"), "Day: February 2023 has 28 days.");
  assert.equal(await text("first-nearest"), "Use 28 February 2023 CE");
  assert.equal(await browser.value(session, `document.getElementById("first-day").getAttribute("aria-invalid")`), "true");

  await browser.value(session, `document.getElementById("first-nearest").click()`);
  assert.equal(await text("first-error"), "");
  await set({ "second-calendar": "gregorian", "second-year": "2024", "second-month": "M03", "second-day": "1" });
  assert.match(await text("differences"), /in years\s*1 year,? 2 daysP1Y2D.*in months\s*12 months,? 2 daysP12M2D.*P52W3D.*P367D/s);
}

/** The address keeps the date, `back` leads to the one before, and a text fills the fields. */
async function testTexts(session) {
  const rows = async () => browser.value(session, "rows()");
  const settled = () => new Promise((settle) => setTimeout(settle, 600));
  await browser.value(session, `type("first-text", "hebrew/5784-M05L-10")`);
  assert.equal((await rows()).iso, "2024-02-19");
  await settled();
  assert.match(await browser.value(session, "location.hash"), /^#hebrew\/5784-M05L-10/);
  await browser.value(session, `type("first-text", "2024-02-10")`);
  assert.equal((await rows()).hebrew, "5784-M05L-01");
  await settled();
  await browser.value(session, "history.back()");
  await settled();
  assert.equal((await rows()).iso, "2024-02-19");
  await browser.value(session, `location.hash = "#hebrew/5783-M05L-10"`);
  await settled();
  assert.equal((await rows()).hebrew, "5783-06-10");
  assert.match(await browser.value(session, `document.getElementById("said").textContent`), /doesn't exist; this is the nearest date/);
}

/** Each list has as many dates as it is asked for, and a file. */
async function testLists(session) {
  const count = (id) => browser.value(session, `${LATER}.then(() => document.querySelectorAll("#${id} li").length)`);
  await browser.value(session, `type("anniversary-calendar", "iso")`);
  assert.equal(await count("anniversaries"), 20);
  await browser.value(session, `[["recurrence-count", "9"], ["recurrence-unit", "years"]].map(([id, value]) => type(id, value))`);
  assert.equal(await count("recurrences"), 9);
  await browser.value(session, `type("recurrence-every", "0")`);
  assert.equal(await count("recurrences"), 1);
  assert.match(await browser.value(session, `document.getElementById("recurrence-error").textContent`), /from 1 to 9999/);
  await browser.value(session, `type("recurrence-every", "1"); type("anniversary-calendar", "")`);
  await browser.value(session, `type("rule-text", "RRULE:FREQ=MONTHLY;BYDAY=-1FR")`);
  assert.equal(await count("recurrences"), 9);
  await browser.value(session, `type("rule-text", "FREQ=HOURLY")`);
  assert.equal(await count("recurrences"), 1);
  assert.match(await browser.value(session, `document.getElementById("recurrence-error").textContent`), /^FREQ: Times/);
  await browser.value(session, `type("rule-text", "")`);
}

/** Each field and button has a name, and no address is asked for. */
async function testAccess(session) {
  const unnamed = await browser.value(session, `[...document.querySelectorAll("input, select, button")].filter((it) => !it.hidden && it.labels?.length === 0
    && !it.textContent.trim() && !it.ariaLabel).map((it) => it.id)`);
  assert.deepEqual(unnamed, []);
  assert.deepEqual(await browser.value(session, `performance.getEntriesByType("resource").filter((it) => !it.name.startsWith("data:")).map((it) => it.name)`), []);
}

// What comes after the first date isn't done while the time to it is measured.
const NOTHING_LATER = "globalThis.setTimeout = globalThis.requestIdleCallback = () => 0;";
const FIRST_DATE = `performance.getEntriesByName("first date")[0]?.startTime ?? 0`;
const LOADS = 7;

// In milliseconds of the processor, at the median. An empty page takes 14 of them.
const MOST_USED = 100;

/**
 * How long the page takes from its address to its first date, in several loads. The processor's time is that of the page's thread, with the first
 * picture. What else runs on the machine makes the clock's time many times as long, so that is only told.
 */
async function testFirstDate(url) {
  const session = await browser.open("about:blank");
  await browser.call("Page.enable", {}, session);
  await browser.call("Performance.enable", { timeDomain: "threadTicks" }, session);
  await browser.call("Page.addScriptToEvaluateOnNewDocument", { source: NOTHING_LATER }, session);
  const [used, clock] = [[], []];
  for (let load = 0; load < LOADS; load += 1) {
    const before = await processorSeconds(session);
    await browser.call("Page.navigate", { url: `${url}?${load}` }, session);
    let first = 0;
    for (let tries = 0; tries < 300 && !first; tries += 1) {
      await new Promise((settle) => setTimeout(settle, 100));
      first = await browser.value(session, FIRST_DATE).catch(() => 0);
    }
    assert.ok(first, "the page doesn't start");
    clock.push(first);
    // A page may have a thread of its own, which begins at zero.
    const after = await processorSeconds(session);
    used.push(1000 * (after < before ? after : after - before));
  }
  await browser.call("Target.closeTarget", { targetId: (await browser.call("Target.getTargetInfo", {}, session)).targetInfo.targetId });
  const [half, least] = [used.sort((a, b) => a - b)[LOADS >> 1], Math.min(...clock)];
  assert.ok(half <= MOST_USED, `the first date takes ${used.map(Math.round)} ms of the processor`);
  return `${half.toFixed(0)} ms of the processor at the median, and ${least.toFixed(0)} ms by the clock at least`;
}

/** A picture of the page with a date and its lists. */
async function takePicture(url, file) {
  const session = await browser.open(`${url}#hebrew/5784-M05L-10`);
  await people.ready(browser, session);
  await browser.value(session, TYPE);
  const rule = `type("rule-text", "FREQ=YEARLY;BYMONTH=5L;BYMONTHDAY=10;SKIP=FORWARD")`;
  await browser.value(session, `${rule}; type("holiday-place", "germany-bavaria"); ${LATER}`);
  await browser.call("Emulation.setDeviceMetricsOverride", { width: 1100, height: 1500, deviceScaleFactor: 1, mobile: false }, session);
  writeFileSync(file, await browser.picture(session));
}

/** How long the page's thread has worked. */
async function processorSeconds(session) {
  const { metrics } = await browser.call("Performance.getMetrics", {}, session);
  return metrics.find((it) => it.name === "TaskDuration").value;
}

async function testRandomDates(session) {
  const next = random(20240210);
  const dates = Array.from({ length: 1000 }, () => ({ year: next(4000) - 500, month: 1 + next(12), day: 1 + next(28) }));
  await browser.value(session, `type("first-calendar", "iso")`);
  const expression = `${JSON.stringify(dates)}.map(({ year, month, day }) => {
    const code = "M" + String(month).padStart(2, "0");
    const taken = ["first-year", "first-month", "first-day"].map((id, place) => type(id, String([year, code, day][place])));
    return { rows: rows(), taken };
  })`;
  await browser.call("Performance.enable", { timeDomain: "threadTicks" }, session);
  const before = await processorSeconds(session);
  const answers = await browser.value(session, expression);
  const used = await processorSeconds(session);
  const calendars = Object.keys(answers[0].rows);
  const wanted = programsAnswers(dates, calendars);
  let place = 0;
  for (const [index, { rows }] of answers.entries()) {
    for (const calendar of calendars) {
      assert.equal(rows[calendar], plain(wanted[place]), `${calendar} ${JSON.stringify(dates[index])}`);
      place += 1;
    }
  }
  const taken = answers.flatMap((it) => it.taken).sort((a, b) => a - b);
  const [half, most] = [taken[taken.length >> 1], taken.at(-1)];
  // What else runs on the machine makes a change take longer, but not more of the processor.
  const each = (1000 * (used - before)) / taken.length;
  assert.ok(each <= 20, `a change takes ${each} ms of the processor`);
  const times = `${half.toFixed(1)} ms at the median, ${most.toFixed(1)} at most, and ${each.toFixed(1)} of processor time`;
  console.log(`browser: ${place} dates of ${dates.length} days agree with the program; a change takes ${times}`);
}

/** All that people need of the page, but its dates. */
async function testForPeople(session, url) {
  await people.testKeyboard(browser, session);
  const contrast = await people.testContrast(browser, session);
  await people.testPasteAndCopy(browser, session);
  await people.testHolidays(browser, session);
  await people.testMotionAndWidth(browser, session);
  await people.testRightToLeft(browser, await browser.open("about:blank"), url);
  await people.testWithoutModule(browser, new URL("../index.html", import.meta.url).href);
  console.log(`browser: all by keys; ${contrast}; 320 and 1600 pixels wide`);
}

try {
  const url = pathToFileURL(page).href;
  console.log(`browser: the first date takes ${await testFirstDate(url)}`);
  const session = await browser.open(url);
  await people.ready(browser, session);
  await testThePage(session);
  await testTexts(session);
  await testLists(session);
  await testAccess(session);
  await testForPeople(session, url);
  await testRandomDates(session);
  if (picture !== "-") await takePicture(url, picture);
} finally {
  browser.stop();
}
