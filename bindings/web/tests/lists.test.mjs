// The lists of the program against those of the functions: the cases that have no rows.
import assert from "node:assert/strict";
import { readFileSync } from "node:fs";
import test from "node:test";
import { fileURLToPath } from "node:url";

import { CalendarError, load } from "../icu_calendar.mjs";
import { CAUSES, fieldsOf, written } from "./forms.mjs";

const top = new URL("../../../", import.meta.url);
const module = process.env.ICU_CALENDAR_MODULE ?? fileURLToPath(new URL("bindings/web/icu_calendar.wasm", top));
const calendars = await load(readFileSync(module));
const cases = readFileSync(new URL("cases/lists.jsonl", top), "utf8").trim().split("\n").map((line) => JSON.parse(line));
// Lists over more days than these take their time year by year.
const LONGEST_WINDOW = 20_000_000;

/** The lines that an anniversary's words ask for. */
function anniversaries([, calendar, shown, mode, monthCode, day, first, last]) {
  const overflow = mode === "exact" ? "reject" : "constrain";
  const window = { first: Number(first), last: Number(last), years: "computed", overflow };
  return Array.from(calendars.anniversaries({ calendar, monthCode, day: Number(day) }, window), (date) => line(date, shown));
}

/** The lines that a recurrence's words ask for. Its window and its number of units are tested before its fields. */
function recurrences([, calendar, shown, unit, every, mode, first, last, ...fields]) {
  const overflow = mode === "skip" ? "reject" : "constrain";
  const rule = { first: Number(first), last: Number(last), unit, every: Number(every), overflow };
  calendars.recurrences(calendars.dateOfDay(1, calendar, "computed"), rule).next();
  const start = calendars.dateOfFields(fieldsOf(calendar, fields), { years: "computed" });
  return Array.from(calendars.recurrences(start, rule), ({ index, date }) => `${index} ${line(date, shown)}`);
}

function line(date, shown) {
  return `${written(date)} ${written(date.toCalendar(shown))}\n`;
}

/** What the program writes for the words of a list. */
function listed(words) {
  try {
    return (words[0] === "recur" ? recurrences : anniversaries)(words).join("");
  } catch (error) {
    if (!(error instanceof CalendarError)) throw error;
    return `err ${CAUSES[error.cause] ?? error.cause}${error.max ? ` ${error.max}` : ""}\n`;
  }
}

/** Whether a source has nothing but lines that are ignored. */
function hasNoRows(source) {
  return source.split("\n").every((it) => /^\s*(#.*)?$/.test(it));
}

for (const command of ["anniversary", "recur"]) {
  test(`the lists of ${command} are those of the cases`, () => {
    let count = 0;
    for (const { words, source, out, status } of cases) {
      const length = Number(words[7]) - Number(words[6]);
      const isGiven = !words.some((word) => /^(era|month-code)=$/.test(word));
      if (words[0] !== command || status > 1 || !hasNoRows(source) || !isGiven || length > LONGEST_WINDOW) continue;
      assert.equal(listed(words), out, words.join(" "));
      count += 1;
    }
    assert.ok(count > 300, `${count} cases`);
  });
}
