// Recurrence rules: the lists and refusals of the program against those of the function, over the cases that have no rows.
import assert from "node:assert/strict";
import { readFileSync } from "node:fs";
import test from "node:test";
import { fileURLToPath } from "node:url";

import { CalendarError, RuleError, load } from "../icu_calendar.mjs";
import { CAUSES, fieldsOf, written } from "./forms.mjs";

const top = new URL("../../../", import.meta.url);
const module = process.env.ICU_CALENDAR_MODULE ?? fileURLToPath(new URL("bindings/web/icu_calendar.wasm", top));
const calendars = await load(readFileSync(module));
const cases = readFileSync(new URL("cases/rrule.jsonl", top), "utf8").trim().split("\n").map((line) => JSON.parse(line));
// 2024-01-01, a Monday.
const START = 738886;

/** The date of a start: a day number, or fields. */
function dateOfStart(calendar, words) {
  if (words.length === 1 && /^-?\d+$/.test(words[0])) return calendars.dateOfDay(Number(words[0]), calendar, "computed");
  return calendars.dateOfFields(fieldsOf(calendar, words), { years: "computed" });
}

/** What the program writes for the words of a rule. It tests the window, then the rule, then the start. */
function listed([, calendar, shown, first, last, ...rest]) {
  const [words, rule] = [rest.slice(0, -1), rest.at(-1)];
  const window = { rule, first: Number(first), last: Number(last) };
  try {
    testWindowAndRule(calendar, window);
    const occurrences = calendars.rrule(dateOfStart(calendar, words), window);
    return Array.from(occurrences, ({ index, date }) => `${index} ${written(date)} ${written(date.toCalendar(shown))}\n`).join("");
  } catch (error) {
    if (!(error instanceof CalendarError)) throw error;
    const [name, detail] = [CAUSES[error.cause] ?? error.cause, error instanceof RuleError ? error.part : error.max];
    return `err ${name === "InvalidDayNumber" ? "Overflow" : name}${detail ? ` ${detail}` : ""}\n`;
  }
}

/** Asks for the last day alone, from itself on, after the window as a whole. */
function testWindowAndRule(calendar, { rule, first, last }) {
  calendars.anniversaries({ calendar, monthCode: "M01", day: 1 }, { first, last, years: "computed" }).next();
  calendars.rrule(calendars.dateOfDay(last, calendar, "computed"), { rule, first: last, last }).next();
}

test("the lists of rrule are those of the cases", () => {
  let count = 0;
  for (const { words, source, out, status } of cases) {
    const isGiven = !words.some((word) => /^(era|month-code)=$/.test(word));
    const hasNoRows = source.split("\n").every((it) => /^\s*(#.*)?$/.test(it));
    if (status > 1 || !hasNoRows || !isGiven) continue;
    assert.equal(listed(words), out, words.join(" "));
    count += 1;
  }
  assert.ok(count > 500, `${count} cases`);
});

test("a rule over published years, one by one", () => {
  const start = calendars.dateOfDay(START, "chinese");
  const found = [];
  for (const { index, date } of calendars.rrule(start, { rule: "FREQ=YEARLY;BYMONTH=1;BYMONTHDAY=1" })) {
    if (found.push(`${index} ${date.toCalendar("iso")}`) === 3) break;
  }
  assert.deepEqual(found, ["0 2024-02-10", "1 2025-01-29", "2 2026-02-17"]);
});

test("long lists come in parts", () => {
  const start = calendars.dateOfDay(START);
  assert.equal([...calendars.rrule(start, { rule: "FREQ=DAILY", last: START + 9999 })].length, 10_000);
  assert.equal([...calendars.rrule(start, { rule: "FREQ=DAILY;COUNT=700", last: START + 9999 })].length, 700);
});

test("a refusal names its cause and its part", () => {
  const start = calendars.dateOfDay(START);
  for (const [rule, cause, part] of [["", "BadPart", null], ["FREQ=DAILY; COUNT=1", "UnknownPart", null], ["FREQ=HOURLY", "TimeNotSupported", "FREQ"]]) {
    assert.throws(() => calendars.rrule(start, { rule }).next(), { name: "RuleError", cause, part });
  }
  const long = `FREQ=MONTHLY;BYMONTHDAY=${"1,".repeat(9000)}1`;
  assert.throws(() => calendars.rrule(start, { rule: long }).next(), { cause: "TooLong" });
});
