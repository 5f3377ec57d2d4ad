// Dates whose values come from outside, refusals by name, and the page's lists.
import assert from "node:assert/strict";
import { readFileSync } from "node:fs";
import test from "node:test";
import { fileURLToPath } from "node:url";

import { CALENDARS, CalendarError, load } from "../icu_calendar.mjs";

const module = process.env.ICU_CALENDAR_MODULE ?? fileURLToPath(new URL("../icu_calendar.wasm", import.meta.url));
const calendars = await load(readFileSync(module));

/** The cause of a refusal, and its limit. */
function refusal(call) {
  try {
    call();
  } catch (error) {
    assert.ok(error instanceof CalendarError);
    return [error.cause, error.max];
  }
  return null;
}

test("Rosh Hashanah and Chinese New Year are on their days", () => {
  const hebrew = calendars.dateOfFields({ calendar: "hebrew", year: 5784, monthCode: "M01", day: 1 });
  assert.equal(hebrew.toCalendar("iso").toString(), "2023-09-16");
  const chinese = calendars.dateOfFields({ calendar: "chinese", year: 2024, monthCode: "M01", day: 1 });
  assert.equal(chinese.toCalendar("iso").toString(), "2024-02-10");
  assert.equal(chinese.cyclicYear, 41);
  assert.equal(chinese.era, null);
});

test("a date of each calendar leads back to its day", () => {
  for (const calendar of CALENDARS) {
    for (const day of [-365242499, -1, 0, 1, 738926, 365242134]) {
      const date = calendars.dateOfDay(day, calendar);
      const { extendedYear: year, monthCode, day: of } = date;
      assert.equal(calendars.dateOfFields({ calendar, year, monthCode, day: of }).dayNumber, day, `${calendar} ${day}`);
    }
  }
});

test("refusals name their cause", () => {
  const fields = { calendar: "gregorian", year: 2023, month: 2, day: 29 };
  assert.deepEqual(refusal(() => calendars.dateOfFields(fields)), ["InvalidDay", 28]);
  assert.deepEqual(refusal(() => calendars.dateOfFields({ ...fields, calendar: "hebrew", monthCode: "M05L", month: undefined, year: 5783 })), ["MonthNotInYear", 0]);
  assert.deepEqual(refusal(() => calendars.dateOfFields({ calendar: "gregorian", day: 1 })), ["NotEnoughFields", 0]);
  assert.deepEqual(refusal(() => calendars.dateOfDay(365242135)), ["InvalidDayNumber", 0]);
  assert.deepEqual(refusal(() => calendars.dateOfDay(1.5)), ["InvalidDayNumber", 0]);
  assert.deepEqual(refusal(() => calendars.dateOfDay(1, "mayan")), ["UnknownCalendar", 0]);
  assert.deepEqual(refusal(() => calendars.dateOfDay(1).add({ years: -1 })), ["OutOfRange", 0]);
});

test("differences lead back, and weeks and Easter are known", () => {
  const first = calendars.dateOfFields({ calendar: "gregorian", year: 2024, month: 1, day: 31 });
  const second = first.add({ months: 1 });
  assert.equal(second.toString(), "2024-02-29");
  assert.equal(String(first.until(second, { largestUnit: "months" })), "P29D");
  assert.equal(first.add(first.until(second)).dayNumber, second.dayNumber);
  assert.deepEqual(calendars.dateOfFields({ calendar: "iso", year: 2021, month: 1, day: 3 }).weekOfYear(), { year: 2020, week: 53 });
  assert.equal(calendars.easter(2024).toString(), "2024-03-31");
  assert.equal(calendars.easter(2024, "julian").toCalendar("gregorian").toString(), "2024-05-05");
});

test("an anniversary in a leap month skips years that don't have it", () => {
  const adar = calendars.dateOfFields({ calendar: "hebrew", year: 5784, monthCode: "M05L", day: 10 });
  assert.deepEqual(adar.anniversaries(3).map((date) => date.extendedYear), [5787, 5790, 5793]);
  assert.deepEqual(adar.anniversaries(2, { overflow: "constrain" }).map((date) => date.monthCode), ["M06", "M06"]);
});
