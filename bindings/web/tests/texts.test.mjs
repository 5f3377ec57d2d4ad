// Texts of the page: dates as they are pasted and kept in the address, words, and iCalendar files.
import assert from "node:assert/strict";
import { readFileSync } from "node:fs";
import test from "node:test";
import { fileURLToPath } from "node:url";

import { addressOf, fieldsOfAddress, fieldsOfText } from "../address.mjs";
import { CALENDARS, Duration, load } from "../icu_calendar.mjs";
import { iCalendar, plainDate } from "../lists.mjs";
import { Words, cyclicName, inEnglish } from "../words.mjs";

const module = process.env.ICU_CALENDAR_MODULE ?? fileURLToPath(new URL("../icu_calendar.wasm", import.meta.url));
const calendars = await load(readFileSync(module));

test("a text names fields, or none", () => {
  const adar = { calendar: "hebrew", year: 5784, monthCode: "M05L", day: 10 };
  const february = { calendar: "iso", year: 2024, monthCode: "M02", day: 19 };
  assert.deepEqual(fieldsOfText("hebrew/5784-M05L-10", "iso"), { ...adar, shownIn: "hebrew" });
  assert.deepEqual(fieldsOfText(" 5784-M05L-10 ", "hebrew"), { ...adar, shownIn: "hebrew" });
  assert.deepEqual(fieldsOfText("2024-02-19", "hebrew"), { ...february, shownIn: "hebrew" });
  assert.deepEqual(fieldsOfText("20240219", "iso"), { ...february, shownIn: "iso" });
  assert.deepEqual(fieldsOfText("2024-02-19T12:30:00+02:00", "iso"), { ...february, shownIn: "iso" });
  assert.deepEqual(fieldsOfText("2024-02-19[u-ca=gregory]", "iso"), { ...february, shownIn: "gregorian" });
  assert.equal(fieldsOfText("-000543-01-01", "iso").year, -543);
  for (const text of ["", "today", "2024-02", "maya/2024-02-19", "2024-02-19[u-ca=maya]", "2024-M2-19", "a/b/c"]) assert.equal(fieldsOfText(text, "iso"), null, text);
});

test("a date in the address leads back in each calendar", () => {
  for (const calendar of CALENDARS) {
    for (const day of [-365242499, 0, 1, 738926, 738945, 365242134]) {
      const date = calendars.dateOfDay(day, calendar);
      const [{ shownIn, ...fields }] = fieldsOfAddress(addressOf([date]));
      assert.equal(calendars.dateOfFields(fields).dayNumber, day);
      assert.equal(shownIn, calendar);
    }
  }
  const dates = [calendars.dateOfDay(738935, "hebrew"), calendars.dateOfDay(739000, "iso")];
  assert.equal(addressOf(dates), "#hebrew/5784-M05L-10&iso/2024-04-24");
  assert.equal(fieldsOfAddress(addressOf(dates)).length, 2);
});

test("dates and durations have words", () => {
  const inWords = (day, calendar) => inEnglish(calendars, calendars.dateOfDay(day, calendar));
  assert.equal(inWords(738935, "hebrew"), "10 Adar I 5784 AM");
  assert.equal(inWords(738935, "japanese"), "19 February 6 Reiwa");
  assert.equal(inWords(738926, "chinese"), "1 Month 1 2024, jia-chen (Dragon)");
  assert.equal(cyclicName("dangi", 60), "gye-hae (Pig)");
  const english = new Words("en");
  assert.equal(english.duration(new Duration({ years: 1, days: 2 })), "1 year 2 days");
  assert.equal(english.duration(new Duration({ months: 3, isNegative: true })), "3 months back");
  assert.equal(english.duration(new Duration()), "0 days");
  assert.equal(english.weekday(calendars.dateOfDay(738935)), "Monday");
  const german = new Words("de");
  german.prepare("gregorian");
  assert.equal(german.weekday(calendars.dateOfDay(738935)), "Montag");
  assert.equal(german.date(calendars.dateOfDay(738935, "gregorian")), "19. Februar 2024");
  assert.equal(german.date(calendars.dateOfDay(738935, "julian")), null);
});

test("a file of dates has lines of at most 75 bytes, whole days and UIDs that stay", () => {
  const date = calendars.dateOfDay(738935, "hebrew");
  const events = [{ date, summary: `Jahrestag, ${"ü".repeat(60)}; 1` }, { date: calendars.dateOfDay(0, "hebrew"), summary: "year 0" }];
  const file = iCalendar("anniversary/hebrew/5784-M05L-10", events, new Date(0));
  const lines = file.split("\r\n");
  assert.ok(lines.every((it) => Buffer.byteLength(it) <= 75));
  const unfolded = file.replaceAll("\r\n ", "");
  assert.ok(unfolded.includes("\r\nUID:anniversary/hebrew/5784-M05L-10/20240219@calspan.invalid\r\nDTSTAMP:19700101T000000Z\r\n"));
  assert.ok(unfolded.includes("\r\nDTSTART;VALUE=DATE:20240219\r\nTRANSP:TRANSPARENT\r\nSUMMARY:Jahrestag\\, "));
  assert.equal(unfolded.match(/BEGIN:VEVENT/g).length, 1);
  assert.equal(plainDate(date), "5784-M05L-10");
  const twice = iCalendar("holidays", [{ date, summary: "a" }, { date, summary: "b" }]);
  assert.deepEqual(twice.match(/UID:.*?@/g), ["UID:holidays/20240219@", "UID:holidays/20240219-2@"]);
});
