// Holidays: the books that ship against the days that other programs have, and books of all kinds of records against the cases.
import assert from "node:assert/strict";
import { readFileSync, readdirSync } from "node:fs";
import test from "node:test";
import { fileURLToPath } from "node:url";

import { bookOf, holidays, placeName, readBook } from "../holidays.mjs";
import { load } from "../icu_calendar.mjs";
import { written } from "./forms.mjs";

const top = new URL("../../../", import.meta.url);
const module = process.env.ICU_CALENDAR_MODULE ?? fileURLToPath(new URL("bindings/web/icu_calendar.wasm", top));
const calendars = await load(readFileSync(module));
const cases = casesOf("lists");

/** The cases of a file. */
function casesOf(name) {
  return readFileSync(new URL(`cases/${name}.jsonl`, top), "utf8").trim().split("\n").map((line) => JSON.parse(line));
}

/** The names of the books in a folder. */
function booksIn(folder) {
  return readdirSync(new URL(`books/${folder}`, top)).filter((it) => it.endsWith(".csv")).map((it) => it.replace(".csv", ""));
}

/** The day number of an ISO date. */
function dayOf(text) {
  const [year, month, day] = text.split("-").map(Number);
  return calendars.dateOfFields({ calendar: "iso", year, month, day }).dayNumber;
}

for (const folder of ["", "countries/"]) {
  test(`the books in books/${folder} have the days of other programs`, () => {
    let count = 0;
    for (const name of booksIn(folder)) {
      const lines = readFileSync(new URL(`books/expected/${folder}${name}.txt`, top), "utf8").trim().split("\n");
      const [, from, to] = /^# Days of (\d{4}) to (\d{4}), /.exec(lines[0]);
      const book = readBook(readFileSync(new URL(`books/${folder}${name}.csv`, top), "utf8"));
      const found = holidays(calendars, book, { first: dayOf(`${from}-01-01`), last: dayOf(`${to}-12-31`) });
      const wanted = lines.filter((it) => !it.startsWith("#"));
      assert.deepEqual(found.map(({ date, name }) => `${date} ${name}`).sort(), wanted.sort(), name);
      count += wanted.length;
    }
    assert.ok(count > 3000, `${count} days`);
  });
}

test("the lists of holidays are those of the cases", () => {
  let count = 0;
  for (const { words, source, out, status } of cases) {
    if (words[0] !== "holidays" || status !== 0 || /[^\x00-\x7f]/.test(source)) continue;
    const found = holidays(calendars, readBook(source), { first: Number(words[1]), last: Number(words[2]), years: "computed" });
    assert.equal(found.map(({ date, name }) => `${written(date)} ${name}\n`).join(""), out, `${words} ${JSON.stringify(source)}`);
    count += 1;
  }
  assert.ok(count > 100, `${count} cases`);
});

// How days move, and by how many days each weekday from Sunday on.
const MOVED = "monday+6 tuesday-6 wednesday+1 thursday-1 saturday+3";
const MOVES = [0, 6, -6, 1, -1, 0, 3];
// The days of the years 0000 to 9999, which have four digits.
const [YEAR_0, YEAR_9999] = [-365, 3652059];

/** The cases of rules that start on a day with four digits of the year, with what is listed. */
function* rulesOfCases() {
  for (const { words, source, out, status } of casesOf("rrule")) {
    const [, calendar, , first, last, day, rule] = words;
    const isPlain = words.length === 7 && /^-?\d+$/.test(day) && source.split("\n").every((it) => /^\s*(#.*)?$/.test(it));
    if (status > 1 || !isPlain || Number(day) < YEAR_0 || Number(day) > YEAR_9999 || /^err (InvalidWindow|Overflow)/.test(out)) continue;
    const start = calendars.dateOfDay(Number(day)).toString();
    yield { record: `rule,X,${calendar},,"${rule.replaceAll('"', '""')}",${start}`, first: Number(first), last: Number(last), out };
  }
}

test("the days of rules in books are those of the cases", () => {
  let count = 0;
  for (const { record, first, last, out } of rulesOfCases()) {
    // A day moves by at most six days, so all that lead to a day of a window six days smaller are listed.
    const window = { first: first + 6, last: last - 6, years: "computed" };
    if (out.startsWith("err ") || window.first > window.last) continue;
    const own = [...out.matchAll(/^\d+ (-?\d+)\/\S+@(-?\d+) /gm)].map(([, year, day]) => [Number(year), Number(day)]);
    const [middle] = own[Math.floor(own.length / 2)] ?? [0];
    const moved = ([, day]) => day + MOVES[((day % 7) + 7) % 7];
    const wanted = [
      own.map(([, day]) => day),
      own.filter(([year]) => year <= middle).map(([, day]) => day),
      own.filter(([year]) => year >= middle && (year - middle) % 3 === 0).map(moved),
    ];
    const inWindow = (days) => [...new Set(days)].filter((day) => window.first <= day && day <= window.last).sort((a, b) => a - b);
    for (const [place, tail] of ["", `,,${middle}`, `,${middle},,3,${MOVED}`].entries()) {
      const found = holidays(calendars, readBook(record + tail), window);
      assert.deepEqual(found.map(({ date }) => date.dayNumber), inWindow(wanted[place]), record + tail);
      count += found.length;
    }
  }
  assert.ok(count > 1000, `${count} days`);
});

test("rules in books that are none are refused, by the names of the cases", () => {
  let count = 0;
  for (const { record, out } of rulesOfCases()) {
    const error = /^err (\w+)(?: (\w+))?\n$/.exec(out);
    if (!error) continue;
    const [, cause, part = null] = error;
    assert.throws(() => holidays(calendars, readBook(record), { first: 1, last: 1 }), { name: "RuleError", cause, part }, record);
    count += 1;
  }
  assert.ok(count > 50, `${count} refusals`);
});

test("rules in books are over published years", () => {
  const book = readBook("rule,Spring Festival,chinese,,FREQ=YEARLY;BYMONTH=1;BYMONTHDAY=1,2023-01-01\nfixed,Lanterns,chinese,M01,15,exact");
  const listed = (years) => holidays(calendars, book, { first: 738521, last: 738890, years }).map(({ date, name }) => `${date} ${name}`);
  assert.deepEqual(listed("published"), ["2023-01-22 Spring Festival", "2023-02-05 Lanterns"]);
  assert.deepEqual(listed("computed"), ["2023-02-20 Spring Festival", "2023-03-06 Lanterns"]);
});

test("a place's book begins with its country's, and has a name", () => {
  const names = booksIn("countries/");
  const books = Object.fromEntries(names.map((it) => [it, `${it}\n`]));
  assert.equal(bookOf(books, "germany-bavaria-catholic"), "germany\ngermany-bavaria\ngermany-bavaria-catholic\n");
  assert.equal(bookOf(books, "australia-victoria"), "australia-victoria\n");
  assert.equal(placeName("germany-baden-wuerttemberg", names), "Germany: Baden-Württemberg");
  assert.equal(placeName("england-and-wales", names), "England and Wales");
  assert.equal(placeName("australia-new-south-wales", names), "Australia: New South Wales");
});

test("a record that is invalid is refused", () => {
  for (const text of [
    "rule,A,gregorian,M01,FREQ=DAILY,2024-01-01", "rule,A,gregorian,,FREQ=DAILY,2023-02-29", "rule,A,gregorian,,FREQ=DAILY,2024-1-01",
    "rule,A,gregorian,,FREQ=DAILY,", "rule,A,gregorian,,FREQ=DAILY", "rule,A,gregorian,,FREQ=WEEKLY;BYDAY=MO,TU,2024-01-01",
  ]) {
    assert.throws(() => readBook(text), { cause: "InvalidRecord" }, text);
  }
  for (const text of ["fixed,A,gregorian,M01,x,exact", "moon,A,gregorian,M01,1,exact", "fixed,A,gregorian,M01", "fixed,A,gregorian,M01,1,exact,,,,friday+9"]) {
    assert.throws(() => readBook(text), { cause: "InvalidRecord" });
  }
  assert.throws(() => readBook("fixed,A,martian,M01,1,exact"), { cause: "UnknownCalendar" });
});
