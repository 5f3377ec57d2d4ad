// The cases of the program, line by line through the module, and the calls on dates against the same answers.
import assert from "node:assert/strict";
import { readFileSync, readdirSync } from "node:fs";
import test from "node:test";
import { fileURLToPath } from "node:url";

import { load } from "../icu_calendar.mjs";
import { CAUSES, fieldsOf, written } from "./forms.mjs";

const top = new URL("../../../", import.meta.url);
const module = process.env.ICU_CALENDAR_MODULE ?? fileURLToPath(new URL("bindings/web/icu_calendar.wasm", top));
const calendars = await load(readFileSync(module));
const names = readdirSync(new URL("cases/", top)).filter((name) => name.endsWith(".in"));

/** The lines of a file, each without its line feed. */
function lines(bytes) {
  const found = [];
  for (let at = 0; at < bytes.length; ) {
    const feed = bytes.indexOf(10, at);
    const end = feed < 0 ? bytes.length : feed;
    found.push(bytes.subarray(at, end));
    at = end + 1;
  }
  return found;
}

for (const name of names) {
  test(`each line of ${name} has its answer`, () => {
    const input = readFileSync(new URL(`cases/${name}`, top));
    const wanted = readFileSync(new URL(`cases/${name.replace(/\.in$/, ".out")}`, top), "utf8");
    const answers = lines(input).map((line, place) => calendars.answer(line, place + 1).text);
    assert.equal(answers.join(""), wanted);
  });
}

const none = (word) => (word === "none" ? "default" : word);

/** The answer to a request, put together from the calls on dates. */
function spanned(line) {
  const [, calendar, shown, unit, overflow, missing, , ...rest] = line.split(" ");
  const to = rest.indexOf("to");
  const dates = [];
  for (const [side, words] of [["from", rest.slice(0, to)], ["to", rest.slice(to + 1)]]) {
    try {
      dates.push(calendars.dateOfFields(fieldsOf(calendar, words), { years: "computed", overflow: none(overflow), missing: none(missing) }));
    } catch (error) {
      const cause = CAUSES[error.cause] ?? error.cause;
      return `err ${side} ${cause}${error.max ? ` ${error.max}` : ""}`;
    }
  }
  const shownDates = dates.flatMap((date) => [date, date.toCalendar(shown)]);
  return `ok ${shownDates.map(written).join(" ")} ${dates[0].until(dates[1], { largestUnit: none(unit) })}`;
}

for (const name of names.filter((it) => it !== "grammar.in")) {
  test(`the calls on dates agree with ${name}`, () => {
    const requests = readFileSync(new URL(`cases/${name}`, top), "utf8").split("\n").map((line) => line.replace(/\r$/, ""));
    const wanted = readFileSync(new URL(`cases/${name.replace(/\.in$/, ".out")}`, top), "utf8").split("\n");
    requests.forEach((line, place) => {
      // An era or a month code without a character isn't given, where the program refuses it.
      const isAsked = line && !wanted[place].startsWith("err line") && !/(month-code|era)=( |$)/.test(line);
      if (isAsked) assert.equal(spanned(line), wanted[place], line);
    });
  });
}
