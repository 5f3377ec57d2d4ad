/**
 * Holidays by books: CSV texts with the name and the rule of one holiday in each record, as `books/README.md` and the manual describe them.
 * Each date comes from the module's calls; what is computed here is the weekday, the move off it, and the order. The module reads recurrence rules.
 */
import { CALENDARS, CalendarError, FIRST_DAY, LAST_DAY } from "./icu_calendar.mjs";
import { WEEKDAYS } from "./words.mjs";

/**
 * @typedef {import("./icu_calendar.mjs").CalendarDate} CalendarDate @typedef {import("./icu_calendar.mjs").Calendars} Calendars
 * @typedef {import("./icu_calendar.mjs").CalendarName} CalendarName @typedef {import("./icu_calendar.mjs").Years} Years
 *
 * @typedef {object} HolidayRecord
 * @property {"fixed" | "easter" | "weekday" | "span" | "rule"} kind
 * @property {string} name
 * @property {CalendarName} calendar
 * @property {string} monthCode
 * @property {number} value the day of the month, the days after Easter, or which of the weekdays of the month; 0 for a recurrence rule
 * @property {string} last whether a day that doesn't exist is clamped, a weekday, or the ISO date on which a recurrence rule starts
 * @property {string} rule the text of a recurrence rule, and else an empty one
 * @property {number} since the first year @property {number} until the last one @property {number} every
 * @property {ReadonlyMap<number, number>} moved by how many days a holiday moves off a weekday
 */

const RULE_KINDS = new Set(["fixed", "easter", "weekday", "span", "rule"]);
// Why a year may lack the day of a rule.
const LACKS_DAY = new Set(["MonthNotInYear", "InvalidDay", "OutOfRange"]);
// A rule's day lies at most so many days from the dates of its year: 400 days from Easter, six from a weekday, six moved.
const REACH = 420;
// The most days by which a holiday moves.
const MOST_MOVED = 6;

/** From 1 for Monday to 7 for Sunday. @param {number} day */
function weekdayOf(day) {
  return ((((day - 1) % 7) + 7) % 7) + 1;
}

/** The number of a weekday by its name. @param {string} name */
function weekdayNamed(name) {
  const place = WEEKDAYS.findIndex((it) => it.toLowerCase() === name);
  if (place < 0) throw new CalendarError(104);
  return place + 1;
}

/** A whole number, or another value for an empty text. @param {string} text @param {number} otherwise */
function numberOf(text, otherwise) {
  if (text === "" && !Number.isNaN(otherwise)) return otherwise;
  if (!/^[+-]?\d{1,6}$/.test(text)) throw new CalendarError(104);
  return Number(text);
}

/** The fields of the records of a CSV text. Blank lines are no records. @param {string} text @returns {string[][]} */
function fieldsOf(text) {
  const records = [[]];
  for (const [, quoted, plain, end] of text.replace(/^\uFEFF/, "").matchAll(/(?:"((?:[^"]|"")*)"|([^,\r\n]*))(,|[\r\n]+|$)/g)) {
    records.at(-1).push(quoted === undefined ? plain : quoted.replaceAll('""', '"'));
    if (end !== ",") records.push([]);
  }
  return records.filter((it) => it.length > 1);
}

/** By how many days a holiday moves off weekdays: words such as `saturday-1`. @param {string} text */
function movesOf(text) {
  const words = text ? text.split(" ").map((word) => /^([a-z]+)([+-][0-6])$/.exec(word) ?? []) : [];
  return new Map(words.map(([, name, days]) => [weekdayNamed(name), Number(days)]));
}

/** Whether a text is an ISO date with four digits of the year. @param {string} text */
function isDate(text) {
  const date = new Date(`${text}T00:00Z`);
  return /^\d{4}-\d\d-\d\d$/.test(text) && !Number.isNaN(date.getTime()) && date.toISOString().startsWith(text);
}

/**
 * Reads the records of a book. Throws a `CalendarError` for one that is invalid. Month codes and recurrence rules are read when days are asked for.
 * @param {string} text @returns {HolidayRecord[]}
 */
export function readBook(text) {
  return fieldsOf(text).map(([kind, name, calendar, month, value, last, since = "", until = "", every = "", moved = ""]) => {
    if (!RULE_KINDS.has(kind) || last === undefined) throw new CalendarError(104);
    if (!CALENDARS.includes(calendar)) throw new CalendarError(1);
    const isRule = kind === "rule";
    if (isRule && (month !== "" || !isDate(last))) throw new CalendarError(104);
    return {
      kind, name, calendar, monthCode: month, value: isRule ? 0 : numberOf(value, Number.NaN), last, rule: isRule ? value : "",
      since: numberOf(since, -Infinity), until: numberOf(until, Infinity), every: numberOf(every, 1), moved: movesOf(moved),
    };
  });
}

/** The day of a record's rule in a year, before it moves, or null. @param {Calendars} calendars @param {HolidayRecord} record @param {number} year @param {Years} years */
function ownDay(calendars, { kind, calendar, monthCode, value, last }, year, years) {
  /** @param {number} day @param {import("./icu_calendar.mjs").Overflow} [overflow] */
  const dayOf = (day, overflow = "reject") => calendars.dateOrNull({ calendar, year, monthCode, day }, years, overflow, LACKS_DAY)?.dayNumber ?? null;
  if (kind === "easter") return calendars.easter(year, calendar).dayNumber + value;
  if (kind === "fixed") return dayOf(value, last === "constrain" ? "constrain" : "reject");
  if (kind === "span") {
    const [day, weekday] = [dayOf(value), weekdayNamed(last.replace("-", ""))];
    if (day === null) return null;
    return last.startsWith("-") ? day - ((weekdayOf(day) - weekday + 7) % 7) : day + ((weekday - weekdayOf(day) + 7) % 7);
  }
  const [first, weekday] = [dayOf(1), weekdayNamed(last)];
  if (first === null) return null;
  const length = dayOf(31, "constrain") - first + 1;
  const begin = (weekday - weekdayOf(first) + 7) % 7;
  const place = value < 0 ? begin + 7 * Math.floor((length - 1 - begin) / 7) : begin + 7 * (value - 1);
  return place < length ? first + place : null;
}

/** Whether a record's rule is kept in a year. @param {HolidayRecord} record @param {number} year */
function isKept({ since, until, every }, year) {
  return since <= year && year <= until && (year - Math.max(since, -1e9)) % every === 0;
}

/**
 * Yields the days, before they move, of a rule with at most one in each year.
 * @param {Calendars} calendars @param {HolidayRecord} record @param {number} first @param {number} last @param {Years} years @returns {Generator<number>}
 */
function* yearlyDays(calendars, record, first, last, years) {
  const [low, high] = [first, last].map((day) => calendars.dateOfDay(day, record.calendar, years).extendedYear);
  for (let year = Math.max(low, record.since); year <= Math.min(high, record.until); year += 1) {
    const own = isKept(record, year) ? ownDay(calendars, record, year, years) : null;
    if (own !== null && FIRST_DAY <= own && own <= LAST_DAY) yield own;
  }
}

/**
 * Yields the days of a recurrence rule, before they move. Throws a `RuleError` for a text that is none.
 * @param {Calendars} calendars @param {HolidayRecord} record @param {number} first @param {number} last @param {Years} years @returns {Generator<number>}
 */
function* repeatedDays(calendars, record, first, last, years) {
  const [year, month, day] = record.last.split("-").map(Number);
  const start = calendars.dateOfFields({ calendar: "iso", year, month, day }).toCalendar(record.calendar, years);
  for (const { date } of calendars.rrule(start, { rule: record.rule, first, last })) {
    if (isKept(record, date.extendedYear)) yield date.dayNumber;
  }
}

/** The days that a record names from one day to another. @param {Calendars} calendars @param {HolidayRecord} record @param {number} first @param {number} last @param {Years} years */
function daysOf(calendars, record, first, last, years) {
  const [ownDays, reach] = record.kind === "rule" ? [repeatedDays, MOST_MOVED] : [yearlyDays, REACH];
  const [low, high] = [Math.max(first - reach, FIRST_DAY), Math.min(last + reach, LAST_DAY)];
  const days = new Set();
  for (const own of ownDays(calendars, record, low, high, years)) {
    const day = own + (record.moved.get(weekdayOf(own)) ?? 0);
    if (first <= day && day <= last) days.add(day);
  }
  return [...days];
}

/**
 * Returns the holidays of a book from day number `first` to `last`, in order of the days, and on one day in the order of the book.
 * @param {Calendars} calendars @param {readonly HolidayRecord[]} book @param {{ first: number, last: number, years?: Years }} window
 * @returns {{ date: CalendarDate, name: string }[]} dates of the ISO calendar
 */
export function holidays(calendars, book, { first, last, years = "published" }) {
  const found = book.flatMap((record, place) => daysOf(calendars, record, first, last, years).map((day) => ({ day, place, name: record.name })));
  found.sort((a, b) => a.day - b.day || a.place - b.place);
  return found.map(({ day, name }) => ({ date: calendars.dateOfDay(day), name }));
}

/** The name of a country or state for people, by the name of its book: `Germany: Bavaria`. @param {string} key @param {readonly string[]} keys */
export function placeName(key, keys) {
  const own = { turkiye: "Türkiye", "germany-baden-wuerttemberg": "Germany: Baden-Württemberg", "germany-mecklenburg-vorpommern": "Germany: Mecklenburg-Vorpommern" };
  if (own[key]) return own[key];
  const words = (text) => text.split("-").map((it) => (it === "and" ? it : it[0].toUpperCase() + it.slice(1))).join(" ");
  const country = [...keys, "australia"].find((it) => key.startsWith(`${it}-`));
  return country ? `${words(country)}: ${words(key.slice(country.length + 1))}` : words(key);
}

/** The text of a place's book: that of its country comes first. @param {Readonly<Record<string, string>>} books @param {string} key */
export function bookOf(books, key) {
  const joined = Object.keys(books).filter((it) => key === it || key.startsWith(`${it}-`));
  return joined.sort((a, b) => a.length - b.length).map((it) => books[it]).join("");
}
