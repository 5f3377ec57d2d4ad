/** Dates and durations in words: by the browser in the visitor's language, where it has the calendar, and else in English. */
import { eraName, isComputed, monthName } from "./names.mjs";

/** @typedef {import("./icu_calendar.mjs").CalendarDate} CalendarDate @typedef {import("./icu_calendar.mjs").Calendars} Calendars */

export const WEEKDAYS = ["Monday", "Tuesday", "Wednesday", "Thursday", "Friday", "Saturday", "Sunday"];

// The day number of 1970-01-01, and how many days from there a browser's `Date` holds.
export const EPOCH = 719163;
const HELD = 100_000_000;
/** Names of CLDR that differ from ours, and calendars that it doesn't have. Of `iso8601` browsers write no month. @type {Record<string, string | null>} */
const CLDR = { iso: "gregory", gregorian: "gregory", julian: null, "islamic-simulated": null, "islamic-type1-friday": null, "islamic-type1-thursday": null };

const STEMS = { chinese: "jia yi bing ding wu ji geng xin ren gui".split(" "), dangi: "gap eul byeong jeong mu gi gyeong sin im gye".split(" ") };
const BRANCHES = {
  chinese: "zi chou yin mao chen si wu wei shen you xu hai".split(" "),
  dangi: "ja chuk in myo jin sa o mi sin yu sul hae".split(" "),
};
const ANIMALS = "Rat Ox Tiger Rabbit Dragon Snake Horse Goat Monkey Rooster Dog Pig".split(" ");

/** The name of a year of the cycle of sixty by stem and branch: `jia-chen (Dragon)`. @param {"chinese" | "dangi"} calendar @param {number} year from 1 */
export function cyclicName(calendar, year) {
  const [stem, branch] = [(year - 1) % 10, (year - 1) % 12];
  return `${STEMS[calendar][stem]}-${BRANCHES[calendar][branch]} (${ANIMALS[branch]})`;
}

/** A date in English, without its weekday. @param {Calendars} calendars @param {CalendarDate} date */
export function inEnglish(calendars, date) {
  const { calendar, era, cyclicYear } = date;
  // Only Hebrew months have names that depend on their year.
  const count = calendar === "hebrew" ? calendars.monthsInYear(calendar, date.extendedYear, date.years) : 0;
  const month = monthName(calendar, date.monthCode, count);
  if (cyclicYear) return `${date.day} ${month} ${date.extendedYear}, ${cyclicName(calendar, cyclicYear)}`;
  return era === null || era === "default" ? `${date.day} ${month} ${date.extendedYear}` : `${date.day} ${month} ${date.eraYear} ${eraName(calendar, era)}`;
}

/** A duration in English: `1 year 2 days`. @param {import("./icu_calendar.mjs").Duration} duration */
function durationInEnglish(duration) {
  const parts = ["years", "months", "weeks", "days"].filter((unit) => duration[unit]);
  return parts.map((unit) => `${duration[unit]} ${duration[unit] === 1 ? unit.slice(0, -1) : unit}`).join(" ") || "0 days";
}

/** The words of a browser in a language. Nothing is set up before it is needed, since a formatter takes milliseconds. */
export class Words {
  /** @type {Map<string, { full: Intl.DateTimeFormat, plain: Intl.DateTimeFormat } | null>} */
  #formats = new Map();
  #weekdays;

  /** @param {string} language */
  constructor(language) {
    this.language = language;
    this.isEnglish = /^en\b/.test(language);
  }

  /** Sets up the words of a calendar. @param {string} calendar */
  prepare(calendar) {
    const name = CLDR[calendar] === undefined ? calendar : CLDR[calendar];
    this.#formats.set(calendar, name && this.#formatsOf(name));
  }

  #formatsOf(calendar) {
    const options = /** @type {const} */ ({ calendar, timeZone: "UTC" });
    const full = new Intl.DateTimeFormat(this.language, { ...options, dateStyle: "long" });
    const plain = new Intl.DateTimeFormat("en-u-nu-latn", { ...options, year: "numeric", month: "numeric", day: "numeric" });
    return full.resolvedOptions().calendar === calendar ? { full, plain } : null;
  }

  /**
   * A date in the visitor's language, or null if the browser doesn't have the calendar, or another date for the day.
   * @param {CalendarDate} date
   */
  date(date) {
    const formats = this.#formats.get(date.calendar);
    const days = date.dayNumber - EPOCH;
    // Past the published years, browsers take long to find Chinese months.
    const isSlow = date.cyclicYear !== null && isComputed(date.calendar, date.extendedYear);
    if (!formats || isSlow || Math.abs(days) > HELD) return null;
    const moment = new Date(days * 86_400_000);
    const parts = Object.fromEntries(formats.plain.formatToParts(moment).map(({ type, value }) => [type, value]));
    const years = [date.extendedYear, date.eraYear];
    const isSameMonth = date.cyclicYear === null || parts.month === `${date.monthNumber}${date.monthIsLeap ? "bis" : ""}`;
    const isSame = Number(parts.day) === date.day && years.includes(Number(parts.relatedYear ?? parts.year)) && isSameMonth;
    const text = isSame ? formats.full.format(moment) : null;
    // Where a language has no names for the calendar's months, the browser writes their codes.
    return text && !/\bM\d\d/.test(text) ? text : null;
  }

  /** The name of a day of the week. @param {CalendarDate} date */
  weekday({ weekday }) {
    if (this.isEnglish) return WEEKDAYS[weekday - 1];
    this.#weekdays ??= new Intl.DateTimeFormat(this.language, { weekday: "long", timeZone: "UTC" });
    // 1970-01-05 was a Monday.
    return this.#weekdays.format(new Date((3 + weekday) * 86_400_000));
  }

  /** A duration in words. @param {import("./icu_calendar.mjs").Duration} duration */
  duration(duration) {
    const { years, months, weeks, days, isNegative } = duration;
    if (this.isEnglish || !("DurationFormat" in Intl)) return `${durationInEnglish(duration)}${isNegative ? " back" : ""}`;
    const sign = isNegative ? -1 : 1;
    const signed = Object.fromEntries(Object.entries({ years, months, weeks, days }).filter(([, it]) => it).map(([unit, it]) => [unit, sign * it]));
    return new Intl.DurationFormat(this.language, { style: "long", ...(Object.keys(signed).length ? {} : { daysDisplay: "always" }) }).format(signed);
  }
}
