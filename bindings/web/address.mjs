/** Dates as texts: in the page's address, and pasted or typed by a person. */
import { CALENDARS } from "./icu_calendar.mjs";
import { plainDate } from "./lists.mjs";

/** @typedef {import("./icu_calendar.mjs").CalendarDate} CalendarDate */

const WITH_CODE = /^([+-]?\d{1,7})-M(\d\d)(L?)-(\d{1,2})$/;
const WITH_NUMBER = /^([+-]?\d{1,7})-(\d{1,2})-(\d{1,2})$|^(\d{4})(\d\d)(\d\d)$/;
/** Names of CLDR that differ from ours. @type {Record<string, string>} */
const OTHER_NAMES = { iso8601: "iso", gregory: "gregorian" };

/**
 * Returns the fields that a text names, or null. `5784-M05L-10` is a date of the calendar given, `2024-02-19` of the ISO calendar, and
 * `hebrew/5784-M05L-10` of the calendar named. A time behind a date is ignored. `[u-ca=hebrew]` names the calendar to show the date in.
 * @param {string} text @param {string} calendar
 * @returns {{ calendar: string, year: number, monthCode: string, day: number, shownIn: string } | null}
 */
export function fieldsOfText(text, calendar) {
  const [, name, annotated, shown] = /^(?:([a-z0-9-]+)\/)?([^[/]*)(?:\[!?u-ca=([a-z0-9-]+)\])?$/.exec(text.trim()) ?? [];
  const plain = annotated?.replace(/T.*$/, "").replace(/^\u2212/, "-").trim() ?? "";
  const named = name && (OTHER_NAMES[name] ?? name);
  const shownIn = (shown && (OTHER_NAMES[shown] ?? shown)) ?? named ?? calendar;
  if ([shownIn, named ?? "iso"].some((it) => !CALENDARS.includes(it))) return null;
  const coded = WITH_CODE.exec(plain);
  if (coded) return { calendar: named ?? calendar, year: Number(coded[1]), monthCode: `M${coded[2]}${coded[3]}`, day: Number(coded[4]), shownIn };
  const numbers = WITH_NUMBER.exec(plain)?.filter((it) => it !== undefined);
  if (!numbers) return null;
  return { calendar: named ?? "iso", year: Number(numbers[1]), monthCode: `M${numbers[2].padStart(2, "0")}`, day: Number(numbers[3]), shownIn };
}

/** Returns the part of the address that keeps dates, such as `#hebrew/5784-M05L-10`. @param {CalendarDate[]} dates */
export function addressOf(dates) {
  return `#${dates.map((it) => `${it.calendar}/${plainDate(it)}`).join("&")}`;
}

/** Returns the fields that an address keeps, one or two dates of them. @param {string} address */
export function fieldsOfAddress(address) {
  return address.replace(/^#/, "").split("&").slice(0, 2).map((it) => (it.includes("/") ? fieldsOfText(it, "iso") : null));
}
