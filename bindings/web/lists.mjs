/** Lists of dates as a file for other calendars' programs (iCalendar, RFC 5545). */

/** @typedef {import("./icu_calendar.mjs").CalendarDate} CalendarDate */

/** A text as a value of iCalendar: backslashes, semicolons, commas and line ends are escaped. @param {string} text */
function escaped(text) {
  return text.replace(/[\\;,]/g, "\\$&").replace(/\n/g, "\\n");
}

/** A line folded to at most 75 bytes each, as RFC 5545 asks, and never within a character. @param {string} line */
function folded(line) {
  const lines = [""];
  let length = 0;
  for (const character of line) {
    const size = new TextEncoder().encode(character).length;
    if (length + size > 75) {
      lines.push(" ");
      length = 1;
    }
    lines[lines.length - 1] += character;
    length += size;
  }
  return lines.join("\r\n");
}

/** A date as the address and the copied text write it: `5784-M05L-10`. @param {CalendarDate} date */
export function plainDate({ calendar, extendedYear, monthCode, day }) {
  const year = `${extendedYear < 0 ? "-" : ""}${String(Math.abs(extendedYear)).padStart(4, "0")}`;
  const month = calendar === "iso" ? monthCode.slice(1) : monthCode;
  return `${year}-${month}-${String(day).padStart(2, "0")}`;
}

/** A moment as iCalendar writes it in UTC. @param {Date} moment */
function stamp(moment) {
  return moment.toISOString().replace(/[-:]|\.\d+/g, "");
}

/**
 * Returns an iCalendar file with an event for each date that lies in the years 1 to 9999. An event lasts its day and takes up no time. Its UID is
 * made from the list's name and the day, and counts the events of a day, so that a file saved again changes events and doesn't double them.
 * @param {string} name of the list: letters, digits, `-` and `/` @param {readonly { date: CalendarDate, summary: string }[]} events @param {Date} moment
 */
export function iCalendar(name, events, moment = new Date()) {
  /** How many events a day has so far. @type {Map<string, number>} */
  const counts = new Map();
  const lines = ["BEGIN:VCALENDAR", "VERSION:2.0", "PRODID:-//calspan//A date in twenty calendars//EN", "CALSCALE:GREGORIAN"];
  for (const { date, summary } of events) {
    const iso = date.toCalendar("iso");
    if (iso.extendedYear < 1 || iso.extendedYear > 9999) continue;
    const day = plainDate(iso).replaceAll("-", "");
    const count = counts.get(day) ?? 0;
    counts.set(day, count + 1);
    lines.push(
      "BEGIN:VEVENT", `UID:${name}/${day}${count ? `-${count + 1}` : ""}@calspan.invalid`, `DTSTAMP:${stamp(moment)}`, `DTSTART;VALUE=DATE:${day}`, "TRANSP:TRANSPARENT",
      `SUMMARY:${escaped(summary)}`, "END:VEVENT",
    );
  }
  return `${[...lines, "END:VCALENDAR"].map(folded).join("\r\n")}\r\n`;
}
