// The page: a date in any calendar, shown in all; differences; anniversaries, recurrences and holidays; all of it kept in the address.
import { addressOf, fieldsOfAddress, fieldsOfText } from "./address.mjs";
import { bookOf, holidays, placeName, readBook } from "./holidays.mjs";
import { CALENDARS, CalendarError, LAST_DAY, RuleError } from "./icu_calendar.mjs";
import { iCalendar, plainDate } from "./lists.mjs";
import { CALENDAR_NAMES, isComputed, monthName } from "./names.mjs";
import { EPOCH, Words, inEnglish } from "./words.mjs";

const LARGEST_UNITS = ["years", "months", "weeks", "days"];
const ORDER = Object.keys(CALENDAR_NAMES).filter((it) => CALENDARS.includes(it));
/** The field that each cause of an error is about. */
const FIELD_OF = { InvalidDay: "day", MonthNotInYear: "month", MonthNotInCalendar: "month", OutOfRange: "year", InvalidOrdinalMonth: "month" };
// How many anniversaries are listed, and within how many days.
const ANNIVERSARIES = 20;
const ANNIVERSARY_DAYS = 220_000;
const UNIT_DAYS = { years: 366, months: 30, weeks: 7, days: 1 };
const MOST_RECURRENCES = 200;
// How many days a recurrence rule is looked for: longer than any interval that a person waits for.
const RULE_DAYS = 150_000;

const element = (id) => document.getElementById(id);

/** An element with attributes and children. */
function made(tag, attributes = {}, ...children) {
  const it = document.createElement(tag);
  for (const [name, value] of Object.entries(attributes)) it.setAttribute(name, value);
  it.append(...children);
  return it;
}

/** A date for people: in the visitor's language where the browser has the calendar. */
function shown(calendars, words, date) {
  const local = words.date(date);
  return local === null ? made("bdi", { lang: "en" }, inEnglish(calendars, date)) : made("bdi", { lang: words.language }, local);
}

/** Marks a field as invalid, or as valid. */
function mark(id, isValid) {
  if (isValid) element(id).removeAttribute("aria-invalid");
  else element(id).setAttribute("aria-invalid", "true");
}

/** Says something to people who don't see the page change. */
function say(text) {
  element("said").textContent = text;
}

/** Copies a text. */
async function copy(text) {
  try {
    await navigator.clipboard.writeText(text);
    say(`Copied: ${text}`);
  } catch {
    say(`The browser doesn't allow copying. The text is ${text}`);
  }
}

/** The fields of a date, with what is wrong with them beside them. */
class DateForm {
  constructor(calendars, side) {
    this.calendars = calendars;
    this.side = side;
    this.fields = Object.fromEntries(["calendar", "year", "month", "day"].map((it) => [it, element(`${side}-${it}`)]));
    this.error = element(`${side}-error`);
    this.nearest = element(`${side}-nearest`);
    this.fields.calendar.append(...ORDER.map((it) => made("option", { value: it }, CALENDAR_NAMES[it])));
  }

  /** Puts a date into the fields. */
  set(date) {
    this.fields.calendar.value = date.calendar;
    this.fields.year.value = date.extendedYear;
    this.listMonths();
    this.fields.month.value = date.monthCode;
    this.fields.day.value = date.day;
  }

  /** Puts fields of a text into the form, the nearest date where they name none. Returns whether there is any. */
  setFields({ shownIn, ...given }) {
    const date = this.calendars.dateOrNull(given, "published", "constrain");
    if (!date) return false;
    this.set(date.toCalendar(shownIn));
    if (date.day !== given.day || date.monthCode !== given.monthCode) {
      say(`${CALENDAR_NAMES[given.calendar]} ${given.year}-${given.monthCode}-${given.day} doesn't exist; this is the nearest date.`);
    }
    return true;
  }

  get year() {
    const text = this.fields.year.value.trim();
    return /^-?\d{1,7}$/.test(text) ? Number(text) : Number.NaN;
  }

  get day() {
    const text = this.fields.day.value.trim();
    return /^\d{1,3}$/.test(text) ? Number(text) : Number.NaN;
  }

  /** Lists the months that the year has, and keeps the chosen one where it is among them. */
  listMonths() {
    const { calendar, month } = this.fields;
    const chosen = month.value;
    try {
      const count = this.calendars.monthsInYear(calendar.value, this.year);
      const options = [];
      for (let place = 1; place <= count; place += 1) {
        const code = this.calendars.dateOfFields({ calendar: calendar.value, year: this.year, ordinalMonth: place, day: 1 }).monthCode;
        options.push(made("option", { value: code }, `${code} ${monthName(calendar.value, code, count)}`));
      }
      month.replaceChildren(...options);
      const codes = options.map((it) => it.value);
      month.value = codes.includes(chosen) ? chosen : codes.includes(chosen.replace("L", "")) ? chosen.replace("L", "") : codes[0];
      if (chosen && month.value !== chosen) say(`${this.year} has no month ${chosen}; ${month.value} is chosen.`);
    } catch (error) {
      if (!(error instanceof CalendarError)) throw error;
    }
  }

  /** The date, or null with the error beside its field. */
  read() {
    const { calendar, month } = this.fields;
    for (const field of Object.values(this.fields)) field.removeAttribute("aria-invalid");
    this.error.textContent = "";
    this.nearest.hidden = true;
    try {
      return this.calendars.dateOfFields({ calendar: calendar.value, year: this.year, monthCode: month.value, day: this.day });
    } catch (error) {
      if (!(error instanceof CalendarError)) throw error;
      this.#explain(error);
      return null;
    }
  }

  /** Says in words why the fields name no date, and offers the nearest one. */
  #explain(error) {
    const isYear = Number.isNaN(this.year);
    const field = isYear ? "year" : Number.isNaN(this.day) ? "day" : (FIELD_OF[error.cause] ?? "year");
    this.fields[field].setAttribute("aria-invalid", "true");
    const label = field[0].toUpperCase() + field.slice(1);
    const { calendar, month } = this.fields;
    if (isYear || Number.isNaN(this.day)) {
      this.error.textContent = `${label}: This isn't a whole number in range.`;
      return;
    }
    const near = this.calendars.dateOrNull({ calendar: calendar.value, year: this.year, monthCode: month.value, day: this.day || 1 }, "published", "constrain");
    if (!near) {
      this.error.textContent = `${label}: ${error.message}`;
      return;
    }
    const name = monthName(near.calendar, near.monthCode, this.calendars.monthsInYear(near.calendar, near.extendedYear));
    this.error.textContent = error.max ? `Day: ${name} ${near.extendedYear} has ${error.max} days.` : `${label}: ${error.message}`;
    this.nearest.textContent = `Use ${inEnglish(this.calendars, near)}`;
    this.nearest.hidden = false;
    this.nearest.onclick = () => {
      this.set(near);
      this.fields.day.focus();
      this.fields.day.dispatchEvent(new Event("input", { bubbles: true }));
    };
  }
}

/** One calendar's row: the date in words and as a text, and a button that copies it. */
function row(calendars, words, date, isChosen) {
  const { calendar } = date;
  const text = plainDate(date);
  const note = isComputed(calendar, date.extendedYear) ? [made("small", {}, "computed year: may begin a day or a month off")] : [];
  const button = made("button", { type: "button", "data-copy": text, "aria-label": `Copy the ${CALENDAR_NAMES[calendar]} date` }, "Copy");
  return made(
    "tr", { "data-calendar": calendar, "data-date": `${date}`, ...(isChosen ? { "aria-current": "true" } : {}) },
    made("th", { scope: "row" }, CALENDAR_NAMES[calendar]), made("td", {}, shown(calendars, words, date), made("code", {}, text), ...note), made("td", {}, button),
  );
}

/** What the page shows of dates. */
class Shown {
  constructor(calendars, words) {
    this.calendars = calendars;
    this.words = words;
    /** The lists, as files are made of them. */
    this.files = { anniversaries: null, recurrences: null, holidays: null };
    /** The texts of the countries' books, by their names. @type {Record<string, string>} */
    this.books = {};
  }

  everywhere(date) {
    const rows = ORDER.map((calendar) => row(this.calendars, this.words, date.toCalendar(calendar), calendar === date.calendar));
    element("shown").replaceChildren(...rows);
    const { year, week } = date.weekOfYear();
    element("weekday").textContent = `${this.words.weekday(date)}, week ${week} of ${year}, day number ${date.dayNumber}`;
  }

  differences(first, second) {
    const rows = LARGEST_UNITS.map((unit) => {
      const duration = first.until(second, { largestUnit: unit });
      const text = made("bdi", { lang: this.words.language }, this.words.duration(duration));
      return made("tr", {}, made("th", { scope: "row" }, `in ${unit}`), made("td", {}, text, made("code", {}, `${duration}`)));
    });
    element("differences").replaceChildren(...rows);
  }

  /** Lists dates with what they are called, and keeps them for the file. */
  #listEvents(id, name, events, none) {
    const items = events.map(({ date, title, summary }) => {
      return made("li", {}, title ?? made("bdi", { lang: "en" }, summary), `: ${this.words.weekday(date)}, `, made("code", {}, plainDate(date.toCalendar("iso"))));
    });
    element(id).replaceChildren(...(items.length ? items : [made("li", {}, none)]));
    element(`${id}-save`).disabled = !items.length;
    this.files[id] = { name, events };
  }

  /** Lists dates, each by itself. */
  #list(id, name, about, dates) {
    const events = dates.map((date) => ({
      date, title: shown(this.calendars, this.words, date), summary: `${about}: ${inEnglish(this.calendars, date)}`,
    }));
    this.#listEvents(id, name, events, "None in the years that the calendar has.");
  }

  /** The public holidays of the chosen place in the chosen year. */
  holidays() {
    const [place, text] = [element("holiday-place").value, element("holiday-year").value.trim()];
    const year = /^\d{1,4}$/.test(text) ? Number(text) : Number.NaN;
    const isValid = year >= 1;
    element("holiday-error").textContent = isValid ? "" : "Year: This isn't a year from 1 to 9999.";
    mark("holiday-year", isValid);
    if (!isValid || !place) {
      element("holidays").replaceChildren();
      element("holidays-save").disabled = true;
      return;
    }
    const [first, last] = [[1, 1], [12, 31]].map(([month, day]) => this.calendars.dateOfFields({ calendar: "iso", year, month, day }).dayNumber);
    const found = holidays(this.calendars, readBook(bookOf(this.books, place)), { first, last });
    this.#listEvents("holidays", `holidays/${place}`, found.map(({ date, name }) => ({ date, summary: name })), "The book has no holiday of this year.");
  }

  /** Takes the countries' books, and lists their names. */
  takeBooks(books) {
    this.books = books;
    const keys = Object.keys(books);
    const named = keys.map((key) => [placeName(key, keys), key]).sort(([a], [b]) => a.localeCompare(b, "en"));
    element("holiday-place").append(...named.map(([name, key]) => made("option", { value: key }, name)));
    element("about-holidays").hidden = false;
  }

  /** The anniversaries of the date in the calendar that is chosen for them. */
  anniversaries(date) {
    const calendar = element("anniversary-calendar").value || date.calendar;
    const there = date.toCalendar(calendar);
    const { monthCode, day, dayNumber } = there;
    const window = { first: Math.min(dayNumber + 1, LAST_DAY), last: Math.min(dayNumber + ANNIVERSARY_DAYS, LAST_DAY), overflow: element("anniversary-overflow").value };
    const found = [];
    for (const it of this.calendars.anniversaries({ calendar, monthCode, day }, window)) {
      if (it.extendedYear > there.extendedYear && found.push(it) === ANNIVERSARIES) break;
    }
    this.#list("anniversaries", `anniversary/${calendar}/${plainDate(there)}`, `Anniversary (${CALENDAR_NAMES[calendar]})`, found);
  }

  /** The dates that the rule's text asks for or, without one, the small form. */
  recurrences(date) {
    const [every, count] = ["recurrence-every", "recurrence-count"].map((id) => Number(element(id).value));
    const isCount = Number.isInteger(count) && count >= 1 && count <= MOST_RECURRENCES;
    const isEvery = Number.isInteger(every) && every >= 1 && every <= 9999;
    const isValid = isCount && isEvery;
    mark("recurrence-count", isCount);
    mark("recurrence-every", isEvery);
    element("recurrence-error").textContent = isValid ? "" : `Numbers are whole: from 1 to 9999 units, and from 1 to ${MOST_RECURRENCES} times.`;
    mark("rule-text", true);
    const rule = element("rule-text").value.trim().replace(/^RRULE:/i, "");
    if (rule) this.#byRule(date, rule, isCount ? count : 0);
    else this.#byForm(date, every, isValid ? count : 0);
  }

  #byForm(date, every, count) {
    const [unit, overflow] = ["recurrence-unit", "recurrence-overflow"].map((id) => element(id).value);
    const last = Math.min(LAST_DAY, date.dayNumber + UNIT_DAYS[unit] * every * (count + 2) * 20);
    const found = count ? taken(this.calendars.recurrences(date, { first: date.dayNumber, last, unit, every, overflow }), count) : [];
    const name = `recurrence/${date.calendar}/${plainDate(date)}/${every}-${unit}`;
    this.#list("recurrences", name, `Every ${every} ${unit} (${CALENDAR_NAMES[date.calendar]})`, found);
  }

  /** Lists by a rule, or says what is wrong with it. */
  #byRule(date, rule, count) {
    let found = [];
    try {
      found = taken(this.calendars.rrule(date, { rule, last: Math.min(LAST_DAY, date.dayNumber + RULE_DAYS) }), count);
    } catch (error) {
      if (!(error instanceof RuleError)) throw error;
      mark("rule-text", false);
      element("recurrence-error").textContent = error.message;
    }
    const name = `rule/${date.calendar}/${plainDate(date)}/${rule.toUpperCase().replace(/[^A-Z0-9]+/g, "-")}`;
    this.#list("recurrences", name, `${rule.toUpperCase()} (${CALENDAR_NAMES[date.calendar]})`, found);
  }

  /** Saves a list as a file. */
  save(id) {
    const { name, events } = this.files[id];
    const address = URL.createObjectURL(new Blob([iCalendar(name, events)], { type: "text/calendar" }));
    made("a", { href: address, download: `${name.replaceAll("/", "-")}.ics` }).click();
    setTimeout(() => URL.revokeObjectURL(address), 1000);
    say("The file is saved.");
  }
}

/** The first dates of a list. */
function taken(occurrences, count) {
  const found = [];
  for (const { date } of occurrences) {
    if (found.length === count) break;
    found.push(date);
  }
  return found;
}

/** The day number of today, where the browser is. */
function todaysNumber() {
  const now = new Date();
  return EPOCH + Math.round(Date.UTC(now.getFullYear(), now.getMonth(), now.getDate()) / 86400000);
}

/** The page as a whole. */
class Page {
  #timer = 0;
  #lists = 0;
  /** Whether a person chose the year of the holidays. Otherwise it is that of the date. */
  #isYearChosen = false;
  /** Whether the second date was chosen, so that the address keeps it. */
  #isSecondChosen = false;

  constructor(calendars) {
    this.calendars = calendars;
    this.shown = new Shown(calendars, new Words(navigator.language || "en"));
    this.forms = ["first", "second"].map((side) => new DateForm(calendars, side));
    element("anniversary-calendar").append(...ORDER.map((it) => made("option", { value: it }, CALENDAR_NAMES[it])));
  }

  /** Shows the dates of the address, or today and a year from today: the first one now, and the second a moment later. */
  readAddress() {
    const [first, second] = this.forms;
    const [given, other] = fieldsOfAddress(location.hash);
    if (!given || !first.setFields(given)) first.set(this.calendars.dateOfDay(todaysNumber(), "gregorian"));
    const date = first.read();
    if (date) this.shown.everywhere(date);
    element("about-first").hidden = !date;
    return new Promise((settle) => {
      setTimeout(() => {
        this.#isSecondChosen = Boolean(other && second.setFields(other));
        if (!this.#isSecondChosen && date) second.set(this.calendars.dateOrNull({ ...bag(date), year: date.extendedYear + 1 }, "published", "constrain") ?? date);
        this.update();
        settle();
      });
    });
  }

  /** Keeps the dates in the address, a moment after the last change. */
  #keepAddress() {
    clearTimeout(this.#timer);
    this.#timer = setTimeout(() => {
      const dates = this.forms.slice(0, this.#isSecondChosen ? 2 : 1).map((it) => it.read());
      const address = dates.every(Boolean) ? addressOf(dates) : location.hash;
      if (address !== location.hash) history.pushState(null, "", address);
    }, 400);
  }

  update() {
    const [date, other] = this.forms.map((form) => form.read());
    element("about-first").hidden = !date;
    element("about-both").hidden = !(date && other);
    if (date) {
      this.shown.everywhere(date);
      // The lists wait until nobody types.
      clearTimeout(this.#lists);
      this.#lists = setTimeout(() => {
        this.shown.anniversaries(date);
        this.shown.recurrences(date);
        if (!this.#isYearChosen) element("holiday-year").value = date.toCalendar("iso").extendedYear;
        this.shown.holidays();
      }, 20);
    }
    if (date && other) this.shown.differences(date, other);
  }

  changed(form) {
    this.#isSecondChosen ||= form === this.forms[1];
    this.update();
    this.#keepAddress();
  }

  /** Takes a text as a date. Returns whether it is one. */
  take(form, text) {
    const fields = fieldsOfText(text, form.fields.calendar.value);
    if (!fields || !form.setFields(fields)) return false;
    this.changed(form);
    return true;
  }

  listen(form) {
    let last = form.read();
    for (const [name, field] of Object.entries(form.fields)) {
      field.addEventListener("input", () => {
        // Another calendar shows the same day; another year may have other months.
        if (name === "calendar" && last) form.set(last.toCalendar(field.value));
        else if (name !== "day") form.listMonths();
        last = form.read() ?? last;
        this.changed(form);
      });
      field.addEventListener("paste", (event) => {
        if (this.take(form, event.clipboardData?.getData("text") ?? "")) event.preventDefault();
        last = form.read() ?? last;
      });
    }
    element(`${form.side}-today`).addEventListener("click", () => {
      form.set(this.calendars.dateOfDay(todaysNumber(), form.fields.calendar.value));
      last = form.read();
      this.changed(form);
    });
    element(`${form.side}-text`).addEventListener("input", ({ target }) => {
      const isDate = target.value.trim() === "" || this.take(form, target.value);
      target.setAttribute("aria-invalid", String(!isDate));
      last = form.read() ?? last;
    });
    addEventListener("popstate", () => {
      last = form.read() ?? last;
    });
  }

  listenElsewhere() {
    for (const id of ["anniversary-calendar", "anniversary-overflow", "recurrence-every", "recurrence-unit", "recurrence-count", "recurrence-overflow", "rule-text"]) {
      element(id).addEventListener("input", () => this.update());
    }
    element("holiday-place").addEventListener("input", () => this.shown.holidays());
    element("holiday-year").addEventListener("input", () => {
      this.#isYearChosen = true;
      this.shown.holidays();
    });
    for (const id of ["anniversaries", "recurrences", "holidays"]) element(`${id}-save`).addEventListener("click", () => this.shown.save(id));
    element("shown").addEventListener("click", ({ target }) => target.dataset.copy && copy(target.dataset.copy));
    element("copy-address").addEventListener("click", () => {
      const date = this.forms[0].read();
      if (date) copy(`${location.href.replace(/#.*$/, "")}${addressOf([date])}`);
    });
  }

  /** Sets up the visitor's language, a calendar at a time, while nothing else is to be done. */
  async prepareWords() {
    const idle = () => new Promise((settle) => (globalThis.requestIdleCallback ?? setTimeout)(settle));
    for (const calendar of ORDER) {
      await idle();
      this.shown.words.prepare(calendar);
    }
  }
}

/** The fields that name a date. */
function bag({ calendar, extendedYear: year, monthCode, day }) {
  return { calendar, year, monthCode, day };
}

/** Shows the page over the module's calls. The countries' books come when nothing else is to be done. */
export async function start(calendars, books) {
  const page = new Page(calendars);
  const isRead = page.readAddress();
  performance.mark("first date");
  await isRead;
  addEventListener("popstate", () => page.readAddress());
  for (const form of page.forms) page.listen(form);
  page.listenElsewhere();
  await page.prepareWords();
  // A server may not have the books.
  const texts = await books().catch(() => null);
  if (texts) page.shown.takeBooks(texts);
  page.update();
  document.documentElement.dataset.page = "ready";
}
