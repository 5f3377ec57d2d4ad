// What a browser runs: the module's dates compared with the browser's Temporal, and the speed of both. It has no imports, since it is loaded from
// a text. A case is seeded, so that a run can be repeated.

/** Temporal's calendars by our names. */
export const SHARED = {
  iso: "iso8601", gregorian: "gregory", buddhist: "buddhist", roc: "roc", japanese: "japanese", chinese: "chinese", dangi: "dangi", hebrew: "hebrew",
  "islamic-civil": "islamic-civil", "islamic-tbla": "islamic-tbla", "islamic-umalqura": "islamic-umalqura", persian: "persian", indian: "indian",
  coptic: "coptic", ethiopic: "ethiopic", ethioaa: "ethioaa",
};
const NAMES = Object.keys(SHARED);
const UNITS = ["years", "months", "weeks", "days"];
const ERAS = {
  gregorian: ["ce", "bce"], buddhist: ["be"], roc: ["roc", "broc"], japanese: ["reiwa", "heisei", "showa", "taisho", "meiji", "ce", "bce"], hebrew: ["am"],
  "islamic-civil": ["ah", "bh"], "islamic-tbla": ["ah", "bh"], "islamic-umalqura": ["ah", "bh"], persian: ["ap"], indian: ["shaka"], coptic: ["am"],
  ethiopic: ["am", "aa"], ethioaa: ["aa"],
};
// The day number of 1970-01-01, and the days from there that Temporal holds.
const EPOCH = 719163;
const MOST = 100_000_000;
/** The years that both sides take from published tables. Past them, each side computes by its own approximation. */
const ROWS = Object.freeze({ chinese: [1912, 2099], dangi: [1912, 2097], "islamic-umalqura": [1300, 1600] });
/** The Chinese years whose new moons fall near midnight, which the tables place by Beijing's local time. */
const LOCAL = [1914, 1916, 1920];

/** The known differences: a name, and whether a case that differs is one. `years` are the first and the last year of a case. */
export const KNOWN = {
  "years past the rows": ({ name, years: [low, high] }) => name in ROWS && (low < ROWS[name][0] || high > ROWS[name][1]),
  "Chinese years by Beijing's local time": ({ name, years: [low, high] }) => name === "chinese" && LOCAL.some((it) => low - 1 <= it && it <= high + 1),
  // Constrained, 0 is 1 here; Temporal refuses it.
  "0 as a month or a day": ({ given }) => given?.month === 0 || given?.day === 0,
  "an era in a calendar without eras": ({ name, given }) => !(name in ERAS) && given?.era !== undefined,
};

/** Numbers from 0 to below an argument, seeded. */
function random(seed) {
  let state = seed;
  return (below) => {
    state = (Math.imul(state, 1664525) + 1013904223) >>> 0;
    return Math.floor((state / 2 ** 32) * below);
  };
}

/** A day number: mostly of our time, sometimes of any that both sides hold. */
function anyDay(next) {
  const kind = next(16);
  if (kind < 12) return 675000 + next(110_000);
  return kind < 15 ? next(2_000_000) - 300_000 : EPOCH - MOST + 800 + next(2 * MOST - 1600);
}

/** Temporal's date of a day number. */
function temporalDay(day, name) {
  const date = new Date((day - EPOCH) * 86_400_000);
  return new Temporal.PlainDate(date.getUTCFullYear(), date.getUTCMonth() + 1, date.getUTCDate()).withCalendar(SHARED[name]);
}

/** The day number of Temporal's date. */
function dayNumber(date) {
  const iso = date.withCalendar("iso8601");
  const moment = new Date(0);
  moment.setUTCFullYear(iso.year, iso.month - 1, iso.day);
  return EPOCH + moment.getTime() / 86_400_000;
}

/** What a call returns, or `none` where it fails. */
function outcome(call) {
  try {
    return call();
  } catch (error) {
    if (error instanceof RangeError || error instanceof TypeError) return "none";
    throw error;
  }
}

/** Compares, and counts the cases by what they are and how they end. */
class Comparison {
  constructor(calendars, seed) {
    this.calendars = calendars;
    this.next = random(seed);
    this.counts = {};
    this.known = Object.fromEntries(Object.keys(KNOWN).map((it) => [it, 0]));
    this.failures = [];
    this.failed = 0;
  }

  same(kind, about, ours, theirs) {
    this.counts[kind] = (this.counts[kind] ?? 0) + 1;
    if (ours === theirs) return;
    const why = Object.keys(KNOWN).find((it) => KNOWN[it](about));
    if (why) this.known[why] += 1;
    else {
      this.failed += 1;
      if (this.failures.length < 40) this.failures.push(`${kind} ${JSON.stringify(about)}: ${ours}, Temporal ${theirs}`);
    }
  }

  parts(name, day) {
    const [ours, theirs] = [this.calendars.dateOfDay(day, name), temporalDay(day, name)];
    const about = { name, day, years: [ours.extendedYear, ours.extendedYear] };
    const isEra = name in ERAS;
    const written = (year, month, place, of, era, eraYear) => `${year} ${month} ${place} ${of}${isEra ? ` ${era} ${eraYear}` : ""}`;
    this.same(
      "days to parts", about, written(ours.extendedYear, ours.monthCode, ours.ordinalMonth, ours.day, ours.era, ours.eraYear),
      written(theirs.year, theirs.monthCode, theirs.month, theirs.day, theirs.era, theirs.eraYear),
    );
    this.same("weekdays", about, ours.weekday, theirs.dayOfWeek);
    const { year, monthCode, day: of } = theirs;
    const back = outcome(() => this.calendars.dateOfFields({ calendar: name, year, monthCode, day: of }).dayNumber);
    this.same("parts to days", { name, given: { year, monthCode, day: of }, years: [year, year] }, back, day);
  }

  fields(name, day) {
    const { next } = this;
    const near = this.calendars.dateOfDay(day, name).extendedYear;
    const given = { day: next(40) ? 1 + next(33) : 0 };
    if (next(2)) given.monthCode = `M${String(1 + next(13)).padStart(2, "0")}${next(4) ? "" : "L"}`;
    else given.month = next(40) ? 1 + next(14) : 0;
    if (next(4)) given.year = near;
    else {
      const eras = next(20) && ERAS[name] ? ERAS[name] : ["ce", "reiwa", "xx", "aa"];
      given.era = eras[next(eras.length)];
      given.eraYear = next(3000) - 100;
      if (!(name in ERAS)) given.year = near;
    }
    for (const overflow of ["constrain", "reject"]) {
      const { month, ...others } = given;
      const asked = { calendar: name, ...others, ...(month === undefined ? {} : { ordinalMonth: month }) };
      const ours = outcome(() => this.calendars.dateOfFields(asked, { overflow }));
      const theirs = outcome(() => dayNumber(Temporal.PlainDate.from({ calendar: SHARED[name], ...given }, { overflow })));
      const year = given.year ?? ours.extendedYear ?? near;
      // Temporal holds fewer days.
      if (ours !== "none" && Math.abs(ours.dayNumber - EPOCH) > MOST) continue;
      this.same(`fields, ${overflow}`, { name, given, years: [year, year] }, ours.dayNumber ?? ours, theirs);
    }
  }

  differences(name, day) {
    // Temporal counts long differences month by month.
    const other = day + this.next(80_000) - 40_000;
    if (Math.abs(other - EPOCH) > MOST) return;
    const [first, second] = [day, other].map((it) => this.calendars.dateOfDay(it, name));
    const [from, to] = [day, other].map((it) => temporalDay(it, name));
    const years = [first.extendedYear, second.extendedYear].sort((a, b) => a - b);
    for (const largestUnit of UNITS) {
      const theirs = from.until(to, { largestUnit });
      this.same(`until, ${largestUnit}`, { name, day, other, years }, `${first.until(second, { largestUnit })}`, theirs.toString());
    }
  }

  sums(name, day) {
    const { next } = this;
    const parts = { years: next(next(2) ? 4 : 200), months: next(next(2) ? 14 : 3000), weeks: next(next(2) ? 6 : 500), days: next(next(2) ? 40 : 20_000) };
    const first = this.calendars.dateOfDay(day, name);
    const from = temporalDay(day, name);
    for (const isNegative of [false, true]) {
      const duration = Temporal.Duration.from(parts);
      for (const overflow of ["constrain", "reject"]) {
        const ours = outcome(() => first.add({ ...parts, isNegative }, { overflow }));
        const theirs = outcome(() => dayNumber(from.add(isNegative ? duration.negated() : duration, { overflow })));
        const sign = isNegative ? -1 : 1;
        const far = ours.extendedYear ?? first.extendedYear + sign * (parts.years + Math.ceil(parts.months / 12) + 1);
        const years = [first.extendedYear, far, first.extendedYear + sign * (parts.years + Math.ceil(parts.months / 12))].sort((a, b) => a - b);
        if (ours !== "none" && Math.abs(ours.dayNumber - EPOCH) > MOST) continue;
        this.same(`sums, ${overflow}`, { name, day, parts, isNegative, years: [years[0], years[2]] }, ours.dayNumber ?? ours, theirs);
      }
    }
  }
}

/** Compares `count` days in each way, the calendars in turn. */
export function compare(calendars, seed, count) {
  const comparison = new Comparison(calendars, seed);
  for (let place = 0; place < count; place += 1) {
    const name = NAMES[place % NAMES.length];
    const day = anyDay(comparison.next);
    comparison.parts(name, day);
    comparison.fields(name, day);
    comparison.differences(name, day);
    comparison.sums(name, day);
  }
  const { counts, known, failures, failed } = comparison;
  return { counts, known, failures, failed };
}

/** How many times in a millisecond a call runs over many inputs: the greater of several runs. */
function rate(inputs, call) {
  let most = 0;
  let kept = 0;
  for (let run = 0; run < 7; run += 1) {
    const began = performance.now();
    for (const input of inputs) kept += call(input);
    most = Math.max(most, inputs.length / (performance.now() - began));
  }
  return kept === Number.POSITIVE_INFINITY ? 0 : Math.round(most);
}

/** Operations per millisecond, ours and Temporal's, over the same dates. */
export function measure(calendars, seed) {
  const next = random(seed);
  const days = Array.from({ length: 4000 }, () => 700_000 + next(60_000));
  const rows = {};
  const put = (name, ours, theirs) => {
    rows[name] = [rate(...ours), rate(...theirs)];
  };
  const [iso, isoThere] = [days.map((it) => calendars.dateOfDay(it, "iso")), days.map((it) => temporalDay(it, "iso"))];
  for (const name of ["hebrew", "chinese"]) {
    put(`conversion to ${name}`, [iso, (it) => it.toCalendar(name).day], [isoThere, (it) => it.withCalendar(name).day]);
    const [ours, theirs] = [days.map((it) => calendars.dateOfDay(it, name)), days.map((it) => temporalDay(it, name))];
    const pairs = ours.map((it, place) => [it, ours[(place + 1) % ours.length]]);
    const pairsThere = theirs.map((it, place) => [it, theirs[(place + 1) % theirs.length]]);
    for (const largestUnit of ["years", "months"]) {
      const options = { largestUnit };
      put(`difference in ${largestUnit}, ${name}`, [pairs, ([a, b]) => a.until(b, options).days], [pairsThere, ([a, b]) => a.until(b, options).days]);
    }
    const sum = { years: 1, months: 2, days: 3 };
    put(`sum, ${name}`, [ours, (it) => it.add(sum).day], [theirs, (it) => it.add(sum).day]);
    const bags = ours.map(({ extendedYear: year, monthCode, day }) => ({ calendar: name, year, monthCode, day }));
    put(`fields to a date, ${name}`, [bags, (it) => calendars.dateOfFields(it).day], [bags, (it) => Temporal.PlainDate.from(it).day]);
  }
  const bags = iso.map(({ extendedYear: year, monthCode, day }) => ({ calendar: "iso", year, monthCode, day }));
  const bagsThere = bags.map((it) => ({ ...it, calendar: "iso8601" }));
  put("fields to a date, iso", [bags, (it) => calendars.dateOfFields(it).day], [bagsThere, (it) => Temporal.PlainDate.from(it).day]);
  const eras = days.map((it) => calendars.dateOfDay(it, "japanese")).map((it) => ({ calendar: "japanese", era: it.era, eraYear: it.eraYear, monthCode: it.monthCode, day: it.day }));
  put("fields with an era, japanese", [eras, (it) => calendars.dateOfFields(it).day], [eras, (it) => Temporal.PlainDate.from(it).day]);
  return rows;
}
