// What the tests share: the forms of the program's words and answers.

/** The fields that a bag of words names, in a calendar. */
export function fieldsOf(calendar, words) {
  const fields = { calendar };
  const numbers = { "era-year": "eraYear", year: "year", ordinal: "ordinalMonth", day: "day" };
  for (const word of words) {
    const [key, value] = [word.slice(0, word.indexOf("=")), word.slice(word.indexOf("=") + 1)];
    if (key in numbers) fields[numbers[key]] = Number(value);
    else if (key === "era") fields.era = value;
    else if (key === "month-code") fields.monthCode = value;
    else Object.assign(fields, { month: Number(value.slice(1, 3)), monthIsLeap: value.endsWith("L") });
  }
  return fields;
}

/** A date as the program writes it. */
export function written(date) {
  const era = date.era === null ? `cycle.${date.cyclicYear}` : `${date.era}.${date.eraYear}`;
  return `${date.extendedYear}/${era}/${date.monthCode}/${String(date.day).padStart(2, "0")}@${date.dayNumber}`;
}

// Causes that the program writes by other names.
export const CAUSES = { OutOfRange: "Overflow", MonthCodeSyntax: "MonthCodeInvalidSyntax" };
