"""examples/ics.py: what it reads, and what python3-icalendar reads of what it writes."""

import contextlib
import datetime
import importlib.util
import io
import sys
import unittest
from itertools import islice
from pathlib import Path

from icu_calendar import Calendar, RuleError

EXAMPLES = Path(__file__).resolve().parents[3] / "examples"
sys.path.insert(0, str(EXAMPLES))
import ics  # noqa: E402

MOMENT = datetime.datetime(2024, 1, 1, 12, 0, 0, tzinfo=datetime.timezone.utc)
ADAR = "FREQ=YEARLY;BYMONTH=5L;BYMONTHDAY=10;SKIP=FORWARD"
FILE = """BEGIN:VCALENDAR\r
VERSION:2.0\r
BEGIN:VEVENT\r
SUMMARY:A birthday\\, and its\r
  party\r
DTSTART;VALUE=DATE:20240110\r
RRULE:RSCALE=HEBREW;FREQ=YEARLY;BYMONTH=5L;\r
 BYMONTHDAY=10;SKIP=FORWARD\r
BEGIN:VALARM\r
SUMMARY:none\r
DTSTART:20240101T090000Z\r
END:VALARM\r
END:VEVENT\r
BEGIN:VEVENT\r
SUMMARY:Fridays\r
DTSTART;VALUE=DATE:20240202\r
RRULE:FREQ=WEEKLY;COUNT=4\r
RDATE;VALUE=DATE:20240203,20240209\r
EXDATE;VALUE=DATE:20240216\r
END:VEVENT\r
BEGIN:VEVENT\r
SUMMARY:At nine\r
DTSTART;TZID="a:zone":20240101T090000\r
END:VEVENT\r
BEGIN:VEVENT\r
SUMMARY:No rule\r
DTSTART;VALUE=DATE:20240101\r
RRULE:FREQ=MONTHLY;BYSETPOS=1\r
END:VEVENT\r
END:VCALENDAR\r
"""


class Reading(unittest.TestCase):
    def read(self, first: str, count: int) -> "list[tuple[str, str]]":
        day = datetime.date.fromisoformat(first).toordinal()
        self.said = io.StringIO()
        with contextlib.redirect_stderr(self.said):
            found = list(islice(ics.coming(FILE, day, day + 10_000), count))
        return [(datetime.date.fromordinal(it).isoformat(), summary) for it, summary in found]

    def test_days_of_all_events(self):
        birthday = "A birthday, and its party"
        wanted = [("2024-01-10", birthday), ("2024-02-02", "Fridays"), ("2024-02-03", "Fridays"), ("2024-02-09", "Fridays"), ("2024-02-19", birthday)]
        wanted += [("2024-02-23", "Fridays"), ("2025-03-10", birthday), ("2026-02-27", birthday)]
        self.assertEqual(self.read("2024-01-01", 8), wanted)
        self.assertEqual(self.read("2024-02-19", 2), wanted[4:6])

    def test_what_is_left_out_is_named(self):
        self.read("2024-01-01", 1)
        lines = self.said.getvalue().splitlines()
        self.assertEqual(len(lines), 2)
        self.assertIn("At nine: DTSTART", lines[0])
        self.assertIn("SetPosAlone", lines[1])


class Writing(unittest.TestCase):
    def written(self, rule: str = ADAR, summary: str = "Adar; a, b\\c and a name that is so long that its line must be folded, as \u05d0\u05d3\u05e8") -> str:
        return ics.file_of_rule(rule, Calendar.HEBREW, datetime.date(2024, 1, 1), 3, summary, MOMENT)

    def test_lines(self):
        text = self.written()
        self.assertTrue(text.endswith("END:VCALENDAR\r\n"))
        self.assertTrue(all(len(it.encode()) <= 75 for it in text.split("\r\n")))
        self.assertEqual(text, self.written())
        self.assertIn("UID:rule/hebrew/2024-01-01/", text)

    def test_it_reads_what_it_writes(self):
        events = [event for event, fault in ics.events_of(self.written()) if not fault]
        self.assertEqual([datetime.date.fromordinal(it.start).isoformat() for it in events], ["2024-02-19", "2025-03-10", "2026-02-27"])
        self.assertTrue(events[0].summary.endswith("\u05d0\u05d3\u05e8: 5784-M05L-10"))

    def test_another_reader(self):
        if importlib.util.find_spec("icalendar") is None:
            self.skipTest("python3-icalendar is missing")
        import icalendar

        events = icalendar.Calendar.from_ical(self.written()).walk("VEVENT")
        self.assertEqual([str(it.decoded("DTSTART")) for it in events], ["2024-02-19", "2025-03-10", "2026-02-27"])
        self.assertEqual({type(it.decoded("DTSTART")) for it in events}, {datetime.date})
        self.assertEqual(len({str(it["UID"]) for it in events}), 3)
        self.assertEqual({str(it["TRANSP"]) for it in events}, {"TRANSPARENT"})
        self.assertEqual([it.decoded("DTSTAMP") for it in events], [MOMENT] * 3)
        self.assertTrue(str(events[0]["SUMMARY"]).startswith("Adar; a, b\\c and"))

    def test_a_rule_that_is_none(self):
        with self.assertRaises(RuleError):
            self.written("FREQ=WEEKLY;BYDAY=1MO")


if __name__ == "__main__":
    unittest.main()
