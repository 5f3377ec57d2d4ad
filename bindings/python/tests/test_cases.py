"""All cases of the repository, through the call: the same answers, and the same status."""

import sys
import unittest
from concurrent.futures import ThreadPoolExecutor
from pathlib import Path

from icu_calendar import Calendar, run, span
from icu_calendar.program import anniversary_lines, holiday_lines, recurrence_lines, rule_lines

TOP = Path(__file__).resolve().parents[3]
CASES = TOP / "cases"
sys.path.insert(0, str(CASES))

from lists import cases_of  # noqa: E402

STATUSES = dict(line.split() for line in (CASES / "tables/statuses").read_text().splitlines())


class Cases(unittest.TestCase):
    def test_requests(self):
        files = sorted(CASES.glob("*.in"))
        self.assertEqual(len(files), 9)
        for file in files:
            wanted = file.with_suffix(".out").read_bytes()
            refused = any(line.startswith(b"err") for line in wanted.splitlines())
            self.assertEqual(run(["span"], file.read_bytes()), (int(refused), wanted), file.name)

    def test_tables(self):
        files = sorted(CASES.glob("tables/*.in"))
        self.assertEqual(len(files), 120)
        for file in files:
            self.assertEqual(run(["span"], file.read_bytes()), (int(STATUSES[file.stem]), file.with_suffix(".out").read_bytes()), file.name)

    def test_lists(self):
        cases = [case for name in ("lists", "rrule") for case in cases_of(CASES / f"{name}.jsonl")]
        self.assertGreater(len(cases), 3000)
        for case in cases:
            self.assertEqual(run([word.decode() for word in case.words], case.source), (case.status, case.out), str(case))

    def test_requests_on_several_threads(self):
        files = sorted(CASES.glob("*.in")) * 2
        with ThreadPoolExecutor(8) as pool:
            outputs = list(pool.map(lambda file: run(["span"], file.read_bytes()).output, files))
        self.assertEqual(outputs, [file.with_suffix(".out").read_bytes() for file in files])

    def test_generated_requests(self):
        line = b"gen 1000 ok 822 err 178 sum -108964599 parts 209816 2754229 11825359 157085154\n"
        self.assertEqual(run(["gen", "1000"]), (0, line))


class Shorthands(unittest.TestCase):
    """The functions that put the words together."""

    ROWS = b"".join(it.read_bytes() for it in sorted((TOP / "rows").glob("*.rows")))

    def test_span(self):
        request = b"span hebrew iso years reject none from year=5784 month=M01 day=1 to year=5785 month=M01 day=1\n"
        self.assertTrue(span(request, self.ROWS).endswith(b" P1Y\n"))

    def test_anniversaries(self):
        lines = anniversary_lines(Calendar.CHINESE, "M01", 1, 738521, 739616, rows=self.ROWS)
        self.assertEqual([line.split("@")[-1] for line in lines], ["738542", "738926", "739280"])

    def test_recurrences(self):
        lines = recurrence_lines(Calendar.ISO, "months", 1, 738886, 738976, ["year=2024", "month=M01", "day=31"])
        self.assertEqual(len(lines), 2)

    def test_rules(self):
        lines = rule_lines(Calendar.ISO, 738886, 738976, ["year=2024", "month=M01", "day=31"], "FREQ=MONTHLY;BYMONTHDAY=-1")
        self.assertEqual(len(lines), 3)

    def test_holidays(self):
        lines = holiday_lines((TOP / "examples/holidays.csv").read_bytes(), 738886, 739251)
        self.assertTrue(lines)


if __name__ == "__main__":
    unittest.main()
