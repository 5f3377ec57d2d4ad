"""The examples in the docs of the module."""

import datetime
import doctest
import importlib
import importlib.util
import itertools
import unittest

PLAIN = ["icu_calendar", "icu_calendar.durations", "icu_calendar.lists", "icu_calendar.rules", "icu_calendar.holidays"]
NEEDS = {"icu_calendar.arrays": "numpy", "icu_calendar.pandas": "pandas"}


class Docs(unittest.TestCase):
    def check(self, name):
        result = doctest.testmod(importlib.import_module(name), extraglobs={"datetime": datetime, "itertools": itertools})
        self.assertGreater(result.attempted, 0, name)
        self.assertEqual(result.failed, 0, name)

    def test_plain_modules(self):
        for name in PLAIN:
            self.check(name)

    def test_modules_over_libraries(self):
        for name, library in NEEDS.items():
            with self.subTest(name=name):
                if importlib.util.find_spec(library) is None:
                    self.skipTest(f"{library} is missing")
                self.check(name)


if __name__ == "__main__":
    unittest.main()
