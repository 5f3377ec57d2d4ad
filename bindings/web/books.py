#!/usr/bin/env python3
"""Writes the books of countries as one JSON object, by their names."""

import json
import sys
from pathlib import Path

COUNTRIES = Path(__file__).resolve().parents[2] / "books/countries"


def books_of_countries() -> str:
    books = {book.stem: book.read_text(encoding="ascii") for book in sorted(COUNTRIES.glob("*.csv"))}
    return json.dumps(books, separators=(",", ":"))


if __name__ == "__main__":
    sys.stdout.write(books_of_countries())
