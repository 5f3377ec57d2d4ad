#!/usr/bin/env python3
"""Checks the sources and documents without proving anything; the status is 1 if a check finds something.

- `widths`: no line of a definition or of a contract clause is wider than 120 characters.
- `docstrings`: the first line of each public item's docs is a sentence in the third person (in `laws.rt` the law itself), and a function
  that returns a `Result` lists its errors.
- `examples`: every line of code in a docstring or in docs/GUIDE.md stands in the crate `doc_examples`, which runs it as a test.
- `edits`: every must-fail edit that the gate doesn't try still fits its file.
- `published`: the constant data of `published_years` is what `build/published.py` writes.
- `exports`: the calls for C and for WebAssembly have the same source.
- `calendars`: the lists of calendars are what `build/calendars.py` writes from calendars.txt, and the sources say the same of the kinds.
- `definitions`: docs/ARCHITECTURE.md names the crates, the longest chain and the definitions that are there (`build/definitions.py`).
- `documents`: the documents have at most 22,000 words, lines of at most 120 characters outside of blocks, and tables of at most 160.

With names of checks, only these run.
"""

import re
import subprocess
import sys
from collections.abc import Iterator
from pathlib import Path
from typing import NamedTuple

TOP = Path(__file__).resolve().parent.parent
MOST = 120
MOST_IN_TABLES = 160
MOST_WORDS = 22_000
IMPORT = re.compile(r"\s*(ghost\s+)?(pub\s+)?use\b")
CLAUSE = re.compile(r"\s*(requires|ensures|ghost)\b")
FENCE = "```"
# The crates whose docstrings have examples.
WITH_EXAMPLES = ["icu_calendar", "published_years", "table_rows", "cal_*"]
# Its calls ask for a fact of the calendar's years that no test shows: its examples aren't run.
WITHOUT_TESTS = "cal_rrule"
ITEM = re.compile(r"(pub (unsafe )?(extern \"C\" )?(const )?(fn|struct|enum|trait|type|const|static)\b|fn\b)")
STIFF = re.compile(r"\b(gives|(?<!the )(?<!of )answers|tells|what becomes of|isn't there|is refused by)\b", re.IGNORECASE)
VERB = re.compile(r"[A-Z][a-z]+s\b|Is\b|Has\b")
RESULT = re.compile(r"->\s*(Result<|fmt::Result)")
DOCUMENTS = ["README.md", "docs/*.md"]


class Line(NamedTuple):
    path: Path
    number: int
    text: str

    def say(self, what: str) -> None:
        print(f"{self.path.relative_to(TOP)}:{self.number}: {what}")


def lines_of(path: Path) -> list[Line]:
    return [Line(path, number, text) for number, text in enumerate(path.read_text().splitlines(), 1)]


def lines_of_definitions() -> Iterator[Line]:
    for path in sorted(TOP.glob("crates/*/specs/*.antt")):
        yield from lines_of(path)


def indent(text: str) -> int:
    return len(text) - len(text.lstrip())


def clauses() -> Iterator[Line]:
    """The lines of clauses: those that begin one, and the further indented lines behind such a line."""
    for path in sorted(TOP.glob("crates/*/src/**/*.rt")):
        begun: int | None = None
        for line in lines_of(path):
            if CLAUSE.match(line.text):
                begun = indent(line.text)
            elif begun is not None and indent(line.text) <= begun:
                begun = None
            if begun is not None:
                yield line


def widths() -> int:
    wide = [it for it in [*lines_of_definitions(), *clauses()] if len(it.text) > MOST and not IMPORT.match(it.text)]
    for it in wide:
        it.say(f"{len(it.text)} characters")
    return len(wide)


class Item(NamedTuple):
    """A documented item: its docs, and its text up to its body."""

    docs: list[Line]
    text: str


def is_tests(path: Path) -> bool:
    name = path.relative_to(TOP / "crates").parts[0]
    return name.endswith("_tests") or name in ("doc_examples", "test_dates") or "tests" in path.stem


def public_items(path: Path) -> Iterator[Item]:
    """The public items of a file that have docs, and the methods of its public traits."""
    docs: list[Line] = []
    lines = lines_of(path)
    in_trait = False
    for place, line in enumerate(lines):
        text = line.text.strip()
        if line.text.startswith(("pub trait", "impl", "trait", "}")):
            in_trait = line.text.startswith("pub trait")
        if text.startswith("///"):
            docs.append(line)
        elif text.startswith(("#[", ")]")) or not text:
            continue
        else:
            found = ITEM.match(text)
            if docs and found and (text.startswith("pub ") or in_trait):
                head = []
                for it in lines[place : place + 15]:
                    head.append(it.text.strip())
                    if CLAUSE.match(it.text) or it.text.rstrip().endswith(("{", ";")):
                        break
                yield Item(docs, " ".join(head))
            docs = []


def docstrings() -> int:
    found = 0
    for path in sorted(TOP.glob("crates/*/src/**/*.rt")):
        if is_tests(path):
            continue
        for item in public_items(path):
            docs = [it.text.strip().removeprefix("///").strip() for it in item.docs]
            end = docs.index("") if "" in docs else len(docs)
            first = " ".join(docs[:end]).split(". ")[0]
            if word := STIFF.search(first):
                item.docs[0].say(f"the first sentence has '{word.group()}'")
                found += 1
            if re.search(r"\bfn\b", item.text) and path.stem != "laws" and not VERB.match(first):
                item.docs[0].say("the first sentence doesn't begin with a verb, as 'Returns'")
                found += 1
            if re.search(r"\bfn\b", item.text) and RESULT.search(item.text) and "fmt::Result" not in item.text and "# Errors" not in docs:
                item.docs[0].say("a function that returns a Result has no '# Errors'")
                found += 1
    return found


def documented(path: Path) -> Iterator[Line]:
    """The lines of code in the blocks of Rust of a file's docs: those between three backquotes alone."""
    language: str | None = None
    for line in lines_of(path):
        text = line.text.strip()
        if not text.startswith(("///", "//!")):
            language = None
            continue
        text = text[3:].strip()
        if text.startswith(FENCE):
            language = text.removeprefix(FENCE) if language is None else None
        elif language == "" and text:
            yield line._replace(text=text)


def in_guide(path: Path) -> Iterator[Line]:
    """The lines of code in the blocks of Rust of a document."""
    in_rust = False
    for line in lines_of(path):
        if line.text.startswith(FENCE):
            in_rust = line.text == FENCE + "rust"
        elif in_rust and line.text.strip():
            yield line._replace(text=line.text.strip())


def examples() -> int:
    run = {line.strip() for path in TOP.glob("crates/doc_examples/src/**/*.rt") for line in path.read_text().splitlines()}
    names = [it.name for name in WITH_EXAMPLES for it in sorted(TOP.glob(f"crates/{name}")) if it.name != WITHOUT_TESTS]
    paths = [path for name in names for path in sorted(TOP.glob(f"crates/{name}/src/**/*.rt"))]
    lines = [*(it for path in paths for it in documented(path)), *in_guide(TOP / "docs/GUIDE.md")]
    missing = [it for it in lines if it.text not in run]
    for it in missing:
        it.say(f"no test has the line {it.text}")
    return len(missing)


def script(*words: str) -> int:
    return subprocess.run([sys.executable, *words], cwd=TOP, check=False).returncode


def edits() -> int:
    return script("build/edits.py", "--check")


def published() -> int:
    return script("build/published.py", "--check")


def calendars() -> int:
    return script("build/calendars.py", "--check")


def definitions() -> int:
    return script("build/definitions.py", "--check")


def exports() -> int:
    both = [(TOP / f"crates/icu_calendar_{it}/src/exports.rt").read_bytes() for it in ("c", "wasm")]
    if both[0] == both[1]:
        return 0
    print("exports.rt of icu_calendar_c and of icu_calendar_wasm differ")
    return 1


def is_wide(line: Line) -> bool:
    return len(line.text) > (MOST_IN_TABLES if line.text.startswith("|") else MOST)


def documents() -> int:
    found = words = 0
    for path in [it for name in DOCUMENTS for it in sorted(TOP.glob(name))]:
        words += len(path.read_text().split())
        in_block = False
        for line in lines_of(path):
            in_block ^= line.text.startswith(FENCE)
            if not in_block and is_wide(line):
                line.say(f"{len(line.text)} characters")
                found += 1
    if words > MOST_WORDS:
        print(f"the documents have {words} words; at most {MOST_WORDS} are wanted")
        found += 1
    return found


CHECKS = {it.__name__: it for it in (widths, docstrings, examples, edits, published, exports, calendars, definitions, documents)}


def main(names: list[str]) -> int:
    if unknown := set(names) - set(CHECKS):
        sys.exit(f"no check is named {', '.join(sorted(unknown))}; there are {', '.join(CHECKS)}")
    found = {name: CHECKS[name]() for name in names or CHECKS}
    print("check_sources: " + ", ".join(f"{name} {'ok' if not count else count}" for name, count in found.items()))
    return int(any(found.values()))


if __name__ == "__main__":
    sys.exit(main(sys.argv[1:]))
