#!/usr/bin/env python3
"""Writes the man page calspan.1 from docs/MANUAL.md to standard output: build/man_page.py VERSION DATE.

The page is of the installed program: `./calspan` becomes `calspan`, and what the manual says of the script of a checkout is left out. A table
becomes a list of paragraphs, with the header of a column before its cells from the third column on. The form is that of man(7).
"""

import re
import sys
from collections.abc import Iterator
from pathlib import Path

MANUAL = Path(__file__).resolve().parent.parent / "docs/MANUAL.md"
FENCE = "```"
# What stands in the manual for the script of a checkout: beginnings of paragraphs and of rows of tables. Each begins exactly one.
LEFT_OUT = ["Contents:", "`./calspan` is a script.", "| `./calspan --unproved", "| `./calspan --help"]
SCRIPT = "The script `calspan`"
SECTION_OF_FILES = """\
.SH FILES
The folders
.B rows
and
.B books
are installed as
.IR PREFIX/share/calspan/rows
and
.IR PREFIX/share/calspan/books ;
the examples above name them as in the sources.
"""


def escaped(text: str) -> str:
    """The text as roff has to have it: backslashes, and hyphens that are copied into a command line."""
    return text.replace("\\", "\\e").replace("-", "\\-")


def inline(text: str) -> str:
    """A line of text with its code and its strong words in bold, and links without their targets."""
    text = re.sub(r"\[([^]]*)\]\([^)]*\)", r"\1", text).replace("\\|", "|")
    parts = re.split(r"(`[^`]*`|\*\*[^*]*\*\*)", text)
    said = "".join(f"\\fB{escaped(it.strip('`*'))}\\fR" if it[:1] in ("`", "*") and len(it) > 2 else escaped(it) for it in parts)
    return f"\\&{said}" if said[:1] in (".", "'") else said


def verbatim(lines: list[str]) -> Iterator[str]:
    yield from (".PP", ".RS 4", ".nf")
    for line in lines:
        said = escaped(line.replace("./calspan", "calspan"))
        yield f"\\&{said}" if said[:1] in (".", "'") else said
    yield from (".fi", ".RE")


def cells_of(row: str) -> list[str]:
    return [it.strip() for it in re.split(r"(?<!\\)\|", row.strip())[1:-1]]


def table(rows: list[str]) -> Iterator[str]:
    """A paragraph for each row: its first cell, or that of the row before, then the others with their headers."""
    headers, tag = cells_of(rows[0]), ""
    for row in rows[2:]:
        first, *others = cells_of(row)
        tag = first or tag
        yield from (".TP", inline(tag), inline(others[0]) if others[0] else "\\&")
        for header, cell in zip(headers[2:], others[1:]):
            if cell:
                yield from (".br", inline(f"{header}: {cell}"))


def paragraph(lines: list[str]) -> Iterator[str]:
    if lines[0].startswith("|"):
        yield from table(lines)
    elif lines[0].startswith("- "):
        for item in re.split(r"\n- ", "\n".join(lines)[2:]):
            yield from ('.IP "\\(bu" 2', *(inline(it.strip()) for it in item.splitlines()))
    else:
        yield from (".PP", *(inline(it) for it in lines))


def blocks_of(text: str) -> Iterator[list[str]]:
    """Headings, fenced blocks and paragraphs, each as its lines."""
    block: list[str] = []
    in_fence = False
    for line in [*text.splitlines(), ""]:
        if line.startswith(FENCE):
            in_fence = not in_fence
            if in_fence and block:
                yield block
                block = []
        if in_fence or line:
            block.append(line)
        elif block:
            yield block
            block = []


def of_program(text: str) -> str:
    """The manual without what it says of the script of a checkout."""
    text = re.sub(r"<!--.*?-->\n", "", text)
    for it in LEFT_OUT:
        ends = r".*\n" if it.startswith("|") else r"(.+\n)+"
        text, times = re.subn(rf"^{re.escape(it)}{ends}", "", text, flags=re.MULTILINE)
        if times != 1:
            sys.exit(f"docs/MANUAL.md has {times} places that begin with {it!r}, in place of 1")
    before, found, _ = text.partition(SCRIPT)
    if not found:
        sys.exit(f"docs/MANUAL.md doesn't say {SCRIPT!r}")
    behind = text[len(before) :].partition("\n\n")[2]
    return f"{before.rstrip()}\n\n{behind}".replace("`./calspan", "`calspan")


def without_gaps(lines: Iterator[str]) -> Iterator[str]:
    """The lines without the macro of a paragraph right behind a heading, which begins one itself."""
    before = ""
    for line in lines:
        if line != ".PP" or not before.startswith((".SH", ".SS")):
            yield line
        before = line


def page(text: str) -> Iterator[str]:
    for block in blocks_of(of_program(text)):
        first = block[0]
        if first.startswith("# "):
            yield from (".SH NAME", "calspan \\- converts and subtracts dates, and lists days, in twenty calendars", ".SH DESCRIPTION")
        elif first.startswith("### "):
            yield f'.SS "{inline(first[4:])}"'
        elif first.startswith("## "):
            yield f'.SH "{inline(first[3:]).upper()}"'
        elif first.startswith(FENCE):
            yield from verbatim(block[1:-1] if block[-1].startswith(FENCE) else block[1:])
        else:
            yield from paragraph(block)


def main(words: list[str]) -> int:
    if len(words) != 2:
        print("usage: build/man_page.py VERSION DATE", file=sys.stderr)
        return 2
    version, date = words
    print(f'.TH CALSPAN 1 "{date}" "icu_calendar {version}" "User Commands"')
    print("\n".join(without_gaps(page(MANUAL.read_text()))))
    print(SECTION_OF_FILES, end="")
    return 0


if __name__ == "__main__":
    sys.exit(main(sys.argv[1:]))
