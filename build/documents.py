#!/usr/bin/env python3
"""Runs the commands and the sample of README.md, docs/MANUAL.md and the pages of books/, as they stand there, and compares what they print.

The word behind the opening fence of a block says what it is:

- `console`: a line that begins with `$ ` is a command, lines that begin with `> ` go on with it, and what follows is all that it prints,
  on standard output and standard error. It is run in the top folder, by bash.
- `rust`: the program of the crate that the next block `crates` names. It is written into a copy of `crates/` and `crates.txt`, and run there
  by `rt try`. The next block `output` is what it prints.
- `sh`: commands that build or prove. They are named, and not run.
- `text`: forms, and lines of files. Nothing is done with them.

The program has to be built. Where a difference is found it is shown, and the status is 1.
"""

import re
import shutil
import subprocess
import sys
import tempfile
from pathlib import Path
from typing import NamedTuple

TOP = Path(__file__).resolve().parent.parent
DOCUMENTS = ["README.md", "docs/MANUAL.md", "books/README.md", "books/countries/README.md"]
KINDS = ["console", "rust", "crates", "output", "sh", "text"]
MOST_SECONDS = 150


class Block(NamedTuple):
    document: str
    line: int
    kind: str
    lines: list[str]

    @property
    def text(self) -> str:
        return "".join(f"{it}\n" for it in self.lines)

    @property
    def place(self) -> str:
        return f"{self.document}:{self.line}"


class Command(NamedTuple):
    place: str
    words: str
    prints: str


def blocks_of(document: str) -> list[Block]:
    found, begun = [], None
    for number, line in enumerate((TOP / document).read_text().splitlines(), 1):
        if line.startswith("```"):
            if begun:
                found.append(begun)
                begun = None
                continue
            begun = Block(document, number, line[3:], [])
            if begun.kind not in KINDS:
                sys.exit(f"{begun.place}: a block is one of {', '.join(KINDS)}")
        elif begun:
            begun.lines.append(line)
    if begun:
        sys.exit(f"{begun.place}: the block doesn't end")
    return found


def commands_of(block: Block) -> list[Command]:
    found: list[Command] = []
    for number, line in enumerate(block.lines, block.line + 1):
        if line.startswith("$ "):
            found.append(Command(f"{block.document}:{number}", line[2:], ""))
        elif not found:
            sys.exit(f"{block.place}: the block doesn't begin with a command")
        elif line.startswith("> ") and not found[-1].prints:
            found[-1] = found[-1]._replace(words=f"{found[-1].words}\n{line[2:]}")
        else:
            found[-1] = found[-1]._replace(prints=f"{found[-1].prints}{line}\n")
    return found


def is_same(place: str, wanted: str, got: str) -> bool:
    if wanted == got:
        return True
    print(f"{place} prints\n{got}in place of\n{wanted}", file=sys.stderr)
    return False


def printed(command: Command) -> str:
    run = subprocess.run(
        ["bash", "-c", command.words], cwd=TOP, stdin=subprocess.DEVNULL, stdout=subprocess.PIPE, stderr=subprocess.STDOUT, timeout=MOST_SECONDS
    )
    return run.stdout.decode(errors="replace")


def next_of(kind: str, block: Block, blocks: list[Block]) -> Block:
    for it in blocks[blocks.index(block) :]:
        if it.kind == kind:
            return it
    sys.exit(f"{block.place}: no block {kind} follows")


def sample_prints(program: str, line: str) -> str:
    """What the program prints as a crate with this line, in a copy of the repository's crates."""
    name = line.partition(":")[0]
    with tempfile.TemporaryDirectory() as room:
        shutil.copytree(TOP / "crates", Path(room) / "crates", ignore=shutil.ignore_patterns("out"))
        (Path(room) / "crates.txt").write_text((TOP / "crates.txt").read_text() + line)
        source = Path(room) / "crates" / name / "src"
        source.mkdir(parents=True)
        (source / "main.rt").write_text(program)
        run = subprocess.run(["rt", "try"], cwd=source.parent, capture_output=True, text=True)
    if run.returncode or not re.search(r"^run=ended status=0 .*proved=no$", run.stderr + run.stdout, re.MULTILINE):
        return f"{run.stdout}{run.stderr}"
    return run.stdout


def main() -> int:
    blocks = [it for document in DOCUMENTS for it in blocks_of(document)]
    commands = [it for block in blocks if block.kind == "console" for it in commands_of(block)]
    samples = [it for it in blocks if it.kind == "rust"]
    same = [is_same(it.place, it.prints, printed(it)) for it in commands]
    for it in samples:
        line, output = (next_of(kind, it, blocks).text for kind in ("crates", "output"))
        same.append(is_same(it.place, output, sample_prints(it.text, line)))
    for it in blocks:
        if it.kind == "sh":
            print(f"{it.place}: not run: {'; '.join(it.lines)}")
    print(f"documents: {len(commands)} commands and {len(samples)} samples, {same.count(False)} print something else")
    return int(not all(same))


if __name__ == "__main__":
    sys.exit(main())
