#!/usr/bin/env python3
"""Tries the must-fail edits of crates that the gate doesn't try: those in the folders `edits-apart`.

An edit costs a proof, and so does each crate before its edits. The gate tries those that show the most; the others stand apart, and this
tries them, with the gate's, for the crates that are named (or all), in a copy of the repository. Where the release of the toolchain keeps what
a run proved, nothing is proved again for it but what an edit changes.

With `--check` it tries none, and says which of those that stand apart names lines that its file no longer has; the status is 1 if there is one.
"""

import itertools
import shutil
import subprocess
import sys
import tempfile
from pathlib import Path

TOP = Path(__file__).resolve().parent.parent


def is_stale(edit: Path) -> bool:
    """Whether an edit replaces lines that its file doesn't have: one replacement after another, as the gate makes them."""
    texts: dict[Path, str] = {}
    file, old = edit, ""
    for mark, lines in itertools.groupby(edit.read_text().splitlines(), key=lambda it: it[:5]):
        said = "\n".join(it[5:] for it in lines)
        if mark == "file:":
            file = edit.parent.parent / said.strip()
            texts.setdefault(file, file.read_text() if file.is_file() else "")
        elif mark == "old: ":
            old = said
            if old not in texts.get(file, ""):
                return True
        elif mark == "new: ":
            texts[file] = texts[file].replace(old, said, 1)
    return False


def check() -> int:
    """The status: whether an edit that stands apart replaces lines that don't exist."""
    stale = [it for it in sorted(TOP.glob("crates/*/edits-apart/*.edit")) if is_stale(it)]
    for edit in stale:
        print(f"{edit.relative_to(TOP)}: its file lacks the lines that it replaces")
    return 1 if stale else 0


def main(names: list[str]) -> int:
    if names == ["--check"]:
        return check()
    crates = sorted(it.parent.name for it in TOP.glob("crates/*/edits-apart"))
    if unknown := [it for it in names if it not in crates]:
        sys.exit(f"no edits stand apart in {', '.join(unknown)}")
    wanted = names or crates
    with tempfile.TemporaryDirectory() as room:
        copy = Path(room) / "repository"
        shutil.copytree(TOP, copy, ignore=shutil.ignore_patterns("out", ".git"))
        for name in wanted:
            crate = copy / "crates" / name
            (crate / "must-fail").mkdir(exist_ok=True)
            for edit in sorted((crate / "edits-apart").glob("*.edit")):
                edit.rename(crate / "must-fail" / edit.name)
        return subprocess.run(["rt", "ci", *wanted], cwd=copy).returncode


if __name__ == "__main__":
    sys.exit(main(sys.argv[1:]))
