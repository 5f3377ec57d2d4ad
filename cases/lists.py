"""Runs the built program on command lines that list days: cases with their answers, and words that are nearly a command."""

import json
import os
import random
import subprocess
from collections.abc import Callable
from concurrent.futures import ThreadPoolExecutor
from dataclasses import dataclass, replace
from itertools import zip_longest
from pathlib import Path

from grammar import ANYWHERE, NEAR, RULES, first_bad_word, is_command, is_text

TOP = Path(__file__).resolve().parent.parent
# The script refuses words by itself, so that the program's own answer is asked of the program.
SCRIPT = str(TOP / "calspan")
PROGRAM = str(TOP / "crates/calspan/out/calspan")
WORDS_REFUSED = 2
ENDS = {0, 1, 6}
MOST_DAYS = 4000
# The place of the last day among the words of a list; the first day stands before it.
LAST_DAY = {b"anniversary": 7, b"recur": 7, b"rrule": 4, b"holidays": 2}
SHORT = [[b"span"], [b"explain"], [b"explain", b"holidays"], [b"gen", b"100"], [b"convert", b"hebrew", b"iso", b"reject"]]
PROCESSES = os.cpu_count() or 1
# What Rust's `escape_debug` writes for some characters.
ESCAPES = {"\\": "\\\\", "\n": "\\n", "\r": "\\r", "\t": "\\t", "'": "\\'", '"': '\\"'}


@dataclass(frozen=True)
class Case:
    words: list[bytes]
    source: bytes
    out: bytes
    status: int

    def __str__(self) -> str:
        return f"{b' '.join(self.words)!r} over {self.source!r}"


def cases_of(path: Path) -> list[Case]:
    cases = map(json.loads, path.read_text().splitlines())
    return [Case([word.encode() for word in c["words"]], c["source"].encode(), c["out"].encode(), c["status"]) for c in cases]


def run(program: str, words: list[bytes], source: bytes) -> subprocess.CompletedProcess:
    return subprocess.run([program, *words], input=source, capture_output=True, timeout=20, check=False)


def first_difference(wanted: bytes, got: bytes) -> str:
    lines = zip_longest(wanted.splitlines(keepends=True), got.splitlines(keepends=True))
    want, have = next((want, have) for want, have in lines if want != have)
    return f"  wanted {want!r}\n  got    {have!r}"


def fault_of_case(case: Case) -> str | None:
    """What is wrong with the program's answer, if anything."""
    ran = run(PROGRAM, case.words, case.source)
    if ran.stdout != case.out:
        return f"{case}:\n{first_difference(case.out, ran.stdout)}"
    if ran.stderr and ran.returncode < 2:
        return f"{case}: standard error: {ran.stderr[:200]!r}"
    return None if ran.returncode == case.status else f"{case}: status {ran.returncode} in place of {case.status}"


def stop_at_first(fault_of: Callable[[Case], str | None], cases: list[Case]) -> None:
    with ThreadPoolExecutor(PROCESSES) as pool:
        fault = next(filter(None, pool.map(fault_of, cases)), None)
    if fault:
        raise SystemExit(fault)


def compare_lists(paths: list[Path]) -> str:
    cases = [case for path in paths for case in cases_of(path)]
    stop_at_first(fault_of_case, cases)
    return f"{len(cases)} lists agree"


def words_like(chance: random.Random, words: list[bytes]) -> list[bytes]:
    """The words, some exchanged for others of their place or for any, some left out, put in or moved."""
    words = list(words)
    places = NEAR.get(words[0], [])
    for at, choices in enumerate(places, 1):
        if at < len(words) and chance.random() < 0.1:
            words[at] = chance.choice(choices)
    for _ in range(chance.choice([0, 0, 1, 1, 2])):
        at = chance.randrange(len(words) + 1)
        kind = chance.randrange(4)
        if kind == 0:
            words[at : at + 1] = [chance.choice(ANYWHERE)]
        elif kind == 1:
            words.insert(at, chance.choice(ANYWHERE))
        elif kind == 2:
            del words[at : at + 1]
        elif words:
            words.insert(at, words.pop(chance.randrange(len(words))))
    return words


def narrowed(words: list[bytes]) -> list[bytes]:
    """The words of a command, with a last day that isn't far behind the first: a long list would tell no more. A rule is replaced
    by one that ends at once, since its start may lie far away."""
    at = LAST_DAY.get(words[0])
    if not at:
        return words
    if words[0] == b"rrule" and words[-1] not in RULES:
        words = [*words[:-1], RULES[0]]
    first, last = int(words[at - 1]), int(words[at])
    return [*words[:at], b"%d" % min(last, first + MOST_DAYS), *words[at + 1 :]] if first <= last else words


def fault_of_words(case: Case) -> str | None:
    """What is wrong with the end of the run, of the program by itself and by the script; the case's answer isn't looked at."""
    wanted = ENDS if is_command(case.words) else {WORDS_REFUSED}
    # No words, or an empty one, are answered by the script: it says what it takes.
    for program in [PROGRAM, SCRIPT] if any(case.words) else [PROGRAM]:
        ran = run(program, case.words, case.source)
        if ran.returncode not in wanted or (ran.stdout and wanted == {WORDS_REFUSED}):
            return f"{program}, {case}: status {ran.returncode}, not of {wanted}, and {ran.stdout[:80]!r}"
        if program == PROGRAM and wanted == {WORDS_REFUSED} and not ran.stderr.startswith(begin_of_refusal(case.words)):
            return f"{case}: {ran.stderr[:80]!r} in place of {begin_of_refusal(case.words)!r}"
    return None


def escaped(word: bytes) -> bytes:
    """A word with its quotes, backslashes and what isn't printable escaped, as Rust's `escape_debug` does."""
    text = "".join(ESCAPES.get(it, it if it.isprintable() else f"\\u{{{ord(it):x}}}") for it in word.decode())
    return text.encode()


def begin_of_refusal(words: list[bytes]) -> bytes:
    """What the program's line about words that are no command begins with: it names the first bad word."""
    if not all(map(is_text, words)):
        return b"calspan: a word isn't UTF-8; "
    bad = first_bad_word(words)
    return b"calspan: word %d %s: " % (bad, escaped(words[bad - 1]) if bad <= len(words) else b"is missing")


def compare_words(chance: random.Random, cases: list[Case], count: int) -> None:
    """Words that are no form of a command are refused with nothing written and the first bad one named, and all others are taken."""
    tries = []
    for _ in range(count):
        case = chance.choice(cases)
        words = words_like(chance, case.words if chance.random() < 0.9 else chance.choice(SHORT))
        tries.append(replace(case, words=narrowed(words) if is_command(words) else words))
    stop_at_first(fault_of_words, tries)
