#!/usr/bin/env python3
"""Measures what proofs cost: what the proof of each crate and of its tests takes of one processor, in seconds and in multiples of `rt selftest`.

Each is proved with one job, as many side by side as there are processors, over libraries of statements in the user's store (`build/store.py`).
With names of crates, these are measured, and those below them that the store hasn't. With
`--functions NAME` it proves one crate and lists its functions by what they took: in seconds by the clock, and in millions of steps, once those
of the elaboration and once those of the kernel; the crates below are built first. With `--goals NAME` it lists the goals and lemmas so, each with
what its tactics took: a `search` that took half a million steps, or that a `grind` stands behind, is worth an answer.

Run it where nothing else runs. Machines and days differ, so a crate is compared with itself on one machine, or by the multiples. The steps are
the same on each machine, whatever runs beside it, but none are counted of a function's borrows (its `Lts`).
"""

import os
import re
import resource
import subprocess
import sys
from pathlib import Path
from typing import NamedTuple

import program
import store

# How often the unit is measured; the least counts.
TIMES = 3
# What of a file's name says which function it is of, and which part of its proof.
PARTS = {"Lts", "Tie", "Proof", "Goals", "Answers", "Invariants", "Mir", "Code", "Kinds", "Met", "Laws", "Statement", "Symbol", "TheImpl", "Layout"}
PARTS |= {"Given", "Named", "Reads", "TheLink", "View"}
# What a declaration took, in the record of kept work: the steps of its elaboration, and those of the kernel.
STEPS = re.compile(rb'"steps":\[(\d+),(\d+),\d+\]')
# The same with what the tactics of the declaration took before it, and its name.
DECLARATION = re.compile(rb'"calls":(\[[^{}]*?\]),"goals":.*?"metas":\[[^\]]*\],"name":"([^"]*)".*?' + STEPS.pattern, re.DOTALL)
TACTIC = re.compile(rb'\["(\w+)",\[\d+,\d+\],(\d+)\]')


class Task(NamedTuple):
    """The proof of a crate, or that of its tests."""

    name: str
    is_of_tests: bool


def is_program(name: str) -> bool:
    return (program.TOP / "crates" / name / "src/main.rt").exists()


def has_tests(name: str) -> bool:
    return any("#[test]" in it.read_text() for it in program.files_of(name) if it.suffix == ".rt")


def selftest() -> float:
    """What `rt selftest` takes of one processor, at best."""

    def taken() -> float:
        used = resource.getrusage(resource.RUSAGE_CHILDREN)
        return used.ru_utime + used.ru_stime

    best = float("inf")
    for _ in range(TIMES):
        before = taken()
        subprocess.run(["rt", "selftest"], stdout=subprocess.DEVNULL, stderr=subprocess.DEVNULL, check=True)
        best = min(best, taken() - before)
    return best


def command(task: Task, crates: dict[str, list[str]], tools: program.Kit, room: Path, kept: Path | None = None) -> list[str]:
    """The words that prove a crate with one job. A library is built too, of statements alone, unless its work is to be kept."""
    name = task.name
    words = program.command(name, crates, tools, room, 1)
    words[4] = "src/main.rt" if is_program(name) else "src/lib.rt"
    if task.is_of_tests or kept or is_program(name) or name in program.static_libraries():
        words[1] = "check"
        for flag, values in (("--toolchain", 1), ("--backend", 1), ("--statements", 0), ("-o", 1)):
            if flag in words:
                del words[words.index(flag) : words.index(flag) + values + 1]
    words += ["--test"] if task.is_of_tests else []
    words += ["--incremental", str(kept)] if kept else []
    return words


class Measuring:
    """The proofs that are to be measured, those under way, and the libraries that are there."""

    def __init__(self, kept: store.Store, room: Path, names: list[str]):
        self.room, self.tools = room, program.kit()
        listed = [head.split()[0] for head, _ in program.lines_of_crates()]
        self.crates = program.crates_below(names or listed)
        self.wanted = set(names or listed)
        self.view = program.View(kept, room, self.crates, self.tools)
        self.chains = program.longest_chains(self.crates, program.proof_seconds(self.crates))
        tests = [Task(it, True) for it in self.crates if it in self.wanted and has_tests(it)]
        self.left = [Task(it, False) for it in self.crates] + tests
        self.left.sort(key=lambda it: (it.is_of_tests, -self.chains[it.name]))
        self.running: dict[int, tuple[Task, str]] = {}

    def find_built(self) -> None:
        """Finds what the store has of the crates that aren't measured, lowest first."""
        for name in self.crates:
            task = Task(name, False)
            if name not in self.wanted and task in self.left and self.view.is_ready(name) and self.view.find(name):
                self.left.remove(task)

    def log(self, task: Task) -> Path:
        return self.room / f"{task.name}{'.tests' if task.is_of_tests else ''}.log"

    def begin(self, task: Task) -> None:
        with self.log(task).open("w") as out:
            words = command(task, self.crates, self.tools, self.room)
            process = subprocess.Popen(words, cwd=program.TOP / "crates" / task.name, stdin=subprocess.DEVNULL, stdout=out, stderr=out)
        self.running[process.pid] = task, self.view.key(task.name)
        self.left.remove(task)

    def each(self, lanes: int):
        """What each proof takes, as it ends."""
        self.find_built()
        while self.left or self.running:
            for task in [it for it in self.left if self.view.is_ready(it.name)][: lanes - len(self.running)]:
                self.begin(task)
            pid, said, usage = os.wait4(-1, 0)
            task, key = self.running.pop(pid)
            if os.waitstatus_to_exitcode(said):
                sys.exit(f"{self.log(task).read_text(errors='replace')}\n{task.name} isn't proved")
            if not task.is_of_tests and program.made(task.name, self.room).exists():
                self.view.keep(task.name, key)
                self.find_built()
            yield task, usage.ru_utime + usage.ru_stime


def function_of(name: str) -> str:
    """The function that a module of kept work is of."""
    return ".".join(part for part in name.split(".") if part not in PARTS)


def seconds_of_functions(kept: Path) -> dict[str, float]:
    """What each function took by the clock: a module's file is written as the module ends."""
    files = sorted((it for it in kept.rglob("*.oantt") if "records" not in it.parts), key=lambda it: it.stat().st_mtime_ns)
    taken: dict[str, float] = {}
    for before, it in zip(files, files[1:]):
        function = function_of(it.stem)
        taken[function] = taken.get(function, 0.0) + (it.stat().st_mtime_ns - before.stat().st_mtime_ns) / 1e9
    return taken


def steps_of_functions(kept: Path) -> dict[str, tuple[int, int]]:
    """How many steps the declarations of each function took, of elaboration and of the kernel."""
    taken: dict[str, tuple[int, int]] = {}
    for it in kept.rglob("records/*.decls.oantt"):
        function = function_of(it.name.removesuffix(".decls.oantt"))
        elaborated, checked = taken.get(function, (0, 0))
        for first, second in STEPS.findall(it.read_bytes()):
            elaborated, checked = elaborated + int(first), checked + int(second)
        taken[function] = elaborated, checked
    return taken


def proved_work(kept: store.Store, room: Path, name: str) -> Path:
    """Proves a crate with one job, and returns the folder in which the prover keeps its work."""
    below = [it for it in program.crates_below([name]) if it != name]
    if below and (status := program.Build(kept, room, below, False).whole()):
        sys.exit(status)
    work = room / "work"
    work.mkdir()
    words = command(Task(name, False), program.crates_below([name]), program.kit(), room, work)
    subprocess.run(words, cwd=program.TOP / "crates" / name, stdout=subprocess.DEVNULL, stderr=subprocess.DEVNULL, check=True)
    return work


def show_functions(kept: Path) -> None:
    """Lists what the functions of a crate took."""
    seconds, steps = seconds_of_functions(kept), steps_of_functions(kept)
    print("seconds  elaboration  kernel  function")
    for function, taken in sorted(seconds.items(), key=lambda it: -it[1])[:40]:
        elaborated, checked = steps.get(function, (0, 0))
        print(f"{taken:7.1f} {elaborated / 1e6:12.2f} {checked / 1e6:7.1f}  {function}")
    elaborated, checked = (sum(it) / 1e6 for it in zip(*steps.values()))
    print(f"{sum(seconds.values()):7.1f} {elaborated:12.2f} {checked:7.1f}  in all")


def show_goals(kept: Path) -> None:
    """Lists what the goals and lemmas of a crate took."""
    found = []
    for it in kept.rglob("records/*.decls.oantt"):
        module = it.name.removesuffix(".decls.oantt").removeprefix("Rattle-")
        for calls, goal, elaborated, checked in DECLARATION.findall(it.read_bytes()):
            tactics = " ".join(f"{tactic.decode()} {int(steps) / 1e6:.2f}" for tactic, steps in TACTIC.findall(calls) if int(steps) >= 10000)
            found.append((int(elaborated) / 1e6, int(checked) / 1e6, f"{module} {goal.decode()}", tactics))
    print("elaboration  kernel  goal or lemma, tactics")
    for elaborated, checked, goal, tactics in sorted(found, key=lambda it: -it[0] - it[1])[:60]:
        print(f"{elaborated:11.2f} {checked:7.2f}  {goal}: {tactics}")


def main(words: list[str]) -> int:
    with store.opened() as kept, kept.view() as room:
        if words[:1] == ["--functions"]:
            show_functions(proved_work(kept, room, words[1]))
            return 0
        if words[:1] == ["--goals"]:
            show_goals(proved_work(kept, room, words[1]))
            return 0
        unit = selftest()
        print(f"rt selftest: {unit:.0f} s")
        with kept.proving():
            for task, seconds in Measuring(kept, room, words).each(os.cpu_count() or 1):
                print(f"{task.name}{' (tests)' if task.is_of_tests else ''}: {seconds:.0f} s, {seconds / unit:.2f}", flush=True)
    return 0


if __name__ == "__main__":
    sys.exit(main(sys.argv[1:]))
