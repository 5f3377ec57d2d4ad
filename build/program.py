#!/usr/bin/env python3
"""Proves and builds the program `calspan`: each crate that it stands on once, crates that don't stand on one another side by side.
With names of libraries as arguments, it proves these and what they stand on in its place; of a static library it builds the archive, and of
the one for WebAssembly the module `bindings/web/icu_calendar.wasm`. With
`--progress` first, it says on standard error how many crates have to be proved and how long that takes, and then how far it is.

A crate is built as soon as the crates below it are. Where one crate has by far the longest chain of others behind it, the chain decides
when the program is there: so that crate has all processors, and others run beside it with less right to them. The libraries have
statements alone (`--statements`): with their proofs in them, each crate above takes half a minute more to load. What is built stays in
the user's store (`build/store.py`), which all checkouts share: a later build proves only the crates that changed, and those above them where
a library differs. What `rt ci` left in this checkout is taken over.
"""

import contextlib
import ctypes
import hashlib
import math
import os
import shutil
import signal
import subprocess
import sys
import time
from pathlib import Path
from typing import NamedTuple

import store

TOP = Path(__file__).resolve().parent.parent
PROGRAM = "calspan"
TARGET = "x86_64-unknown-linux-gnu"
# The static library that is built for WebAssembly, and the stack of its module.
MODULE = "icu_calendar_wasm"
MODULE_TARGET = "wasm64-unknown-unknown"
MODULE_STACK = 131072
# A library of the kit that says, as each does, which libraries of the toolchain it was built over.
A_LIBRARY = "thiserror"
# More jobs than four gain nothing in one crate.
MOST_JOBS = 4
# A crate has a right to processors beside the one with the longest chain where its own is at least this part of it.
PEER = 0.5
# How far a build steps back (`nice`) that the program doesn't wait for yet.
LAST_RIGHT = 10
# How many times as fast several jobs prove one crate as one job does, measured over the longest chain.
SPEED_OF_JOBS = 1.6
# `prctl(PR_SET_PDEATHSIG, ..)` of Linux: the signal that a process gets when its parent ends.
PR_SET_PDEATHSIG = 1
LIBC = ctypes.CDLL(None)


class Kit(NamedTuple):
    """What the toolchain has that `rt` is part of."""

    rattle: Path
    linker: Path
    libraries: Path
    c_libraries: list[Path]
    logic: Path
    built_logic: Path
    toolchain: Path
    sum: str


def kit() -> Kit:
    rt = shutil.which("rt")
    if not rt:
        sys.exit("the toolchain's command rt is not on the PATH")
    top = Path(rt).resolve().parent.parent
    return Kit(
        rattle=top / "bin/rattle",
        linker=top / "bin/rattle-link",
        libraries=top / "rlibs",
        c_libraries=[top / "c/libos_c.a", top / "c/liblibc_c.a"],
        logic=top / "rattle/logic/antt-project.json",
        built_logic=top / "logic_built",
        toolchain=top / "toolchain",
        sum=hashlib.sha256((top / "KIT-ID").read_bytes()).hexdigest(),
    )


def end_with_parent() -> None:
    LIBC.prctl(PR_SET_PDEATHSIG, signal.SIGTERM)


def lines_of_crates() -> list[tuple[str, str]]:
    """What stands before and behind the colon in each line of crates.txt: a name, with a word behind it for a static library, and names."""
    lines = (line.split("#")[0].partition(":") for line in (TOP / "crates.txt").read_text().splitlines())
    return [(head, names) for head, colon, names in lines if colon]


def static_libraries() -> set[str]:
    return {head.split()[0] for head, _ in lines_of_crates() if head.split()[1:] == ["staticlib"]}


def crates_below(tops: list[str]) -> dict[str, list[str]]:
    """Some crates and all that they stand on, each with its libraries; a library stands before those above it."""
    listed = {head.split()[0]: names.split() for head, names in lines_of_crates()}
    if unlisted := set(tops) - set(listed):
        sys.exit(f"crates.txt doesn't list {', '.join(sorted(unlisted))}")
    wanted = set(tops)
    for name in reversed(listed):
        if name in wanted:
            wanted.update(listed[name])
    return {name: names for name, names in listed.items() if name in wanted}


def files_of(name: str) -> list[Path]:
    """The files that the proof of a crate reads."""
    folder = TOP / "crates" / name
    return sorted(it for part in ("src", "specs", "proofs") for it in (folder / part).rglob("*") if it.is_file())


def proof_seconds(crates: dict[str, list[str]]) -> dict[str, int]:
    """What the proof of each crate is expected to take on one processor. Only the order of the builds goes by it."""
    measured = dict(line.split() for line in (TOP / "build/proof_seconds.txt").read_text().splitlines() if line[:1] not in ("", "#"))
    lines = {name: sum(it.read_text().count("\n") for it in files_of(name)) for name in crates}
    return {name: int(measured.get(name, 10 + lines[name] // 16)) for name in crates}


def longest_chains(crates: dict[str, list[str]], seconds: dict[str, int]) -> dict[str, int]:
    """How many seconds of one processor stand from each crate up the longest chain of crates above it."""
    chains = dict.fromkeys(crates, 0)
    for name in reversed(crates):
        chains[name] += seconds[name]
        for below in crates[name]:
            if below in chains:
                chains[below] = max(chains[below], chains[name])
    return chains


def command(name: str, crates: dict[str, list[str]], tools: Kit, room: Path, jobs: int) -> list[str]:
    """The words that build a crate, over libraries in the room and in the kit."""
    is_program, is_static = name == PROGRAM, name in static_libraries()
    words = [tools.rattle, "build", "--crate-name", name, "src/main.rt" if is_program else "src/lib.rt"]
    for it in ["std", *crates[name]]:
        words += ["--extern", f"{it}={room if it in crates else tools.libraries}/{it}.rlib"]
    words += ["-L", f"dependency={tools.libraries}", "-L", f"dependency={room}"]
    words += ["--antt-project", tools.logic, "--logic-built", tools.built_logic]
    words += ["--jobs", str(jobs)]
    words += ["--crate-type", "staticlib"] if is_static else []
    words += ["--target", MODULE_TARGET] if name == MODULE else []
    words += ["--toolchain", tools.toolchain, "--backend", "llvm"] if is_program or is_static else ["--statements"]
    return [str(it) for it in [*words, "-o", made(name, room)]]


def made(name: str, room: Path) -> Path:
    """What the build of a crate makes: a library, an archive, or the program before it is linked."""
    if name in static_libraries():
        return room / f"lib{name}.a"
    return room / (f"{name}.o" if name == PROGRAM else f"{name}.rlib")


def newest(paths: list[Path]) -> float:
    return max((it.stat().st_mtime for it in paths), default=0.0)


def left_by_gate(name: str) -> Path:
    return TOP / "crates" / name / "out/rlib" / f"{name}.rlib"


class View:
    """The folder of a build: what it makes, and links to what the store has. `sums` are those of the crates that are there."""

    def __init__(self, kept: store.Store, room: Path, crates: dict[str, list[str]], tools: Kit):
        self.store, self.room, self.crates, self.tools = kept, room, crates, tools
        self.sums: dict[str, str] = {}
        self.below: dict[str, set[str]] = {}
        for name, names in crates.items():
            self.below[name] = {it for below in names if below in crates for it in (below, *self.below[below])}

    def is_ready(self, name: str) -> bool:
        return self.below[name] <= self.sums.keys()

    def key(self, name: str) -> str:
        """What a crate is made of: the toolchain, the words of its build, the libraries below it, and its own files."""
        said = [self.tools.sum, *command(name, self.crates, self.tools, Path(), 0)]
        said += [f"{it} {self.sums[it]}" for it in sorted(self.below[name])]
        said += [f"{it.relative_to(TOP)} {hashlib.sha256(it.read_bytes()).hexdigest()}" for it in files_of(name)]
        return hashlib.sha256("\n".join(said).encode()).hexdigest()

    def find(self, name: str) -> bool:
        """Links what was once made of the same contents, or what `rt ci` left of them."""
        key = self.key(name)
        found = self.store.found(name, key)
        if not found and self.is_left(name):
            shutil.copytree(left_by_gate(name), made(name, self.room))
            found = self.store.kept(name, key, made(name, self.room))
        if found:
            self.link(name, found)
        return bool(found)

    def keep(self, name: str, key: str) -> None:
        """Moves what was made of a crate into the store, and links it."""
        self.link(name, self.store.kept(name, key, made(name, self.room)))

    def link(self, name: str, kept: Path) -> None:
        made(name, self.room).symlink_to(kept)
        self.sums[name] = kept.stem

    def is_left(self, name: str) -> bool:
        """Whether `rt ci` left a library of a crate in this checkout that is newer than its files and fits those below it: one of statements
        has the sums of all that it was built over. Where AFTER_GATE is set, `rt ci` has just ended, and may have kept an older one of the
        same files."""
        library = left_by_gate(name)
        if made(name, self.room).suffix != ".rlib" or not (library / "format").is_file():
            return False
        if not os.environ.get("AFTER_GATE") and newest([library / "format"]) <= newest(files_of(name)):
            return False
        said, of_kit = store.seal_of(library), store.seal_of(self.tools.libraries / f"{A_LIBRARY}.rlib")
        sums = of_kit.below | {it: self.sums[it] for it in self.below[name]}
        return said.prover == of_kit.prover and said.direct == {"std", *self.crates[name]} and sums.items() <= said.below.items()


class Build:
    """The crates that are built, those that are under way, and those that are left, by the longest chain."""

    def __init__(self, kept: store.Store, room: Path, tops: list[str], shows_progress: bool):
        self.shows_progress = shows_progress
        self.room, self.tools, self.crates = room, kit(), crates_below(tops)
        self.view = View(kept, room, self.crates, self.tools)
        self.seconds = proof_seconds(self.crates)
        self.chains = longest_chains(self.crates, self.seconds)
        self.processors = len(os.sched_getaffinity(0))
        self.left = sorted(self.crates, key=lambda it: -self.chains[it])
        self.running: dict[str, tuple[subprocess.Popen, int, str]] = {}
        self.began = time.monotonic()

    def say(self, what: str) -> None:
        print(f"== {time.monotonic() - self.began:.0f} s: {what}", flush=True)

    def show_work(self) -> None:
        """Says how many crates have to be proved, and how long that takes if no other program needs the processors."""
        whole = sum(self.seconds[it] for it in self.left) / self.processors
        chain = max(longest_chains({it: self.crates[it] for it in self.crates if it in self.left}, self.seconds).values())
        minutes = math.ceil(max(whole, chain / SPEED_OF_JOBS) / 60)
        crates = "1 crate has" if len(self.left) == 1 else f"{len(self.left)} crates have"
        on = "1 free processor" if self.processors == 1 else f"{self.processors} free processors"
        print(f"calspan: {crates} to be proved, which takes about {minutes} min on {on}", file=sys.stderr, flush=True)

    def show_progress(self) -> None:
        minutes = (time.monotonic() - self.began) / 60
        print(f"calspan: {len(self.view.sums)} of {len(self.crates)} crates proved, {minutes:.0f} minutes gone", file=sys.stderr, flush=True)

    def find_made(self) -> None:
        """Finds what was once made of the same contents, lowest first."""
        for name in self.crates:
            if name in self.left and self.view.is_ready(name) and self.view.find(name):
                self.left.remove(name)

    def begin_ready(self) -> None:
        """Begins what can be built. Where several crates have long chains, each has processors by what its own proof takes, but at least an
        even share, and none begins where all have jobs: more than four proofs at once slow one another. Others begin beside one that is alone."""
        ready = [it for it in self.left if self.view.is_ready(it)]
        able = sorted([*ready, *self.running], key=lambda it: -self.chains[it])
        peers = [it for it in able if self.chains[it] >= PEER * self.chains[able[0]]]
        together = sum(self.seconds[it] for it in peers)
        for name in ready:
            under_way = sum(it for _, it, _ in self.running.values())
            if name not in peers:
                if under_way < self.processors + (2 if len(peers) == 1 else 0):
                    self.begin(name, 1, LAST_RIGHT)
                continue
            if under_way >= self.processors:
                continue
            share = math.ceil(self.processors * self.seconds[name] / together)
            jobs = min(max(share, self.processors // len(peers)), MOST_JOBS)
            self.begin(name, jobs, min(peers.index(name), LAST_RIGHT))

    def begin(self, name: str, jobs: int, niceness: int) -> None:
        key = self.view.key(name)
        words = ["nice", "-n", str(niceness), *command(name, self.crates, self.tools, self.room, jobs)]
        self.say(f"{name}, {jobs} jobs")
        with (self.room / f"{name}.log").open("w") as log:
            process = subprocess.Popen(
                words,
                cwd=TOP / "crates" / name,
                stdin=subprocess.DEVNULL,
                stdout=log,
                stderr=log,
                process_group=0,
                preexec_fn=end_with_parent,
            )
        self.running[name] = process, jobs, key
        self.left.remove(name)

    def ended(self) -> tuple[str, str, int]:
        """The name of the next crate whose build ends, the key of its contents as they were when it began, and the status."""
        pid, said, usage = os.wait4(-1, 0)
        name = next(it for it, (process, _, _) in self.running.items() if process.pid == pid)
        process, _, key = self.running.pop(name)
        process.returncode = os.waitstatus_to_exitcode(said)
        self.say(f"{name}: status {process.returncode}, {usage.ru_utime + usage.ru_stime:.0f} s of one processor")
        return name, key, process.returncode

    def whole(self) -> int:
        """Finds or builds each crate, and answers the status of the first build that fails, or 0."""
        self.find_made()
        if not self.left:
            return 0
        with self.view.store.proving():
            try:
                self.find_made()
                if self.left and self.shows_progress:
                    self.show_work()
                return self.built()
            finally:
                self.stop()

    def built(self) -> int:
        """Builds what is left, and answers the status of the first build that fails, or 0."""
        while self.left or self.running:
            self.begin_ready()
            name, key, status = self.ended()
            if status:
                print((self.room / f"{name}.log").read_text(errors="replace"))
                return status
            self.view.keep(name, key)
            if self.shows_progress:
                self.show_progress()
            self.find_made()
        return 0

    def stop(self) -> None:
        """Ends the builds under way, where another one failed or this program is to end."""
        for process, _, _ in self.running.values():
            with contextlib.suppress(ProcessLookupError):
                os.killpg(process.pid, signal.SIGTERM)
        for process, _, _ in self.running.values():
            process.wait()


def link(tools: Kit, room: Path) -> int:
    """Links the program into the folder where `rt run` would make it, and answers the linker's status."""
    program = TOP / "crates" / PROGRAM / "out" / PROGRAM
    program.parent.mkdir(parents=True, exist_ok=True)
    words = [tools.linker, "--target", TARGET, "--toolchain", tools.toolchain, "-o", program, made(PROGRAM, room), *tools.c_libraries]
    return subprocess.run(words, stdin=subprocess.DEVNULL, stderr=subprocess.STDOUT).returncode


def link_module(tools: Kit, archive: Path) -> int:
    """Links the archive for WebAssembly into a module, and answers the linker's status."""
    words = [tools.linker, "--target", MODULE_TARGET, "--toolchain", tools.toolchain, "--stack", str(MODULE_STACK)]
    return subprocess.run([*words, "-o", TOP / "bindings/web/icu_calendar.wasm", archive], stdin=subprocess.DEVNULL).returncode


def hand_out(room: Path, tops: list[str]) -> None:
    """Puts archives into the folders where `rt lib` would make them."""
    for name in static_libraries().intersection(tops):
        out = TOP / "crates" / name / "out"
        out.mkdir(parents=True, exist_ok=True)
        shutil.copy(made(name, room), out)


def build(kept: store.Store, tops: list[str], shows_progress: bool) -> int:
    """Builds libraries or the program, and answers the status."""
    with kept.view() as room:
        work = Build(kept, room, tops, shows_progress)
        if status := work.whole():
            return status
        hand_out(room, tops)
        if MODULE in tops and (status := link_module(work.tools, made(MODULE, room))):
            return status
        return link(work.tools, room) if PROGRAM in tops else 0


def main(words: list[str]) -> int:
    for it in (signal.SIGTERM, signal.SIGINT, signal.SIGHUP):
        signal.signal(it, lambda number, _: sys.exit(128 + number))
    shows_progress = words[:1] == ["--progress"]
    tops = words[1:] if shows_progress else words
    with store.opened() as kept:
        status = build(kept, tops or [PROGRAM], shows_progress)
        kept.prune()
        return status


if __name__ == "__main__":
    sys.exit(main(sys.argv[1:]))
