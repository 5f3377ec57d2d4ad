"""What was proved is found again: the user's store of libraries, which all checkouts share.

A library of statements is the same, byte for byte, wherever and with however many jobs it is built, and after a change of comments or of
tests in the code (`.rt`); the files of definitions and proofs (`.antt`) are part of it as they stand. So what is made of a crate is kept by
what it is made of: the toolchain, the crate's own files, and the libraries below it, not their sources. A crate is proved again where one of
these differs, and one above it only where another library came out.

`libraries/NAME/SUM.rlib` is a library (an archive ends with `.a`, a program that isn't linked with `.o`), and `keys/NAME/KEY` holds the sum
of what is made of the contents with this key. The sum of a library is that of its file `format`: it names the sums of all files in the
library, and by it a library says which ones it was built over. In `views` each build has a folder of its own, with links to what is there.
"""

import fcntl
import hashlib
import os
import shutil
import sys
import tempfile
from collections.abc import Iterator
from contextlib import contextmanager
from pathlib import Path
from typing import IO, NamedTuple

# How many of the libraries of a crate are kept, the last used ones, and how many keys: each is a line of text.
MOST_LIBRARIES = 3
MOST_KEYS = 64


def sum_of(made: Path) -> str:
    return hashlib.sha256((made / "format" if made.is_dir() else made).read_bytes()).hexdigest()


class Seal(NamedTuple):
    """What a library says of itself: the build of the prover that wrote it, its direct libraries, and the sums of all below it."""

    prover: str
    direct: set[str]
    below: dict[str, str]


def seal_of(library: Path) -> Seal:
    lines = [line.split() for line in (library / "format").read_text().splitlines()]
    prover = next((it[1] for it in lines if it[:1] == ["rattle-build"]), "")
    return Seal(prover, {it[1] for it in lines if it[:1] == ["dep"]}, {it[1]: it[2] for it in lines if it[:1] == ["over"]})


def remove(path: Path) -> None:
    if path.is_dir() and not path.is_symlink():
        shutil.rmtree(path, ignore_errors=True)
    else:
        path.unlink(missing_ok=True)


def by_use(folder: Path) -> list[Path]:
    """What stands in a folder, the last used first."""
    return sorted(folder.iterdir(), key=lambda it: it.lstat().st_mtime, reverse=True)


class Store:
    """The store of a user. Whoever has it open may read and add to it, and nothing is removed from it meanwhile."""

    def __init__(self, folder: Path, users: IO[str]):
        self.folder, self.users = folder, users

    def found(self, name: str, key: str) -> Path | None:
        """What is made of the contents with a key, if it is there."""
        said = self.folder / "keys" / name / key
        try:
            made = self.folder / "libraries" / name / said.read_text()
            os.utime(made)
            os.utime(said)
        except OSError:
            return None
        return made

    def kept(self, name: str, key: str, made: Path) -> Path:
        """Moves what was made of the contents with a key into the store, and returns where it is."""
        place = self.folder / "libraries" / name / (sum_of(made) + made.suffix)
        place.parent.mkdir(parents=True, exist_ok=True)
        if place.exists():
            remove(made)
        else:
            made.rename(place)
        said = self.folder / "keys" / name / key
        said.parent.mkdir(parents=True, exist_ok=True)
        unsaid = made.with_suffix(".key")
        unsaid.write_text(place.name)
        unsaid.replace(said)
        os.utime(place)
        return place

    @contextmanager
    def view(self) -> Iterator[Path]:
        """A folder for one build."""
        (self.folder / "views").mkdir(exist_ok=True)
        with tempfile.TemporaryDirectory(dir=self.folder / "views", ignore_cleanup_errors=True) as folder:
            yield Path(folder)

    @contextmanager
    def proving(self) -> Iterator[None]:
        """Lets one build at a time prove, of whatever checkout: it has the processors, and others find what it leaves."""
        with (self.folder / "lock").open("w") as lock:
            try:
                fcntl.flock(lock, fcntl.LOCK_EX | fcntl.LOCK_NB)
            except OSError:
                print("calspan: another build is under way, and this one waits for it", file=sys.stderr, flush=True)
                fcntl.flock(lock, fcntl.LOCK_EX)
            yield

    def prune(self) -> None:
        """Removes what wasn't used for longest, unless somebody else has the store open: then a later build does it."""
        try:
            fcntl.flock(self.users, fcntl.LOCK_EX | fcntl.LOCK_NB)
        except OSError:
            return
        for folder, most in (("libraries", MOST_LIBRARIES), ("keys", MOST_KEYS)):
            for crate in (self.folder / folder).glob("*"):
                for it in by_use(crate)[most:]:
                    remove(it)
        for view in (self.folder / "views").glob("*"):
            remove(view)


@contextmanager
def opened() -> Iterator[Store]:
    """The store in the user's cache folder."""
    folder = Path(os.environ.get("XDG_CACHE_HOME") or Path.home() / ".cache") / "calspan"
    folder.mkdir(parents=True, exist_ok=True)
    with (folder / "users").open("w") as users:
        fcntl.flock(users, fcntl.LOCK_SH)
        yield Store(folder, users)
