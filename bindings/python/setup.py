"""Puts the proved shared object into the package. `ICU_CALENDAR_LIBRARY` names it, or it stands where bindings/c/build.sh puts it.

The wheel is for this platform, since it holds machine code, and for any Python 3, since it holds no extension module."""

import os
import shutil
from pathlib import Path

from setuptools import setup
from setuptools.command.build_py import build_py
from wheel.bdist_wheel import bdist_wheel

NAME = "libicu_calendar.so"
HERE = Path(__file__).resolve().parent


def library() -> Path:
    named = os.environ.get("ICU_CALENDAR_LIBRARY")
    places = [Path(it) for it in (named, HERE.parents[1] / "crates/icu_calendar_c/out" / NAME, HERE / "icu_calendar" / NAME) if it]
    found = next((it for it in places if it.exists()), None)
    if found is None:
        raise SystemExit(f"{NAME} is in none of these places: {', '.join(map(str, places))}; bindings/c/build.sh builds it")
    return found


class WithLibrary(build_py):
    def run(self) -> None:
        super().run()
        target = Path(self.build_lib) / "icu_calendar"
        target.mkdir(parents=True, exist_ok=True)
        shutil.copyfile(library(), target / NAME)


class ForPlatform(bdist_wheel):
    def finalize_options(self) -> None:
        super().finalize_options()
        self.root_is_pure = False

    def get_tag(self) -> "tuple[str, str, str]":
        return ("py3", "none", super().get_tag()[2])


setup(cmdclass={"build_py": WithLibrary, "bdist_wheel": ForPlatform})
