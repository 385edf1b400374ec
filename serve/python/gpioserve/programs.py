"""Where the programs are: beside this package, or on the PATH."""

from __future__ import annotations

import os
import shutil
import subprocess
from functools import lru_cache
from pathlib import Path
from typing import List

from .errors import NotServed

HERE = Path(__file__).resolve().parent
# The repository, where this package stands in it as serve/python/gpioserve.
TOP = HERE.parents[2]
# Folders of programs: what `make -C serve` builds, and, of the installed PREFIX/lib/python3/dist-packages/gpioserve,
# PREFIX/lib/gpioserve.
FOLDERS = (HERE.parents[1] / "out", HERE.parents[2] / "gpioserve")
# Prints the path of a program of the repository's present sources. Where there is none it makes one, in about a minute.
MAKER = TOP / "launcher/program"


def _is_program(path: Path) -> bool:
    """Whether a file is there that can be run."""
    return path.is_file() and os.access(path, os.X_OK)


def find(name: str) -> str:
    """The path of a program: `gpioserve`, `gpiosay` or `gpioserved`. NotServed where it is nowhere."""
    for path in (folder / name for folder in FOLDERS):
        if _is_program(path):
            return str(path)
    if name == "gpioserved" and _is_program(MAKER):
        return _made(name)
    found = shutil.which(name)
    if found:
        return found
    raise NotServed(f"{name} is neither in {', nor in '.join(map(str, FOLDERS))}, nor on the PATH")


@lru_cache(maxsize=None)
def _made(name: str) -> str:
    """The path of a program of the present sources, which is made where there is none. It is asked for once."""
    done = subprocess.run([str(MAKER), name], stdout=subprocess.PIPE, text=True, check=False)
    if done.returncode != 0:
        raise NotServed(f"there is no {name}: what stands above says why. Or name a program in GPIOSERVED")
    return done.stdout.rstrip("\n")


def served() -> List[str]:
    """The command that serves: what GPIOSERVED names, or the program that is found.

    GPIOSERVED is the path of a program, or words divided by blanks, as gpioserve reads it. NotServed where there is
    no such program.
    """
    named = os.environ.get("GPIOSERVED")
    if not named:
        return [find("gpioserved")]
    words = [named] if _is_program(Path(named)) else named.split()
    if not words or shutil.which(words[0]) is None:
        raise NotServed(f"{named} isn't there, which GPIOSERVED names")
    return words


def version() -> str:
    """The version number, which stands beside this package where it is installed, or at the repository's top."""
    for path in (HERE / "VERSION", TOP / "VERSION"):
        if path.is_file():
            return path.read_text(encoding="ascii").strip()
    return "unknown"
