"""What goes wrong: nobody answers, what was said is no statement, the machine refuses it, a wait fails."""

from __future__ import annotations

import os
import re
from typing import Optional


class NotServed(Exception):
    """Nobody answers: there is no program to start, it ended, or it wrote what is no answer."""


class NotStarted(NotServed):
    """gpioserve didn't begin. The text is what it said."""


class Refused(Exception):
    """What was said is no statement, or none that can be said here. It counts as not said.

    `column`, counted from 1, and `kind` say where and why, as docs/FORMATS.md has them. `line` counts the lines that
    the machine got. All three are None where gpioserve itself refused it, and `text` says why.
    """

    def __init__(self, statement: str, text: str) -> None:
        super().__init__(f"{text.strip()}: {statement}")
        self.statement = statement
        self.text = text
        self.line: Optional[int] = None
        self.column: Optional[int] = None
        self.kind: Optional[str] = None
        found = re.fullmatch("refused ([0-9]+) ([0-9]+) ([a-z-]+)\n", text)
        if found:
            self.line, self.column, self.kind = int(found[1]), int(found[2]), found[3]


class MachineError(OSError):
    """The machine refused a statement. `errno` says why, as EBUSY, and `text` is what was printed."""

    def __init__(self, number: int, statement: str, text: str) -> None:
        super().__init__(number, f"{os.strerror(number)}: {statement}")
        self.statement = statement
        self.text = text

    def __str__(self) -> str:
        return f"{self.statement}: {self.text.strip()}"


class WaitFailed(MachineError):
    """A wait that can't end any more, or whose time is over. `text` says what stands in its way."""


class WaitTimeout(WaitFailed, TimeoutError):
    """A wait whose time is over."""
