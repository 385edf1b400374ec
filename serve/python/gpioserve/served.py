"""Statements answered one at a time: a client of gpioserved.

    with Served() as served:
        served.begin()
        served.say("probe demo 4")
        print(served.say("gpiodetect"), end="")     # gpiochip0 [demo] (4 lines)
"""

from __future__ import annotations

import subprocess
from dataclasses import dataclass
from typing import IO, Optional, Sequence

from . import programs
from .closing import Closing
from .errors import NotServed, Refused

HEAD_MAX = 32
# How many bytes a line has at most.
LINE_MAX = 8192


@dataclass(frozen=True)
class Answer:
    """What a line was answered: whether it was accepted, and the bytes that it printed or the refusal."""

    accepted: bool
    text: bytes


class Served(Closing):
    """A running gpioserved. Each line is answered before the next is given."""

    def __init__(self, command: Optional[Sequence[str]] = None) -> None:
        """Starts `command`, or what GPIOSERVED names, or the program that is found. NotServed where it can't start."""
        words = list(command) if command else programs.served()
        try:
            self._process = subprocess.Popen(words, stdin=subprocess.PIPE, stdout=subprocess.PIPE)
        except OSError as fault:
            raise NotServed(f"{words[0]} can't be started: {fault.strerror}") from fault

    def begin(self) -> None:
        """Gives the two lines that begin a session of statements."""
        self.say("session 1")
        self.say("setup")

    def say(self, line: str) -> str:
        """What a line prints, also the name of an error. Refused where it is no statement; NotServed where nobody answers."""
        answer = self.answer(line.encode())
        text = answer.text.decode("utf-8", "backslashreplace")
        if answer.accepted:
            return text
        refused = Refused(line, text)
        if refused.line is None:
            raise NotServed(f"gpioserved wrote {text!r}, which is no refusal")
        raise refused

    def answer(self, line: bytes) -> Answer:
        """The answer to one line, which has no line end in it."""
        if b"\n" in line:
            raise ValueError("a line has no line end in it")
        try:
            self._input.write(line + b"\n")
            self._input.flush()
        except OSError:
            raise self._ended() from None
        head = self._output.readline(HEAD_MAX)
        if not head:
            raise self._ended()
        words = head.split()
        if len(words) != 2 or words[0] not in (b"=", b"!") or not words[1].isdigit() or not head.endswith(b"\n"):
            raise NotServed(f"gpioserved wrote {head!r}, which begins no answer")
        length = int(words[1])
        text = self._output.read(length)
        if len(text) < length:
            raise self._ended()
        return Answer(words[0] == b"=", text)

    def close(self) -> int:
        """Ends the input, upon which the program closes what is open, and waits for its end: its status."""
        try:
            self._input.close()
        except OSError:
            pass
        status = self._process.wait()
        self._output.close()
        return status

    @property
    def _input(self) -> IO[bytes]:
        """What the program reads."""
        assert self._process.stdin is not None
        return self._process.stdin

    @property
    def _output(self) -> IO[bytes]:
        """What the program writes."""
        assert self._process.stdout is not None
        return self._process.stdout

    def _ended(self) -> NotServed:
        """The exception of a program that has ended, with its status."""
        return NotServed(f"gpioserved ended with status {self._process.wait()} before it answered")
