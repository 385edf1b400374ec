"""What a board shows: chips, lines and statements, as the reports of `wait changed` have them."""

from __future__ import annotations

import re
from collections import deque
from dataclasses import dataclass, field
from typing import Any, Deque, Dict, Iterator, List, Optional, Set, Tuple

from .connection import Connection
from .errors import WaitTimeout
from .looks import Cells, Meaning

# The flags of linux/gpio.h, and the words for them.
USED, ACTIVE_LOW, OUTPUT = 1 << 0, 1 << 1, 1 << 3
EDGES = {0: "-", 1 << 4: "rising", 1 << 5: "falling", 3 << 4: "both"}
EDGES_MASK = 3 << 4
DRIVES = {1 << 6: "open-drain", 1 << 7: "open-source"}
BIASES = {1 << 8: "up", 1 << 9: "down", 1 << 10: "off"}
# Statements that are kept, and the seconds over which events are counted.
LOG_MOST = 2000
SPAN = 1.0
# Statements by which the broker looks after files and time: the log leaves them out.
OWN = ("clock", "poll", "gpiodetect")
OWN_FILES = ("waves.", "observed.")
HEADER = "  LINE NAME           DIR LEVEL PULL BIAS EDGES   EV/S HELD BY"


@dataclass
class Line:
    """A line of a chip."""

    chip: int
    offset: int
    name: str = ""
    consumer: str = ""
    level: int = 0
    pull: str = "down"
    flags: int = 0
    debounce: int = 0
    read: int = 0
    pid: int = 0
    program: str = "-"
    news: Deque[Tuple[float, int]] = field(default_factory=deque)  # times, and events that were read by then

    @property
    def direction(self) -> str:
        """`in` or `out`."""
        return "out" if self.flags & OUTPUT else "in"

    @property
    def edges(self) -> str:
        """Of which edges a program reads the events, in a word."""
        return EDGES[self.flags & EDGES_MASK]

    @property
    def bias(self) -> str:
        """The bias that a program asked for, in a word."""
        return next((word for flag, word in BIASES.items() if self.flags & flag), "-")

    @property
    def holder(self) -> str:
        """The consumer, and the process that has the request."""
        consumer = self.consumer or ("?" if self.flags & USED else "-")
        if not self.pid:
            return consumer
        return f"{consumer} {self.pid}" if consumer == self.program else f"{consumer} ({self.program} {self.pid})"

    def events(self, now: float) -> int:
        """Events that programs have read in the last second."""
        while self.news and self.news[0][0] < now - SPAN:
            self.news.popleft()
        return sum(count for _, count in self.news)

    def cells(self, now: float) -> Cells:
        """The line as a row of the table."""
        name = self.name if len(self.name) <= 14 else self.name[:13] + "~"
        events = self.events(now)
        return [
            (f"{self.offset:6} {name:14} ", Meaning.PLAIN),
            (f"{self.direction:3} ", Meaning.OUTPUT if self.flags & OUTPUT else Meaning.PLAIN),
            ("1 HI  ", Meaning.HIGH) if self.level else ("0 lo  ", Meaning.PLAIN),
            (f"{self.pull:4} ", Meaning.PULLED_UP if self.pull == "up" else Meaning.PLAIN),
            (f"{self.bias:4} {self.edges:7} ", Meaning.PLAIN),
            (f"{events:4} ", Meaning.EVENTS if events else Meaning.PLAIN),
            (self.holder, Meaning.HELD if self.holder != "-" else Meaning.PLAIN),
        ]

    def detail(self) -> str:
        """All of the line, in a sentence."""
        words = [f"gpiochip{self.chip} {self.offset}", self.name or "unnamed", self.direction]
        words += ["active-low"] if self.flags & ACTIVE_LOW else []
        words += [word for flag, word in DRIVES.items() if self.flags & flag]
        words += [f"debounce {self.debounce} us"] if self.debounce else []
        return ", ".join(words + [f"{self.read} events read", f"held by {self.holder}"])

    def as_json(self) -> Dict[str, Any]:
        """The line for other programs."""
        return {
            "offset": self.offset,
            "name": self.name,
            "direction": self.direction,
            "level": self.level,
            "pull": self.pull,
            "bias": self.bias,
            "edges": self.edges,
            "active_low": bool(self.flags & ACTIVE_LOW),
            "debounce_us": self.debounce,
            "consumer": self.consumer,
            "used": bool(self.flags & USED),
            "pid": self.pid,
            "program": self.program if self.pid else "",
            "events_read": self.read,
        }


class Board:
    """Chips and lines as they were reported last, and the statements."""

    def __init__(self) -> None:
        """A board of which nothing was reported yet."""
        self.chips: Dict[int, str] = {}
        self.lines: Dict[Tuple[int, int], Line] = {}
        self.recent: Dict[Tuple[int, int], Line] = {}  # lines of which events were read in the last second
        self.log: Deque[Cells] = deque(maxlen=LOG_MOST)
        self.banks: Set[str] = set()  # of gpio-sim's devices, as DEVICE/BANK
        self.manual: Optional[int] = None  # the manual clock, in nanoseconds
        self.is_whole = False
        self._rows: List[Tuple[int, Optional[Line]]] = []  # none where they have to be made anew

    def take(self, text: str, now: float) -> None:
        """Takes a report."""
        takers = {"chip": self._chip, "gone": self._gone, "line": self._line, "said": self._said, "lost": self._lost}
        for row in text.splitlines():
            word, _, rest = row.partition(" ")
            if word in takers:
                takers[word](rest, now)
            elif word == "reset":
                self.chips.clear()
                self.lines.clear()
                self.banks.clear()
                self._rows = []
            elif word == "clock":
                self.manual = int(rest.split()[1]) if rest.startswith("manual") else None
            elif word == "whole":
                self.is_whole = True

    def _chip(self, rest: str, _now: float) -> None:
        """Takes a chip that is there, as gpiodetect prints it."""
        self.chips[number_of(rest)] = rest
        self._rows = []

    def _gone(self, rest: str, _now: float) -> None:
        """Takes the end of a chip, and with it of its lines."""
        chip = number_of(rest)
        self.chips.pop(chip, None)
        for key in [key for key in self.lines if key[0] == chip]:
            del self.lines[key]
        self._rows = []

    def _line(self, rest: str, now: float) -> None:
        """Takes what a line is: words as `level=1`."""
        words = rest.split(" ")
        key = (number_of(words[0]), int(words[1]))
        is_new = key not in self.lines
        line = self.lines.setdefault(key, Line(*key))
        if is_new:
            self._rows = []
        before = line.read
        for word in words[2:]:
            name, _, value = word.partition("=")
            if name in ("level", "read", "pid", "debounce"):
                setattr(line, name, int(value))
            elif name == "flags":
                line.flags = int(value, 16)
            elif name in ("pull", "program", "name", "consumer"):
                setattr(line, name, value)
        if line.read > before and not is_new:
            line.news.append((now, line.read - before))
            self.recent[key] = line

    def _said(self, rest: str, _now: float) -> None:
        """Takes a statement: who said it, what it printed, and its text."""
        pid, program, printed, statement = rest.split(" ", 3)
        words = statement.split(" ")
        if words[0] == "mkdir" and len(words) > 1 and words[1].count("/") == 1:
            self.banks.add(words[1])
        if words[0] in OWN or any(word.startswith(OWN_FILES) for word in words[1:2]):
            return
        asker = f"{program} {pid}" if pid != "0" else "gpioserve"
        printed = "" if printed == "-" else " -> " + printed.replace("\\x20", " ")
        has_failed = re.search(r"[ :]E[A-Z0-9]+$", printed)
        self.log.append([(f"{asker}: {statement}{printed}", Meaning.FAILED if has_failed else Meaning.PLAIN)])

    def _lost(self, rest: str, _now: float) -> None:
        """Takes how many statements were not reported."""
        self.log.append([(f"({rest} statements are missing here)", Meaning.PLAIN)])

    def rows(self) -> List[Tuple[int, Optional[Line]]]:
        """The rows of the table: a chip's, without a line, and then its lines'."""
        if self._rows:
            return self._rows
        by_chip: Dict[int, List[Line]] = {}
        for key in sorted(self.lines):
            by_chip.setdefault(key[0], []).append(self.lines[key])
        for chip in sorted(self.chips):
            self._rows.append((chip, None))
            self._rows += [(chip, line) for line in by_chip.get(chip, [])]
        return self._rows

    def forget_old_events(self, now: float) -> None:
        """Leaves in `recent` the lines of which events were read in the last second."""
        self.recent = {key: line for key, line in self.recent.items() if line.events(now)}

    def cells(self, chip: int, line: Optional[Line], now: float) -> Cells:
        """One of `rows` as its parts."""
        return line.cells(now) if line else [(self.chips[chip], Meaning.CHIP)]

    def table(self, now: float) -> Iterator[Cells]:
        """The table: its head and its rows."""
        yield [(HEADER, Meaning.HEADER)]
        for chip, line in self.rows():
            yield self.cells(chip, line, now)

    def as_json(self) -> Dict[str, Any]:
        """The board for other programs."""
        chips = []
        for chip in sorted(self.chips):
            lines = [line.as_json() for _, line in self.rows() if line and line.chip == chip]
            label = re.fullmatch(r"\S+ \[(.*)\] \(\d+ lines\)", self.chips[chip])
            chips.append({"name": f"gpiochip{chip}", "label": label[1] if label else "", "lines": lines})
        return {"chips": chips, "clock": {"manual": self.manual is not None, "nanoseconds": self.manual}}


def number_of(text: str) -> int:
    """The number of a chip at the beginning of a text."""
    found = re.match("gpiochip([0-9]+)", text)
    if not found:
        raise ValueError(f"{text!r} names no chip")
    return int(found[1])


def look_once(connection: Connection, now: float) -> Board:
    """All of the board, as a new observer is told."""
    board = Board()
    while not board.is_whole:
        try:
            board.take(connection.say("wait changed"), now)
        except WaitTimeout:
            continue
    return board
