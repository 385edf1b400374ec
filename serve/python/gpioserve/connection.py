"""The outside world of a machine: statements and waits that are said to gpioserve's socket."""

from __future__ import annotations

import array
import errno
import math
import os
import socket
import struct
import threading
from contextlib import contextmanager
from typing import Iterator, Optional, Tuple, Union

from .closing import Closing
from .errors import MachineError, NotServed, Refused, WaitFailed, WaitTimeout

# The packets, as serve/wire.h has them: a head of 24 bytes, and at most so many bytes of text.
REQUEST = struct.Struct("=IIQII")
RESPONSE = struct.Struct("=iiIIII")
SAY = 4
TEXT_MAX = 65536

# How long a wait lasts, in seconds, where nothing is said of it.
PATIENCE = 30.0

Path = Union[str, "os.PathLike[str]"]
Chip = Union[int, str]


def chip_name(chip: Chip) -> str:
    """A chip's name, as `gpiochip0`, of its number, its name or its path."""
    name = str(chip).rsplit("/", 1)[-1]
    return f"gpiochip{name}" if name.isdigit() else name


class World(Closing):
    """What a test does to a machine from outside. A chip is a number or a name, a line is its offset.

    Each method may raise Refused, MachineError, and NotServed where gpioserve has ended.
    """

    def __init__(self) -> None:
        self.now = 0  # the clock that `clock` moves on, in nanoseconds

    def say(self, *statements: str) -> str:
        """Says statements or waits one after another: what they print together."""
        raise NotImplementedError

    def pull(self, chip: Chip, line: int, up: bool) -> None:
        """Pulls a line up or down, as a button or a sensor does."""
        self.say(f"write {chip_name(chip)}/sim_gpio{line}/pull {'pull-up' if up else 'pull-down'}")

    def value(self, chip: Chip, line: int) -> int:
        """The level of a line, 0 or 1, as the outside world sees it."""
        return int(self.say(f"read {chip_name(chip)}/sim_gpio{line}/value"))

    def plug(self, label: str, lines: int) -> str:
        """Makes a chip with so many lines, and a label that no other chip has: its name, as `gpiochip1`."""
        rows = self.say(f"probe {label} {lines}", "gpiodetect").splitlines()
        return next(row.split(" ")[0] for row in rows if f" [{label}] " in row)

    def unplug(self, chip: Chip) -> None:
        """Removes a chip that `probe` made, as when a cable is pulled. A device of the tree goes by `write DEV/live 0`."""
        self.say(f"unplug {chip_name(chip)}")

    def fault(self, call: int = 1) -> None:
        """Has the driver fail at its next call, or at the `call`-th from now on."""
        self.say(f"fault {call}")

    def clock(self, *, seconds: int = 0, milliseconds: int = 0, microseconds: int = 0, nanoseconds: int = 0) -> None:
        """Moves both clocks on, where they are manual, to `now` and this time."""
        now = self.now + ((seconds * 1000 + milliseconds) * 1000 + microseconds) * 1000 + nanoseconds
        self.say(f"clock {now} {now}")
        self.now = now

    def until_held(self, chip: Chip, line: int, by: Optional[str] = None, seconds: float = PATIENCE) -> str:
        """Waits until a program has requested a line: the consumer. With `by` it has to be that consumer."""
        return self._wait(f"held {chip_name(chip)} {line}" + (f" by {by}" if by else ""), seconds).rstrip("\n")

    def until_released(self, chip: Chip, line: int, seconds: float = PATIENCE) -> None:
        """Waits until no program has a line."""
        self._wait(f"released {chip_name(chip)} {line}", seconds)

    def until_level(self, chip: Chip, line: int, level: int, seconds: float = PATIENCE) -> None:
        """Waits until a line has a level, 0 or 1. One that lasts for one statement isn't missed."""
        self._wait(f"level {chip_name(chip)} {line} {int(level)}", seconds)

    def until_read(self, chip: Chip, line: int, count: int = 1, seconds: float = PATIENCE) -> int:
        """Waits until programs have read `count` events of a line since gpioserve began: how many they have read."""
        return int(self._wait(f"read {chip_name(chip)} {line} {count}", seconds))

    def until_opened(self, chip: Chip, count: int = 1, seconds: float = PATIENCE) -> int:
        """Waits until programs have opened a chip `count` times since gpioserve began: how often they have."""
        return int(self._wait(f"opened {chip_name(chip)} {count}", seconds))

    @contextmanager
    def reading(self, chip: Chip, line: int, events: int = 1, seconds: float = PATIENCE) -> Iterator[None]:
        """Waits at the end of the block until programs have read so many events more of a line than at its beginning."""
        before = self.until_read(chip, line, 0)
        yield
        self.until_read(chip, line, before + events, seconds)

    def _wait(self, what: str, seconds: float) -> str:
        """Says a wait that ends after so many seconds: what it prints."""
        return self.say(f"wait {what} within {math.ceil(seconds * 1000)}ms")


class Connection(World):
    """Says statements to the gpioserve of a folder, or of the variable GPIOSERVE where none is named.

    Threads may share a connection. While one of them waits, the others' statements wait too: a thread that waits beside
    others takes a connection of its own.
    """

    def __init__(self, folder: Optional[Path] = None) -> None:
        """Connects. NotServed where there is no gpioserve."""
        super().__init__()
        self._lock = threading.Lock()
        self._begun = ""
        self._socket = socket.socket(socket.AF_UNIX, socket.SOCK_SEQPACKET)
        try:
            self._socket.connect(os.path.join(folder or os.environ["GPIOSERVE"], "socket"))
        except (OSError, KeyError) as fault:
            self._socket.close()
            raise NotServed("there is no gpioserve: run this in a command of gpioserve, or name its folder") from fault

    def say(self, *statements: str) -> str:
        return "".join(map(self._say_one, statements))

    def close(self) -> None:
        self._socket.close()

    def fileno(self) -> int:
        """What `select` takes: it is readable once the response to `begin` is there, or gpioserve has ended."""
        return self._socket.fileno()

    def begin(self, statement: str) -> None:
        """Says a statement or a wait whose response `finish` takes. Nothing else may be said in between."""
        self._send(statement.encode())
        self._begun = statement

    def finish(self) -> str:
        """The response to what was begun, as `say` returns it."""
        return self._result(self._begun, self._receive())

    def _say_one(self, statement: str) -> str:
        """Says a statement, and takes its response."""
        with self._lock:
            self._send(statement.encode())
            response = self._receive()
        return self._result(statement, response)

    def _result(self, statement: str, response: Tuple[int, int, str]) -> str:
        """What a statement printed, or the exception that a response stands for."""
        found, number, text = response
        if found < 0:
            raise Refused(statement, text)
        if number == 0:
            return text
        if statement.split()[:1] != ["wait"]:
            raise MachineError(number, statement, text)
        raise (WaitTimeout if number == errno.ETIMEDOUT else WaitFailed)(number, statement, text)

    def _send(self, statement: bytes) -> None:
        """Sends a statement."""
        if len(statement) > TEXT_MAX:
            raise ValueError(f"a statement has at most {TEXT_MAX} bytes")
        try:
            self._socket.send(REQUEST.pack(SAY, 0, 0, len(statement), 0) + statement)
        except OSError as fault:
            raise NotServed(f"gpioserve no longer answers: {fault.strerror}") from fault

    def _receive(self) -> Tuple[int, int, str]:
        """Takes a response: found or not, the error's number, and the text."""
        try:
            data, ancillary, _, _ = self._socket.recvmsg(RESPONSE.size + TEXT_MAX, socket.CMSG_SPACE(4))
        except OSError as fault:
            raise NotServed(f"gpioserve no longer answers: {fault.strerror}") from fault
        files = array.array("i")
        for level, kind, content in ancillary:
            if (level, kind) == (socket.SOL_SOCKET, socket.SCM_RIGHTS):
                files.frombytes(content[: len(content) - len(content) % files.itemsize])
        try:
            if len(data) < RESPONSE.size:
                raise NotServed("gpioserve has ended")
            found, number, in_file, _, length, _ = RESPONSE.unpack_from(data)
            text = _read_file(files[0], length) if in_file and files else data[RESPONSE.size :]
        finally:
            for file in files:
                os.close(file)
        if len(text) != length:
            raise NotServed("what came from the socket is no response of gpioserve")
        return found, number, text.decode("utf-8", "backslashreplace")


def _read_file(file: int, length: int) -> bytes:
    """The first bytes of a file."""
    parts = []
    got = 0
    while got < length:
        part = os.pread(file, length - got, got)
        if not part:
            break
        parts.append(part)
        got += len(part)
    return b"".join(parts)
