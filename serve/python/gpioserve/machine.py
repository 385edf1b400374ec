"""A machine of simulated chips for one test: a gpioserve of its own, and the programs that find its chips."""

from __future__ import annotations

import os
import re
import select
import shutil
import signal
import subprocess
import tempfile
import time
from pathlib import Path
from typing import Any, Dict, List, Optional, Sequence, Union

from . import programs
from .connection import PATIENCE, Connection, World
from .errors import NotStarted

# How long a program has to end after SIGTERM before it is killed, in seconds.
GRACE = 10.0
BOARD = "probe demo 8"


class Program(subprocess.Popen):  # type: ignore[type-arg]
    """A program that was started by Machine.start: what it writes is read line by line, each within a limit."""

    def __init__(self, command: Sequence[Any], **how: Any) -> None:
        wanted: Dict[str, Any] = {"stdout": subprocess.PIPE, "stderr": subprocess.STDOUT, **how}
        super().__init__(command, **wanted)
        self._unread = b""

    def line(self, seconds: float = PATIENCE) -> str:
        """The next line that it writes, without its end; what is left once it has ended. TimeoutError after `seconds`."""
        assert self.stdout is not None
        until = time.monotonic() + seconds
        while b"\n" not in self._unread:
            if not select.select([self.stdout], [], [], max(until - time.monotonic(), 0))[0]:
                raise TimeoutError(f"{self.args!r} wrote no line in {seconds} s, only {self._unread!r}")
            data = os.read(self.stdout.fileno(), 4096)
            if not data:
                rest, self._unread = self._unread, b""
                return rest.decode("utf-8", "backslashreplace")
            self._unread += data
        first, self._unread = self._unread.split(b"\n", 1)
        return first.decode("utf-8", "backslashreplace")

    def stop(self, number: int = signal.SIGTERM, seconds: float = PATIENCE) -> int:
        """Ends it by a signal, as a service manager does: its status."""
        self.send_signal(number)
        return self.wait(seconds)


class Machine(World):
    """A gpioserve that runs until `close`. Programs that it starts find its chips; others don't.

    `folder` has what stays of the run: `board`, `transcript`, `answers`, `waves.vcd`, and what gpioserve says in
    `errors`. `environment` is what a program needs to find the chips.
    """

    def __init__(
        self,
        board: Union[str, Path] = BOARD,
        clock: str = "system",
        folder: Optional[Union[str, Path]] = None,
        options: Sequence[str] = (),
    ) -> None:
        """Starts gpioserve. NotStarted, with what it said, where it doesn't begin.

        board    statements, a line each, or the Path of a file of them
        clock    "system", or "manual": time stands still until `clock` moves it
        folder   where the files of the run are kept; a new one, which `close` removes, where none is given
        options  further options of gpioserve
        """
        super().__init__()
        program, served = programs.find("gpioserve"), programs.served()
        self._is_own = folder is None
        self.folder = Path(tempfile.mkdtemp(prefix="gpio.") if folder is None else folder)
        self.transcript, self.answers = self.folder / "transcript", self.folder / "answers"
        self.waves, self.errors = self.folder / "waves.vcd", self.folder / "errors"
        self._programs: List["subprocess.Popen[Any]"] = []
        self._said = ""  # what gpioserve said, once it has ended
        self._connection: Optional[Connection] = None
        self.board = self._keep_board(board)
        command = [program, "--clock", clock, "-b", str(self.board), "-t", str(self.transcript)]
        command += ["-a", str(self.answers), "-w", str(self.waves)]
        command += ["--served", " ".join(served), *options, "--env"]
        # (so that programs find gpiosay too)
        folders = os.pathsep.join(filter(None, (os.environ.get("PATH"), os.path.dirname(program))))
        outside = {**os.environ, "PATH": folders}
        with open(self.errors, "wb") as errors:
            self._process = subprocess.Popen(
                command, stdin=subprocess.PIPE, stdout=subprocess.PIPE, stderr=errors, text=True, env=outside
            )
        self._variables = self._read_variables()
        self.environment: Dict[str, str] = {**outside, **self._variables}
        self._connection = Connection(self._variables["GPIOSERVE"])

    def _keep_board(self, board: Union[str, Path]) -> Path:
        """The board's file. Where it sets the clock, `clock` moves on from there."""
        path = board if isinstance(board, Path) else self.folder / "board"
        if not isinstance(board, Path):
            path.write_text(board.strip() + "\n")
        times = re.findall(r"^ *clock +([0-9]+)", path.read_text(errors="replace") if path.is_file() else "", re.M)
        self.now = int(times[-1]) if times else 0
        return path

    def _read_variables(self) -> Dict[str, str]:
        """What `gpioserve --env` prints: lines up to an empty one."""
        assert self._process.stdout is not None
        variables: Dict[str, str] = {}
        for line in self._process.stdout:
            name, divider, value = line.rstrip("\n").partition("=")
            if not divider:
                return variables
            variables[name] = value
        status = self.close()
        raise NotStarted(self._said or f"gpioserve ended with status {status}")

    def say(self, *statements: str) -> str:
        assert self._connection is not None
        return self._connection.say(*statements)

    def connect(self) -> Connection:
        """A further connection, for a thread that waits beside others. It is the caller's to close."""
        return Connection(self.environment["GPIOSERVE"])

    def popen(self, command: Sequence[Any], **how: Any) -> "subprocess.Popen[Any]":
        """Starts a program that finds the chips, as subprocess.Popen does. `close` ends it, where it still runs.

        Where `env` is given the program gets that, and the variables by which it finds the chips.
        """
        return self._keep(subprocess.Popen(command, **self._found(how)))

    def start(self, command: Sequence[Any], **how: Any) -> Program:
        """The same for a program whose output is read line by line."""
        program = Program(command, **self._found(how))
        self._keep(program)
        return program

    def run(self, command: Sequence[Any], **how: Any) -> "subprocess.CompletedProcess[Any]":
        """Runs a program that finds the chips to its end, as subprocess.run does: with its output, as text."""
        wanted: Dict[str, Any] = {"timeout": PATIENCE, "text": True, "capture_output": True, **self._found(how)}
        return subprocess.run(command, **wanted)

    def _found(self, how: Dict[str, Any]) -> Dict[str, Any]:
        """The arguments of a program, with the variables by which it finds the chips."""
        given = how.get("env")
        return {**how, "env": self.environment if given is None else {**given, **self._variables}}

    def _keep(self, program: "subprocess.Popen[Any]") -> "subprocess.Popen[Any]":
        """Keeps a program, which `close` ends."""
        self._programs.append(program)
        return program

    def close(self) -> int:
        """Ends the programs and the machine: the status of gpioserve, which is 0 where it served well.

        One that doesn't end is killed, which is status -9. A folder that was given stays. Calling it again does nothing more.
        """
        for program in self._programs:
            _end(program)
        self._programs.clear()
        if self._connection is not None:
            self._connection.close()
        assert self._process.stdin is not None and self._process.stdout is not None
        self._process.stdin.close()
        try:
            status = self._process.wait(PATIENCE)
        except subprocess.TimeoutExpired:
            self._process.kill()
            status = self._process.wait()
        self._process.stdout.close()
        self._said = self.errors.read_text(errors="replace") if self.errors.is_file() else ""
        if self._is_own:
            shutil.rmtree(self.folder, ignore_errors=True)
        return status


def _end(program: "subprocess.Popen[Any]") -> None:
    """Ends a program, where it still runs, and closes its streams."""
    if program.poll() is None:
        program.terminate()
        try:
            program.wait(GRACE)
        except subprocess.TimeoutExpired:
            program.kill()
            program.wait()
    for stream in (program.stdin, program.stdout, program.stderr):
        if stream is not None:
            stream.close()
