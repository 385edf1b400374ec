"""Every fault point of a program: one run for each place at which something can go wrong, and what came of it.

A place is a call of the program, as `gpioserve --calls` lists them, and what happens there: the driver fails, a chip
goes, events are lost, time passes. docs/SWEEP.md shows the command `gpioserve-sweep`, which stands on this module.
"""

from __future__ import annotations

import os
import re
import shlex
import shutil
import signal
import subprocess
import tempfile
import threading
import time
from concurrent.futures import ThreadPoolExecutor, as_completed
from dataclasses import dataclass, field
from enum import Enum
from pathlib import Path
from typing import Dict, Iterator, List, Optional, Sequence, Tuple, Union

from . import programs
from .errors import MachineError, NotServed
from .machine import BOARD, Machine

# Changes of each line in a burst, and how long time passes, where a sweep does not say otherwise.
BURST = 2000
LATE = ("10ms", "1s")
# Milliseconds until a chip that went comes back.
REPLUG = 100
# Seconds that a run may take, and that its processes have after SIGTERM.
TIMEOUT = 30.0
GRACE = 1.0
# Places that are tried, at most.
LIMIT = 1000
# The statuses of gpioserve itself, and the least one by which a shell says that a signal ended its command.
OWN_STATUSES = range(124, 128)
SIGNALLED = 128


class Kind(Enum):
    """What goes wrong at a place."""

    FAULT = "fault"
    FAULTS = "faults"
    UNPLUG = "unplug"
    UNPLUG_AFTER = "unplug-after"
    REPLUG = "replug"
    BURST = "burst"
    LATE = "late"


class Result(Enum):
    """What came of a run, beside the one in which nothing goes wrong."""

    SAME = "same"
    ENDED = "ended"
    DIFFERS = "differs"
    CRASHED = "crashed"
    HUNG = "hung"


# The kinds as the command's options name them.
KINDS: Dict[str, Tuple[Kind, ...]] = {
    "faults": (Kind.FAULT, Kind.FAULTS),
    "unplug": (Kind.UNPLUG, Kind.UNPLUG_AFTER),
    "replug": (Kind.REPLUG,),
    "burst": (Kind.BURST,),
    "late": (Kind.LATE,),
}
# The results that are no failure, where nothing else is said.
EXPECTED = (Result.SAME, Result.ENDED, Result.DIFFERS)


class NotSwept(Exception):
    """The sweep can't begin: the program, as it is, doesn't run to its end, or there is no gpioserve."""


@dataclass(frozen=True)
class Call:
    """A call of a program: its number, that of its driver call or 0, what it was, and what came of it."""

    number: int
    driven: int
    what: str
    result: str


@dataclass(frozen=True)
class Place:
    """What goes wrong, at which call, and the options by which gpioserve has it go wrong."""

    kind: Kind
    call: int
    what: str  # the call in the run in which nothing goes wrong, without the file's name
    options: Tuple[str, ...]


@dataclass(frozen=True)
class Outcome:
    """What came of the run at a place."""

    place: Place
    result: Result
    status: int  # of the program, as a shell has it
    says: str  # the last line of standard error, or the first line that differs
    strays: bool  # it made other calls than the first run before it came to the place
    seconds: float


@dataclass(frozen=True)
class Run:
    """A run of the program: its status, what it printed, and its calls."""

    status: int
    output: str
    errors: str
    calls: List[Call]
    hung: bool
    seconds: float


@dataclass
class Sweep:
    """A command, the board that it finds, and what is to go wrong."""

    command: Sequence[str]
    board: Union[str, Path] = BOARD
    kinds: Sequence[Kind] = (*KINDS["faults"], *KINDS["unplug"])
    limit: int = LIMIT
    timeout: float = TIMEOUT
    jobs: int = field(default_factory=lambda: os.cpu_count() or 1)

    def __post_init__(self) -> None:
        self._folder = Path(tempfile.mkdtemp(prefix="sweep."))
        path = self.board if isinstance(self.board, Path) else self._folder / "board"
        if not isinstance(self.board, Path):
            path.write_text(self.board.strip() + "\n")
        self.board_path = path
        self._is_over = threading.Event()  # the runs side by side are ended
        self._is_stopped = threading.Event()  # by `stop`, and so are all others
        self._words: List[str] = []  # gpioserve, and which program serves
        self.clean: Optional[Run] = None

    def close(self) -> None:
        """Removes the folder of the runs."""
        shutil.rmtree(self._folder, ignore_errors=True)

    def stop(self) -> None:
        """Ends the runs that go on, and begins no other."""
        self._is_stopped.set()

    def _is_ending(self) -> bool:
        """Whether no further run begins, and those that go on end."""
        return self._is_over.is_set() or self._is_stopped.is_set()

    def begin(self) -> List[Place]:
        """Runs the command as it is, and returns the places that are tried. NotSwept where it does not run to its end."""
        try:
            self._words = [programs.find("gpioserve"), "--served", " ".join(programs.served())]
        except NotServed as fault:
            raise NotSwept(str(fault)) from fault
        clean = self.run(())
        if clean.hung:
            raise NotSwept(f"the command does not end within {self.timeout:g} s, even where nothing goes wrong")
        if clean.status in OWN_STATUSES:
            raise NotSwept(clean.errors.strip() or f"gpioserve ended with status {clean.status}")
        self.clean = clean
        return spread(list(self._places(clean.calls)), self.limit)

    def _places(self, calls: List[Call]) -> Iterator[Place]:
        """All places, by kind and then by call."""
        chips = Chips(self.board_path) if {Kind.UNPLUG, Kind.UNPLUG_AFTER, Kind.REPLUG} & set(self.kinds) else None
        for kind in self.kinds:
            for call in calls:
                what = call.what.split()[0]
                for options in options_of(kind, call, chips):
                    yield Place(kind, call.number, what, options)

    def outcomes(self, places: Sequence[Place]) -> Iterator[Outcome]:
        """Runs the command once for each place, some side by side, and gives each outcome as it comes."""
        self._is_over.clear()
        try:
            yield from self._outcomes(places)
        finally:
            self._is_over.clear()

    def _outcomes(self, places: Sequence[Place]) -> Iterator[Outcome]:
        """The outcomes as the threads have them; however the caller leaves it, all runs end."""
        with ThreadPoolExecutor(self.jobs) as pool:
            waiting = [pool.submit(self.outcome, place) for place in places]
            try:
                for done in as_completed(waiting):
                    outcome = done.result()
                    if outcome is not None:
                        yield outcome
            finally:
                self._is_over.set()
                for one in waiting:
                    one.cancel()

    def outcome(self, place: Place, transcript: Optional[Path] = None) -> Optional[Outcome]:
        """What comes of the run at a place; None where the sweep was stopped."""
        if self._is_ending() or self.clean is None:
            return None
        run = self.run(place.options, transcript)
        if run.hung and self._is_ending():
            return None
        before = [(call.what, call.result) for call in self.clean.calls[: place.call - 1]]
        strays = [(call.what, call.result) for call in run.calls[: place.call - 1]] != before
        result, says = judged(self.clean, run)
        return Outcome(place, result, run.status, says, strays, run.seconds)

    def arguments(self, options: Sequence[str]) -> List[str]:
        """The words of gpioserve by which one run is repeated."""
        manual = ["--clock", "manual"] if Kind.LATE in self.kinds else []
        return ["-b", str(self.board_path), *manual, *options, "--", *map(str, self.command)]

    def run(self, options: Sequence[str], transcript: Optional[Path] = None) -> Run:
        """Runs the command once, in a folder of its own."""
        folder = Path(tempfile.mkdtemp(prefix="run.", dir=self._folder))
        kept = folder / "calls"
        words = [*self._words, "--calls", str(kept), *(["-t", str(transcript)] if transcript else [])]
        began = time.monotonic()
        with open(folder / "output", "wb") as output, open(folder / "errors", "wb") as errors:
            process = subprocess.Popen(
                [*words, *self.arguments(options)],
                stdin=subprocess.DEVNULL,
                stdout=output,
                stderr=errors,
                env={**os.environ, "PATH": self._path()},
                start_new_session=True,
            )
            try:
                hung = not self._ends(process, began)
            finally:
                kill(-process.pid, signal.SIGKILL)  # (what the command left behind, as a daemon that hangs)
        run = Run(
            status=process.returncode if process.returncode >= 0 else SIGNALLED - process.returncode,
            output=(folder / "output").read_text(errors="backslashreplace"),
            errors=(folder / "errors").read_text(errors="backslashreplace"),
            calls=calls_in(kept),
            hung=hung,
            seconds=time.monotonic() - began,
        )
        shutil.rmtree(folder, ignore_errors=True)
        return run

    def _path(self) -> str:
        """The PATH of the runs, in which the programs stand that come with gpioserve, as gpiosay."""
        return os.pathsep.join(filter(None, (os.environ.get("PATH"), os.path.dirname(self._words[0]))))

    def _ends(self, process: "subprocess.Popen[bytes]", began: float) -> bool:
        """Waits for a run's end; one that takes too long is ended, and False."""
        while True:
            left = began + self.timeout - time.monotonic()
            try:
                process.wait(min(max(left, 0.0), 0.2))
                return True
            except subprocess.TimeoutExpired:
                if left <= 0 or self._is_ending():
                    end(process)
                    return False


class Chips:
    """The chips of a board, and the statements by which each goes and comes back."""

    def __init__(self, board: Path) -> None:
        """Asks a machine with that board which chips there are."""
        self.gone: List[Tuple[str, str]] = []  # the statement by which one goes, and that by which it comes
        with Machine(board) as machine:
            devices = self._devices(machine, board)
            for name, label, lines in re.findall(
                r"^(gpiochip\d+) \[(.*)\] \((\d+) lines\)$", machine.say("gpiodetect"), re.M
            ):
                if name not in devices:
                    self.gone.append((f"unplug {name}", f"probe {label} {lines}"))
        for device in dict.fromkeys(devices.values()):
            self.gone.append((f"write {device}/live 0", f"write {device}/live 1"))

    @staticmethod
    def _devices(machine: Machine, board: Path) -> Dict[str, str]:
        """The chips that are banks of a device, and which device."""
        found: Dict[str, str] = {}
        for device, bank in re.findall(r"^ *mkdir +([^/\s]+)/([^/\s]+) *$", board.read_text(errors="replace"), re.M):
            try:
                found[machine.say(f"read {device}/{bank}/chip_name").strip()] = device
            except MachineError:
                continue
        found.pop("none", None)
        return found


def options_of(kind: Kind, call: Call, chips: Optional[Chips]) -> Iterator[Tuple[str, ...]]:
    """The options of gpioserve by which that goes wrong at a call: none, or one for each chip or time."""
    number = str(call.number)
    if kind is Kind.FAULT and call.driven:
        yield ("--at-fault", str(call.driven))
    elif kind is Kind.FAULTS and call.driven:
        yield ("--at-fault", f"{call.driven}+")
    elif kind is Kind.BURST:
        yield ("--at", number, f"burst {BURST}")
    elif kind is Kind.LATE:
        for passed in LATE:
            yield ("--at", number, f"pass {passed}")
    for goes, comes in chips.gone if chips else ():
        if kind is Kind.UNPLUG:
            yield ("--at", number, goes)
        elif kind is Kind.UNPLUG_AFTER:
            yield ("--after", number, goes)
        elif kind is Kind.REPLUG:
            yield ("--at", number, goes, "--at", f"{number}:{REPLUG}ms", comes)


def spread(places: List[Place], limit: int) -> List[Place]:
    """At most so many places, spread evenly over all."""
    if len(places) <= limit:
        return places
    return [places[index * len(places) // limit] for index in range(limit)]


def calls_in(path: Path) -> List[Call]:
    """The calls that `gpioserve --calls` has kept."""
    text = path.read_text(errors="replace") if path.is_file() else ""
    rows = re.findall(r"^(\d+) (\d+) \d+ .*? (\S+ \S+) -> (\S+)$", text, re.M)
    return [Call(int(number), int(driven), what, result) for number, driven, what, result in rows]


def judged(clean: Run, run: Run) -> Tuple[Result, str]:
    """What came of a run, and the line that shows it."""
    last = (run.errors.strip().splitlines() or [""])[-1]
    if run.hung:
        return Result.HUNG, last
    if run.status > SIGNALLED and run.status != clean.status:
        return Result.CRASHED, signal_name(run.status - SIGNALLED)
    if run.status != clean.status:
        return Result.ENDED, last
    if run.output == clean.output:
        return Result.SAME, ""
    ours, theirs = run.output.splitlines(), clean.output.splitlines()
    at = next((i for i, pair in enumerate(zip(ours, theirs)) if pair[0] != pair[1]), min(len(ours), len(theirs)))
    return Result.DIFFERS, ours[at] if at < len(ours) else "(less output)"


def signal_name(number: int) -> str:
    """A signal as `SIGSEGV`."""
    try:
        return signal.Signals(number).name
    except ValueError:
        return f"signal {number}"


def children_of(number: int) -> List[int]:
    """The processes below one, the lowest first."""
    found: List[int] = []
    for task in Path(f"/proc/{number}/task").glob("*/children"):
        try:
            children = [int(word) for word in task.read_text().split()]
        except OSError:
            continue
        for child in children:
            found += [*children_of(child), child]
    return found


def end(process: "subprocess.Popen[bytes]") -> None:
    """Ends a run that hangs: by SIGTERM, which gpioserve hands on to the command, and else by SIGKILL to what it started.

    gpioserve itself ends with its command. Only where it does not either is it killed.
    """
    process.terminate()
    try:
        process.wait(GRACE)
        return
    except subprocess.TimeoutExpired:
        pass
    for child in children_of(process.pid):
        if not is_served(child):
            kill(child, signal.SIGKILL)
    try:
        process.wait(GRACE * 10)
    except subprocess.TimeoutExpired:
        process.kill()
        process.wait()


def is_served(number: int) -> bool:
    """Whether a process is the program that answers gpioserve, which ends it."""
    try:
        return os.path.samefile(f"/proc/{number}/exe", programs.served()[0])
    except (OSError, NotServed):
        return False


def kill(number: int, how: int) -> None:
    """Sends a signal to a process, or to a group where the number is negative, if it is still there."""
    try:
        os.kill(number, how)
    except ProcessLookupError:
        pass


def repeat_command(sweep: Sweep, place: Place, transcript: str = "transcript") -> str:
    """The command that repeats one run, with its transcript."""
    return shlex.join(["gpioserve", "-t", transcript, *sweep.arguments(place.options)])
