"""Runs the program and the plain one of checks/bench_peer, compares what they print, and measures what they take.

checks/bench prints it. Answers are compared before anything is measured: of one actor the whole output with the whole history, byte for
byte; of several actors the texts and how many entries the history has.
"""
import functools
import os
import re
import shutil
import subprocess
import sys
import tempfile
from contextlib import contextmanager, nullcontext
from dataclasses import dataclass
from pathlib import Path
from time import perf_counter
from typing import Callable, ContextManager, Iterator, List, Optional, Sequence, Tuple

from bench_loads import Load

RUNS = 5
BUSY_LOOPS = 8
# Two actors that do nothing make a session one of several actors, so that it prints its history.
IDLE_ACTORS = b"actor idle1\nactor idle2\n"
HISTORY = b"== history "
HAS_VALGRIND = shutil.which("valgrind") is not None
HAS_TIME = shutil.which("time") is not None
HAS_TASKSET = shutil.which("taskset") is not None


@dataclass(frozen=True)
class Run:
    """How a run of a whole process ended, and the seconds that passed and that processors were used."""

    status: int
    output: bytes
    wall: float
    processor: float


@dataclass(frozen=True)
class Pair:
    """The program and the plain one."""

    own: Path
    peer: Path


@dataclass(frozen=True)
class Numbers:
    """One measure of the program and of the plain one, in the same unit."""

    own: float
    peer: float

    @property
    def ratio(self) -> float:
        return self.own / self.peer

    def over(self, unit: float) -> "Numbers":
        return Numbers(self.own / unit, self.peer / unit)


def run(command: Sequence[object], text: bytes = b"") -> Run:
    with tempfile.TemporaryFile() as source, tempfile.TemporaryFile() as output:
        source.write(text)
        source.seek(0)
        start = perf_counter()
        child = subprocess.Popen([str(word) for word in command], stdin=source, stdout=output)
        _, status, usage = os.wait4(child.pid, 0)
        wall = perf_counter() - start
        child.returncode = os.waitstatus_to_exitcode(status)
        output.seek(0)
        return Run(child.returncode, output.read(), wall, usage.ru_utime + usage.ru_stime)


# What the two programs are asked: the text of a session, or the arguments of a load.
Asked = Tuple[Tuple[str, ...], bytes]


def runs(programs: Pair, asked: Asked, before: Sequence[str] = (), times: int = RUNS) -> Tuple[List[Run], List[Run]]:
    """So many runs of each program, one after the other in turn, so that both meet the same machine."""
    words, text = asked
    pairs = [
        tuple(run([*before, program, *words], text) for program in (programs.own, programs.peer)) for _ in range(times)
    ]
    return [own for own, _ in pairs], [peer for _, peer in pairs]


def both(programs: Pair, asked: Asked, measure: Callable[[Sequence[object], bytes], float]) -> Numbers:
    words, text = asked
    return Numbers(measure([programs.own, *words], text), measure([programs.peer, *words], text))


def instructions_of(command: Sequence[object], text: bytes) -> float:
    """How many instructions a run has, from start to end, as callgrind counts them."""
    counted = ["valgrind", "--tool=callgrind", "--callgrind-out-file=/dev/null", *map(str, command)]
    said = subprocess.run(counted, input=text, stdout=subprocess.DEVNULL, stderr=subprocess.PIPE, check=True).stderr
    found = re.search(rb"Collected : (\d+)", said)
    if not found:
        sys.exit(
            f"checks/bench: callgrind doesn't say how many instructions it collected: {said.decode(errors='replace')}"
        )
    return int(found[1])


def kilobytes_of(command: Sequence[object], text: bytes) -> float:
    """The memory of a run at its peak. A child of this process begins with the peak that this process has; one of `time` begins with a
    megabyte."""
    timed = ["time", "--format=%M", *map(str, command)]
    said = subprocess.run(timed, input=text, stdout=subprocess.DEVNULL, stderr=subprocess.PIPE, check=True).stderr
    return int(said.splitlines()[-1])


@functools.lru_cache(maxsize=None)
def instructions(programs: Pair, asked: Asked) -> Optional[Numbers]:
    return both(programs, asked, instructions_of) if HAS_VALGRIND else None


@functools.lru_cache(maxsize=None)
def kilobytes(programs: Pair, asked: Asked) -> Optional[Numbers]:
    return both(programs, asked, kilobytes_of) if HAS_TIME else None


@functools.lru_cache(maxsize=None)
def processor_seconds(programs: Pair, asked: Asked) -> Numbers:
    """The least processor time of some runs: what else the machine does can only add to it."""
    own, peer = runs(programs, asked)
    return Numbers(min(each.processor for each in own), min(each.processor for each in peer))


def same_answer(programs: Pair, asked: Asked, what: str) -> bytes:
    """What both programs print; stops where they don't print the same."""
    words, text = asked
    own, peer = (run([program, *words], text) for program in (programs.own, programs.peer))
    if (own.status, own.output) != (peer.status, peer.output):
        sys.exit(
            f"{what}: the two programs differ: status {own.status} and {peer.status}, {len(own.output)} and {len(peer.output)} bytes"
        )
    if own.status != 0:
        sys.exit(f"{what}: refused: {own.output[:60].decode().strip()}")
    return own.output


def texts_of(output: bytes) -> Tuple[bytes, int]:
    """What the actors of a session print, and how many entries its history has."""
    texts, found, history = output.partition(HISTORY)
    return texts, int(history.split(b"\n", 1)[0]) if found else 0


@functools.lru_cache(maxsize=None)
def entries_of(programs: Pair, load: Load) -> int:
    """How many entries a load of one actor makes, once both programs have told the same of it, and the same history."""
    same_answer(programs, ((), load.text), load.name)
    return texts_of(same_answer(programs, ((), load.text + IDLE_ACTORS), load.name))[1]


@functools.lru_cache(maxsize=None)
def generated_entries(programs: Pair, n: int) -> int:
    """How many entries a load has that the programs write themselves, once both have told the same numbers of it."""
    told = same_answer(programs, generated(n), f"--generate {n}")
    return int(dict(line.split() for line in told.decode().splitlines())["entries"])


def generated(n: int) -> Asked:
    return ("--generate", str(n)), b""


@functools.lru_cache(maxsize=None)
def same_texts(programs: Pair, load: Load) -> None:
    """Stops where the two programs tell other texts of a session of several actors, or histories of other lengths."""
    own, peer = (run([program], load.text) for program in (programs.own, programs.peer))
    if own.status != 0 or (own.status, texts_of(own.output)) != (peer.status, texts_of(peer.output)):
        sys.exit(f"{load.name}: the two programs differ")


@dataclass(frozen=True)
class Place:
    """On which processors programs run, and beside what: a name, the words before a command, and whether busy loops run there too."""

    name: str
    on: Tuple[str, ...]
    busy: bool


def places() -> List[Place]:
    """Four processors, one of them, and four with busy loops; none where nothing says on which a command is to run."""
    if not HAS_TASKSET:
        return []
    processors = sorted(os.sched_getaffinity(0))
    few = processors[:4]
    on = ("taskset", "-c", ",".join(map(str, few)))
    name = "four processors" if len(few) == 4 else f"{len(few)} processors, not four"
    return [
        Place(name, on, False),
        Place("one processor", ("taskset", "-c", str(processors[0])), False),
        Place(f"{name}, {BUSY_LOOPS} busy loops", on, True),
    ]


@contextmanager
def busy_loops(on: Sequence[str]) -> Iterator[None]:
    """Has so many processes do nothing but run."""
    loops = [subprocess.Popen([*on, "sh", "-c", "while :; do :; done"]) for _ in range(BUSY_LOOPS)]
    try:
        yield
    finally:
        for loop in loops:
            loop.kill()
            loop.wait()


def runs_at(programs: Pair, load: Load, place: Place) -> Tuple[List[Run], List[Run]]:
    beside: ContextManager[None] = busy_loops(place.on) if place.busy else nullcontext()
    with beside:
        return runs(programs, ((), load.text), place.on)
