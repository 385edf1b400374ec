#!/usr/bin/env python3
"""Runs a command once for each place at which something can go wrong, and says what came of it.

    gpioserve-sweep -b BOARD [KINDS] [OPTIONS] -- COMMAND [ARGUMENT ..]

The kinds of places, --faults, --unplug where none is given:

  --faults      each call of the driver fails with EIO, and each from there on
  --unplug      each chip goes right before each call of the command's programs, and right after it
  --replug      each chip goes before each call, and comes back 100 ms later
  --burst       each line whose edges are awaited changes 2,000 times before each call, so that events are lost
  --late        10 ms pass before each call, or a second, by a manual clock

Status 0 where each outcome is among those of --expect; 1 where one is not; 2 where the sweep can't begin; 130 where it
was interrupted, after what it has was printed. docs/SWEEP.md walks through a sweep.
"""

from __future__ import annotations

import argparse
import signal
import sys
import time
from pathlib import Path
from typing import List, Optional, Sequence

HERE = Path(__file__).resolve().parent
# (the package stands in this folder, or where it is installed)
sys.path[1:1] = [str(HERE / "python"), str(HERE.parent / "python3/dist-packages")]
from gpioserve.programs import version  # noqa: E402
from gpioserve.sweep import EXPECTED, KINDS, LIMIT, TIMEOUT, NotSwept, Outcome, Place, Result, Sweep  # noqa: E402
from gpioserve.sweep_report import Report  # noqa: E402

GIVEN = ("faults", "unplug")


def arguments(words: Optional[Sequence[str]] = None) -> argparse.Namespace:
    """The arguments; wrong ones end the program with status 2."""
    parser = argparse.ArgumentParser(
        prog="gpioserve-sweep",
        description=__doc__,
        formatter_class=argparse.RawDescriptionHelpFormatter,
        usage=argparse.SUPPRESS,
    )
    parser.add_argument("-b", "--board", type=Path, required=True, help="the statements that describe the chips")
    for name in KINDS:
        parser.add_argument(f"--{name}", action="append_const", dest="kinds", const=name, help=argparse.SUPPRESS)
    parser.add_argument("--limit", type=positive, default=LIMIT, help=f"places, spread evenly over all ({LIMIT})")
    parser.add_argument(
        "--timeout", type=seconds, default=TIMEOUT, help=f"seconds of a run; longer it hangs ({TIMEOUT:g})"
    )
    parser.add_argument("--jobs", type=positive, help="runs side by side (as many as processors)")
    parser.add_argument(
        "--expect",
        type=Result,
        nargs="+",
        default=EXPECTED,
        choices=list(Result),
        metavar="RESULT",
        help="results that are no failure: same, ended, differs, crashed, hung (same ended differs)",
    )
    parser.add_argument("--keep", type=Path, metavar="FOLDER", help="gets a transcript of each group's first run")
    parser.add_argument("--json", action="store_true", help="prints all outcomes for other programs")
    parser.add_argument("--version", action="version", version=f"gpioserve-sweep {version()}")
    parser.add_argument("command", nargs=argparse.REMAINDER, help=argparse.SUPPRESS)
    options = parser.parse_args(words)
    options.command = options.command[1:] if options.command[:1] == ["--"] else options.command
    if not options.command:
        parser.error("there is no command: gpioserve-sweep -b BOARD -- COMMAND ..")
    if not options.board.is_file():
        parser.error(f"the board {options.board} isn't there")
    return options


def positive(word: str) -> int:
    """A number from 1 on."""
    number = int(word)
    if number < 1:
        raise argparse.ArgumentTypeError("a number from 1 on")
    return number


def seconds(word: str) -> float:
    """A time that is more than none."""
    number = float(word)
    if not 0 < number < float("inf"):
        raise argparse.ArgumentTypeError("a number of seconds")
    return number


def progress(done: int, wanted: int, began: float) -> None:
    """Says on a terminal how far it is, and about how long it takes."""
    if sys.stderr.isatty():
        left = (time.monotonic() - began) / done * (wanted - done) if done else 0.0
        print(f"\r{done} of {wanted} runs, about {left:.0f} s left ", end="", file=sys.stderr, flush=True)


def carry_out(sweep: Sweep, places: List[Place]) -> List[Outcome]:
    """All outcomes, or those that came before an interrupt."""
    outcomes: List[Outcome] = []
    began = time.monotonic()
    for outcome in sweep.outcomes(places):
        outcomes.append(outcome)
        progress(len(outcomes), len(places), began)
    if sys.stderr.isatty():
        print("\r\033[K", end="", file=sys.stderr)
    return outcomes


def keep_transcripts(sweep: Sweep, report: Report, folder: Path) -> None:
    """Repeats each group's first run, and keeps its transcript, which gpiosess runs again."""
    folder.mkdir(parents=True, exist_ok=True)
    for group in report.groups():
        place = group.first.place
        sweep.run(place.options, folder / f"{group.result.value}-{place.kind.value}-{place.call}.session")


def main() -> int:
    """Sweeps, and prints what came of it: the status of the command."""
    options = arguments()
    kinds = [kind for name in options.kinds or GIVEN for kind in KINDS[name]]
    sweep = Sweep(options.command, options.board, kinds, options.limit, options.timeout)
    sweep.jobs = options.jobs or sweep.jobs
    interrupted = []

    def interrupt(number: int, _frame: object) -> None:
        """Ends the sweep, whose outcomes so far are printed."""
        interrupted.append(number)
        sweep.stop()

    for number in (signal.SIGINT, signal.SIGTERM):
        signal.signal(number, interrupt)
    try:
        places = sweep.begin()
        if not places:
            raise NotSwept("there is no place to try: the command makes no call of that kind")
        report = Report(sweep, carry_out(sweep, places), len(places))
        print(report.as_json() if options.json else report.table(), end="")
        if interrupted:
            return 130
        if options.keep:
            keep_transcripts(sweep, report, options.keep)
        return 1 if report.unexpected(options.expect) else 0
    except NotSwept as fault:
        print(f"gpioserve-sweep: {fault}", file=sys.stderr)
        return 2
    finally:
        sweep.close()


if __name__ == "__main__":
    sys.exit(main())
