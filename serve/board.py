#!/usr/bin/env python3
"""Shows the board of a gpioserve that runs: chips and lines as they change, and keys that pull lines.

    gpioserve-board [--folder FOLDER] [--color WHEN]
    gpioserve-board --once | --json

Run it in a command of gpioserve, or name the folder of one: gpioserve --folder FOLDER. The key ? shows the keys. Each
key that changes something says a statement, which stands in the transcript.

Status 0; 2 where there is no gpioserve, it has ended, or there is no terminal; 128 and the signal's number after a
signal. docs/BOARD.md walks through a session.
"""

from __future__ import annotations

import argparse
import curses
import json
import os
import sys
import time
from pathlib import Path

HERE = Path(__file__).resolve().parent
# (the package stands in this folder, or where it is installed)
sys.path[1:1] = [str(HERE / "python"), str(HERE.parent / "python3/dist-packages")]
from gpioserve import board_screen  # noqa: E402
from gpioserve.board import look_once  # noqa: E402
from gpioserve.connection import Connection  # noqa: E402
from gpioserve.errors import MachineError, NotServed  # noqa: E402
from gpioserve.looks import CHOICES, colours_of_terminal, painted, wants_colours  # noqa: E402
from gpioserve.programs import version  # noqa: E402

NAME = "gpioserve-board"


def arguments() -> argparse.Namespace:
    """The arguments; wrong ones end the program with status 2."""
    parser = argparse.ArgumentParser(
        prog="gpioserve-board",
        description=__doc__,
        formatter_class=argparse.RawDescriptionHelpFormatter,
        usage=argparse.SUPPRESS,
    )
    parser.add_argument("--folder", metavar="FOLDER", help="the folder of a gpioserve, as it was named to it")
    form = parser.add_mutually_exclusive_group()
    form.add_argument("--once", action="store_true", help="prints the table, and ends")
    form.add_argument("--json", action="store_true", help="prints it for other programs, and ends")
    parser.add_argument(
        "--color",
        choices=CHOICES,
        default="auto",
        help="whether there are colours (auto: on a terminal, without NO_COLOR)",
    )
    parser.add_argument("--version", action="version", version=f"gpioserve-board {version()}")
    return parser.parse_args()


def has_colours(options: argparse.Namespace) -> bool:
    """Whether what is shown on the standard output has colours, where its terminal has some."""
    return wants_colours(options.color, os.environ, sys.stdout.isatty())


def colours_of_output(options: argparse.Namespace) -> int:
    """How many colours the table may have: 8 where they are wanted although the output is no terminal."""
    if not has_colours(options):
        return 0
    return colours_of_terminal(sys.stdout.fileno()) if sys.stdout.isatty() else 8


def print_once(options: argparse.Namespace) -> None:
    """Prints the table, or the same as JSON."""
    with Connection(options.folder) as observer:
        board = look_once(observer, time.monotonic())
    if options.json:
        print(json.dumps(board.as_json(), indent=1))
    else:
        colours = colours_of_output(options)
        for cells in board.table(time.monotonic()):
            print(painted(cells, colours).rstrip())
    sys.stdout.flush()


def take_name() -> None:
    """Gives the process its name, which the transcript shows with what it says."""
    try:
        Path("/proc/self/comm").write_text(NAME)
    except OSError:
        pass  # (then it is python3's)


def main() -> int:
    """Prints or shows the board: the status of the command."""
    options = arguments()
    take_name()
    try:
        if options.once or options.json:
            print_once(options)
            return 0
        if not (sys.stdin.isatty() and sys.stdout.isatty()):
            raise NotServed("there is no terminal: --once prints the table")
        with Connection(options.folder) as observer, Connection(options.folder) as world:
            board_screen.show(observer, world, has_colours(options))
    except BrokenPipeError:
        os.dup2(os.open(os.devnull, os.O_WRONLY), sys.stdout.fileno())
        return 1
    except (NotServed, MachineError, curses.error) as fault:
        print(f"gpioserve-board: {fault}", file=sys.stderr)
        return 2
    return 0


if __name__ == "__main__":
    sys.exit(main())
