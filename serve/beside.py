#!/usr/bin/env python3
"""Prints each statement of a session with what it printed beside it.

    serve/beside.py examples/button.session
    serve/beside.py --comments - < FILE

A session of `setup` alone is shown, also a transcript that gpioserve wrote. One that has `actor` or `after` isn't: actors run beside each
other, and their texts come when all have ended; ./gpiosess runs those. A tab in what was printed is shown as two blanks.

Status 0; 1 where the file can't be read, nobody answers, or the listing can't be written; 2 for wrong arguments; 3 where a line is
refused: then nothing is printed except FILE:LINE:COLUMN and the kind, as docs/FORMATS.md has them.
"""
import argparse
import os
import sys
from dataclasses import dataclass
from pathlib import Path
from typing import Iterator, List, Sequence

HERE = Path(__file__).resolve().parent
# (the package stands in this folder, or where it is installed)
sys.path[1:1] = [str(HERE / "python"), str(HERE.parent / "python3/dist-packages")]
from gpioserve.errors import NotServed  # noqa: E402
from gpioserve.programs import version  # noqa: E402
from gpioserve.served import Served  # noqa: E402

SECTIONS = (b"actor", b"after")
GAP = 2


class NotShown(Exception):
    """A session that can't be shown, and the status that says so."""

    def __init__(self, text: str, status: int) -> None:
        super().__init__(text)
        self.status = status


@dataclass(frozen=True)
class Row:
    """A line of the session, and the lines that it printed."""

    line: str
    printed: List[str]

    @property
    def is_statement(self) -> bool:
        """Whether the line counts: it has words, and the first doesn't begin with `#`."""
        return bool(self.line.strip(" ")) and not self.line.lstrip(" ").startswith("#")


def shown(data: bytes) -> str:
    """Bytes as text in one line: a tab is two blanks, and what can't be shown is escaped."""
    text = data.decode("utf-8", "backslashreplace").replace("\t", "  ")
    return "".join(sign if sign.isprintable() else ascii(sign)[1:-1] for sign in text)


def lines_of(data: bytes) -> List[bytes]:
    """The lines of a session: divided by 0x0A, and the last one needs none."""
    lines = data.split(b"\n")
    return lines[:-1] if lines[-1] == b"" else lines


def check_sections(name: str, lines: Sequence[bytes]) -> None:
    """Refuses a session that isn't one of `setup` alone."""
    words = [line.strip(b" ").split(b" ")[0] for line in lines]
    others = [number for number, word in enumerate(words, 1) if word in SECTIONS]
    if not others:
        return
    word = words[others[0] - 1].decode()
    why = "gpioserved answers the statements of `setup` alone"
    if words.count(b"actor") > 1:
        why = "actors run beside each other, and their texts come when all have ended, so they have no listing line by line"
    raise NotShown(f"{name}:{others[0]}: the section `{word}`: {why}. ./gpiosess < {name} runs it", 3)


def refusal(name: str, line: bytes, text: bytes) -> NotShown:
    """What is said of a refused line: where, why, and the line with a caret under the column."""
    _, row, column, kind = text.decode().split()
    at = shown(line[: int(column) - 1])
    return NotShown(f"{name}:{row}:{column}: {kind}\n  {shown(line)}\n  {' ' * len(at)}^", 3)


def rows_of(served: Served, name: str, data: bytes) -> Iterator[Row]:
    """The lines of a session, each with what it printed."""
    lines = lines_of(data)
    check_sections(name, lines)
    for line in lines:
        answer = served.answer(line)
        if not answer.accepted:
            raise refusal(name, line, answer.text)
        yield Row(shown(line), [shown(part) for part in lines_of(answer.text)])


def layout(rows: Sequence[Row], most: int) -> Iterator[str]:
    """The rows as lines: what was printed stands in one column, below a statement that reaches into it."""
    lengths = [len(row.line) for row in rows if row.printed or row.is_statement]
    column = max((length for length in lengths if length <= most), default=0) + GAP
    for row in rows:
        beside = row.printed[:1] if len(row.line) + GAP <= column else []
        yield row.line.ljust(column) + beside[0] if beside and beside[0] else row.line
        for part in row.printed[len(beside) :]:
            yield (" " * column + part).rstrip(" ")


def arguments(words: Sequence[str]) -> argparse.Namespace:
    """The arguments of the command line."""
    parser = argparse.ArgumentParser(
        prog="beside", description=__doc__, formatter_class=argparse.RawDescriptionHelpFormatter
    )
    parser.add_argument("session", metavar="SESSION", help="the session's file; - for standard input")
    parser.add_argument("--version", action="version", version=f"beside {version()}", help="prints the version")
    parser.add_argument("--comments", action="store_true", help="shows comments and lines without words too")
    parser.add_argument(
        "--width",
        type=int,
        default=60,
        metavar="N",
        help="a statement longer than N signs moves no column: what it printed stands below it (60)",
    )
    return parser.parse_args(words)


def show(words: Sequence[str]) -> str:
    """The listing that the arguments ask for."""
    asked = arguments(words)
    name = "standard input" if asked.session == "-" else asked.session
    try:
        data = sys.stdin.buffer.read() if asked.session == "-" else open(asked.session, "rb").read()
    except OSError as fault:
        raise NotShown(f"{name} can't be read: {fault.strerror}", 1) from fault
    with Served() as served:
        rows = list(rows_of(served, name, data))
    if not any(row.is_statement for row in rows):
        raise NotShown(f"{name}: no line counts; a session begins with `session 1`", 3)
    kept = [row for row in rows if asked.comments or row.is_statement]
    return "".join(line + "\n" for line in layout(kept, asked.width))


def main() -> int:
    """Prints the listing, or says why there is none."""
    try:
        sys.stdout.write(show(sys.argv[1:]))
        sys.stdout.flush()
    except BrokenPipeError:
        os.dup2(os.open(os.devnull, os.O_WRONLY), sys.stdout.fileno())
        return 1
    except NotServed as fault:
        print(f"beside: {fault}", file=sys.stderr)
        return 1
    except NotShown as fault:
        print(f"beside: {fault}", file=sys.stderr)
        return fault.status
    return 0


if __name__ == "__main__":
    sys.exit(main())
