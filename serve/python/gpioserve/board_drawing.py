"""What a screen shows of a board, and how it is drawn on a window of curses."""

from __future__ import annotations

import curses
import time
from dataclasses import dataclass, field
from typing import Optional, Tuple

from .board import HEADER, Board, Line
from .looks import Cells, Looks, Meaning

SIZE_LEAST = (8, 40)
HELP = """\
up, down, PgUp, PgDn, Home, End   move (j and k too)
space       pull the line the other way, and leave it so
p           the same for 100 ms: a pulse
h           the same while the key is held down
f           the next call of the driver fails with EIO
u           unplug the chip
c           let the manual clock run, or pause it
.           move the manual clock on by 10 ms
/  n        search a name, a consumer or a chip; search again
:           say a statement
[  ]        older and newer statements
l           show or hide the statements
?           this page; any key leaves it
q           quit
Each key that changes something says a statement, which stands in the transcript."""


@dataclass
class View:
    """What a screen shows of a board: which of its rows, and what stands below them."""

    board: Board = field(default_factory=Board)
    chosen: int = 0  # the row with the cursor
    top: int = 0  # the first row that is shown
    older: int = 0  # statements that the log is scrolled back by
    shows_log: bool = True
    shows_help: bool = False
    runs: bool = False  # a manual clock is moved on
    message: Tuple[str, Meaning] = ("? shows the keys", Meaning.PLAIN)
    prompt: Optional[Tuple[str, str]] = None  # what is asked for, `/` or `:`, and what was typed

    def line(self) -> Optional[Line]:
        """The chosen line; None where the row is a chip's, or there is none."""
        rows = self.board.rows()
        return rows[self.chosen][1] if self.chosen < len(rows) else None

    def show(self, message: str, meaning: Meaning = Meaning.PLAIN) -> None:
        """Shows a sentence in the last row."""
        self.message = (message, meaning)

    def scroll(self, by: int) -> None:
        """Goes so many statements back, or forward where it is negative."""
        self.older = min(max(self.older + by, 0), max(len(self.board.log) - 1, 0))

    def move(self, by: int) -> None:
        """Moves the cursor by so many rows."""
        self.chosen = min(max(self.chosen + by, 0), max(len(self.board.rows()) - 1, 0))

    def keep_at(self, line: Optional[Line]) -> None:
        """Moves the cursor to a line, where chips came or went, or else to a row that is there."""
        if line:
            rows = self.board.rows()
            self.chosen = next((place for place, (_, other) in enumerate(rows) if other is line), self.chosen)
        self.move(0)

    def search(self, wanted: str) -> bool:
        """Goes to the next row with a name, a holder or a chip that has this text. Whether there is one."""
        rows = self.board.rows()
        for place in [*range(self.chosen + 1, len(rows)), *range(min(self.chosen + 1, len(rows)))]:
            chip, line = rows[place]
            texts = [line.name, line.holder] if line else [self.board.chips[chip]]
            if wanted and any(wanted.lower() in text.lower() for text in texts):
                self.chosen = place
                return True
        return False


def title_of(view: View) -> str:
    """The first row."""
    clock = "the system's"
    if view.board.manual is not None:
        clock = f"{view.board.manual / 1e9:.6f} s, {'runs' if view.runs else 'stands still'}"
    return f" gpioserve-board   chips {len(view.board.chips)}   lines {len(view.board.lines)}   clock {clock}"


class Drawing:
    """A window of curses on which views are drawn."""

    def __init__(self, window: "curses.window", looks: Looks) -> None:
        """Draws on a window, with these looks."""
        self.window, self.looks = window, looks

    def _put(self, place: int, cells: Cells, row: Meaning = Meaning.PLAIN) -> None:
        """Writes a row, cut to the width; the last column stays free, where a terminal might scroll."""
        width, column = self.window.getmaxyx()[1] - 1, 0
        for text, meaning in (*cells, (" " * width, Meaning.PLAIN)):
            shown = text[: width - column]
            try:
                self.window.addstr(place, column, shown, self.looks.attribute(meaning, row))
            except curses.error:
                pass  # (the terminal has become smaller just now)
            column += len(shown)

    def _put_text(self, place: int, text: str, row: Meaning = Meaning.PLAIN) -> None:
        """Writes a row that is one text."""
        self._put(place, [(text, Meaning.PLAIN)], row)

    def draw(self, view: View) -> None:
        """Draws a view on the whole window."""
        height, width = self.window.getmaxyx()
        self.window.erase()
        if height < SIZE_LEAST[0] or width < SIZE_LEAST[1]:
            self._put_text(0, f"too small: {SIZE_LEAST[1]} by {SIZE_LEAST[0]} is the least")
        elif view.shows_help:
            for place, row in enumerate(HELP.splitlines()[:height]):
                self._put_text(place, row)
        else:
            self._draw_board(view, height)
        self.window.refresh()

    def _draw_board(self, view: View, height: int) -> None:
        """Draws the table, the statements and the last rows."""
        log = max((height - 5) // 3, 1) if view.shows_log else 0
        shown = height - 4 - (log + 1 if log else 0)
        self._put_text(0, title_of(view), Meaning.TITLE)
        self._put_text(1, HEADER, Meaning.HEADER)
        self._draw_rows(view, 2, shown)
        if log:
            self._draw_log(view, 2 + shown, log)
        chosen = view.line()
        self._put_text(height - 2, chosen.detail() if chosen else "", Meaning.HEADER)
        self._put(height - 1, [("".join(view.prompt) + "_", Meaning.PLAIN) if view.prompt else view.message])

    def _draw_rows(self, view: View, place: int, shown: int) -> None:
        """Draws that many rows of the table, among which is the chosen one."""
        rows, now = view.board.rows(), time.monotonic()
        view.top = min(max(view.top, view.chosen - shown + 1), view.chosen)
        for number, (chip, line) in enumerate(rows[view.top : view.top + shown], view.top):
            cells = view.board.cells(chip, line, now)
            if number == view.chosen:
                text, meaning = cells[0]
                cells = [(">" + (text[1:] if line else text), meaning), *cells[1:]]
            self._put(place + number - view.top, cells, Meaning.CHOSEN if number == view.chosen else Meaning.PLAIN)

    def _draw_log(self, view: View, place: int, most: int) -> None:
        """Draws the heading of the statements, and at most so many below it."""
        self._put_text(place, f"-- statements{f', {view.older} back' if view.older else ''} " + "-" * 300)
        end = len(view.board.log) - view.older
        for below, cells in enumerate(list(view.board.log)[max(end - most, 0) : end], 1):
            self._put(place + below, cells)
