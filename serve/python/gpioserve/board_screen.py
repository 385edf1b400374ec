"""The board on a terminal: it changes as lines do, and its keys say statements."""

from __future__ import annotations

import curses
import os
import select
import signal
import sys
import time
from contextlib import contextmanager
from typing import Callable, Dict, Iterator, Optional, Tuple

from .board_drawing import Drawing, View
from .connection import Connection
from .errors import MachineError, Refused, WaitTimeout
from .looks import Looks, Meaning

# Seconds: a pulse; how long a held key may be silent, at its first repeat and then; a step of a manual clock that runs.
PULSE, HELD_FIRST, HELD_NEXT, STEP = 0.1, 0.7, 0.3, 0.1


class Screen:
    """A terminal with the board."""

    def __init__(self, window: "curses.window", observer: Connection, world: Connection, looks: Looks) -> None:
        """A screen of a window of curses. `observer` is told of changes, and `world` says statements."""
        self.window, self.observer, self.world = window, observer, world
        self.drawing = Drawing(window, looks)
        self.view = View()
        self.is_over = False
        self.wanted = ""  # what was searched last
        self.releases: Dict[Tuple[int, int], Tuple[float, str]] = {}  # when lines get which pull again
        self.next_step = 0.0
        self.keys: Dict[str, Callable[[], object]] = {
            "q": self._quit, " ": self._toggle, "p": self._pulse, "h": self._hold, "f": self._fault,
            "u": self._unplug, "c": self._run_clock, ".": self._step_clock, "l": self._switch_log,
            "/": lambda: self._ask("/"), ":": lambda: self._ask(":"), "n": self._search, "?": self._switch_help,
            "[": lambda: self.view.scroll(5), "]": lambda: self.view.scroll(-5),
            "j": lambda: self.view.move(1), "k": lambda: self.view.move(-1),
        }  # fmt: skip
        self.moves = {
            curses.KEY_DOWN: 1, curses.KEY_UP: -1, curses.KEY_NPAGE: 10, curses.KEY_PPAGE: -10,
            curses.KEY_HOME: -1 << 30, curses.KEY_END: 1 << 30,
        }  # fmt: skip

    def run(self, wakes: int) -> None:
        """Shows the board until a key ends it. NotServed where gpioserve ends. A byte at `wakes` tells of a signal."""
        self.window.nodelay(True)
        self.window.keypad(True)
        if curses.tigetstr("civis"):
            curses.curs_set(0)
        self.observer.begin("wait changed")
        while not self.is_over:
            self.drawing.draw(self.view)
            ready = select.select([sys.stdin, self.observer, wakes], [], [], self._patience())[0]
            if wakes in ready:
                os.read(wakes, 64)
                size = os.get_terminal_size(sys.stdout.fileno())
                curses.resizeterm(max(size.lines, 1), max(size.columns, 1))
            if self.observer in ready:
                self._take_report()
            if sys.stdin in ready:
                self._take_keys()
            self._keep_times()

    def _take_report(self) -> None:
        """Takes a report, and asks for the next one."""
        at = self.view.line()
        try:
            self.view.board.take(self.observer.finish(), time.monotonic())
        except WaitTimeout:
            pass
        self.observer.begin("wait changed")
        self.view.keep_at(at)

    def _patience(self) -> Optional[float]:
        """Seconds until something has to be done, or None."""
        now = time.monotonic()
        times = [due - now for due, _ in self.releases.values()]
        times += [self.next_step - now] if self.view.runs else []
        times += [0.25] if self.view.board.recent else []
        return max(min(times), 0.0) if times else None

    def _keep_times(self) -> None:
        """Ends pulses, and moves a manual clock on that runs."""
        now = time.monotonic()
        for key in [key for key, (due, _) in self.releases.items() if due <= now]:
            _, pull = self.releases.pop(key)
            self._pull(key, pull)
        self.view.board.forget_old_events(now)
        if self.view.runs and now >= self.next_step:
            self.next_step = now + STEP
            self.view.runs = self._say(f"pass {int(STEP * 1000)}ms")

    def _say(self, statement: str) -> bool:
        """Says a statement, and shows what came of it."""
        try:
            printed = self.world.say(statement).strip()
        except (MachineError, Refused) as fault:
            self.view.show(f"{statement}: {fault.text.strip()}", Meaning.FAILED)
            return False
        self.view.show(f"{statement}{' -> ' + printed.splitlines()[0] if printed else ''}")
        return True

    def _pull(self, key: Tuple[int, int], pull: str) -> None:
        """Pulls a line, if it is still there."""
        line = self.view.board.lines.get(key)
        if line:
            line.pull = pull  # (so that a key before the next report pulls it the other way)
            self._say(f"write gpiochip{line.chip}/sim_gpio{line.offset}/pull pull-{pull}")

    def _pull_other(self, seconds: Optional[float]) -> None:
        """Pulls the chosen line the other way, and back after a time."""
        line = self.view.line()
        if not line:
            self.view.show("choose a line first")
            return
        key = (line.chip, line.offset)
        if key in self.releases:
            self.releases[key] = (time.monotonic() + (seconds or 0.0), self.releases[key][1])
            return
        if seconds is not None:
            self.releases[key] = (time.monotonic() + seconds, line.pull)
        self._pull(key, "down" if line.pull == "up" else "up")

    def _toggle(self) -> None:
        """Pulls the chosen line the other way."""
        self._pull_other(None)

    def _pulse(self) -> None:
        """The same for a short time."""
        self._pull_other(PULSE)

    def _hold(self) -> None:
        """The same until the key is repeated no more."""
        line = self.view.line()
        self._pull_other(HELD_NEXT if line and (line.chip, line.offset) in self.releases else HELD_FIRST)

    def _fault(self) -> None:
        """Has the next call of the driver fail."""
        self._say("fault 1")

    def _unplug(self) -> None:
        """Unplugs the chosen chip: one of `probe`, or the device whose bank it is."""
        rows = self.view.board.rows()
        if not rows:
            self.view.show("there is no chip")
            return
        name = f"gpiochip{rows[self.view.chosen][0]}"
        for bank in sorted(self.view.board.banks):
            try:
                is_it = self.world.say(f"read {bank}/chip_name").strip() == name
            except (MachineError, Refused):
                continue
            if is_it:
                self._say(f"write {bank.split('/')[0]}/live 0")
                return
        self._say(f"unplug {name}")

    def _run_clock(self) -> None:
        """Lets a manual clock run, or pauses it."""
        if self.view.board.manual is None:
            self.view.show("the clock is the system's: gpioserve --clock manual leaves it to you")
            return
        self.view.runs = not self.view.runs
        self.view.show("the clock runs" if self.view.runs else "the clock stands still")

    def _step_clock(self) -> None:
        """Moves a manual clock on."""
        self._say("pass 10ms")

    def _quit(self) -> None:
        """Ends the board after this key."""
        self.is_over = True

    def _switch_log(self) -> None:
        """Shows the statements, or hides them."""
        self.view.shows_log = not self.view.shows_log

    def _switch_help(self) -> None:
        """Shows the keys."""
        self.view.shows_help = True

    def _ask(self, sign: str) -> None:
        """Begins to ask for a text: `/` a search, `:` a statement."""
        self.view.prompt = (sign, "")

    def _search(self) -> None:
        """Goes to the next row that has what was searched."""
        if not self.view.search(self.wanted):
            self.view.show(f"{self.wanted} is nowhere")

    def _take_keys(self) -> None:
        """Takes the keys that were pressed."""
        while True:
            key = self.window.getch()
            if key == -1:
                return
            if self.view.shows_help:
                self.view.shows_help = False
            elif self.view.prompt:
                self._type(key)
            elif key in self.moves:
                self.view.move(self.moves[key])
            elif 0 <= key < 128 and chr(key) in self.keys:
                self.keys[chr(key)]()

    def _type(self, key: int) -> None:
        """Takes a key of a text that is asked for."""
        assert self.view.prompt
        sign, text = self.view.prompt
        if key in (curses.KEY_BACKSPACE, 8, 127):
            self.view.prompt = (sign, text[:-1]) if text else None
        elif key == 27:
            self.view.prompt = None
        elif key in (10, 13, curses.KEY_ENTER):
            self.view.prompt = None
            if sign == ":" and text.split()[:1] == ["wait"]:
                self.view.show("the board waits for nothing: gpiosay does")
            elif sign == ":" and text.strip():
                self._say(text)
            elif sign == "/":
                self.wanted = text or self.wanted
                self._search()
        elif 32 <= key < 127:
            self.view.prompt = (sign, text + chr(key))


@contextmanager
def terminal_of_curses() -> Iterator["curses.window"]:
    """The terminal as curses has it; afterwards it is as before. Unlike curses.wrapper it begins no colours.

    With colours that nobody asked for, curses would write white on black, whatever the terminal's own colours are.
    """
    window = curses.initscr()
    try:
        curses.noecho()
        curses.cbreak()
        yield window
    finally:
        curses.echo()
        curses.nocbreak()
        curses.endwin()


def show(observer: Connection, world: Connection, has_colours: bool) -> None:
    """Shows the board until a key or a signal ends it; the terminal is as before then."""
    reader, writer = os.pipe()
    os.set_blocking(writer, False)

    def end(number: int, _frame: object) -> None:
        """Ends the board as a signal ends a program; the terminal is restored first."""
        raise SystemExit(128 + number)

    for number in (signal.SIGINT, signal.SIGTERM, signal.SIGHUP):
        signal.signal(number, end)
    try:
        with terminal_of_curses() as window:
            signal.signal(signal.SIGWINCH, lambda *_: None)
            signal.set_wakeup_fd(writer, warn_on_full_buffer=False)
            Screen(window, observer, world, Looks(has_colours)).run(reader)
    finally:
        signal.set_wakeup_fd(-1)
        os.close(reader)
        os.close(writer)
