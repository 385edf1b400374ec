"""Tests of gpioserve-board: its screens and keys on a terminal of tmux, and what it prints for scripts."""

import json
import os
import re
import shlex
import shutil
import signal
import subprocess
import sys
import tempfile
import time
import unittest
from pathlib import Path
from typing import Dict, List, Set, Tuple

from serving import require_gpioserve
from terminal import Terminal

HERE = Path(__file__).resolve().parent
BOARD = HERE.parent / "board.py"
BENCH = HERE.parents[1] / "examples/bench"
DAEMON = BENCH / "out/powerbutton"
sys.path.insert(0, str(HERE.parent / "python"))
from gpioserve import Machine, programs  # noqa: E402
from gpioserve.board import OUTPUT, Line  # noqa: E402
from gpioserve.errors import MachineError  # noqa: E402
from gpioserve.looks import LOOKS, Meaning  # noqa: E402

# Seconds that a screen may take to change: a machine may be busy.
LIMIT = 240
CHANGES = 10_000
LARGE = "\n".join(f"probe chip{number} 512" for number in range(64))

# A line that the board itself holds as an output.
HOGGED = """
mkdir panel
mkdir panel/front
write panel/front/num_lines 2
mkdir panel/front/line1
mkdir panel/front/line1/hog
write panel/front/line1/hog/name motor
write panel/front/line1/hog/direction output-high
write panel/live 1
"""
COLOURS = {look.colour for look in LOOKS.values() if look.colour}
# ECMA-48's sequence for the look of what follows, and the number of bold in it.
SEQUENCE = re.compile("\033\\[([0-9;]*)m")
BOLD = "1"

# A row as `--once --color=always` prints it.
PAINTED = "     1                in  \033[1;33m1 HI  \033[m\033[35mup   \033[m-    -          0 -"

# The page with the picture of the screen on which the button is pressed; its first rows are the same in each run.
PAGE = HERE.parents[1] / "docs/BOARD.md"
ROWS = 7


def setUpModule() -> None:
    """Leaves all out where there is nothing to serve with, or no terminal to show the board on."""
    os.environ["GPIOSERVED"] = require_gpioserve()
    if not shutil.which("tmux"):
        raise unittest.SkipTest("there is no tmux")


def colours_in(shown: str) -> Set[str]:
    """The colours of letters on a screen, as its sequences name them."""
    colour = re.compile("(?:^|;)(38;5;[0-9]+|3[0-7])(?=;|$)")
    return {found for numbers in SEQUENCE.findall(shown) for found in colour.findall(numbers)}


def attributes_before(text: str, shown: str) -> List[str]:
    """The numbers of the sequences right before a text on a screen."""
    found = re.search(rf"((?:{SEQUENCE.pattern})*)[^\033]*{re.escape(text)}", shown)
    return ";".join(SEQUENCE.findall(found[1])).split(";") if found else []


def rgb_of(number: int) -> Tuple[int, int, int]:
    """A colour of xterm's 256, from 16 on: a cube of six levels, and then greys."""
    if number >= 232:
        grey = 8 + 10 * (number - 232)
        return (grey, grey, grey)
    levels = (0, 95, 135, 175, 215, 255)
    return (levels[(number - 16) // 36], levels[(number - 16) // 6 % 6], levels[(number - 16) % 6])


def distance(one: Tuple[int, int, int], other: Tuple[int, int, int]) -> int:
    """How far two colours are from each other: the square of it."""
    return sum((mine - its) ** 2 for mine, its in zip(one, other))


class BoardCase(unittest.TestCase):
    """What tests of a board on a terminal stand on."""

    def machine(self, board: object = BENCH / "board", clock: str = "manual") -> Machine:
        machine = Machine(board, clock=clock)  # type: ignore[arg-type]
        self.addCleanup(machine.close)
        return machine

    def terminal(self, machine: Machine, columns: int = 80, rows: int = 24, looks: str = "") -> Terminal:
        """A terminal with the board; `looks` has variables and options, as `TERM=screen --color=never`."""
        words = shlex.split(looks)
        options = [word for word in words if word.startswith("-")]
        variables = [word for word in words if word not in options]
        command = [sys.executable, str(BOARD), "--folder", machine.environment["GPIOSERVE"], *options]
        terminal = Terminal(shlex.join(["env", "-u", "NO_COLOR", *variables, *command]), columns, rows, LIMIT)
        self.addCleanup(terminal.close)
        return terminal

    def statements(self, machine: Machine, beginning: str) -> int:
        """How many statements of the board begin so in the transcript."""
        machine.say("gpiodetect")  # (so that what was said before stands there)
        return sum(row.startswith(beginning) for row in machine.transcript.read_text().splitlines())


class BoardTest(BoardCase):
    """A board on a terminal."""

    def test_a_button_and_an_led(self) -> None:
        if not os.access(DAEMON, os.X_OK):
            self.skipTest("examples/bench isn't built")
        machine = self.machine()
        daemon = machine.start([DAEMON, "/dev/gpiochip0", "POWER", "LED"])
        machine.until_held(0, 1, seconds=LIMIT)
        terminal = self.terminal(machine)
        terminal.until("^     1 LED  .* powerbutton")
        terminal.keys("/", "P", "O", "W", "E", "R", "Enter")
        terminal.until("^>    0 POWER")
        terminal.keys("Space")
        terminal.until("^>    0 POWER .* 1 HI  up .*")
        terminal.keys(".")
        screen = terminal.until("^     1 LED .* 1 HI(.*\n)*.*SET_VALUES")
        screen = terminal.until("powerbutton, 1 events|1 events read")
        self.assertEqual(self.table(screen), self.table(PAGE.read_text().split("```\n")[-2]))
        self.assertEqual(self.statements(machine, "write gpiochip0/sim_gpio0/pull pull-up"), 1)
        self.assertEqual(self.statements(machine, "clock 10000000 10000000"), 1)
        terminal.keys("f")
        terminal.until("fault 1$")
        terminal.keys("u")
        terminal.until("chips 0   lines 0 ")
        self.assertEqual(daemon.wait(LIMIT), 3)
        self.assertEqual(self.statements(machine, "fault 1"), 1)
        self.assertEqual(self.statements(machine, "write panel/live 0"), 1)

    def test_a_daemon_and_its_board_in_panes_of_one_terminal(self) -> None:
        if not os.access(DAEMON, os.X_OK):
            self.skipTest("examples/bench isn't built")
        folder = tempfile.TemporaryDirectory()
        self.addCleanup(folder.cleanup)
        board = [programs.find("gpioserve"), "-b", str(BENCH / "board"), "--clock", "manual", "--"]
        panes = ["new-session", f"{DAEMON} /dev/gpiochip0 POWER LED", ";", "split-window", "-l", "75%"]
        tmux = ["tmux", "-S", f"{folder.name}/socket", "-f", "/dev/null", *panes, f"{sys.executable} {BOARD}"]
        terminal = Terminal(shlex.join(["env", "-u", "TMUX", *board, *tmux]), 80, 24, LIMIT)
        self.addCleanup(terminal.close)
        terminal.until("^     1 LED .* powerbutton")
        terminal.keys("Down", "Space", ".")
        terminal.until("^LED is on\n(.*\n)*     1 LED .* 1 HI")
        terminal.keys("q")
        # (the daemon gets the next key once the other pane is closed: then tmux names the window by the daemon)
        terminal.until("^LED is on\n\n(?!(.*\n)*.*LINE NAME)(.*\n)*.*:powerbutton")
        terminal.keys("C-c")
        terminal.until("^status 0")

    def table(self, screen: str) -> str:
        """The first rows of a screen, without what differs in each run: the process, and the events of a second."""
        rows = "\n".join(screen.splitlines()[:ROWS])
        return re.sub(r"both +[0-9]+ ", "both N ", re.sub(r"powerbutton [0-9]+", "powerbutton PID", rows))

    def test_a_pulse_and_a_held_key_end_by_themselves(self) -> None:
        machine = self.machine()
        terminal = self.terminal(machine)
        terminal.until("^     0 POWER ")
        terminal.keys("Down")
        for count, key in enumerate("ph", 1):
            terminal.keys(key)
            self.until_said(machine, "write gpiochip0/sim_gpio0/pull pull-down", count)
            self.assertEqual(self.statements(machine, "write gpiochip0/sim_gpio0/pull pull-up"), count)
            # (the board knows of it once it shows the statement: only then is the next key one that pulls up)
            terminal.until("POWER .* down (.*\n)*gpioserve-board .* pull-down$")

    def until_said(self, machine: Machine, beginning: str, count: int) -> None:
        """Waits until so many statements of the transcript begin so."""
        end = time.monotonic() + LIMIT
        while self.statements(machine, beginning) < count:
            self.assertLess(time.monotonic(), end, beginning)
            time.sleep(0.02)

    def test_a_signal_ends_it_and_restores_the_terminal(self) -> None:
        terminal = self.terminal(self.machine())
        terminal.until("^     3 ")
        terminal.signal(signal.SIGTERM)
        self.assertNotIn("LINE NAME", terminal.until(f"^status {128 + signal.SIGTERM}"))

    def test_a_manual_clock_runs_and_stands(self) -> None:
        terminal = self.terminal(self.machine())
        terminal.until("clock 0.000000 s, stands still")
        terminal.keys("c")
        terminal.until(r"clock (?!0\.000000)[0-9]+\.[0-9]00000 s, runs")
        terminal.keys("c")
        terminal.until("stands still")
        terminal.keys(":")
        # (later than it can have run to)
        terminal.keys("-l", "clock 9000000000000 9000000000000")
        terminal.keys("Enter")
        terminal.until("clock 9000.000000 s, stands still")

    def test_help_errors_and_the_end(self) -> None:
        terminal = self.terminal(self.machine(clock="system"))
        terminal.until("clock the system's")
        terminal.keys("?")
        terminal.until("^q +quit")
        terminal.keys("x")
        terminal.until("LINE NAME")
        terminal.keys(":", "x", "x", "Enter")
        terminal.until("^xx: refused")
        terminal.keys(".")
        terminal.until("^pass 10ms: refused")
        terminal.keys("q")
        self.assertNotIn("LINE NAME", terminal.until("^status 0"))

    def test_a_terminal_that_is_too_small_and_grows(self) -> None:
        terminal = self.terminal(self.machine(), 30, 5)
        terminal.until("^too small: 40 by 8")
        terminal.resize(100, 30)
        screen = terminal.until(r"^     3 (.*\n)+\? shows the keys")
        self.assertIn("? shows the keys", screen.splitlines()[29])
        terminal.resize(41, 8)
        terminal.until("^>gpiochip0(.*\n){5}. shows the keys")

    def test_a_gpioserve_that_ends(self) -> None:
        machine = self.machine()
        terminal = self.terminal(machine)
        terminal.until("^     3 ")
        machine.close()
        screen = terminal.until("^status 2")
        self.assertIn("gpioserve-board: gpioserve", screen)
        self.assertNotIn("LINE NAME", screen)

    def test_chips_come_and_go_and_names_are_long(self) -> None:
        machine = self.machine(board="")
        terminal = self.terminal(machine)
        terminal.until("chips 0   lines 0 ")
        name = "a-name-that-has-thirty-1-bytes."
        machine.say("mkdir long", "mkdir long/bank", "write long/bank/num_lines 1", "mkdir long/bank/line0")
        machine.say(f"write long/bank/line0/name {name}", f"write long/bank/label {name}", "write long/live 1")
        screen = terminal.until(f"^     0 {name[:13]}~ in ")
        self.assertTrue(all(len(row) <= 80 for row in screen.splitlines()))
        machine.say("write long/live 0")
        terminal.until("chips 0   lines 0 ")

    def test_64_chips_of_512_lines_scroll(self) -> None:
        terminal = self.terminal(self.machine(board=LARGE))
        terminal.until("chips 64   lines 32768 ")
        terminal.keys("End")
        terminal.until("^>  511 .*\n-- statements")
        terminal.keys("PPage")
        terminal.until("^>  501 ")
        terminal.keys("Home", "/", "c", "h", "i", "p", "4", "0", "Enter")
        terminal.until(r"^>gpiochip40 \[chip40\] \(512 lines\)")

    def test_a_burst_goes_through(self) -> None:
        machine = self.machine()
        terminal = self.terminal(machine)
        terminal.until("^     3 ")
        for number in range(CHANGES):
            machine.pull(0, 3, number % 2 == 0)
        machine.pull(0, 3, True)
        terminal.until("^     3 .* 1 HI  up ")
        terminal.keys("q")
        terminal.until("^status 0")


class LooksTest(BoardCase):
    """What a terminal shows by attributes and colours."""

    def test_colours_are_shown_where_they_are_wanted_and_there_are_some(self) -> None:
        machine = self.machine(HOGGED)
        with self.assertRaises(MachineError):
            machine.say("unplug gpiochip9")
        machine.pull(0, 0, True)
        large = {f"38;5;{colour.of_256}" for colour in COLOURS}
        cases: Dict[str, Set[str]] = {
            "TERM=screen-256color": large,
            "TERM=screen-256color NO_COLOR=": large,
            "TERM=screen-256color NO_COLOR=1": set(),
            "TERM=screen-256color NO_COLOR=1 --color=always": large,
            "TERM=screen-256color --color=never": set(),
            "TERM=screen": {f"3{colour.of_8}" for colour in COLOURS},
            "TERM=vt100 --color=always": set(),
        }
        terminals = {looks: self.terminal(machine, looks=looks) for looks in cases}
        texts = set()
        for looks, wanted in cases.items():
            with self.subTest(looks=looks):
                texts.add(terminals[looks].until(r"^     0 .* 1 HI  up (.*\n)+\? shows the keys"))
                shown = terminals[looks].screen(with_looks=True)
                self.assertEqual(colours_in(shown), wanted)
                self.assertIn(BOLD, attributes_before("1 HI", shown))
                self.assertIn(BOLD, attributes_before("unplug gpiochip9 -> ENOENT", shown))
        self.assertEqual(len(texts), 1, texts)  # (so that no colour says what no word says)

    def test_each_colour_is_the_nearest_of_the_palette(self) -> None:
        for colour in COLOURS:
            with self.subTest(colour=colour):
                nearest = min(distance(colour.rgb, rgb_of(number)) for number in range(16, 256))
                self.assertEqual(distance(colour.rgb, rgb_of(colour.of_256)), nearest)
        self.assertEqual(len({colour.of_8 for colour in COLOURS}), len(COLOURS))

    def test_what_a_line_is_differs_in_words_too(self) -> None:
        free = Line(0, 0)
        lines = (free, Line(0, 0, level=1), Line(0, 0, flags=OUTPUT), Line(0, 0, pull="up"), Line(0, 0, consumer="x"))
        rows = ["".join(text for text, _ in line.cells(0.0)) for line in lines]
        self.assertEqual(len(set(rows)), len(lines))
        looks = [{meaning for _, meaning in line.cells(0.0)} - {Meaning.PLAIN} for line in lines]
        self.assertEqual(looks, [set(), {Meaning.HIGH}, {Meaning.OUTPUT}, {Meaning.PULLED_UP}, {Meaning.HELD}])


class PrintedTest(unittest.TestCase):
    """What it prints for scripts."""

    def run_board(self, machine: Machine, *words: str) -> "subprocess.CompletedProcess[str]":
        """Runs the board without a terminal."""
        return machine.run([sys.executable, BOARD, *words], stdin=subprocess.DEVNULL, timeout=LIMIT)

    def rows(self, machine: Machine, *words: str) -> List[str]:
        """The rows that it prints."""
        done = self.run_board(machine, *words)
        self.assertEqual((done.returncode, done.stderr), (0, ""))
        return list(done.stdout.splitlines())

    def test_once_and_json(self) -> None:
        with Machine("probe demo 2", clock="manual") as machine:
            machine.pull(0, 1, True)
            rows = self.rows(machine, "--once")
            self.assertEqual(rows[1], "gpiochip0 [demo] (2 lines)")
            self.assertEqual(rows[3], "     1                in  1 HI  up   -    -          0 -")
            self.assertEqual(self.rows(machine, "--once", "--color", "always")[3], PAINTED)
            board = json.loads("".join(self.rows(machine, "--json")))
            self.assertEqual(board["clock"], {"manual": True, "nanoseconds": 0})
            self.assertEqual((board["chips"][0]["label"], board["chips"][0]["lines"][1]["level"]), ("demo", 1))

    def test_without_a_terminal_or_a_gpioserve(self) -> None:
        with Machine("probe demo 2") as machine:
            done = self.run_board(machine)
            self.assertEqual((done.returncode, done.stdout), (2, ""))
            self.assertIn("there is no terminal", done.stderr)
        done = subprocess.run(
            [sys.executable, BOARD, "--once", "--folder", "/nowhere"], capture_output=True, check=False
        )
        self.assertEqual(done.returncode, 2)
        self.assertIn(b"there is no gpioserve", done.stderr)


if __name__ == "__main__":
    unittest.main()
