"""Tests of powerbutton, which runs as it is. README.md says what each shows; `make check` runs them."""
import os
import re
import subprocess
import sys
import time
import unittest
from pathlib import Path
from typing import List, Sequence

import picture
from bench import HERE, TOP, Bench

sys.path.insert(0, str(TOP / "serve"))
from waves import Dump, Reader  # noqa: E402


class PowerButtonTest(unittest.TestCase):
    def start(self, *board: str, clock: str = "manual") -> Bench:
        """The daemon, which has its lines."""
        bench = self.begin(*board, clock=clock)
        self.assertEqual(bench.line(), "POWER switches LED")
        return bench

    def begin(self, *board: str, clock: str = "manual") -> Bench:
        """The daemon, of which nothing is known yet."""
        bench = Bench(*board, clock=clock)
        self.addCleanup(bench.close)
        return bench

    def test_each_press_switches_the_led(self) -> None:
        bench = self.start()
        self.assertEqual(bench.led(), 0)
        for level, said in ((1, "LED is on"), (0, "LED is off"), (1, "LED is on")):
            bench.press()
            self.assertEqual((bench.line(), bench.led()), (said, level))
        self.assertEqual(bench.stop(), 0)
        self.assertEqual(bench.line(), "")

    def test_a_bounce_is_one_press(self) -> None:
        bench = self.start()
        for down in (True, False, True, False, True):
            bench.clock(3_000)
            bench.button(down)
        bench.clock(9_999)
        self.assertEqual(bench.led(), 0)
        bench.clock(1)
        self.assertEqual((bench.line(), bench.led()), ("LED is on", 1))
        self.assertEqual(bench.stop(), 0)
        self.assertEqual(bench.line(), "")

    def test_a_knock_is_no_press(self) -> None:
        bench = self.start()
        bench.button(True)
        bench.clock(9_999)
        bench.button(False)
        bench.clock(1_000_000)
        bench.press()
        self.assertEqual((bench.line(), bench.led()), ("LED is on", 1))

    def test_with_the_clocks_of_the_system(self) -> None:
        bench = self.start(clock="system")
        begins = time.monotonic()
        bench.button(True)
        self.assertEqual((bench.line(), bench.led()), ("LED is on", 1))
        self.assertGreaterEqual(time.monotonic() - begins, 0.010)

    def test_nobody_else_gets_its_lines(self) -> None:
        bench = self.start()
        self.assertEqual(bench.say("gpioget POWER"), "gpioget: EBUSY\n")
        self.assertEqual(bench.say("gpioset LED=on"), "gpioset: EBUSY\n")
        self.assertEqual(bench.say("gpioinfo -c gpiochip0").count('consumer="powerbutton"'), 2)

    def test_it_ends_when_the_chip_is_unplugged(self) -> None:
        bench = self.start()
        bench.press()
        self.assertEqual(bench.line(), "LED is on")
        bench.say("write panel/live 0")
        self.assertEqual(bench.line(), "powerbutton: /dev/gpiochip0 is gone")
        self.assertEqual((bench.status(), bench.line()), (3, ""))

    def test_a_driver_that_fails_at_a_press(self) -> None:
        bench = self.start()
        bench.say("fault 1")
        bench.press()
        self.assertEqual((bench.line(), bench.led()), ("powerbutton: LED can't be switched: Input/output error", 0))
        bench.press()
        self.assertEqual((bench.line(), bench.led()), ("LED is on", 1))

    def test_a_driver_that_fails_at_the_start(self) -> None:
        for call, name in ((1, "POWER"), (2, "LED")):
            bench = self.begin(f"fault {call}")
            self.assertEqual(bench.line(), f"powerbutton: {name} can't be had: Input/output error")
            self.assertEqual(bench.status(), 1)

    def test_a_chip_that_is_not_there(self) -> None:
        bench = self.begin("write panel/live 0")
        self.assertEqual(bench.line(), "powerbutton: /dev/gpiochip0 can't be opened: No such file or directory")
        self.assertEqual(bench.status(), 1)

    def test_the_transcript_is_a_session(self) -> None:
        bench = self.pressed_once()
        lines = bench.transcript.read_text().splitlines()
        self.assertEqual(lines[:2], ["session 3", "setup"])
        for line in (HERE / "board").read_text().splitlines():
            self.assertIn(line, lines)
        self.assert_in_this_order(
            [
                "write panel/live 1",
                "open ",
                r"ioctl \S+ GET_LINE ",
                r"ioctl \S+ GET_LINE ",
                "write gpiochip0/sim_gpio0/pull pull-up",
                "events ",
                r"ioctl \S+ SET_VALUES ",
            ],
            lines,
        )

    def test_the_transcript_runs_again(self) -> None:
        program = Path(os.environ.get("GPIOSESS", TOP / "crates/gpiosess/out/gpiosess"))
        if not program.exists():
            self.skipTest(f"{program} isn't there")
        bench = self.pressed_once()
        again = subprocess.run([program], stdin=bench.transcript.open("rb"), capture_output=True, check=True)
        self.assertEqual(again.stdout, bench.answers.read_bytes())

    def assert_in_this_order(self, wanted: Sequence[str], lines: List[str]) -> None:
        """Lines that begin so come one after another, with others between them."""
        rest = iter(lines)
        for beginning in wanted:
            self.assertTrue(any(re.match(beginning, line) for line in rest), f"no {beginning} where it is due")

    def pressed_once(self) -> Bench:
        """A run of one press that has ended."""
        bench = self.start()
        bench.clock(1_000_000)
        bench.press()
        self.assertEqual(bench.line(), "LED is on")
        bench.clock(1_000)  # (so that the LED is on for a while, however late the daemon was)
        self.assertEqual(bench.stop(), 0)
        return bench

    def test_the_waves_show_who_did_what(self) -> None:
        dump = Reader(self.pressed_once().waves.read_text()).read()
        self.assertEqual([value for value in self.values(dump, "POWER") if value != "x"], ["0", "1", "0"])
        self.assertEqual([value for value in self.values(dump, "LED") if value != "x"][:2], ["0", "1"])
        for name in ("POWER:holder", "LED:holder"):
            self.assertEqual([value for value in self.values(dump, name) if value], ["powerbutton"])

    def test_the_picture_is_that_of_the_daemon(self) -> None:
        self.assertEqual(picture.draw(), picture.PICTURE.read_text())

    @staticmethod
    def values(dump: Dump, name: str) -> List[str]:
        """The values of the row of that name, in order."""
        return [change.value for row in dump.rows if row.name == name for change in row.changes]


if __name__ == "__main__":
    unittest.main()
