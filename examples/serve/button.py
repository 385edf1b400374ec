#!/usr/bin/env python3
"""A push button and an LED on a simulated board, asked statement by statement: python3 examples/serve/button.py"""
import sys
import unittest
from pathlib import Path

sys.path.insert(0, str(Path(__file__).resolve().parents[2] / "serve/python"))
from gpioserve import Served  # noqa: E402


class Bench(Served):
    """A board of one chip with 4 lines, gpiochip0. Time stands still except where `clock` moves it."""

    def __init__(self) -> None:
        super().__init__()
        self.begin()
        self.say("probe board 4")

    def pull(self, line: int, up: bool) -> None:
        self.say(f"write gpiochip0/sim_gpio{line}/pull {'pull-up' if up else 'pull-down'}")

    def value(self, line: int) -> int:
        return int(self.say(f"read gpiochip0/sim_gpio{line}/value"))

    def clock(self, milliseconds: int) -> None:
        self.say(f"clock {milliseconds * 1_000_000} 0")


class ButtonTest(unittest.TestCase):
    def test_a_press_that_bounces_is_seen_once(self) -> None:
        with Bench() as bench:
            bench.say("start button gpiomon -c 0 -p 5ms -F %E 3")
            for now, up in enumerate((True, False, True)):
                bench.clock(now)
                bench.pull(3, up)
            while bench.say("step button 1") == "idle\n":
                now += 1
                bench.clock(now)
            self.assertEqual((now, bench.value(3)), (7, 1))  # 5 ms after the last bounce, which was at 2 ms
            self.assertEqual(bench.say("step button 1"), "idle\n")

    def test_an_led_has_one_holder(self) -> None:
        with Bench() as bench:
            bench.say("start lamp gpioset -c 0 2=on")
            self.assertEqual((bench.value(2), bench.say("gpioset -c 0 2=off")), (1, "gpioset: EBUSY\n"))
            bench.say("stop lamp")
            self.assertEqual((bench.value(2), bench.say("gpioset -c 0 2=off")), (0, ""))


if __name__ == "__main__":
    unittest.main()
