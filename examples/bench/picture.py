#!/usr/bin/env python3
"""Draws powerbutton.svg, the picture in README.md: `make picture`.

Somebody presses the button, whose contact bounces, lets it go, knocks at it, and presses it twice. Then the panel is unplugged.
"""
import sys
from typing import List, Tuple

from bench import HERE, TOP, Bench

sys.path.insert(0, str(TOP / "serve"))
import waves  # noqa: E402

PICTURE = HERE / "powerbutton.svg"
DOWN, UP, UNPLUG = (
    "write gpiochip0/sim_gpio0/pull pull-up",
    "write gpiochip0/sim_gpio0/pull pull-down",
    "write panel/live 0",
)
# When, in microseconds; what the world does then, if anything; and what the daemon says upon it, if anything.
PLAY: List[Tuple[int, str, str]] = [
    (20_000, DOWN, ""),
    (22_000, UP, ""),
    (25_000, DOWN, ""),
    (35_000, "", "LED is on"),
    (90_000, UP, ""),
    (92_000, DOWN, ""),
    (93_000, UP, ""),
    (103_000, "", ""),
    (130_000, DOWN, ""),
    (133_000, UP, ""),
    (143_000, "", ""),
    (160_000, DOWN, ""),
    (170_000, "", "LED is off"),
    (200_000, UP, ""),
    (210_000, "", ""),
    (230_000, DOWN, ""),
    (240_000, "", "LED is on"),
    (280_000, UNPLUG, "powerbutton: /dev/gpiochip0 is gone"),
]


def play() -> str:
    """Plays all of it to the daemon: the dump of the lines' levels."""
    bench = Bench()
    try:
        heard = [bench.line()]
        for at, statement, said in PLAY:
            bench.clock(at - bench.now)
            if statement:
                bench.say(statement)
            if said:
                heard.append(bench.line())
        bench.status()
        if heard[1:] != [said for _, _, said in PLAY if said]:
            raise AssertionError(f"the daemon said {heard}")
        return bench.waves.read_text()
    finally:
        bench.close()


def draw() -> str:
    """The picture of what was played."""
    dump = waves.Reader(play()).read()
    return waves.picture(dump, dump.begin, 300 * 10 ** waves.UNITS["ms"], 900)


if __name__ == "__main__":
    PICTURE.write_text(draw())
