"""How a terminal shows what a text means: by an attribute everywhere, and by a colour too where it has colours.

No meaning is shown by a colour alone. Its word or its number says the same, and most have an attribute too. The colours
are those of Okabe and Ito, which people with any kind of colour blindness tell apart, as near as terminals have them.
"""

from __future__ import annotations

import curses
from dataclasses import dataclass
from enum import Enum
from typing import Dict, List, Mapping, Optional, Tuple

# When colours are shown, as `--color` names it.
CHOICES = ("auto", "always", "never")


class Meaning(Enum):
    """What a part of the screen means."""

    PLAIN = "plain"
    TITLE = "title"
    HEADER = "header"
    CHIP = "chip"
    CHOSEN = "chosen"  # the row with the cursor, whose sign is `>`
    HIGH = "high"  # a level of 1, whose word is `HI`
    OUTPUT = "output"  # the word `out`
    PULLED_UP = "pulled-up"  # the word `up`
    EVENTS = "events"  # events in the last second: a number that is not 0
    HELD = "held"  # a consumer, where a free line has `-`
    FAILED = "failed"  # a statement with the name of its error


# What a row shows: its parts, and what each means.
Cells = List[Tuple[str, Meaning]]


@dataclass(frozen=True)
class Colour:
    """A colour of the palette, and its number on terminals of 256 colours and of 8."""

    rgb: Tuple[int, int, int]
    of_256: int
    of_8: int


ORANGE = Colour((230, 159, 0), 178, curses.COLOR_YELLOW)
SKY_BLUE = Colour((86, 180, 233), 74, curses.COLOR_CYAN)
GREEN = Colour((0, 158, 115), 36, curses.COLOR_GREEN)
VERMILION = Colour((213, 94, 0), 166, curses.COLOR_RED)
PURPLE = Colour((204, 121, 167), 175, curses.COLOR_MAGENTA)


@dataclass(frozen=True)
class Look:
    """How a meaning is shown: by attributes of curses, and a colour where there are some."""

    attribute: int
    colour: Optional[Colour] = None


LOOKS: Dict[Meaning, Look] = {
    Meaning.PLAIN: Look(curses.A_NORMAL),
    Meaning.TITLE: Look(curses.A_REVERSE),
    Meaning.HEADER: Look(curses.A_BOLD),
    Meaning.CHIP: Look(curses.A_BOLD),
    Meaning.CHOSEN: Look(curses.A_REVERSE),
    Meaning.HIGH: Look(curses.A_BOLD, ORANGE),
    Meaning.OUTPUT: Look(curses.A_NORMAL, SKY_BLUE),
    Meaning.PULLED_UP: Look(curses.A_NORMAL, PURPLE),
    Meaning.EVENTS: Look(curses.A_BOLD, ORANGE),
    Meaning.HELD: Look(curses.A_NORMAL, GREEN),
    Meaning.FAILED: Look(curses.A_BOLD, VERMILION),
}


def wants_colours(choice: str, environment: Mapping[str, str], is_terminal: bool) -> bool:
    """Whether colours are wanted. `auto` wants them on a terminal, but where NO_COLOR is set and not empty."""
    if choice == "auto":
        return is_terminal and not environment.get("NO_COLOR")
    return choice == "always"


def colours_of_terminal(number: int) -> int:
    """How many colours the terminal of a file has, by its description: 0 where it has none or is unknown."""
    try:
        curses.setupterm(fd=number)
        return max(curses.tigetnum("colors"), 0)
    except curses.error:
        return 0


def number_of_colour(colour: Colour, count: int) -> int:
    """The number of a colour on a terminal of so many. Only where it has 256 are they those of the palette."""
    return colour.of_256 if count == 256 else colour.of_8


class Looks:
    """The looks as curses shows them on its terminal."""

    def __init__(self, wanted: bool) -> None:
        """Prepares the colours, if they are wanted and the terminal has some. curses has to be on."""
        self._numbers = {meaning: look.attribute for meaning, look in LOOKS.items()}
        if wanted and _begin_colours():
            for pair, meaning in enumerate(LOOKS, 1):
                self._add_colour(pair, meaning)

    def _add_colour(self, pair: int, meaning: Meaning) -> None:
        """Gives a meaning its colour, by a pair of curses whose background is the terminal's own."""
        colour = LOOKS[meaning].colour
        if colour:
            curses.init_pair(pair, number_of_colour(colour, curses.COLORS), -1)
            self._numbers[meaning] |= curses.color_pair(pair)

    def attribute(self, meaning: Meaning, row: Meaning) -> int:
        """The attribute of a part of a row. A reversed row has no colours: on a bright ground they are hard to read."""
        of_row = LOOKS[row].attribute
        return of_row | (LOOKS[meaning].attribute if of_row & curses.A_REVERSE else self._numbers[meaning])


def _begin_colours() -> bool:
    """Whether the terminal of curses has colours over its own background."""
    if not curses.has_colors():
        return False
    try:
        curses.start_color()
        curses.use_default_colors()
    except curses.error:
        return False
    return True


def painted(cells: Cells, count: int) -> str:
    """A row for a terminal of so many colours without curses, by ECMA-48's sequences; without any where it has none."""
    if not count:
        return "".join(text for text, _ in cells)
    return "".join(_painted_cell(text, LOOKS[meaning], count) for text, meaning in cells)


def _painted_cell(text: str, look: Look, count: int) -> str:
    """A part of a row with the sequence of its look, and the one that ends it."""
    codes = [code for attribute, code in ((curses.A_BOLD, "1"), (curses.A_REVERSE, "7")) if look.attribute & attribute]
    if look.colour:
        number = number_of_colour(look.colour, count)
        codes.append(f"38;5;{number}" if count == 256 else f"3{number}")
    return f"\033[{';'.join(codes)}m{text}\033[m" if codes else text
