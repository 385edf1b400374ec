#!/usr/bin/env python3
"""Compares two makes of gpiosess and of gpioserved over sessions made at random: both have to write the same bytes and end with the same status.

    checks/alike.py GPIOSESS OTHER-GPIOSESS GPIOSERVED OTHER-GPIOSERVED [COUNT [SEED]]

The sessions are made of the lines of examples/, checks/rows/ and checks/linux/sessions/, as much of each: COUNT of them, 1500 where none is said, by a generator that
begins at SEED, which is 1 then. The same words make the same sessions. Of several actors there is none, since what these print isn't the same
in each run. A session that differs is kept, and named. The last line is `N passed, M failed`.
"""
import random
import re
import subprocess
import sys
import tempfile
from collections import Counter
from dataclasses import dataclass
from pathlib import Path
from typing import List

TOP = Path(__file__).resolve().parent.parent
FOLDERS = ("examples", "checks/rows", "checks/linux/sessions")
BOARD = ["session 2", "setup", "probe demo 8", "probe two 64"]
# Lines that gpioserved alone takes: no session has them.
SERVED_LINES = ["due", "data chip 288", "data chip.1 288", "data lines 48", "data r 48", "data none 16"]
SECONDS_MOST = 300
# Of so many sessions one at least has to run, and one to be refused: else nothing much is compared.
ONE_OF = 10


@dataclass(frozen=True)
class Ended:
    """How a run ended."""

    status: int
    output: bytes


def texts(folder: str) -> List[List[str]]:
    """The lines of the sessions of a folder that have no actors."""
    found = [path.read_text("latin1").split("\n") for path in sorted((TOP / folder).glob("*.session"))]
    return [lines for lines in found if not any(line.split()[:1] == ["actor"] for line in lines)]


class Maker:
    """Makes sessions at random."""

    def __init__(self, seed: int) -> None:
        self.random = random.Random(seed)
        self.texts = [texts(folder) for folder in FOLDERS]
        self.lines = [[line for lines in some for line in lines[2:] if line] for some in self.texts]

    def session(self) -> List[str]:
        """A session with some of its lines moved, doubled, dropped or replaced; lines of all behind a board; or numbers changed."""
        return self.random.choice((self.edited, self.edited, self.collected, self.renumbered))()

    def text(self) -> List[str]:
        """A session as it stands."""
        return list(self.random.choice(self.random.choice(self.texts)))

    def line(self) -> str:
        """A line of any session."""
        return self.random.choice(self.random.choice(self.lines))

    def edited(self) -> List[str]:
        lines = self.text()
        for _ in range(self.random.randint(1, 8)):
            at = self.random.randrange(min(2, len(lines)), len(lines) + 1)
            own = [self.random.choice(lines)] if lines else []
            lines[at : at + self.random.choice((0, 0, 1))] = self.random.choice(([], own, [self.line()]))
        return lines

    def collected(self) -> List[str]:
        return BOARD + [self.line() for _ in range(self.random.randint(5, 120))]

    def renumbered(self) -> List[str]:
        lines = self.text()
        at = self.random.randrange(len(lines))
        lines[at] = re.sub(
            "[0-9]", lambda digit: self.random.choice((digit[0], digit[0], self.random.choice("0123456789"))), lines[at]
        )
        return lines

    def served(self, lines: List[str]) -> List[str]:
        """The session with a line that only gpioserved takes, in one of two cases."""
        at = self.random.randrange(len(lines) + 1)
        return lines[:at] + self.random.choice(([], [self.random.choice(SERVED_LINES)])) + lines[at:]


def ended(program: str, lines: List[str]) -> Ended:
    text = "\n".join(lines).encode("latin1")
    done = subprocess.run(
        [program], input=text, stdout=subprocess.PIPE, stderr=subprocess.DEVNULL, timeout=SECONDS_MOST, check=False
    )
    return Ended(done.returncode, done.stdout)


def keep(lines: List[str]) -> str:
    """Keeps a session: its path."""
    with tempfile.NamedTemporaryFile("w", encoding="latin1", suffix=".session", delete=False) as file:
        file.write("\n".join(lines))
    return file.name


def main() -> int:
    if len(sys.argv) not in (5, 6, 7):
        print(__doc__, file=sys.stderr)
        return 2
    pairs = (sys.argv[1:3], sys.argv[3:5])
    count, seed = (int(word) for word in (sys.argv[5:] + ["1500", "1"][len(sys.argv) - 5 :]))
    maker, statuses = Maker(seed), Counter[int]()
    passed = failed = 0
    for number in range(1, count + 1):
        lines = maker.session()
        for (one, other), given in zip(pairs, (lines, maker.served(lines))):
            first, second = ended(one, given), ended(other, given)
            if first != second:
                failed += 1
                print(
                    f"session {number}: {one}: status {first.status}, {other}: {second.status}; the session is kept as {keep(given)}"
                )
            else:
                passed += 1
            if one == pairs[0][0]:
                statuses[first.status] += 1
    print(f"{count} sessions from seed {seed}; gpiosess ended with {dict(sorted(statuses.items()))}")
    if min(statuses[0], statuses[3]) * ONE_OF < count:
        failed += 1
        print(f"fewer than one of {ONE_OF} ran, or was refused")
    print(f"{passed} passed, {failed} failed")
    return 1 if failed else 0


if __name__ == "__main__":
    sys.exit(main())
