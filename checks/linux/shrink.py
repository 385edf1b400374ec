#!/usr/bin/env python3
"""Shrinks a list that Linux answers otherwise than gpioserve to the smallest one that still differs, and prints it.

    checks/linux/shrink LISTS NAME                    the list NAME of a file, by the library
    checks/linux/shrink --way notify LISTS NAME

It leaves out more and more actions. The lists of a round are made by Linux in one boot (checks/linux/record). One that still
differs, by the same cause, is the next one to be shrunk. GPIOSERVED names the served program.
"""
import argparse
import os
import sys
import tempfile
from pathlib import Path
from typing import Dict, List, Optional, Set

sys.dont_write_bytecode = True
sys.path.insert(0, str(Path(__file__).resolve().parent))
from causes import cause_of, first_difference, made_by  # noqa: E402
from lists import TOP, WAYS, ActionList, Player, read_lists, read_results  # noqa: E402
from record import Machine, build_kernel  # noqa: E402

SECONDS = 100


def is_list(lines: List[str]) -> bool:
    """Whether each name is made by an action before it is used."""
    chips: Set[str] = set()
    files: Set[str] = set()
    for line in lines:
        words = line.split()
        if words[0] in ("put", "get") and words[1] not in chips or words[0] == "open" and words[2] not in chips:
            return False
        if words[0] in ("ioctl", "ioctl1", "events", "poll", "close") and words[1] not in files:
            return False
        chips |= {words[1]} if words[0] == "chip" else set()
        made = made_by(words)
        files |= {made} if made else set()
    return True


def smaller(one: ActionList, part: int) -> List[ActionList]:
    """The list without each run of `part` actions."""
    lines = one.lines
    found = [lines[:at] + lines[at + part :] for at in range(0, len(lines), max(part // 2, 1))]
    return [ActionList(f"{one.name}.{number}", 0, left) for number, left in enumerate(found) if left and is_list(left)]


class Shrinking:
    """Compares lists by a kernel and a player."""

    def __init__(self, machine: Machine, player: Player, way: str, room: Path):
        self.machine, self.player, self.way, self.room = machine, player, way, room

    def causes(self, lists: List[ActionList]) -> Dict[str, str]:
        """Of each list that differs its cause, or where no rule holds the verb of the action."""
        path = self.room / "round.list"
        path.write_text("".join(one.text() for one in lists))
        linux = self.machine.record(lists, 0.5)
        here = read_results(self.player.play(self.way, [str(path)], SECONDS).stdout)
        found: Dict[str, str] = {}
        for one in lists:
            pair = linux.get(one.name, []), here.get(one.name, [])
            difference = first_difference(one, *pair)
            if difference:
                found[one.name] = cause_of(one, *pair) or difference.verb
        return found

    def shrink(self, one: ActionList) -> Optional[ActionList]:
        """The smallest list; None where this one does not differ."""
        wanted = self.causes([one]).get(one.name)
        part = len(one.lines) // 2
        while wanted and part > 0:
            candidates = smaller(one, part)
            found = self.causes(candidates) if candidates else {}
            still = [candidate for candidate in candidates if found.get(candidate.name) == wanted]
            print(f"{len(one.lines)} actions, {len(still)} of {len(candidates)} smaller ones differ", file=sys.stderr)
            if still:
                one = ActionList(one.name, 0, still[0].lines)
            part = min(part, len(one.lines) // 2) if still else part // 2
        return one if wanted else None


def main() -> int:
    """Shrinks the list that the words name."""
    parser = argparse.ArgumentParser(description=__doc__, formatter_class=argparse.RawDescriptionHelpFormatter)
    parser.add_argument("--way", choices=WAYS, default=WAYS[0])
    parser.add_argument("--version", default="6.12", help="of the package linux-source-VERSION (6.12)")
    parser.add_argument("lists", type=Path, metavar="LISTS")
    parser.add_argument("name", metavar="NAME")
    options = parser.parse_args()
    chosen = [one for one in read_lists(options.lists) if one.name == options.name]
    if not chosen:
        parser.error(f"{options.lists} has no list {options.name}")
    with tempfile.TemporaryDirectory() as name:
        room = Path(name)
        machine = Machine(build_kernel(options.version), room, 1, ["--pause", "200"])
        player = Player(room, os.environ.get("GPIOSERVED", str(TOP / "crates/gpioserved/out/gpioserved")))
        small = Shrinking(machine, player, options.way, room).shrink(chosen[0])
    print(small.text() if small else f"# {options.name} does not differ", end="")
    return 0 if small else 1


if __name__ == "__main__":
    sys.exit(main())
