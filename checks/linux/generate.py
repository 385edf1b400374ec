"""Makes lists of actions at random, by a seed: `checks/linux/generate.py SHAPE SEED [COUNT]` prints them.

Each shape weighs the steps that a list is made of. Six of ten lists keep away from what is known to differ between Linux
and the machine (docs/LINUX.md), so that all their actions are compared. Each of the others may do two of these things.
"""
import random
import sys
from pathlib import Path
from typing import Dict, List, Optional, Set, Tuple

sys.dont_write_bytecode = True
sys.path.insert(0, str(Path(__file__).resolve().parent))
import structures as s  # noqa: E402
from lists import ActionList, bytes_of, spelled  # noqa: E402

BASE = {
    "request": 5,
    "handle": 2,
    "event": 2,
    "config": 3,
    "config1": 2,
    "get": 4,
    "set": 4,
    "get1": 2,
    "set1": 2,
    "pull": 6,
}
BASE = {
    **BASE,
    "level": 4,
    "read": 4,
    "poll": 2,
    "close": 3,
    "info": 3,
    "info1": 1,
    "watch": 1,
    "changes": 1,
    "open": 1,
}
V1 = {"request": 0, "config": 0, "get": 0, "set": 0, "handle": 6, "event": 5, "info1": 4, "watch1": 2}
V2 = {"handle": 0, "event": 0, "config1": 0, "get1": 0, "set1": 0, "info1": 0}
SHAPES: Dict[str, Dict[str, int]] = {
    "v1": {**BASE, **V1},
    "v2": {**BASE, **V2},
    "mixed": BASE,
    "bytes": {**BASE, "any": 25, "pull": 2, "level": 2},
    "edges": {
        "request": 5,
        "event": 3,
        "pull": 22,
        "read": 12,
        "poll": 3,
        "get": 2,
        "level": 1,
        "config": 2,
        "close": 1,
        "info": 1,
    },
    "watches": {**BASE, "watch": 6, "unwatch": 2, "changes": 8, "request": 7, "config": 5, "close": 5, "pull": 1},
    "hogs": {**BASE, "info": 6, "hogged": 4},
    "removal": {**BASE, "remove": 2, "again": 1, "read": 6, "poll": 5, "watch": 2, "changes": 3},
    "debounce": {
        "request": 5,
        "config": 3,
        "pull": 8,
        "settle": 3,
        "get": 3,
        "read": 5,
        "level": 1,
        "close": 1,
        "info": 1,
        "poll": 2,
    },
    "tree": {"entry": 20, "live": 4, "open": 1, "request": 2, "level": 1, "pull": 1, "info": 1},
}
FREE_PART = 0.4
# what is known to differ: the causes of causes.py
WAYS = "labels label partial keep biasedge realtime strict ring v1config v1edges v1fifo shortread v1perm v1poll period tree".split()
# the files of a device, a bank, a line and a hog, and what is written to them
ENTRIES = (["dev_name", "live"], ["num_lines", "label", "chip_name"], ["name"], ["name", "direction"])
VALUES = {
    "num_lines": ["4", "8", "0x10", "1", "8\\n", "010"],
    "label": ["label-1", "a", "name1\\n"],
    "direction": ["input", "output-high", "output-low", "sideways", "input\\n"],
    "other": ["0", "-1", "abc", "512", "as-is"],
}
PERIODS = (50_000, 50_000, 60_000_000)  # microseconds: one that passes while a list sleeps, and one that never does
SETTLE = 170  # milliseconds
FLAG_BITS = (
    s.ACTIVE_LOW,
    s.INPUT,
    s.OUTPUT,
    s.RISING,
    s.FALLING,
    s.OPEN_DRAIN,
    s.OPEN_SOURCE,
    s.PULL_UP,
    s.PULL_DOWN,
    1,
    4096,
)


class Held:
    """A request that the list has probably made."""

    def __init__(self, version: int, chip: str, offsets: List[int], flags: int, debounce: bool = False):
        self.version, self.chip, self.offsets, self.flags, self.debounce = version, chip, offsets, flags, debounce


class Maker:
    """Makes one list."""

    def __init__(self, shape: str, seed: int):
        self.random = random.Random(f"{shape} {seed}")
        self.shape = shape
        self.ways = self.random.sample(WAYS, 2) if self.chance(FREE_PART) else []
        self.lines: List[str] = []
        self.chips: Dict[str, int] = {}  # how many lines each has
        self.hogs: Dict[str, List[int]] = {}
        self.devices: Dict[str, List[str]] = {}  # the banks of each
        self.live: Dict[str, bool] = {}
        self.opened: Dict[str, str] = {}  # a chip's file, and whose it is
        self.versions: Dict[str, int] = {}  # of the first watch of a chip's file
        self.watched: List[Tuple[str, int]] = []
        self.pulls: Dict[Tuple[str, int], str] = {}
        self.requests: Dict[str, Held] = {}
        self.folders: Set[str] = set()
        self.count = 0

    def say(self, line: str) -> None:
        self.lines.append(line)

    def name(self, letter: str) -> str:
        self.count += 1
        return f"{letter}{self.count}"

    def touches(self, way: str) -> bool:
        """Whether the list may do what is known to differ in that way."""
        return way in self.ways

    def chance(self, part: float) -> bool:
        return self.random.random() < part

    # the board

    def device(self, name: str) -> None:
        """A device with its banks, which goes live."""
        self.say(f"mkdir {name}")
        banks = [f"b{number}" for number in range(1 if self.chance(0.7) else 2)]
        for bank in banks:
            self.bank(f"{name}/{bank}")
        self.devices[name] = banks
        self.go_live(name)

    def bank(self, path: str) -> None:
        """A bank, whose lines have names and hogs here and there."""
        count = self.random.choice((1, 2, 4, 4, 8, 8, 16, 64)) if not self.chance(0.02) else 512
        self.say(f"mkdir {path}")
        if count > 1 or self.chance(0.5):
            self.say(f"write {path}/num_lines {count}")
        if not self.touches("label") or self.chance(0.6):
            label = "same" if self.touches("labels") and self.chance(0.5) else path.replace("/", "-")
            self.say(f"write {path}/label {label}")
        self.chips[path] = count
        self.hogs[path] = []
        for offset in sorted(self.random.sample(range(count), min(count, self.random.choice((0, 0, 1, 3))))):
            self.say(f"mkdir {path}/line{offset}")
            if self.chance(0.8):
                self.say(f"write {path}/line{offset}/name name{offset}")
            if self.chance(0.7 if self.shape == "hogs" else 0.2):
                self.hog(path, offset)

    def hog(self, path: str, offset: int) -> None:
        self.say(f"mkdir {path}/line{offset}/hog")
        if self.chance(0.7):
            self.say(f"write {path}/line{offset}/hog/name hog{offset}")
        if self.chance(0.8):
            direction = self.random.choice(("input", "output-high", "output-low"))
            self.say(f"write {path}/line{offset}/hog/direction {direction}")
        self.hogs[path].append(offset)

    def go_live(self, device: str) -> None:
        self.say(f"write {device}/live 1")
        self.live[device] = True
        for bank in self.devices[device]:
            chip = f"{device}/{bank}"
            self.say(f"chip {self.chip_name(chip)} {chip}")
            self.step_open(chip)

    @staticmethod
    def chip_name(path: str) -> str:
        return path.replace("/", ".")

    # choices

    def any_chip(self) -> str:
        return self.random.choice(sorted(self.chips))

    def any_file(self) -> Optional[str]:
        return self.random.choice(sorted(self.opened)) if self.opened else None

    def any_request(self, *versions: int, wanted: int = 0) -> Optional[str]:
        """A request, mostly of a version, v2, a handle (1) or an event (11), and mostly with one of the flags that are wanted."""
        names = sorted(name for name, held in self.requests.items() if held.version in versions)
        if wanted and self.chance(0.9):
            names = [name for name in names if self.requests[name].flags & wanted] or names
        if not names or self.chance(0.04):
            names = sorted(self.requests)
        return self.random.choice(names) if names else None

    def taken(self, chip: str) -> List[int]:
        held = [offset for one in self.requests.values() if one.chip == chip for offset in one.offsets]
        return held + self.hogs[chip]

    def offsets(self, chip: str, most: int) -> List[int]:
        """Lines for a request. Unless the list is free, only one that asks for a single line may fail."""
        count = self.random.choice((1, 1, 1, 2, 3, min(64, self.chips[chip])))
        if self.touches("partial") and self.chance(0.4):
            return [self.random.randrange(self.chips[chip] + 1) for _ in range(min(count, most))]
        left = [offset for offset in range(self.chips[chip]) if offset not in self.taken(chip)]
        if min(count, most) == 1 and self.chance(0.1):
            return [self.random.randrange(self.chips[chip] + 2)]
        return self.random.sample(left, min(count, most, len(left))) or [0]

    def consumer(self) -> bytes:
        return self.random.choice((b"", b"", b"button", b"a" * 31, b"x"))

    def flags(self, was: Optional[int] = None) -> int:
        """Flags of v2, which make sense as a rule; of a SET_CONFIG where there were flags before."""
        debounce = self.shape == "debounce"
        part = {"debounce": 0.0, "edges": 0.08}.get(self.shape, 0.4)
        output = self.chance(part) if was is None or self.touches("keep") else bool(was & s.OUTPUT)
        flags = s.OUTPUT if output else s.INPUT
        if self.chance(0.3):
            flags |= s.ACTIVE_LOW
        if not output and self.chance(0.9 if debounce else 0.7 if self.shape == "edges" else 0.35):
            flags |= self.random.choice((s.RISING, s.FALLING, s.EDGES, s.EDGES))
        if self.chance(0.2) and (was is None or self.touches("biasedge")):
            flags |= self.random.choice((s.PULL_UP, s.PULL_DOWN, s.BIAS_DISABLED))
        elif was is not None and not self.touches("biasedge"):
            flags |= was & s.BIASES
        if self.touches("keep") and output and self.chance(0.4):
            flags |= self.random.choice((s.OPEN_DRAIN, s.OPEN_SOURCE))
        if self.touches("realtime") and self.chance(0.5):
            flags |= s.REALTIME if flags & s.EDGES or self.chance(0.3) else 0
        if self.chance(0.06):
            flags ^= (
                self.random.choice(FLAG_BITS)
                if self.touches("keep")
                else s.OUTPUT | s.INPUT
                if self.chance(0.5)
                else 4096
            )
        return flags

    def attributes(self, flags: int, count: int, was: Optional[int]) -> List[s.Attribute]:
        chosen: List[s.Attribute] = []
        mask = self.random.getrandbits(count) or 1
        if flags & s.OUTPUT and self.chance(0.5):
            chosen.append((s.OUTPUT_VALUES, self.random.getrandbits(count), self.random.getrandbits(count) or 1))
        if self.shape == "debounce" and flags & s.INPUT and self.chance(0.85):
            chosen.append((s.DEBOUNCE, self.random.choice(PERIODS), (1 << count) - 1))
        if (was is None or self.touches("keep")) and self.chance(0.12):
            chosen.append((s.FLAGS, self.flags(), mask))
        if self.chance(0.02):
            chosen.append((self.random.choice((0, 4, 99)), 0, mask))
        return chosen

    def config(self, count: int, was: Optional[int] = None) -> Tuple[bytes, int, bool]:
        """A line config, its flags, and whether it has a debounce period."""
        flags = self.flags(was)
        attributes = self.attributes(flags, count, was)
        data = bytearray(s.config(flags, attributes))
        if self.touches("strict") and self.chance(0.3):  # what should be zero
            data[self.random.choice((36, 200, 270, 12, 31))] = 1
        return bytes(data), flags, any(name == s.DEBOUNCE for name, _, _ in attributes)

    # steps on chips

    def step_open(self, chip: Optional[str] = None) -> None:
        chip = chip or self.any_chip()
        name = self.name("f")
        self.say(f"open {name} {self.chip_name(chip)}")
        self.opened[name] = chip

    def ioctl(self, version: int, name: str, command: str, data: bytes, made: str = "") -> None:
        word = "ioctl1" if version == 1 else "ioctl"
        self.say(f"{word} {name} {command} {spelled(data)}" + (f" as {made}" if made else ""))

    def made(self, chip: str, held: Held) -> str:
        name = self.name("r")
        if not set(held.offsets) & set(self.taken(chip)):
            self.requests[name] = held
        return name

    def step_request(self) -> None:
        name = self.any_file()
        if not name:
            return
        chip = self.opened[name]
        offsets = self.offsets(chip, 64)
        data, flags, debounce = self.config(len(offsets))
        capacity = (
            0 if self.chance(0.7) else self.random.choice((1, 3, 100, 1) if self.touches("ring") else (2, 4, 8, 64))
        )
        made = self.made(chip, Held(2, chip, offsets, flags, debounce))
        self.ioctl(2, name, "GET_LINE", s.request(offsets, data, self.consumer(), capacity), made)

    def flags1(self, was: Optional[int] = None) -> int:
        output = self.chance(0.5) if was is None or self.touches("keep") else bool(was & s.OUTPUT1)
        flags = s.OUTPUT1 if output else s.INPUT1
        flags |= s.ACTIVE_LOW1 if self.chance(0.3) else 0
        if self.chance(0.2) and (was is None or self.touches("biasedge")):
            flags |= self.random.choice((s.PULL_UP1, s.PULL_DOWN1, s.BIAS_DISABLED1))
        elif was is not None and not self.touches("biasedge"):
            flags |= was & (s.PULL_UP1 | s.PULL_DOWN1 | s.BIAS_DISABLED1)
        if self.touches("keep") and output and self.chance(0.4):
            flags |= self.random.choice((s.OPEN_DRAIN1, s.OPEN_SOURCE1))
        if self.touches("v1config") and self.chance(0.3):
            flags ^= 1 << self.random.randrange(9)
        return flags

    def levels(self, count: int) -> List[int]:
        return [self.random.choice((0, 1, 0, 1, 0, 1, 255)) for _ in range(count)]

    def step_handle(self) -> None:
        name = self.any_file()
        if not name:
            return
        chip = self.opened[name]
        offsets, flags = self.offsets(chip, 64), self.flags1()
        made = self.made(chip, Held(1, chip, offsets, flags))
        self.ioctl(
            1, name, "LINEHANDLE", s.handle_request(offsets, flags, self.levels(len(offsets)), self.consumer()), made
        )

    def step_event(self) -> None:
        name = self.any_file()
        if not name or (not self.touches("v1edges") and self.shape in ("watches", "hogs")):
            return
        chip = self.opened[name]
        offset, flags = self.offsets(chip, 1)[0], s.INPUT1 | (s.ACTIVE_LOW1 if self.chance(0.3) else 0)
        if self.chance(0.06):
            flags = self.flags1()
        made = self.made(chip, Held(11, chip, [offset], s.EDGES))
        edges = self.random.choice((0, 1, 2, 3, 4) if self.chance(0.1) else (1, 2, 3, 3))
        self.ioctl(1, name, "LINEEVENT", s.event_request(offset, flags, edges, self.consumer()), made)
        for number in range(20 if self.touches("v1fifo") and offset < self.chips[chip] else 0):
            self.say(f"put {self.chip_name(chip)} {offset} pull {('pull-up', 'pull-down')[number % 2]}")

    def has_v1_edges(self, chip: str, offset: int) -> bool:
        return any(one.version == 11 and one.chip == chip and offset in one.offsets for one in self.requests.values())

    def step_info(self) -> None:
        name = self.any_file()
        if name:
            chip = self.opened[name]
            offset = self.random.randrange(self.chips[chip] + 1)
            if self.touches("v1edges") or not self.has_v1_edges(chip, offset):
                self.ioctl(2, name, "GET_LINEINFO", s.line_info(offset))

    def step_hogged(self) -> None:
        name = self.any_file()
        if name and self.hogs[self.opened[name]]:
            offset = self.random.choice(self.hogs[self.opened[name]])
            self.ioctl(2, name, "GET_LINEINFO", s.line_info(offset))

    def step_info1(self) -> None:
        name = self.any_file()
        if name and self.chance(0.3):
            self.ioctl(1, name, "CHIPINFO", bytes(68))
        elif name:
            self.ioctl(
                1,
                name,
                "LINEINFO",
                self.random.randrange(self.chips[self.opened[name]] + 1).to_bytes(4, "little") + bytes(68),
            )

    def step_watch(self, version: int = 2) -> None:
        name = self.any_file()
        if not name or (self.versions.get(name, version) != version and self.chance(0.7)):
            return
        self.versions.setdefault(name, version)
        offset = self.random.randrange(self.chips[self.opened[name]] + (1 if self.chance(0.1) else 0))
        self.watched.append((name, offset))
        data = s.line_info(offset) if version == 2 else offset.to_bytes(4, "little") + bytes(68)
        self.ioctl(version, name, "WATCH", data)

    def step_watch1(self) -> None:
        self.step_watch(1)

    def step_unwatch(self) -> None:
        name = self.any_file()
        if not name or (not self.watched and self.chance(0.7)):
            return
        offset = self.random.randrange(self.chips[self.opened[name]] + 1)
        if self.watched and self.chance(0.9):
            name, offset = self.random.choice(self.watched)
        self.ioctl(2, name, "UNWATCH", offset.to_bytes(4, "little"))

    def step_changes(self) -> None:
        name = self.random.choice(sorted(self.versions)) if self.versions and self.chance(0.9) else self.any_file()
        if name:
            lengths = (0, 1, 104, 288, 576, 2880) if self.touches("shortread") else (288, 288, 2880, 9216)
            self.say(f"events {name} {self.random.choice(lengths)}")

    # steps on requests

    def step_config(self) -> None:
        name = self.any_request(2)
        if name:
            held = self.requests[name]
            if held.debounce and not self.touches("period"):
                return
            data, flags, debounce = self.config(len(held.offsets), held.flags)
            held.flags, held.debounce = flags, debounce
            self.ioctl(2, name, "SET_CONFIG", data)

    def step_config1(self) -> None:
        name = self.any_request(1)
        if name:
            held = self.requests[name]
            flags = self.flags1(held.flags if held.version == 1 else None)
            held.flags = flags
            self.ioctl(1, name, "SET_CONFIG", s.handle_config(flags, self.levels(len(held.offsets))))

    def step_get(self) -> None:
        name = self.any_request(2)
        if name:
            count = len(self.requests[name].offsets)
            mask = (1 << count) - 1 if self.chance(0.6) else self.random.getrandbits(min(count + 1, 64))
            self.ioctl(2, name, "GET_VALUES", s.values(self.random.choice((0, 0, 1, 255)), mask))

    def step_set(self) -> None:
        name = self.any_request(2, wanted=s.OUTPUT)
        if name:
            count = len(self.requests[name].offsets)
            mask = (1 << count) - 1 if self.chance(0.6) else self.random.getrandbits(min(count + 1, 64))
            self.ioctl(2, name, "SET_VALUES", s.values(self.random.getrandbits(min(count + 1, 64)), mask))

    def step_get1(self) -> None:
        name = self.any_request(1, 11)
        if name:
            self.ioctl(1, name, "GET_VALUES", s.handle_data())

    def step_set1(self) -> None:
        name = self.any_request(1)
        if name and (self.touches("v1perm") or self.requests[name].flags & s.OUTPUT1):
            self.ioctl(1, name, "SET_VALUES", s.handle_data(self.levels(len(self.requests[name].offsets))))

    def step_read(self) -> None:
        name = self.any_request(2, 11, wanted=s.EDGES)
        if not name or (self.requests[name].version == 1 and self.chance(0.9)):
            return
        size = 48 if self.requests[name].version == 2 else 16
        odd = (0, 1, size - 1, size + 1, size * 3)
        lengths = odd if self.chance(0.15) else (size, size * 4, size * 16, size * 40)
        self.say(f"events {name} {self.random.choice(lengths)}")

    def step_poll(self) -> None:
        names = sorted(self.opened) + sorted(
            name for name, one in self.requests.items() if self.touches("v1poll") or one.version != 1
        )
        if names:
            self.say(f"poll {self.random.choice(names)}")

    def step_close(self) -> None:
        names = sorted(self.requests) * 3 + sorted(self.opened)
        if names:
            name = self.random.choice(names)
            self.say(f"close {name}")
            if not self.chance(0.05):
                self.requests.pop(name, None)
                self.opened.pop(name, None)

    def step_any(self) -> None:
        """A command with bytes that are changed, cut or numbered at random."""
        before = len(self.lines)
        getattr(
            self,
            "step_"
            + self.random.choice("request request request config config handle event config1 info set get".split()),
        )()
        if len(self.lines) == before or "ioctl" not in self.lines[-1]:
            return
        words = self.lines.pop().split()
        made = words[words.index("as") + 1] if "as" in words else ""
        data = bytearray(bytes_of(words[3 : words.index("as") if made else None]))
        self.change(data, words[2])
        number = words[2]
        if self.chance(0.05) and not made:
            number = hex(
                0xB400
                | self.random.choice((0, 1, 2, 5, 6, 10, 15, 99))
                | self.random.choice((0, 0x80440000, 0xC0100000, 0xC1100000))
            )
        self.requests.pop(made, None) if len(data) < 44 else None
        self.ioctl(1 if words[0] == "ioctl1" else 2, words[1], number, bytes(data), made)

    def change(self, data: bytearray, command: str) -> None:
        if self.chance(0.12):
            del data[self.random.randrange(len(data) + 1) :]
        if not data:
            return
        if not self.touches("strict"):  # (what should be zero stays zero)
            self.change_flags(data, command)
            return
        for _ in range(self.random.choice((1, 1, 2, 5))):
            data[self.random.randrange(len(data))] = self.random.choice((0, 1, 2, 255, self.random.randrange(256)))

    def change_flags(self, data: bytearray, command: str) -> None:
        """Changes a bit of the flags or a byte of the consumer; of a SET_CONFIG nothing that changes a direction."""
        at, bits = {"GET_LINE": (288, 13), "SET_CONFIG": (0, 2), "LINEHANDLE": (256, 3), "LINEEVENT": (4, 3)}.get(
            command, (0, 0)
        )
        if bits and at + 1 < len(data) and self.chance(0.5):
            bit = self.random.choice(
                [bit for bit in range(bits) if 1 << bit not in (s.OPEN_DRAIN, s.OPEN_SOURCE, s.REALTIME)]
            )
            data[at + bit // 8] ^= 1 << bit % 8
        elif command == "GET_LINE" and len(data) > 287:
            data[256 + self.random.randrange(32)] = self.random.choice((1, 65, 255))
        elif command in ("GET_VALUES", "SET_VALUES") and data:
            data[self.random.randrange(len(data))] = self.random.randrange(256)

    # steps of the world

    def step_pull(self) -> None:
        chip = self.any_chip()
        offset = self.random.randrange(self.chips[chip])
        watched = [(one.chip, offset) for one in self.requests.values() for offset in one.offsets]
        if watched and self.chance(0.7):
            chip, offset = self.random.choice(watched)
        if offset < self.chips[chip]:
            value = "pull-up" if self.pulls.get((chip, offset), "pull-down") == "pull-down" else "pull-down"
            value = (
                value if self.chance(0.85) else self.random.choice(("pull-up", "pull-down", "up", "1", "pull-up\\n"))
            )
            self.pulls[chip, offset] = value
            self.say(f"put {self.chip_name(chip)} {offset} pull {value}")

    def step_level(self) -> None:
        chip = self.any_chip()
        self.say(
            f"get {self.chip_name(chip)} {self.random.randrange(self.chips[chip])} {self.random.choice(('value', 'value', 'pull'))}"
        )

    def step_settle(self) -> None:
        self.say(f"sleep {SETTLE}")

    def step_remove(self) -> None:
        device = self.random.choice(sorted(self.devices))
        self.say(f"write {device}/live 0")
        self.live[device] = False

    def step_again(self) -> None:
        device = self.random.choice(sorted(self.devices))
        if not self.live[device]:
            for name in [name for name, one in self.requests.items() if one.chip.startswith(device + "/")]:
                del self.requests[name]
            self.go_live(device)

    # steps of the tree

    def step_live(self) -> None:
        device = self.random.choice(sorted(self.devices))
        value = self.random.choice(("0", "1", "1", "1\\n", "on", "y", "2", "0x1", "no"))
        self.say(f"write {device}/live {value}")
        self.live[device] = self.live[device] or value not in ("0", "no", "2")
        if value in ("0", "no"):
            self.live[device] = False
        elif self.devices[device]:
            chip = f"{device}/{self.devices[device][0]}"
            self.say(f"chip {self.chip_name(chip)} {chip}")

    def step_entry(self) -> None:
        """Something in configfs. Folders of a device that may be live are left alone: Linux 6.12 crashes in some of these."""
        device = self.random.choice(("d", "e", "f") if self.chance(0.9) else ("gpio-sim.0", "_", "d.d"))
        path = device + self.random.choice(
            ("", "/b0", "/b0", "/b1", "/b0/line0", "/b0/line1", "/b0/line7", "/b0/line0/hog")
        )
        verb = self.random.choice("mkdir mkdir mkdir rmdir write write write read read".split())
        if verb in ("mkdir", "rmdir"):
            if not self.live.get(device):
                self.folder(verb, path)
            return
        own = ENTRIES[path.count("/")] if self.chance(0.85) else ENTRIES[self.random.randrange(4)]
        file = self.random.choice(own)
        if file == "live" and verb == "write":
            return
        value = self.random.choice(
            VALUES.get(file, VALUES["label"])
            if not self.touches("tree") or self.chance(0.7)
            else sum(VALUES.values(), [])
        )
        self.say(f"{verb} {path}/{file}" + (f" {value}" if verb == "write" else ""))

    def folder(self, verb: str, path: str) -> None:
        """Makes or removes a folder, and often those above it first."""
        parts = path.split("/")
        for end in range(1, len(parts)) if verb == "mkdir" and self.chance(0.6) else ():
            if "/".join(parts[:end]) not in self.folders:
                self.folder(verb, "/".join(parts[:end]))
        self.say(f"{verb} {path}")
        self.folders.add(path)
        self.learn(verb, path)

    def learn(self, verb: str, path: str) -> None:
        device, _, bank = path.partition("/")
        if verb == "mkdir" and bank and "/" not in bank:
            self.devices.setdefault(device, [])
            self.live.setdefault(device, False)
            if bank not in self.devices[device]:
                self.devices[device].append(bank)

    # the whole

    def make(self) -> List[str]:
        """The lines of the whole list."""
        self.device("d")
        if self.chance(0.25):
            self.device("e")
        if self.shape == "tree" and self.chance(0.5):
            self.say("write d/live 0")
            self.live["d"] = False
        weights = SHAPES[self.shape]
        for _ in range(self.random.randrange(10, 26)):
            step = self.random.choices(list(weights), list(weights.values()))[0]
            if step == "settle" and sum(line.startswith("sleep") for line in self.lines) >= 2:
                continue
            getattr(self, "step_" + step)()
        for name, one in sorted(self.requests.items()):
            if one.version != 1 and one.flags & s.EDGES:
                self.say(f"events {name} {48 * 20 if one.version == 2 else 16 * 20}")
        for name in sorted(self.versions):
            self.say(f"events {name} 9216")
        return self.lines


def generated(shape: str, seed: int) -> ActionList:
    """The list of a shape and a seed."""
    return ActionList(f"{shape}-{seed}", 0, Maker(shape, seed).make())


def main() -> int:
    """Prints lists."""
    words = sys.argv[1:]
    if not 2 <= len(words) <= 3 or words[0] not in SHAPES or not all(word.isdecimal() for word in words[1:]):
        print(f"usage: generate.py SHAPE SEED [COUNT], with SHAPE one of {' '.join(SHAPES)}", file=sys.stderr)
        return 2
    count = int(words[2]) if len(words) > 2 else 1
    print("\n".join(generated(words[0], int(words[1]) + number).text() for number in range(count)), end="")
    return 0


if __name__ == "__main__":
    sys.exit(main())
