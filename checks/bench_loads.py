#!/usr/bin/env python3
"""The sessions that checks/bench measures: of one kind of work each, near the limits of a session's length and cost.

bench_loads.py FOLDER writes each of them into a folder, to be run by hand.
"""
import struct
import sys
from dataclasses import dataclass, replace
from pathlib import Path
from typing import Dict, Iterable, List, Tuple

TEXT_MAX = 1_048_576
CHIPS = 64
LINES = 512
FILES = 256
GROUPS = 16
ROUNDS = 400
HEAD = ["session 1", "setup"]


# The loads that the program has to carry out in not many more instructions than the plain one, beside that of one actor.
WITH_AIMS = (
    "gpiodetect",
    "256 files, reopen",
    "gpioinfo",
    "gpioget by name",
    "256 files, poll",
    "ticks",
    "240 requests, again",
)


@dataclass(frozen=True)
class Load:
    """A session, the name under which it stands in the tables, and whether its instructions can be counted in a minute or so."""

    name: str
    text: bytes
    counted: bool = True


def joined(statements: Iterable[str]) -> bytes:
    return "".join(f"{statement}\n" for statement in statements).encode()


def in_setup(name: str, *parts: Iterable[str]) -> Load:
    """A session that does all in its first section."""
    text = joined([*HEAD, *(statement for part in parts for statement in part)])
    if len(text) > TEXT_MAX:
        raise ValueError(f"{name}: {len(text)} bytes are too many for a session")
    return Load(name, text)


def pieces(data: bytes) -> str:
    """Bytes as words of an `ioctl` statement, runs of zeros in short."""
    words: List[str] = []
    plain = ""
    at = 0
    while at < len(data):
        zeros = len(data) - at - len(data[at:].lstrip(b"\0"))
        if zeros < 4:
            plain += data[at : at + 1].hex()
            at += 1
            continue
        words += [plain] * bool(plain) + [f"00*{zeros}"]
        plain = ""
        at += zeros
    return " ".join(words + [plain] * bool(plain))


INPUT = 1 << 2
BOTH_EDGES = 3 << 4


def request(chip: str, offsets: List[int], name: str, flags: int = INPUT, debounce_us: int = 0) -> str:
    """A statement that requests lines of a chip's file (GET_LINE), each debounced where a period is given."""
    data = struct.pack("<64I", *offsets, *[0] * (64 - len(offsets))) + bytes(32)
    debounce = (
        struct.pack("<II8sQ", 3, 0, struct.pack("<Q", debounce_us), 2 ** len(offsets) - 1) if debounce_us else b""
    )
    data += struct.pack("<QI20x", flags, len(debounce) // 24) + debounce.ljust(240, b"\0")
    data += struct.pack("<II20xi", len(offsets), 0, 0)
    return f"ioctl {chip} GET_LINE {pieces(data)} as {name}"


def probes(lines: int, chips: int = CHIPS) -> List[str]:
    return [f"probe c{chip} {lines}" for chip in range(chips)]


def opened_chips(chips: int) -> List[str]:
    return [f"open A{chip} {chip}" for chip in range(chips)]


def opened_files() -> List[str]:
    return [f"probe c {LINES}", *(f"open f{file} 0" for file in range(FILES))]


def group(number: int) -> List[str]:
    """The statements of one group of lines: each round pulls a line, asks for it and reads its level."""
    out = []
    for k in range(ROUNDS):
        line = 4 * number + k % 4
        pull = "pull-down" if k // 4 % 2 else "pull-up"
        out += [
            f"write gpiochip0/sim_gpio{line}/pull {pull}",
            f"gpioget -c 0 {line}",
            f"read gpiochip0/sim_gpio{line}/value",
        ]
    return out


def by_actors(actors: int) -> Load:
    """A session of so many actors that make the same calls in all, each on lines of its own."""
    statements = [*HEAD, "probe bench 64"]
    for actor in range(actors):
        statements.append(f"actor a{actor}")
        for number in range(actor, GROUPS, actors):
            statements += group(number)
    return Load(f"{actors} actors" if actors > 1 else "one actor", joined(statements))


def tree(devices: int = CHIPS, named: int = 14, lines: int = LINES) -> Tuple[List[str], List[str]]:
    """A full tree, of so many devices that have a bank with so many named lines each; and the paths of the lines' names."""
    made, names = [], []
    for device in range(devices):
        bank = f"d{device}/b0"
        made += [
            f"mkdir d{device}",
            f"mkdir {bank}",
            f"write {bank}/num_lines {lines}",
            f"write {bank}/label l{device}",
        ]
        for line in range(named):
            made += [f"mkdir {bank}/line{line}", f"write {bank}/line{line}/name N{device}.{line}"]
            names.append(f"{bank}/line{line}/name")
    return made, names


def went_live(devices: int = CHIPS) -> List[str]:
    return [f"write d{device}/live 1" for device in range(devices)]


def requests() -> Tuple[List[str], List[str]]:
    """A file of each chip, and 240 requests of a line; each request alone."""
    asked = [request(f"A{line // 16}", [line % 16], f"R{line}") for line in range(240)]
    return [*probes(16, 15), *opened_chips(15), *asked], asked


def debounced() -> List[str]:
    """All lines of eight chips debounced, in requests of 64, and pulled: 4,096 deadlines are waited for."""
    chips, firsts = range(8), range(0, LINES, 64)
    asked = [
        request(f"A{chip}", list(range(first, first + 64)), f"R{chip}.{first}", INPUT | BOTH_EDGES, 1000)
        for chip in chips
        for first in firsts
    ]
    pulled = [f"write gpiochip{chip}/sim_gpio{line}/pull pull-up" for chip in chips for line in range(LINES)]
    return [*probes(LINES, len(chips)), *opened_chips(len(chips)), *asked, *pulled]


def watched() -> List[str]:
    """250 files that watch four lines each."""
    files = [f"open W{file} 0" for file in range(250)]
    watches = [f"ioctl W{file} WATCH 00*64 {line:02x} 00*191" for file in range(250) for line in range(4)]
    return [f"probe c {LINES}", *files, *watches, "open A 0"]


def filled(name: str, line: str) -> Load:
    """A session nearly as long as may be, of one line again and again, to which two actors can be added still."""
    head = joined([*HEAD, "probe demo 4"])
    return Load(name, head + joined([line]) * ((TEXT_MAX - len(head) - 100) // (len(line) + 1)))


def loads() -> List[Load]:
    """The loads of one actor."""
    made, names = tree()
    live = went_live()
    off = [f"write d{device}/live 0" for device in range(CHIPS)]
    removed = [f"unplug {chip}" for chip in range(CHIPS)]
    asked, alone = requests()
    closed = [statement for k in range(12_000) for statement in (f"close R{k % 240}", alone[k % 240])]
    reopened = [statement for k in range(30_000) for statement in (f"close f{k % FILES}", f"open f{k % FILES} 0")]
    ticks = [f"clock {time} 0" for time in range(50_000)]
    return [
        by_actors(1),
        in_setup("gpiodetect", ["gpiodetect"] * 1562),
        in_setup("gpioinfo", probes(LINES), ["gpioinfo"] * 9),
        in_setup("gpioget by name", tree(16, 62, 128)[0], went_live(16), ["gpioget N15.61"] * 11_000),
        replace(in_setup("30,000 finds", made, live, ["gpioget N63.13"] * 30_000), counted=False),
        in_setup("256 files, poll", opened_files(), (f"poll f{k % FILES}" for k in range(60_000))),
        in_setup("256 files, reopen", opened_files(), reopened),
        in_setup("240 requests, again", asked, closed),
        in_setup("240 requests, values", asked, (f"ioctl R{k % 240} GET_VALUES 00*8 01 00*7" for k in range(25_000))),
        in_setup("ticks", ticks),
        in_setup("ticks, 4096 deadlines", debounced(), ticks),
        in_setup("full tree", made),
        in_setup("full tree, live", made, live),
        in_setup("full tree, live and off", made, live, off),
        in_setup("64 chips", probes(LINES)),
        in_setup("64 chips, unplugged", probes(LINES), removed),
        in_setup("250 watching files", watched(), [request("A", [3], "R"), "close R"] * 3000),
        in_setup("full tree, names read", made, (f"read {name}" for _ in range(20) for name in names)),
        filled("1 MB of comments", "# a line that is passed over"),
        filled("1 MB of ioctl", "ioctl A 0x00000000 00*1 " + "00 " * 120),
        in_setup("nothing"),
    ]


def main() -> None:
    if len(sys.argv) != 2:
        sys.exit("bench_loads.py FOLDER")
    folder = Path(sys.argv[1])
    all_loads: Dict[str, Load] = {load.name: load for load in [*loads(), *(by_actors(n) for n in (2, 4, 8, 16))]}
    for name, load in all_loads.items():
        (folder / f"{name.replace(' ', '-').replace(',', '')}.session").write_bytes(load.text)


if __name__ == "__main__":
    main()
