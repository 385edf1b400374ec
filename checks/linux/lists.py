"""Lists of actions and their results, as checks/linux/README.md describes them: read, written, built and played.

It builds checks/linux/probe, and plays lists under gpioserve in both ways.
"""
import os
import re
import subprocess
from dataclasses import dataclass, field
from pathlib import Path
from typing import Dict, Iterable, List, Optional

HERE = Path(__file__).resolve().parent
TOP = HERE.parent.parent
WARNINGS = "-std=c11 -D_GNU_SOURCE -Wall -Wextra -Werror -Wshadow -Wstrict-prototypes -Wmissing-prototypes".split()
ZEROS = re.compile(rb"\0{8,}")
WAYS = ("library", "notify")


@dataclass
class ActionList:
    """A list: its name, how often it is made (0: once, and each result counts), and its lines after the first."""

    name: str
    times: int
    lines: List[str] = field(default_factory=list)

    def text(self) -> str:
        """The list as it stands in a file."""
        head = f"list {self.name}" + (f" times {self.times}" if self.times else "")
        return "\n".join([head, *self.lines]) + "\n"


def spelled(data: bytes) -> str:
    """Bytes in their one spelling: pairs of digits, and from eight zero bytes on `00*N`."""
    words, at = [], 0
    for zeros in ZEROS.finditer(data):
        words += [data[at : zeros.start()].hex()] if zeros.start() > at else []
        words.append(f"00*{zeros.end() - zeros.start()}")
        at = zeros.end()
    words += [data[at:].hex()] if at < len(data) else []
    return " ".join(words) or "-"


def bytes_of(words: Iterable[str]) -> bytes:
    """The bytes that pieces mean."""
    data = b""
    for word in words:
        pair, star, times = word.partition("*")
        data += b"" if word == "-" else bytes.fromhex(pair) * (int(times) if star else 1)
    return data


def is_action(line: str) -> bool:
    """Whether a line of a list is more than a comment."""
    return bool(line.strip()) and not line.lstrip().startswith("#")


def read_lists(path: Path) -> List[ActionList]:
    """The lists of a file, whose form the probe looks at."""
    lists: List[ActionList] = []
    for line in path.read_text().splitlines():
        words = line.split()
        if words[:1] == ["list"]:
            lists.append(ActionList(words[1], int(words[3]) if len(words) > 3 else 0))
        elif is_action(line) and lists:
            lists[-1].lines.append(" ".join(words) if words[0] not in ("write", "put") else line.strip())
    return lists


def read_results(text: str) -> Dict[str, List[str]]:
    """The results of each list of a text that the probe printed."""
    results: Dict[str, List[str]] = {}
    lines: List[str] = []
    for line in text.splitlines():
        if line.startswith("list "):
            lines = results.setdefault(line[5:], [])
        elif line:
            lines.append(line)
    return results


KINDS = {
    "probe": [],
    "probe-static": ["-static"],
    "probe-sanitized": ["-fsanitize=address,undefined", "-fno-sanitize-recover=all"],
}


def build_probe(folder: Path, kind: str = "probe") -> Optional[Path]:
    """The probe of a kind, built into a folder; None where the compiler has no such kind. A plain one has to be built."""
    words = [os.environ.get("CC", "cc"), *WARNINGS, "-O1", "-g", *KINDS[kind]]
    words += ["-o", str(folder / kind), *map(str, sorted((HERE / "probe").glob("*.c"))), "-lpthread"]
    done = subprocess.run(words, stdout=subprocess.PIPE, stderr=subprocess.STDOUT)
    if done.returncode and kind == "probe":
        raise SystemExit("the probe is not built:\n" + done.stdout.decode(errors="replace"))
    return folder / kind if done.returncode == 0 else None


class Player:
    """Plays files of lists under gpioserve, by the library or by the kernel's notification."""

    def __init__(self, room: Path, served: str):
        self.serve = TOP / "serve/out"
        self.probes = {"library": build_probe(room), "notify": build_probe(room, "probe-static") or room / "probe"}
        self.environment = {**os.environ, "GPIOSERVED": served}

    def command(self, way: str, words: List[str]) -> List[str]:
        """The command that runs the probe. By notification it is one without any library, where it can be linked so."""
        exact = ["--exact"] if way == "notify" else []
        return [str(self.serve / "gpioserve"), "--each", "--way", way, *exact, "--", str(self.probes[way]), *words]

    def play(self, way: str, words: List[str], seconds: float) -> "subprocess.CompletedProcess[str]":
        """What the probe prints for these words, after at most so many seconds."""
        return subprocess.run(
            self.command(way, words),
            env=self.environment,
            stdin=subprocess.DEVNULL,
            stdout=subprocess.PIPE,
            stderr=subprocess.PIPE,
            text=True,
            errors="replace",
            timeout=seconds,
        )

    def missing(self, way: str) -> Optional[str]:
        """Why a way cannot be gone here; None where it can."""
        try:
            done = self.play(way, [str(HERE / "lists/nothing.list")], 60)
        except (OSError, subprocess.TimeoutExpired) as error:
            return str(error)
        return None if done.returncode == 0 else done.stderr.strip() or f"status {done.returncode}"
