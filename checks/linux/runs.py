#!/usr/bin/env python3
"""Plays lists of actions under gpioserve by checks/linux/probe, and compares each result with what Linux answered.

    checks/linux-runs                    all lists, by the library and by the kernel's notification
    checks/linux-runs --differences      says of each list that differs where, and which cause it has
    checks/linux-runs --write            keeps how many lists differ by each cause

First, texts that are no lists are refused. Then the lists of checks/linux/recorded/VERSION are played, and those of
checks/linux/lists of which it has results. A list may
differ only by a cause that checks/linux/causes.py has a rule for; checks/linux/recorded/VERSION/exceptions.txt counts them,
and one more of a cause fails. GPIOSERVED names another program. What cannot run here is named as left out, and counts for
nothing. The last line is `N passed, M failed`.
"""
import os
import shutil
import subprocess
import sys
import tempfile
from concurrent.futures import ThreadPoolExecutor
from pathlib import Path
from typing import Dict, List, Optional, Set, Tuple

sys.dont_write_bytecode = True
TOP = Path(__file__).resolve().parent.parent.parent
LINUX = TOP / "checks/linux"
sys.path.insert(0, str(LINUX))
from causes import cause_of, first_difference  # noqa: E402
from lists import WAYS, ActionList, Player, build_probe, read_lists, read_results  # noqa: E402

SECONDS = 300  # for one run of the probe, however busy the machine is
PIECE = 60  # lists that one run plays
PIECE_ASLEEP = 10  # of lists that sleep: these runs go on side by side
PAUSE = 1000  # microseconds behind each `close` and `put`
AGAIN = 3  # how often a list is played again that may have been late
AGAIN_ASLEEP = 10  # one with debounce periods
TIMES = 20  # how often a list with several outcomes is played

REFUSED = (
    ("mkdir d", "1:1: a file of lists begins with list NAME"),
    ("list a\nfly d", "2:1: there is no such action"),
    ("list a\nmkdir", "2:6: a path is missing"),
    ("list a\nmkdir ../d", "2:7: a path stays below gpio-sim's folder, and has at most 200 letters"),
    ("list a\nopen f A", "2:8: no action before this one makes this name"),
    ("list a\nchip A d", "2:8: a chip is named by DEVICE/BANK"),
    (
        "list a\nchip A d/b\nopen f A\nioctl f GET_CHIPINFO 0g",
        "4:22: bytes are pairs of hexadecimal digits, HH*N, or - alone",
    ),
    ("list a\nchip A d/b\nopen f A\nioctl f GET_CHIPINFO 00*0", "4:22: after the star stands how often, from 1 on"),
    ("list a\nchip A d/b\nopen f A\nioctl f GET_CHIPINFO 00*65536 00", "4:31: these are too many bytes"),
    ("list a\nchip A d/b\nopen f A\nioctl f GET_CHIPS 00", "4:9: this is no number"),
    (
        "list a\nchip A d/b\nopen f A\nioctl f GET_LINE 00*592",
        "4:24: as NAME stands exactly where the command makes a file",
    ),
    ("list a\nchip A d/b\nopen f A\nevents f many", "4:10: this is no number"),
    ("list a\nsleep 60001", "2:7: this number is too large"),
    ("list a\nmkdir d e", "2:9: nothing more comes here"),
    ("list a\nthread t\nmkdir d", "3:1: the last threads end with join"),
    ("list a\njoin", "2:1: there is no thread to join"),
    ("list a times no", "1:14: this is no number"),
)


class Counts:
    """What passed, and what failed."""

    def __init__(self) -> None:
        self.passed = self.failed = 0

    def take(self, name: str, fault: Optional[str] = None) -> None:
        """Counts one; its fault is printed."""
        self.passed += fault is None
        self.failed += fault is not None
        if fault is not None:
            print(f"FAILED {name}: {fault}")


def test_refusals(counts: Counts, probe: Path, room: Path) -> None:
    """Texts that are no list are refused with line and column, and nothing is made."""
    env = {**os.environ, "ASAN_OPTIONS": "detect_leaks=0"}  # (the probe keeps its lists up to its end)
    for text, wanted in REFUSED:
        path = room / "refused.list"
        path.write_text(text)
        done = subprocess.run([str(probe), str(path)], capture_output=True, text=True, env=env)
        right = done.returncode == 2 and done.stdout == "" and done.stderr == f"{path}:{wanted}\n"
        counts.take(f"the list {text!r}", None if right else f"status {done.returncode}: {done.stderr.strip()}")
    done = subprocess.run([str(probe), str(room / "none")], capture_output=True, text=True)
    counts.take(
        "a file that is not there", None if done.returncode == 2 and "No such file" in done.stderr else done.stderr
    )
    for path in sorted(LINUX.glob("*/**/*.list*")):  # (read, and not made: there is no gpio-sim)
        done = subprocess.run([str(probe), str(path)], capture_output=True, text=True, env=env)
        right = done.returncode == 3 and "there is no gpio-sim here" in done.stderr
        counts.take(
            f"{path.name} is read", None if right else f"status {done.returncode}: {done.stderr.strip()[-600:]}"
        )


def is_asleep(one: ActionList) -> bool:
    """Whether a list depends on time."""
    return any(line.startswith("sleep") for line in one.lines)


def pieces_of(lists: List[ActionList]) -> List[List[ActionList]]:
    """The lists in pieces that runs of the probe play."""
    asleep = [one for one in lists if is_asleep(one)]
    awake = [one for one in lists if one not in asleep]
    pieces = [awake[at : at + PIECE] for at in range(0, len(awake), PIECE)]
    return [asleep[at : at + PIECE_ASLEEP] for at in range(0, len(asleep), PIECE_ASLEEP)] + pieces


def play_piece(player: Player, way: str, lists: List[ActionList], path: Path) -> Tuple[Dict[str, List[str]], str]:
    """The results of a piece, and what is wrong with its run."""
    path.write_text("".join(one.text() for one in lists))
    try:
        done = player.play(way, ["--times", str(TIMES), "--pause", str(PAUSE), str(path)], SECONDS)
    except subprocess.TimeoutExpired:
        return {}, f"it took more than {SECONDS} seconds"
    return (
        read_results(done.stdout),
        "" if done.returncode == 0 else f"status {done.returncode}: {done.stderr.strip()[-300:]}",
    )


def play(player: Player, way: str, lists: List[ActionList], room: Path) -> Tuple[Dict[str, List[str]], List[str]]:
    """The results of all lists, played side by side, and what is wrong with the runs."""
    pieces = pieces_of(lists)
    results: Dict[str, List[str]] = {}
    with ThreadPoolExecutor(max_workers=2 * (os.cpu_count() or 1)) as workers:
        paths = [room / f"{way}.{number}.list" for number in range(len(pieces))]
        found = list(workers.map(lambda pair: play_piece(player, way, *pair), zip(pieces, paths)))
    for part, _ in found:
        results.update(part)
    return results, [fault for _, fault in found if fault]


def expected_of(way: str, linux: List[str]) -> List[str]:
    """Linux's results, as this way gives them: by notification `poll` has no ERR (docs/SERVING.md)."""
    return [line.replace(" ERR HUP", " HUP") for line in linux] if way == "notify" else linux


def notified(one: ActionList, outcome: str) -> str:
    """An outcome by notification, where a read may give nothing in the place of ENODEV (docs/SERVING.md)."""
    pairs = zip(one.lines, outcome[len("outcome ") :].split("; "))
    results = ["ENODEV" if (line.split()[0], result) == ("events", "ok -") else result for line, result in pairs]
    return "outcome " + "; ".join(results)


def results_of(one: ActionList, outcomes: List[str]) -> Set[Tuple[str, str]]:
    """Each action of a list with threads, with each result that it has in one of the outcomes."""
    whole = [outcome[len("outcome ") :].split("; ") for outcome in outcomes]
    return {pair for results in whole for pair in zip(one.lines, results)}


def differs(one: ActionList, linux: List[str], here: Optional[List[str]]) -> bool:
    """Whether results are others than Linux's; in a list with threads, whether an action has one that it never had there."""
    if here is None:
        return True
    return not results_of(one, here) <= results_of(one, linux) if one.times else here != linux


def described(one: ActionList, linux: List[str], here: Optional[List[str]]) -> str:
    """Where and how a list differs."""
    if here is None:
        return "it was not played"
    if one.times:
        return f"results that Linux never gave: {sorted(results_of(one, here) - results_of(one, linux))}"
    found = first_difference(one, linux, here)
    if not found:
        return f"{len(linux)} results of Linux, {len(here)} here"
    return f"action {found.at + 1}, {' '.join(found.words)[:100]}: Linux {linux[found.at][:300]}; here {here[found.at][:300]}"


def is_late(one: ActionList, linux: List[str], here: Optional[List[str]]) -> bool:
    """Whether a list differs first in what comes behind a `close`: gpioserve hears of it a moment later (docs/SERVING.md)."""
    found = first_difference(one, linux, here or [])
    at = found.at if found else 0
    while at > 0 and one.lines[at].split()[0] in ("poll", "events"):
        at -= 1
    return found is not None and one.lines[at].split()[0] == "close"


def cause_found(one: ActionList, linux: List[str], here: Optional[List[str]]) -> Optional[str]:
    """The cause for which a list differs, if a rule holds."""
    return None if one.times or here is None else cause_of(one, linux, here)


class Comparison:
    """Compares what one way gives with what one version of Linux answered."""

    def __init__(self, counts: Counts, player: Player, way: str, room: Path, says: bool):
        self.counts, self.player, self.way, self.room, self.says = counts, player, way, room, says
        self.causes: Dict[str, int] = {}  # how many lists differ by each

    def compare_list(self, one: ActionList, linux: List[str], here: Optional[List[str]]) -> None:
        """Counts a list. What differs by no known cause, or may only have been late, is played again."""
        for _ in range(AGAIN_ASLEEP if is_asleep(one) else AGAIN):
            if not differs(one, linux, here) or (cause_found(one, linux, here) and not is_late(one, linux, here)):
                break
            here = self.heard(one, play(self.player, self.way, [one], self.room)[0]) or here
        if not differs(one, linux, here):
            self.counts.take(one.name)
            return
        cause = cause_found(one, linux, here)
        if self.says or not cause:
            print(f"{one.name}, by {self.way}: {cause or 'no cause'}: {described(one, linux, here)}")
        if cause:
            self.causes[cause] = self.causes.get(cause, 0) + 1
        else:
            self.counts.take(f"{one.name}, by {self.way}", "Linux answers otherwise, and no rule of causes.py says why")

    def heard(self, one: ActionList, found: Dict[str, List[str]]) -> Optional[List[str]]:
        """The results of a list, as Linux would spell them; None where it was not played."""
        here = found.get(one.name)
        return [notified(one, line) for line in here] if here and one.times and self.way == "notify" else here

    def compare_file(self, results: Path) -> None:
        """Plays the lists of which a file has Linux's results."""
        path = results.with_suffix(".lists")
        lists = read_lists(path if path.is_file() else LINUX / "lists" / f"{results.stem}.list")
        wanted = read_results(results.read_text())
        found, faults = play(self.player, self.way, lists, self.room)
        for fault in faults:
            self.counts.take(f"{path.name}, by {self.way}", fault)
        for one in lists:
            if one.name in wanted:
                self.compare_list(one, expected_of(self.way, wanted[one.name]), self.heard(one, found))

    def compare_folder(self, folder: Path) -> None:
        """Plays all lists of a version, and prints how many there are of each kind."""
        before = self.counts.passed
        for path in sorted(folder.glob("*.results")):
            self.compare_file(path)
        told = ", ".join(f"{cause} {number}" for cause, number in sorted(self.causes.items()))
        same = self.counts.passed - before
        print(
            f"Linux {folder.name}, by {self.way}: {same} lists have Linux's results; others differ by: {told or 'nothing'}"
        )

    def count_exceptions(self, folder: Path, known: Dict[Tuple[str, str], int]) -> None:
        """Fails where more lists than are known differ by a cause."""
        for cause, number in sorted(self.causes.items()):
            most = known.get((self.way, cause), 0)
            fault = f"{number} lists, where {most} are known: {folder}/exceptions.txt" if number > most else None
            self.counts.take(f"exceptions by {cause}, by {self.way}", fault)


def read_exceptions(folder: Path) -> Dict[Tuple[str, str], int]:
    """How many lists differ by a cause: lines of WAY CAUSE NUMBER."""
    path = folder / "exceptions.txt"
    lines = path.read_text().splitlines() if path.is_file() else []
    words = [line.split() for line in lines if line and not line.startswith("#")]
    return {(way, cause): int(number) for way, cause, number in words}


def write_exceptions(folder: Path, found: Dict[Tuple[str, str], int]) -> None:
    """Keeps how many lists differ by each cause."""
    lines = ["# How many lists differ from Linux by each cause of checks/linux/causes.py: WAY CAUSE NUMBER."]
    lines += [f"{way} {cause} {number}" for (way, cause), number in sorted(found.items())]
    (folder / "exceptions.txt").write_text("\n".join(lines) + "\n")


def compare_version(
    counts: Counts, player: Player, ways: List[str], folder: Path, room: Path, words: List[str]
) -> None:
    """Compares by all ways with one version."""
    known, found = read_exceptions(folder), {}
    for way in ways:
        comparison = Comparison(counts, player, way, room, "--differences" in words)
        comparison.compare_folder(folder)
        found.update({(way, cause): number for cause, number in comparison.causes.items()})
        comparison.count_exceptions(folder, found if "--write" in words else known)
    if "--write" in words:
        write_exceptions(folder, found)


def left_out(what: str) -> int:
    """Says what cannot run here."""
    print(f"left out: {what}\n0 passed, 0 failed")
    return 0


def main() -> int:
    """Compares all."""
    counts = Counts()
    missing = [name for name in (os.environ.get("CC", "cc"), "make") if not shutil.which(name)]
    if missing:
        return left_out(f"all lists: {' and '.join(missing)} missing")
    served = os.environ.get("GPIOSERVED", str(TOP / "crates/gpioserved/out/gpioserved"))
    built = subprocess.run(["make", "-C", str(TOP / "serve")], capture_output=True, text=True)
    if built.returncode:
        print(built.stderr)
        counts.take("serve/ is built", "make -C serve fails")
    with tempfile.TemporaryDirectory() as name:
        room = Path(name)
        player = Player(room, served)
        test_refusals(counts, build_probe(room, "probe-sanitized") or room / "probe", room)
        missing_of = {way: player.missing(way) for way in WAYS}
        for way in WAYS:
            if missing_of[way]:
                print(f"left out: lists by {way}: {missing_of[way]}")
        for folder in sorted((LINUX / "recorded").glob("*")):
            compare_version(counts, player, [way for way in WAYS if not missing_of[way]], folder, room, sys.argv[1:])
    print(f"{counts.passed} passed, {counts.failed} failed")
    return 1 if counts.failed else 0


if __name__ == "__main__":
    sys.exit(main())
