"""Tells what the processor time of a running gate goes into, by crate.

`checks/gate-times PID` looks every half second at the process PID, such as a `.ci/run`, and at all below it, and once it has ended prints
a table of seconds of processor time: what each crate's proof took, its tests, its mutants, and what was compiled and run of it. What
ended between two looks is missed. It is no part of CI; docs/PROOFS.md has a table that it made. Where others use the machine too, the
times are higher than alone.
"""
import os
import re
import sys
import time
from collections import Counter, defaultdict
from dataclasses import dataclass, field

KINDS = ("Proof", "Tests", "Mutants", "Built and run")
TICK = os.sysconf("SC_CLK_TCK")


@dataclass
class Process:
    """A process below the gate: where it runs, its words, and the processor time that it has taken, in seconds."""

    folder: str
    words: list[str]
    seconds: float = 0.0


@dataclass
class Sample:
    """All processes that were seen so far, by their number and the moment at which they began."""

    seen: dict[tuple[int, int], Process] = field(default_factory=dict)

    def look(self, root: int) -> None:
        """Takes down what the processes below this one have taken so far."""
        told = {pid: stat for pid in map(int, filter(str.isdigit, os.listdir("/proc"))) if (stat := stat_of(pid))}
        below = {root}
        grew = True
        while grew:
            grew = False
            for pid, (above, _, _) in told.items():
                if above in below and pid not in below:
                    below.add(pid)
                    grew = True
        for pid in below & told.keys():
            _, began, seconds = told[pid]
            process = self.seen.setdefault((pid, began), Process("", []))
            process.seconds = max(process.seconds, seconds)
            try:
                with open(f"/proc/{pid}/cmdline", "rb") as file:
                    process.words = file.read().decode(errors="replace").split("\0") or process.words
                process.folder = os.readlink(f"/proc/{pid}/cwd")
            except OSError:
                pass


def stat_of(pid: int) -> tuple[int, int, float] | None:
    """The process above this one, when it began, and the processor time that it has taken in seconds."""
    try:
        with open(f"/proc/{pid}/stat") as file:
            row = file.read().rsplit(")", 1)[1].split()
    except OSError:
        return None
    return int(row[1]), int(row[19]), (int(row[11]) + int(row[12])) / TICK


def kind_of(process: Process) -> tuple[str, str]:
    """The crate that a process is for, and what it does for it."""
    words = process.words
    name = words[words.index("--crate-name") + 1] if "--crate-name" in words[:-1] else ""
    if name and words[0].endswith("rattle") and words[1:2] in (["check"], ["build"]):
        if "/mutants-" in process.folder:
            return name, "Mutants"
        return name, "Tests" if "--test" in words else "Proof"
    found = re.search(r"/crates/(\w+)", process.folder)
    return name or (found[1] if found else "the gate's own checks"), "Built and run"


def table(processes: list[Process]) -> str:
    """The table, with the dearest crate first."""
    by: dict[str, Counter[str]] = defaultdict(Counter)
    for process in processes:
        crate, kind = kind_of(process)
        by[crate][kind] += process.seconds
    rows = sorted(by.items(), key=lambda row: -sum(row[1].values()))
    rows.append(("all", sum(by.values(), Counter())))
    lines = ["| Crate | " + " | ".join(KINDS) + " | All |", "|---" * (len(KINDS) + 2) + "|"]
    for crate, seconds in rows:
        cells = [f"{seconds[kind]:.0f}" if seconds[kind] >= 0.5 else "" for kind in KINDS]
        lines.append(f"| `{crate}` | " + " | ".join(cells) + f" | {sum(seconds.values()):.0f} |")
    return "\n".join(lines)


def main() -> int:
    if len(sys.argv) != 2 or not sys.argv[1].isdigit():
        print(__doc__, file=sys.stderr)
        return 2
    root, sample = int(sys.argv[1]), Sample()
    while os.path.exists(f"/proc/{root}"):
        sample.look(root)
        time.sleep(0.5)
    print(table([process for _, process in sorted(sample.seen.items(), key=lambda row: row[0][1])]))
    return 0


if __name__ == "__main__":
    sys.exit(main())
