"""Tries the mutants of crates/NAME/mutants/: the prover must kill each. The last line is `N passed, M failed`.

A mutant is a file with a line `killed by: FUNCTION`, then lines `file: PATH` and pairs of lines `old: TEXT`, `new: TEXT`, one line each. The
old text stands in the file once. The mutant is made in a copy of its crate, and the prover is asked for that function, over the libraries
that `rt ci` proved. It kills the mutant if it refuses the function.

A function is proved over the contracts of those that it calls. So mutants of different functions are made in one copy, and tried by one check:
of a function that is well itself it says no more than that another one which it calls isn't proved. The check counts for nothing where it says
more of a function that has no mutant. A mutant that survived a check of several is tried again by itself.
"""
import os
import re
import shutil
import signal
import subprocess
import sys
import tempfile
from concurrent.futures import ThreadPoolExecutor
from dataclasses import dataclass
from pathlib import Path
from typing import Dict, Iterable, List, Set, Tuple

TOP = Path(__file__).resolve().parent.parent
PARTS = ("src", "specs", "proofs")
# what a check takes at most, in bytes: one of gl_session
MEMORY_OF_A_CHECK = 4_000_000_000
# what the prover says of a function that it refuses by itself, where it has a proof by hand without the goals; and behind that, that the
# function calls one that isn't proved
REFUSED = re.compile(
    r"(?:not proved|no proof: expected [^;]*; `search` did not prove (?P<goals>[^;]*))(?:; it calls [^;]*)?"
)
# what it says of a function that is well itself, by hand or not
WELL = re.compile(r"proved\b.*|no proof: it calls [^;]*, which (?:is|are) not proved")
# what it says of a text of src/ or specs/ that it can't read: a mutant that makes a statement false reads well
UNREAD = re.compile(
    r"(?m)\berror\[[\w-]+\]|^(?:\./)?(?:src|specs)/\S+:\d+:\d+: error: "
    r"(?:(?!`)|.*(?:is not in scope|has no field|is no name|operand is missing|expected the end|cannot continue))"
)
# what it says where it met a limit of its own
LIMIT = re.compile(r"antt ran out of|outgrew the memory limit|stopped at the step limit|could not tell")
# where an item begins, with its name where it is a function
ITEM = re.compile(
    r"^\s*(?:#\[derive|(?:pub(?:\(\w+\))? )?(?:(?:const )?fn (\w+)|(?:const|static|struct|enum|trait|type|impl)\b))"
)


class Stop(Exception):
    """A mutant or the check can't be made, and why."""


@dataclass(frozen=True)
class Change:
    """A line of a file of a crate that a mutant changes, and the function that it stands in, if it stands in one."""

    file: str
    old: str
    new: str
    function: str


@dataclass(frozen=True)
class Mutant:
    """A crate with changed lines, and the function whose contract kills it."""

    crate: str
    name: str
    function: str
    changes: Tuple[Change, ...]

    def last_name(self) -> str:
        """The function's name without its path."""
        return self.function.rpartition("::")[2]


def function_at(text: str, old: str) -> str:
    """The name of the function that a line of a file stands in; none where that is another item."""
    front = text[: text.find(old) + len(old)]
    names = [found[1] for line in front.splitlines() if (found := ITEM.match(line))]
    return (names[-1] or "") if names else ""


def changed(text: str, old: str, new: str) -> str:
    """The text with a change. Stop where the line that it changes doesn't stand there once."""
    if text.count(old) != 1:
        raise Stop(f"this text stands there {text.count(old)} times, and not once: {old}")
    return text.replace(old, new)


def change_of(crate: Path, file: str, old: str, new: str) -> Change:
    """A change of a file of the crate. Stop where it can't be made."""
    path = Path(os.path.normpath(crate / file))
    if not any(crate / part in path.parents for part in PARTS) or not path.is_file():
        raise Stop(f"{file} is no file of {', '.join(PARTS)}")
    text = path.read_text(encoding="utf-8")
    changed(text, old, new)
    return Change(file, old, new, function_at(text, old))


def mutant_of(path: Path) -> Mutant:
    """Reads a mutant. Stop where it is none, or doesn't fit its crate."""
    crate, function, file, old, changes = path.parent.parent, "", "", "", []
    for line in path.read_text(encoding="utf-8").splitlines():
        head, _, text = line.partition(": ")
        if head == "killed by":
            function = text
        elif head == "file" and not old:
            file = text
        elif head == "old" and file and not old:
            old = text
        elif head == "new" and old:
            changes.append(change_of(crate, file, old, text))
            old = ""
        else:
            raise Stop(f"a mutant has no such line here: {line}")
    if not function or not changes or old:
        raise Stop("it names no function, or changes nothing")
    return Mutant(crate.name, path.stem, function, tuple(changes))


def touched(mutant: Mutant) -> Set[str]:
    """The functions that a mutant changes, and the one that kills it; none where it changes another item, as a constant."""
    names = {mutant.last_name(), *(it.function for it in mutant.changes)}
    return names if all(names) else set()


def rounds(mutants: Iterable[Mutant]) -> List[List[Mutant]]:
    """The mutants of a crate by the check that tries them: those that touch no function twice have one check."""
    found: List[Tuple[Set[str], List[Mutant]]] = []
    for mutant in mutants:
        own = touched(mutant)
        fitting = next((it for it in found if own and it[0] and own.isdisjoint(it[0])), None)
        if fitting is None:
            found.append((own, [mutant]))
        else:
            fitting[0].update(own)
            fitting[1].append(mutant)
    return [some for _, some in found]


def libraries() -> Dict[str, List[str]]:
    """What each crate uses, by crates.txt."""
    rows = [
        line.partition("#")[0].partition(":") for line in (TOP / "crates.txt").read_text(encoding="utf-8").splitlines()
    ]
    return {head.split()[0]: uses.split() for head, _, uses in rows if head.split()}


def below(name: str, uses: Dict[str, List[str]]) -> Set[str]:
    """The crates of the repository that a crate stands on."""
    own = {it for it in uses[name] if it in uses}
    return own.union(*(below(it, uses) for it in own))


def kit() -> Path:
    """The toolchain's folder."""
    found = shutil.which("rt")
    if not found:
        raise Stop("there is no rt here")
    return Path(found).resolve().parent.parent


def library(name: str) -> Path:
    """The folder of the library that `.ci/run` made of a crate. Stop where it made none."""
    folder = TOP / "crates" / name / "out/rlib"
    if not (folder / f"{name}.rlib").is_dir() or (folder / "stamp").is_file():
        raise Stop(f"{name} isn't built, or by another command: run .ci/run")
    return folder


def command(name: str, uses: Dict[str, List[str]]) -> List[str]:
    """The command that checks a crate in a folder of its sources."""
    if name not in uses:
        raise Stop(f"{name} is no crate of crates.txt")
    home, own = kit(), {it: library(it) for it in below(name, uses)}
    words = [str(home / "bin/rattle"), "check", "--crate-name", name, "--jobs", "1", "--links", f"{name}="]
    words.append("src/main.rt" if (TOP / "crates" / name / "src/main.rt").is_file() else "src/lib.rt")
    for it in dict.fromkeys(["std", *uses[name]]):
        words += ["--extern", f"{it}={own.get(it, home / 'rlibs')}/{it}.rlib"]
    for folder in [home / "rlibs", *own.values()]:
        words += ["-L", f"dependency={folder}"]
    return [
        *words,
        "--antt-project",
        str(home / "rattle/logic/antt-project.json"),
        "--logic-built",
        str(home / "logic_built"),
    ]


def run(words: List[str], folder: Path) -> Tuple[int, str]:
    """Runs a check: its status, and what it said. One that is killed, most likely for memory, is run once more."""
    how = {"cwd": folder, "stdin": subprocess.DEVNULL, "stdout": subprocess.PIPE, "stderr": subprocess.STDOUT}
    ran = subprocess.run(words, text=True, errors="replace", **how)
    if ran.returncode == -signal.SIGKILL:
        ran = subprocess.run(words, text=True, errors="replace", **how)
    return ran.returncode, ran.stdout


def output_of(words: List[str], mutants: List[Mutant]) -> Tuple[int, str]:
    """Checks the functions of mutants of one crate in a copy of it that has them all: the status, and the prover's output."""
    own = TOP / "crates" / mutants[0].crate
    with tempfile.TemporaryDirectory(prefix="mutants-") as copy:
        for part in PARTS:
            if (own / part).is_dir():
                shutil.copytree(own / part, Path(copy) / part)
        for it in [it for mutant in mutants for it in mutant.changes]:
            path = Path(copy) / it.file
            path.write_text(changed(path.read_text(encoding="utf-8"), it.old, it.new), encoding="utf-8")
        return run([*words, *(word for mutant in mutants for word in ("--only", mutant.function))], Path(copy))


def results_of(words: List[str], mutants: List[Mutant]) -> List[Tuple[Mutant, bool, str]]:
    """Tries mutants of one crate by one check: whether each is killed, and what of it isn't proved or is wrong. Those of which a check of
    several doesn't show it are tried by themselves."""
    status, output = output_of(words, mutants)
    fates = re.findall(r"(?m)^fn (\S+): (.*)$", output)
    wrong = [
        f"{name}: {fate}"
        for name, fate in fates
        if not WELL.fullmatch(fate) and not any(name.endswith(f"::{it.function}") for it in mutants)
    ]
    wrong += [found[0] for found in (LIMIT.search(output), UNREAD.search(output)) if found]
    results = []
    for mutant in mutants:
        own = [fate for name, fate in fates if name.endswith(f"::{mutant.function}")]
        refused = REFUSED.fullmatch(own[0]) if len(own) == 1 and status == 1 and not wrong else None
        if refused is None and len(mutants) > 1:
            results += results_of(words, [mutant])
        else:
            reason = f"status {status} {own} {wrong}\n{output[-2000:]}" if refused is None else refused["goals"] or ""
            results.append((mutant, refused is not None, reason))
    return results


def lanes() -> int:
    """How many checks may run side by side: by the processors, and by the memory that is free."""
    with open("/proc/meminfo", encoding="utf-8") as file:
        free = next(int(line.split()[1]) * 1024 for line in file if line.startswith("MemAvailable"))
    return max(1, min(len(os.sched_getaffinity(0)), int(0.85 * free) // MEMORY_OF_A_CHECK))


def mutants_of(names: List[str]) -> Dict[str, List[Mutant]]:
    """The mutants of these crates, or of all, by crate. Stop where one can't be tried."""
    found: Dict[str, List[Mutant]] = {}
    for path in sorted(TOP.glob("crates/*/mutants/*")):
        crate = path.parent.parent.name
        if not names or crate in names:
            try:
                found.setdefault(crate, []).append(mutant_of(path))
            except (Stop, OSError, UnicodeError) as why:
                raise Stop(f"{path.relative_to(TOP)}: {why}") from why
    lacking = [it for it in names if it not in found]
    if lacking or not found:
        raise Stop(f"there is no mutant{' of ' * bool(lacking)}{', '.join(lacking)}")
    return found


def main() -> int:
    try:
        uses = libraries()
        found = mutants_of(sys.argv[1:])
        checks = [(command(crate, uses), some) for crate, mutants in found.items() for some in rounds(mutants)]
    except Stop as why:
        print(f"mutants: {why}\n0 passed, 1 failed")
        return 1
    # the largest crates stand on the most, and have the longest commands
    checks.sort(key=lambda check: -len(check[0]))
    passed = failed = 0
    with ThreadPoolExecutor(lanes()) as pool:
        for results in pool.map(lambda check: results_of(*check), checks):
            for mutant, killed, reason in results:
                passed, failed = passed + killed, failed + (not killed)
                print(
                    f"{mutant.crate}/{mutant.name}: {'' if killed else 'NOT '}killed by {mutant.function}{': ' if reason else ''}{reason}",
                    flush=True,
                )
    print(f"{passed} passed, {failed} failed")
    return 1 if failed else 0


if __name__ == "__main__":
    sys.exit(main())
