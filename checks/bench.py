"""Prints what the program takes beside the plain one of checks/bench_peer, measure by measure, with the aim of each and whether it is met.

  bench                   the table of the aims
  bench --counts          of it what repeats whatever else the machine does; --times: the rest, for a machine that does nothing else
  bench --bounds          of it the ratios that checks/bench_bounds.txt has a bound for, each within its bound or not
  bench --loads           all loads of one actor: instructions and microseconds an entry, megabytes
  bench --actors          the same calls by 1 to 16 actors: seconds
  bench --beside          how often actors run beside each other: of 200 runs of eight actors, and of 40 of two daemons that fight for a line
  bench --only WORD       of the aims or of the loads those whose name has the word
  bench --program FILE    measures that program in place of the one of the present sources

Instructions are those that `valgrind --tool=callgrind` collects in a whole run; where there is no valgrind it says so, and nanoseconds of
processor time stand in their place. Answers are compared before anything is measured (bench_runs.py); bench_loads.py has the loads.

Of this the gate runs --bounds (checks/counts), and nothing else. It needs the program that ./gpiosess --prove builds, and rustc for the plain
one.
"""
import argparse
import re
import shutil
import subprocess
import sys
import tempfile
from dataclasses import dataclass, replace
from pathlib import Path
from statistics import median
from typing import Callable, Dict, List, Optional, Sequence

import bench_loads
import bench_runs
from bench_loads import Load
from bench_runs import HAS_TASKSET, HAS_TIME, HAS_VALGRIND, RUNS, Asked, Numbers, Pair, Place

TOP = Path(__file__).resolve().parent.parent
PROGRAM = TOP / "crates/gpiosess/out/gpiosess"
ACTORS = (1, 2, 4, 8, 16)
BOUNDS = TOP / "checks/bench_bounds.txt"
BOUND_MARGIN = 1.03
RATIO_MOST = 1.3
COUNT_UNIT = "instructions an entry" if HAS_VALGRIND else "ns an entry"


@dataclass(frozen=True)
class Measure:
    """A row of the table: what is measured of both programs, and the most that is wanted, of the ratio or of the program's own number."""

    name: str
    unit: str
    form: str
    most: float
    of_ratio: bool
    repeats: bool
    take: Callable[[Pair], Optional[Numbers]]


def costs(programs: Pair, asked: Asked, entries: int) -> Numbers:
    """Instructions an entry, or nanoseconds of processor time where they aren't counted."""
    instructions = bench_runs.instructions(programs, asked)
    return (instructions or bench_runs.processor_seconds(programs, asked).over(1e-9)).over(entries)


def generated_costs(programs: Pair, n: int) -> Numbers:
    return costs(programs, bench_runs.generated(n), bench_runs.generated_entries(programs, n))


def growth(programs: Pair) -> Numbers:
    """How many times the cheaper the dearer is, an entry of a load of 500 turns and one of 5000."""
    few, many = (generated_costs(programs, n) for n in (500, 5000))
    return Numbers(*(max(a, b) / min(a, b) for a, b in ((few.own, many.own), (few.peer, many.peer))))


def peak(programs: Pair, load: Load) -> Optional[Numbers]:
    bench_runs.entries_of(programs, load)
    kilobytes = bench_runs.kilobytes(programs, ((), load.text))
    return kilobytes and kilobytes.over(1000)


def processor_milliseconds(programs: Pair, load: Load) -> Numbers:
    bench_runs.entries_of(programs, load)
    return bench_runs.processor_seconds(programs, ((), load.text)).over(1e-3)


def most_against_two(programs: Pair, place: Place) -> Numbers:
    """How many times as long the same calls take by 16 actors as by two, by the medians."""
    taken = []
    for load in (bench_loads.by_actors(ACTORS[-1]), bench_loads.by_actors(2)):
        bench_runs.same_texts(programs, load)
        taken.append([median(run.wall for run in runs) for runs in bench_runs.runs_at(programs, load, place)])
    (own_many, peer_many), (own_two, peer_two) = taken
    return Numbers(own_many / own_two, peer_many / peer_two)


def counted(name: str, take: Callable[[Pair], Optional[Numbers]]) -> Measure:
    """Instructions an entry, against those of the plain program."""
    return Measure(name, COUNT_UNIT, ",.0f", RATIO_MOST, True, HAS_VALGRIND, take)


def of_load(load: Load) -> Measure:
    return counted(load.name, lambda programs: costs(programs, ((), load.text), bench_runs.entries_of(programs, load)))


def of_several(place: Place) -> Measure:
    name = f"{ACTORS[-1]} actors to 2, {place.name}"
    return Measure(name, "times", ".2f", 1.1, False, False, lambda programs: most_against_two(programs, place))


def whole_run(load: Load, most: float) -> Measure:
    """The milliseconds of processor time of a run, from start to end."""
    name = f"{load.name}, processor time"
    return Measure(name, "ms", ",.1f", most, False, False, lambda programs: processor_milliseconds(programs, load))


def measures() -> List[Measure]:
    loads: Dict[str, Load] = {load.name: load for load in bench_loads.loads()}
    one = loads["one actor"]
    return [
        counted("--generate 5000", lambda programs: generated_costs(programs, 5000)),
        Measure("--generate 500 to 5000", "times", ".3f", 1.03, False, HAS_VALGRIND, growth),
        of_load(one),
        replace(whole_run(one, RATIO_MOST), of_ratio=True),
        Measure("one actor, peak of memory", "MB", ",.1f", 1.6, True, True, lambda programs: peak(programs, one)),
        *map(of_several, bench_runs.places()),
        *(of_load(loads[name]) for name in bench_loads.WITH_AIMS),
        whole_run(loads["nothing"], 2),
        whole_run(loads["full tree, live"], 100),
        whole_run(loads["30,000 finds"], 500),
    ]


def line(name: str, columns: Sequence[object], width: int = 11, behind: str = "") -> None:
    print(f"{name:<44}" + "".join(f"{column!s:>{width}}" for column in columns) + behind, flush=True)


def aim_line(measure: Measure, numbers: Optional[Numbers]) -> None:
    aim = f"{'ratio' if measure.of_ratio else 'ours'} {measure.most:g}"
    if numbers is None:
        line(measure.name, ["-", "-", "-", aim, "not taken"], behind=f"  {measure.unit}")
        return
    judged = numbers.ratio if measure.of_ratio else numbers.own
    said = "met" if judged <= measure.most else "missed"
    shown = [format(numbers.own, measure.form), format(numbers.peer, measure.form), f"{numbers.ratio:.2f}"]
    line(measure.name, [*shown, aim, said], behind=f"  {measure.unit}")


def lacks() -> None:
    """Says what isn't measured, or is in another way, since the machine lacks something."""
    if not HAS_VALGRIND:
        print("There is no valgrind: nanoseconds of processor time stand in place of instructions.")
    if not HAS_TIME:
        print("There is no command time: memory is left out.")
    if not HAS_TASKSET:
        print("There is no taskset: several actors are left out.")


def aims_table(programs: Pair, chosen: Callable[[Measure], bool]) -> None:
    print("Ours: crates/, proved. Plain: checks/bench_peer, ordinary Rust of which nothing is proved.")
    lacks()
    line("", ["ours", "plain", "ratio", "aim", ""], behind="  unit")
    for measure in filter(chosen, measures()):
        aim_line(measure, measure.take(programs))


def read_bounds() -> Dict[str, float]:
    """The ratio of each measure when it was last measured, by the measure's name."""
    rows = [row.split("\t") for row in BOUNDS.read_text().splitlines() if row and not row.startswith("#")]
    return {name: float(ratio) for name, ratio in rows}


def is_within(measure: Measure, numbers: Numbers, recorded: float) -> bool:
    """Prints a measure's ratio beside its bound. True where it is at most the bound."""
    bound = recorded * BOUND_MARGIN
    within = numbers.ratio <= bound
    shown = [
        format(numbers.own, measure.form),
        format(numbers.peer, measure.form),
        f"{numbers.ratio:.2f}",
        f"{bound:.2f}",
    ]
    line(measure.name, [*shown, "ok" if within else "FAILED"], behind=f"  {measure.unit}")
    return within


def bounds_table(programs: Pair, only: str) -> int:
    """Prints each measure that has a bound. Returns the exit status: 1 where one is above its bound, or a bound has no measure."""
    lacks()
    recorded = read_bounds()
    known = measures()
    unknown = sorted(set(recorded) - {measure.name for measure in known})
    bounded = [measure for measure in known if measure.name in recorded and measure.repeats and only in measure.name]
    line("", ["ours", "plain", "ratio", "bound", ""], behind="  unit")
    taken = [(measure, measure.take(programs)) for measure in bounded]
    verdicts = [is_within(measure, numbers, recorded[measure.name]) for measure, numbers in taken if numbers]
    for name in unknown:
        print(f"{BOUNDS.name}: there is no measure {name!r}")
    failed = verdicts.count(False) + len(unknown)
    print(f"{verdicts.count(True)} passed, {failed} failed")
    return 1 if failed else 0


def cells(numbers: Optional[Numbers], unit: float, form: str) -> List[str]:
    """Two numbers in such units and their ratio, or dashes where they weren't taken."""
    if numbers is None:
        return ["-", "-", "-"]
    in_units = numbers.over(unit)
    return [format(in_units.own, form), format(in_units.peer, form), f"{numbers.ratio:.2f}"]


def load_line(programs: Pair, name: str, asked: Asked, entries: int, counted: bool = True) -> None:
    unit = max(entries, 1)
    counts = cells(bench_runs.instructions(programs, asked) if counted else None, unit, ",.0f")
    times = cells(bench_runs.processor_seconds(programs, asked), unit * 1e-6, ",.2f")
    line(name, [entries, *counts, *times, *cells(bench_runs.kilobytes(programs, asked), 1000, ".1f")], 10)


def loads_table(programs: Pair, only: str) -> None:
    print(
        "One actor: instructions and microseconds of processor time an entry (in all where there is none), MB at the peak"
    )
    lacks()
    line("", ["entries", "instr", "plain", "ratio", "us", "plain", "ratio", "MB", "plain", "ratio"], 10)
    for n in (500, 5000):
        if only in f"--generate {n}":
            load_line(programs, f"--generate {n}", bench_runs.generated(n), bench_runs.generated_entries(programs, n))
    for load in bench_loads.loads():
        if only in load.name:
            load_line(programs, load.name, ((), load.text), bench_runs.entries_of(programs, load), load.counted)


def actors_table(programs: Pair) -> None:
    lacks()
    for place in bench_runs.places():
        print(
            f"\nThe same calls by several actors, {place.name}: seconds of a run, in the median of {RUNS}, and the worst"
        )
        line("actors", ["median", "plain", "ratio", "worst", "plain"])
        for actors in ACTORS:
            load = bench_loads.by_actors(actors)
            bench_runs.same_texts(programs, load)
            own, peer = ([run.wall for run in runs] for runs in bench_runs.runs_at(programs, load, place))
            line(
                str(actors),
                [*cells(Numbers(median(own), median(peer)), 1, ".3f"), f"{max(own):.3f}", f"{max(peer):.3f}"],
            )


def is_interleaved(output: bytes) -> bool:
    """Whether an entry of one actor stands between two of another in a history. Those of actor 0 stand in front of all others and behind them."""
    seen, last = set(), b"0"
    for row in output.partition(bench_runs.HISTORY)[2].splitlines()[1:]:
        actor = row.split(b" ", 2)[1]
        if actor not in (b"0", last):
            if actor in seen:
                return True
            seen.add(actor)
            last = actor
    return False


def is_busy(output: bytes) -> bool:
    """Whether a call of a history was refused since a line was busy."""
    return re.search(rb"^[0-9].* -> EBUSY$", output, re.M) is not None


def beside_table(program: Path) -> None:
    print("How many runs of a session show that actors run beside each other")
    line("", ["runs", "different", "shown"], behind="  shown by")
    for name, runs, shows, what in (
        ("checks/rows/eight-actors", 200, is_interleaved, "an entry of one actor between two of another"),
        ("examples/contested-line", 40, is_busy, "EBUSY for one of the two daemons"),
    ):
        text = (TOP / f"{name}.session").read_bytes()
        outputs = [bench_runs.run([program], text).output for _ in range(runs)]
        line(name, [runs, len(set(outputs)), sum(map(shows, outputs))], behind=f"  {what}")


def is_current() -> bool:
    """Whether the program is that of the present sources."""
    return subprocess.run(["bash", "-c", 'top=$0; . "$top/launcher/program.sh"; is_current', str(TOP)]).returncode == 0


def read_words() -> argparse.Namespace:
    parser = argparse.ArgumentParser(description="Measures the program beside the plain one of checks/bench_peer.")
    what = parser.add_mutually_exclusive_group()
    what.add_argument("--counts", action="store_true", help="of the aims what repeats whatever else the machine does")
    what.add_argument(
        "--bounds", action="store_true", help="of the aims the ratios with a bound, and whether each is within it"
    )
    what.add_argument(
        "--times", action="store_true", help="of the aims the times, for a machine that does nothing else"
    )
    what.add_argument("--loads", action="store_true", help="all loads of one actor, in place of the aims")
    what.add_argument("--actors", action="store_true", help="the same calls by 1 to 16 actors, in place of the aims")
    what.add_argument(
        "--beside", action="store_true", help="how often actors run beside each other, in place of the aims"
    )
    parser.add_argument(
        "--only", metavar="WORD", default="", help="of the aims or of the loads those whose name has the word"
    )
    parser.add_argument(
        "--program",
        metavar="FILE",
        type=Path,
        help="the program to be measured, in place of that of the present sources",
    )
    return parser.parse_args()


def main() -> None:
    words = read_words()
    if not words.program and not is_current():
        sys.exit(
            "checks/bench: the program is not that of the present sources. ./gpiosess --prove proves and builds it"
        )
    if words.beside:
        beside_table(words.program or PROGRAM)
        return
    if not shutil.which("rustc"):
        sys.exit("checks/bench: there is no rustc for the plain program, and nothing to compare with")
    with tempfile.TemporaryDirectory() as folder:
        peer = Path(folder) / "peer"
        subprocess.run([TOP / "checks/bench_peer/build", peer], check=True)
        programs = Pair(words.program or PROGRAM, peer)
        if words.bounds:
            sys.exit(bounds_table(programs, words.only))
        if words.loads:
            loads_table(programs, words.only)
        elif words.actors:
            actors_table(programs)
        else:
            wanted = {True} if words.counts else {False} if words.times else {True, False}
            aims_table(programs, lambda measure: measure.repeats in wanted and words.only in measure.name)


if __name__ == "__main__":
    main()
