"""Tests of gpioserve-sweep: each kind of place, each result, and what it does with commands that are odd."""

import json
import os
import shlex
import signal
import subprocess
import sys
import tempfile
import time
import unittest
from itertools import permutations
from pathlib import Path
from typing import Any, Dict, List

from serving import require_gpioserve

HERE = Path(__file__).resolve().parent
BENCH = HERE.parent.parent / "examples/bench"
SWEEP = HERE.parent / "sweep.py"
sys.path.insert(0, str(HERE.parent / "python"))
from gpioserve import programs  # noqa: E402
from gpioserve.sweep import Kind, Outcome, Place, Result, Sweep  # noqa: E402
from gpioserve.sweep_report import Report  # noqa: E402

# Seconds that a sweep may take: a machine may be busy.
LIMIT = 300

# A program that opens the chip (call 1), requests line 3 as an output (2) and sets it (3). What it does after an error
# is its argument's: it ends with 9, crashes, hangs, or goes on and says so.
PROGRAM = r"""
import fcntl, os, signal, struct, sys, time
def failed(error):
    if sys.argv[1] == "end":
        sys.exit(f"error {error.errno}")
    if sys.argv[1] == "crash":
        os.kill(os.getpid(), signal.SIGSEGV)
    if sys.argv[1] == "hang":
        signal.signal(signal.SIGTERM, signal.SIG_IGN)
        time.sleep(3600)
    print("went on")
    sys.exit(0)
try:
    chip = os.open("/dev/gpiochip0", os.O_RDWR)
    asked = bytearray(592)
    struct.pack_into("I", asked, 0, 3)
    struct.pack_into("Q", asked, 288, 1 << 3)
    struct.pack_into("I", asked, 560, 1)
    fcntl.ioctl(chip, 0xC250B407, asked)
    fcntl.ioctl(struct.unpack_from("i", asked, 588)[0], 0xC010B40F, struct.pack("QQ", 1, 1))
    print("done")
except OSError as error:
    failed(error)
"""
# A program that makes no call on a chip.
IDLE = "print('done')"


def setUpModule() -> None:
    """Leaves all out where there is nothing to serve with."""
    os.environ["GPIOSERVED"] = require_gpioserve()


class Sweeps(unittest.TestCase):
    """Sweeps of that program."""

    def setUp(self) -> None:
        folder = tempfile.TemporaryDirectory(prefix="sweep-test.")
        self.addCleanup(folder.cleanup)
        self.folder = Path(folder.name)
        self.board = self.folder / "board"
        self.board.write_text("probe demo 8\n")

    def command(self, options: List[str], program: str, *arguments: str) -> List[str]:
        path = self.folder / "program.py"
        path.write_text(program)
        return [str(SWEEP), "-b", str(self.board), *options, "--", sys.executable, str(path), *arguments]

    def sweep(self, options: List[str], program: str, *arguments: str) -> "subprocess.CompletedProcess[str]":
        return subprocess.run(
            self.command(options, program, *arguments), capture_output=True, text=True, timeout=LIMIT, check=False
        )

    def outcomes(self, options: List[str], reaction: str, status: int = 0) -> List[Dict[str, Any]]:
        """The outcomes of a sweep of the program, by kind and call."""
        done = self.sweep(["--json", *options], PROGRAM, reaction)
        self.assertEqual((done.returncode, done.stderr), (status, ""))
        rows: List[Dict[str, Any]] = json.loads(done.stdout)["outcomes"]
        return sorted(rows, key=lambda row: (row["kind"], row["call"]))

    def results(self, options: List[str], reaction: str, status: int = 0) -> List[tuple]:
        return [(row["kind"], row["call"], row["result"]) for row in self.outcomes(options, reaction, status)]

    def test_each_call_of_the_driver_fails(self) -> None:
        wanted = [(kind, call, "ended") for kind in ("fault", "faults") for call in (2, 3)]
        self.assertEqual(self.results(["--faults"], "end"), wanted)

    def test_the_chip_goes_before_and_after_each_call(self) -> None:
        wanted = [("unplug", call, "ended") for call in (1, 2, 3)]
        wanted += [("unplug-after", 1, "ended"), ("unplug-after", 2, "ended"), ("unplug-after", 3, "same")]
        self.assertEqual(self.results(["--unplug"], "end"), wanted)

    def test_a_device_of_the_tree_goes_and_comes_back(self) -> None:
        self.board.write_text("mkdir d\nmkdir d/b\nwrite d/b/num_lines 8\nwrite d/live 1\n")
        rows = self.outcomes(["--replug"], "end")
        self.assertEqual([row["result"] for row in rows], ["ended"] * 3)
        self.assertEqual(rows[0]["options"], ["--at", "1", "write d/live 0", "--at", "1:100ms", "write d/live 1"])

    def test_events_are_lost_and_time_passes(self) -> None:
        wanted = [("burst", call, "same") for call in (1, 2, 3)]
        self.assertEqual(self.results(["--burst"], "end"), wanted)
        wanted = [("late", call, "same") for call in (1, 1, 2, 2, 3, 3)]
        self.assertEqual(self.results(["--late"], "end"), wanted)

    def test_what_comes_of_it_is_told_apart(self) -> None:
        for reaction, result, status in (("go on", "differs", 0), ("crash", "crashed", 1), ("hang", "hung", 1)):
            with self.subTest(reaction=reaction):
                rows = self.results(["--faults", "--limit", "1", "--timeout", "20"], reaction, status)
                self.assertEqual(rows, [("fault", 2, result)])

    def test_expected_results_decide_the_status(self) -> None:
        self.assertEqual(self.sweep(["--faults", "--expect", "same"], PROGRAM, "end").returncode, 1)
        self.assertEqual(self.sweep(["--faults", "--expect", "crashed"], PROGRAM, "crash").returncode, 0)

    def test_a_limit_is_spread_evenly(self) -> None:
        rows = self.outcomes(["--unplug", "--limit", "2"], "end")
        self.assertEqual([(row["kind"], row["call"]) for row in rows], [("unplug", 1), ("unplug-after", 1)])

    def test_the_table_has_commands_that_repeat_a_run(self) -> None:
        done = self.sweep(["--faults"], PROGRAM, "end")
        commands = [line.strip() for line in done.stdout.splitlines() if line.startswith("         gpioserve ")]
        self.assertEqual(len(commands), 4)
        path = os.pathsep.join((os.environ["PATH"], os.path.dirname(programs.find("gpioserve"))))
        for command in commands:
            again = subprocess.run(
                shlex.split(command), cwd=self.folder, env={**os.environ, "PATH": path}, capture_output=True, text=True
            )
            self.assertEqual((again.returncode, again.stderr), (1, "error 5\n"))

    def test_the_groups_have_one_order(self) -> None:
        places = [Place(kind, 2, "GET_LINE", (kind.value,)) for kind in (Kind.FAULT, Kind.FAULTS)]
        places.append(Place(Kind.FAULT, 1, "open", ()))
        outcomes = [Outcome(place, Result.ENDED, 1, "error 5", False, 0.1) for place in places]
        sweep = Sweep(["true"])
        self.addCleanup(sweep.close)
        for ended in permutations(outcomes):
            first = [group.first.place for group in Report(sweep, ended, len(ended)).groups()]
            self.assertEqual(first, [places[2], places[0], places[1]])

    def test_transcripts_are_kept(self) -> None:
        self.sweep(["--faults", "--keep", str(self.folder / "kept")], PROGRAM, "end")
        names = sorted(path.name for path in (self.folder / "kept").iterdir())
        self.assertEqual(names, [f"ended-{kind}-{call}.session" for kind in ("fault", "faults") for call in (2, 3)])
        self.assertIn("\nfault 1\n", (self.folder / "kept" / names[0]).read_text())

    def test_a_command_without_a_call(self) -> None:
        done = self.sweep([], IDLE)
        self.assertEqual((done.returncode, done.stdout), (2, ""))
        self.assertIn("makes no call of that kind", done.stderr)

    def test_a_command_that_never_ends(self) -> None:
        done = self.sweep(["--timeout", "1"], "import time; time.sleep(3600)")
        self.assertEqual(done.returncode, 2)
        self.assertIn("does not end within 1 s", done.stderr)

    def test_what_a_command_leaves_behind_is_ended(self) -> None:
        mark = f"left-{os.getpid()}"
        leaves = f"import subprocess, sys; subprocess.Popen([sys.executable, '-c', 'import time; time.sleep(3600)', '{mark}'])"
        self.sweep([], leaves + "\n" + PROGRAM, "end")
        self.assertFalse(self.still_runs(mark))

    def still_runs(self, mark: str) -> bool:
        """Whether a process with this word is there after a while, in which one that was killed ends."""
        until = time.monotonic() + LIMIT
        while self.is_running(mark) and time.monotonic() < until:
            time.sleep(0.05)
        return self.is_running(mark)

    @staticmethod
    def is_running(*marks: str) -> bool:
        """Whether a process has these words."""
        for path in Path("/proc").glob("[0-9]*/cmdline"):
            try:
                if {mark.encode() for mark in marks} <= set(path.read_bytes().split(b"\0")):
                    return True
            except OSError:
                continue
        return False

    def test_an_interrupted_sweep_prints_what_it_has(self) -> None:
        command = self.command(["--faults", "--jobs", "1", "--timeout", "500"], PROGRAM, "hang")
        process = subprocess.Popen(command, stdout=subprocess.PIPE, stderr=subprocess.PIPE, text=True)
        self.addCleanup(process.kill)
        program = str(self.folder / "program.py")
        while not self.is_running("--calls", program):
            time.sleep(0.05)
        process.send_signal(signal.SIGINT)
        output, _ = process.communicate(timeout=LIMIT)
        self.assertIn(process.returncode, (2, 130))
        self.assertFalse(self.still_runs(program))
        if process.returncode == 130:
            self.assertIn("places were not tried", output)

    def test_wrong_arguments(self) -> None:
        for words in (
            ["-b", "none", "--", "true"],
            ["-b", str(self.board)],
            ["-b", str(self.board), "--limit", "0", "--", "true"],
        ):
            done = subprocess.run([str(SWEEP), *words], capture_output=True, text=True, check=False)
            self.assertEqual((done.returncode, done.stdout), (2, ""))

    def test_both_faults_of_the_wheel_are_found(self) -> None:
        words = ["--unplug", "--burst", "--limit", "6", "--timeout", "30"]
        words += ["--expect", "same", "ended", "--json", "--", "./wheel-test"]
        for daemon, status, wanted in (("wheel-faulty", 1, {"hung", "differs"}), ("wheel", 0, set())):
            with self.subTest(daemon=daemon):
                if not (BENCH / "out" / daemon).is_file():
                    self.skipTest("examples/bench isn't built")
                words_of = [str(SWEEP), "-b", "wheel.board", *words, f"out/{daemon}"]
                done = subprocess.run(words_of, cwd=BENCH, capture_output=True, text=True, timeout=LIMIT, check=False)
                self.assertEqual(done.returncode, status, done.stderr)
                found = {row["result"] for row in json.loads(done.stdout)["outcomes"]}
                self.assertEqual(found - {"same", "ended"}, wanted)


if __name__ == "__main__":
    unittest.main()
