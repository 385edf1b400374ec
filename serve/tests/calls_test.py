"""Tests of what gpioserve says at chosen calls of the programs. They need serve/out/gpioserve and a gpioserved."""

import os
import re
import subprocess
import sys
import tempfile
import unittest
from pathlib import Path
from typing import List, Tuple

from serving import require_gpioserve

HERE = Path(__file__).resolve().parent
sys.path.insert(0, str(HERE.parent / "python"))
from gpioserve import Machine, programs  # noqa: E402
from gpioserve.errors import Refused  # noqa: E402

# Seconds that a run may take: a machine may be busy.
LIMIT = 120

# A program that requests line 3 with both edges (call 2) and gets its value so many times, each a call. It writes the
# name of each error, and at last how many events wait.
READER = r"""
import errno, fcntl, os, select, struct, sys
def attempt(number, file, asked):
    try:
        fcntl.ioctl(file, number, asked)
        print("ok")
    except OSError as error:
        print(errno.errorcode[error.errno])
chip = os.open("/dev/gpiochip0", os.O_RDWR)
asked = bytearray(592)
struct.pack_into("I", asked, 0, 3)
struct.pack_into("Q", asked, 288, 1 << 2 | 1 << 4 | 1 << 5)
struct.pack_into("I", asked, 560, 1)
attempt(0xC250B407, chip, asked)
lines = struct.unpack_from("i", asked, 588)[0]
for _ in range(int(sys.argv[1])):
    attempt(0xC010B40E, lines, bytearray(struct.pack("QQ", 0, 1)))
poll = select.poll()
poll.register(lines, select.POLLIN)
for _ in range(len(sys.argv) - 2):
    poll.poll()
    events = os.read(lines, 48 * 64)
    print(*(struct.unpack_from("I", events, at + 16)[0] for at in range(0, len(events), 48)))
"""


def setUpModule() -> None:
    """Leaves all out where there is nothing to serve with."""
    require_gpioserve()


class Calls(unittest.TestCase):
    """Runs of that program, each with something said at one of its calls."""

    def setUp(self) -> None:
        folder = tempfile.TemporaryDirectory(prefix="calls.")
        self.addCleanup(folder.cleanup)
        self.folder = Path(folder.name)
        (self.folder / "board").write_text("probe demo 8\n")

    def gpioserve(self, options: List[str], arguments: List[str]) -> "subprocess.CompletedProcess[str]":
        command = [programs.find("gpioserve"), "-b", str(self.folder / "board")]
        command += ["-t", str(self.folder / "transcript"), "--calls", str(self.folder / "calls")]
        command += ["--served", " ".join(programs.served()), *options, "--"]
        return subprocess.run(
            [*command, sys.executable, "-c", READER, *arguments],
            stdout=subprocess.PIPE,
            stderr=subprocess.PIPE,
            text=True,
            timeout=LIMIT,
            check=False,
        )

    def run_reader(self, options: List[str], *arguments: str) -> List[str]:
        """What the program wrote, and none of it with a fault of gpioserve's."""
        done = self.gpioserve(options, list(arguments))
        self.assertEqual((done.returncode, done.stderr), (0, ""))
        return done.stdout.split("\n")[:-1]

    def calls(self) -> List[Tuple[str, str, str, str]]:
        """The calls that were kept: number, number of the driver call, what it was, what came of it."""
        text = (self.folder / "calls").read_text()
        return re.findall(r"^(\d+) (\d+) \d+ \S+ (\S+) \S+ -> (\S+)$", text, re.M)

    def statements(self) -> List[str]:
        """The statements of the transcript, without clocks, comments and what only looks."""
        text = (self.folder / "transcript").read_text()
        return [line for line in text.splitlines() if not re.match("clock|#|poll|gpiodetect", line)]

    def test_calls_are_counted_and_listed(self) -> None:
        self.assertEqual(self.run_reader([], "2"), ["ok", "ok", "ok"])
        wanted = [("1", "0", "open", "ok"), ("2", "1", "GET_LINE", "ok")]
        wanted += [("3", "2", "GET_VALUES", "ok"), ("4", "3", "GET_VALUES", "ok")]
        self.assertEqual(self.calls(), wanted)

    def test_a_chip_goes_before_a_call(self) -> None:
        self.assertEqual(self.run_reader(["--at", "4", "unplug gpiochip0"], "3"), ["ok", "ok", "ENODEV", "ENODEV"])
        self.assertEqual(self.calls()[-1], ("4", "0", "GET_VALUES", "ENODEV"))

    def test_a_chip_goes_after_a_call(self) -> None:
        self.assertEqual(self.run_reader(["--after", "4", "unplug gpiochip0"], "3"), ["ok", "ok", "ok", "ENODEV"])

    def test_a_call_of_the_driver_fails(self) -> None:
        for options, wanted in (
            (["--at-fault", "1"], ["EIO"]),
            (["--at-fault", "3"], ["ok", "ok", "EIO", "ok"]),
            (["--at-fault", "3+"], ["ok", "ok", "EIO", "EIO", "EIO"]),
        ):
            with self.subTest(options=options):
                said = self.gpioserve(options, [str(len(wanted) - 1)]).stdout.split("\n")
                self.assertEqual(said[: len(wanted)], wanted)

    def test_a_statement_is_said_at_each_later_call(self) -> None:
        self.run_reader(["--at", "3+", "write gpiochip0/sim_gpio5/pull pull-up"], "3")
        self.assertEqual(sum("sim_gpio5" in statement for statement in self.statements()), 3)

    def test_a_statement_is_said_later(self) -> None:
        said = self.run_reader(["--after", "2:20ms", "write gpiochip0/sim_gpio3/pull pull-up"], "0", "once")
        self.assertEqual(said, ["ok", "1"])

    def test_a_burst_loses_events(self) -> None:
        said = self.run_reader(["--at", "3", "burst 2000"], "1", "once")
        self.assertEqual(said[:2], ["ok", "ok"])
        self.assertEqual(said[2].split(), [str(number) for number in range(1985, 2001)])

    def test_the_transcript_runs_where_it_was_said(self) -> None:
        self.run_reader(["--at", "4", "unplug gpiochip0"], "2")
        before = self.statements().index("unplug gpiochip0")
        self.assertTrue(self.statements()[before - 1].startswith("ioctl lines.2 GET_VALUES"))

    def test_what_is_refused_is_reported(self) -> None:
        done = self.gpioserve(["--at", "2", "unplug gpiochip7"], ["1"])
        self.assertEqual((done.returncode, done.stdout), (0, "ok\nok\n"))
        self.assertIn("at call 2 `unplug gpiochip7` is refused: ENOENT", done.stderr)

    def test_wrong_plans_run_nothing(self) -> None:
        for options in (
            ["--at", "0", "burst 1"],
            ["--at", "x", "burst 1"],
            ["--at", "3:", "burst 1"],
            ["--at-fault", "+"],
        ):
            with self.subTest(options=options):
                done = self.gpioserve(options, ["0"])
                self.assertEqual((done.returncode, done.stdout), (125, ""))
                self.assertIn(options[0], done.stderr)

    def test_time_passes_and_lines_change_by_hand(self) -> None:
        with Machine("probe demo 4\nclock 5 7", clock="manual") as machine:
            machine.say("pass 10ms")
            self.assertEqual(machine.say("burst 3"), "")
            for wrong in ("burst 0", "burst", "pass 3", "burst 1 2"):
                with self.assertRaises(Refused):
                    machine.say(wrong)
            lines = machine.transcript.read_text().splitlines()
        self.assertIn("clock 10000005 10000007", lines)

    def test_time_does_not_pass_by_hand_where_it_is_the_systems(self) -> None:
        with Machine("probe demo 4") as machine:
            with self.assertRaises(Refused):
                machine.say("pass 10ms")


if __name__ == "__main__":
    os.environ.setdefault("PYTHONDONTWRITEBYTECODE", "1")
    unittest.main()
