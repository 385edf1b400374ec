"""Tests of `wait changed`: what a client that observes is told, and what that costs the others."""

import errno
import os
import re
import subprocess
import sys
import tempfile
import time
import unittest
from pathlib import Path
from typing import Dict, List, Optional

from serving import require_gpioserve

HERE = Path(__file__).resolve().parent
sys.path.insert(0, str(HERE.parent / "python"))
from gpioserve import Machine, MachineError  # noqa: E402
from gpioserve.connection import Connection  # noqa: E402

PANEL = """
mkdir panel
mkdir panel/front
write panel/front/num_lines 2
write panel/front/label front-panel
mkdir panel/front/line0
write panel/front/line0/name POWER
mkdir panel/front/line1
write panel/front/line1/name LED
write panel/live 1
"""
# Seconds that anything may take: a machine may be busy.
LIMIT = 240
OBSERVERS_MOST = 16
RECENT_MOST = 1024
CHANGES = 10_000
# The least seconds between two reports, and the statements by which each asks what one line is.
PAUSE = 0.04
ASKED = 3
# Requests line 1 as an output and line 0 with its edges, and answers each event by the level of the line 1.
FOLLOWER = r"""
import fcntl, os, struct
chip = os.open("/dev/gpiochip0", os.O_RDWR)
def request(line, flags):
    asked = bytearray(592)
    struct.pack_into("I", asked, 0, line)
    asked[256:264] = b"follower"
    struct.pack_into("Q", asked, 288, flags)
    struct.pack_into("I", asked, 560, 1)
    fcntl.ioctl(chip, 0xC250B407, asked)
    return struct.unpack_from("i", asked, 588)[0]
led, button = request(1, 1 << 3), request(0, 1 << 2 | 3 << 4)
while True:
    event = os.read(button, 48)
    fcntl.ioctl(led, 0xC010B40F, struct.pack("QQ", int(struct.unpack_from("I", event, 8)[0] == 1), 1))
"""


def setUpModule() -> None:
    """Leaves all out where there is nothing to serve with."""
    os.environ["GPIOSERVED"] = require_gpioserve()


def lines_of(text: str) -> Dict[int, Dict[str, str]]:
    """What a text tells of each line of gpiochip0: the last that it tells."""
    told: Dict[int, Dict[str, str]] = {}
    for row in text.splitlines():
        words = row.split()
        if words[:2] == ["line", "gpiochip0"]:
            told[int(words[2])] = dict(word.partition("=")[::2] for word in words[3:])
    return told


class ObserversTest(unittest.TestCase):
    """What is told."""

    def machine(self, board: str = PANEL, clock: str = "manual", folder: Optional[str] = None) -> Machine:
        machine = Machine(board, clock=clock, folder=folder)
        self.addCleanup(machine.close)
        return machine

    def observer(self, machine: Machine) -> Connection:
        """A connection that was told of everything once; `self.told` has what."""
        observer = machine.connect()
        self.addCleanup(observer.close)
        self.told = self.until(observer, "\nwhole\n")
        return observer

    def whole(self, machine: Machine) -> str:
        """What a new observer is told."""
        with machine.connect() as observer:
            return self.until(observer, "\nwhole\n")

    def until(self, observer: Connection, wanted: str) -> str:
        """What is told up to something that matches the pattern."""
        told = ""
        while not re.search(wanted, told):
            told += observer.say(f"wait changed within {LIMIT}s")
        return told

    def test_the_first_answers_tell_of_everything(self) -> None:
        self.observer(self.machine())
        self.assertIn("chip gpiochip0 [front-panel] (2 lines)\n", self.told)
        self.assertEqual(sorted(lines_of(self.told)), [0, 1])
        expected = {
            "level": "0",
            "pull": "down",
            "read": "0",
            "pid": "0",
            "program": "-",
            "flags": "0x4",
            "debounce": "0",
        }
        self.assertEqual(lines_of(self.told)[0], {**expected, "name": "POWER", "consumer": ""})
        self.assertIn("said 0 - - write panel/live 1\n", self.told)
        self.assertIn("\nclock manual 0\n", self.told)

    def test_a_pull_and_the_clock_are_told_and_nothing_else(self) -> None:
        machine = self.machine()
        observer = self.observer(machine)
        machine.pull(0, 0, True)
        machine.clock(milliseconds=5)
        told = self.until(observer, "clock manual 5000000\n")
        self.assertEqual({line: row["level"] + row["pull"] for line, row in lines_of(told).items()}, {0: "1up"})
        with self.assertRaises(MachineError) as refusal:
            observer.say("wait changed within 100ms")
        self.assertEqual(refusal.exception.errno, errno.ETIMEDOUT)

    def test_holders_and_events_are_told(self) -> None:
        machine = self.machine()
        observer = self.observer(machine)
        program = machine.popen([sys.executable, "-c", FOLLOWER])
        told = self.until(observer, f"line gpiochip0 0 .* pid={program.pid} ")
        row = lines_of(told)[0]
        self.assertEqual((row["consumer"], row["flags"]), ("follower", "0x35"))
        machine.pull(0, 0, True)
        told = self.until(observer, "line gpiochip0 1 level=1 ") + self.whole(machine)
        self.assertEqual(lines_of(told)[0]["read"], "1")
        program.kill()
        program.wait()
        told = self.until(observer, "line gpiochip0 1 .* pid=0 ")
        self.assertRegex(told, rf"said {program.pid} python\S* - close lines\.")

    def test_chips_come_and_go(self) -> None:
        machine = self.machine()
        observer = self.observer(machine)
        machine.say("probe other 3")
        self.assertIn("chip gpiochip1 [other] (3 lines)\n", self.until(observer, "line gpiochip1 2 "))
        machine.unplug(1)
        machine.say("write panel/live 0")
        self.until(observer, "gone gpiochip1\n(.*\n)*gone gpiochip0\n|gone gpiochip0\n(.*\n)*gone gpiochip1\n")
        machine.say("reset")
        told = self.until(observer, "line gpiochip0 1 ")
        self.assertLess(told.index("reset\n"), told.index("chip gpiochip0 [front-panel]"))

    def test_tools_and_errors_are_told(self) -> None:
        machine = self.machine()
        observer = self.observer(machine)
        machine.fault()
        with self.assertRaises(MachineError):
            machine.say("gpioset LED=on")
        self.until(observer, r"said \d+ \S+ gpioset:\\x20EIO gpioset LED=on\n")

    def test_who_does_not_ask_loses_statements_and_no_levels(self) -> None:
        machine = self.machine()
        observer = self.observer(machine)
        for number in range(RECENT_MOST + 10):
            machine.pull(0, 0, number % 2 == 1)
        last = "clock 1 1"
        machine.say(last)
        told = self.until(observer, f"\nsaid .* {last}\n")
        told = told[: told.index(f" {last}\n")]
        lost = sum(int(number) for number in re.findall("^lost ([0-9]+)$", told, re.M))
        said = len(re.findall("^said ", self.told + told, re.M))
        # (more was said than these pulls: -w asks for levels)
        self.assertGreaterEqual(lost, 10)
        self.assertEqual(said + lost, self.statements_up_to(machine, last))
        self.assertEqual(lines_of(told)[0]["level"], "1")

    def statements_up_to(self, machine: Machine, last: str) -> int:
        """How many statements stand in the transcript up to one of them."""
        machine.say("gpiodetect")  # (so that what was said before stands there)
        statements = [row for row in machine.transcript.read_text().splitlines() if not row.startswith("#")]
        return statements.index(last) + 1

    def test_observers_have_a_limit_and_end_with_their_connection(self) -> None:
        machine = self.machine()
        observers = [machine.connect() for _ in range(OBSERVERS_MOST)]
        for observer in observers:
            observer.say("wait changed")
        with machine.connect() as further:
            with self.assertRaises(MachineError) as refusal:
                further.say("wait changed")
            self.assertEqual(refusal.exception.errno, errno.EBUSY)
            observers.pop().close()
            machine.say("gpiodetect")  # (so that the broker has seen the end)
            self.assertIn("chip gpiochip0", further.say("wait changed"))
        for observer in observers:
            observer.close()

    def test_the_transcript_runs_again(self) -> None:
        program = os.environ.get("GPIOSESS") or str(HERE.parents[1] / "crates/gpiosess/out/gpiosess")
        if not os.access(program, os.X_OK):
            self.skipTest(f"{program} isn't there")
        with tempfile.TemporaryDirectory() as folder:
            machine = self.machine(folder=folder)
            observer = self.observer(machine)
            follower = machine.popen([sys.executable, "-c", FOLLOWER])
            machine.until_held(0, 0, seconds=LIMIT)
            machine.pull(0, 0, True)
            self.until(observer, "line gpiochip0 1 level=1 ")
            follower.kill()
            follower.wait()
            machine.say("probe late 2", "write panel/live 0", "gpiodetect")
            self.until(observer, "gone gpiochip0\n")
            machine.say("probe later 1")
            self.assertNotIn("gone", self.until(observer, "line gpiochip2 0 "))
            machine.close()
            transcript = (Path(folder) / "transcript").read_text()
            again = subprocess.run([program], input=transcript.encode(), capture_output=True, check=True)
            self.assertEqual(again.stdout, (Path(folder) / "answers").read_bytes())
            self.assertEqual(transcript.count("open observed.0 0\n"), 1)
            self.assertEqual(transcript.count("close observed.0\n"), 1)
            self.assertNotIn("ioctl observed.", transcript)


class CostTest(unittest.TestCase):
    """How much more the machine is asked where somebody observes."""

    def test_a_burst_costs_at_most_a_fifth_more(self) -> None:
        """Where the machine is so busy that a change takes as long as a report may, each report may ask."""
        alone = self.statements(False)
        began = time.monotonic()
        observed = self.statements(True)
        reports = (time.monotonic() - began) / PAUSE
        self.assertGreater(alone, CHANGES)
        self.assertLessEqual(observed - alone, max(0.2 * alone, ASKED * reports))

    def statements(self, observes: bool) -> int:
        """How many lines the machine is given while a line changes so often."""
        with tempfile.TemporaryDirectory() as folder:
            count, wrapper = Path(folder) / "lines", Path(folder) / "served"
            wrapper.write_text(f"#!/bin/sh\ntee {count} | {os.environ['GPIOSERVED']}\n")
            wrapper.chmod(0o755)
            with Machine(PANEL, options=["--served", str(wrapper)]) as machine:
                observer: List["subprocess.Popen[str]"] = []
                if observes:
                    script = (
                        "import sys; from gpioserve import Connection\nwhile True: Connection.say(c, 'wait changed')"
                    )
                    script = script.replace("\n", "; c = Connection()\n", 1)
                    variables = {**machine.environment, "PYTHONPATH": str(HERE.parent / "python")}
                    observer.append(machine.popen([sys.executable, "-c", script], env=variables))
                statement = "write gpiochip0/sim_gpio0/pull "
                for number in range(CHANGES):
                    machine.say(statement + ("pull-up" if number % 2 else "pull-down"))
                assert all(process.poll() is None for process in observer)
            return count.read_bytes().count(b"\n")


if __name__ == "__main__":
    unittest.main()
