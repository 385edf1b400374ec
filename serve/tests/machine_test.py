"""Tests of the package gpioserve: its machines, its connections, where it finds the programs, and what it raises."""

import errno
import os
import subprocess
import sys
import tempfile
import threading
import time
import unittest
from concurrent.futures import ThreadPoolExecutor
from pathlib import Path
from unittest import mock

from serving import require_gpioserve

HERE = Path(__file__).resolve().parent
TOP = HERE.parent.parent
sys.path.insert(0, str(HERE.parent / "python"))
from gpioserve import (  # noqa: E402
    Connection,
    Machine,
    MachineError,
    NotServed,
    NotStarted,
    Refused,
    WaitFailed,
    WaitTimeout,
    programs,
)

# A program that holds line 3 of the first chip until it has read so many events of it, and writes a line for each.
HOLDER = """
import fcntl, os, struct, sys
chip = os.open("/dev/gpiochip0", os.O_RDWR)
asked = bytearray(592)
struct.pack_into("I", asked, 0, 3)
asked[256:262] = b"holder"
struct.pack_into("Q", asked, 288, 1 << 2 | 1 << 4 | 1 << 5)
struct.pack_into("I", asked, 560, 1)
fcntl.ioctl(chip, 0xC250B407, asked)
lines = struct.unpack_from("i", asked, 588)[0]
for _ in range(int(sys.argv[1])):
    event = os.read(lines, 48)
    print("rising" if struct.unpack_from("I", event, 8)[0] == 1 else "falling", flush=True)
"""


def holder(events: int) -> list:
    """The command of that program."""
    return [sys.executable, "-c", HOLDER, str(events)]


def setUpModule() -> None:
    """Leaves all out where there is nothing to serve with."""
    require_gpioserve()


class MachineTest(unittest.TestCase):
    def test_a_program_finds_the_chip_and_the_world_moves_it(self) -> None:
        with Machine("probe demo 4", clock="manual") as machine:
            program = machine.start(holder(2))
            self.assertEqual(machine.until_held("/dev/gpiochip0", 3), "holder")
            machine.clock(milliseconds=5)
            with machine.reading(0, 3, events=2):
                machine.pull("gpiochip0", 3, True)
                self.assertEqual(machine.value(0, 3), 1)
                machine.pull(0, 3, False)
            self.assertEqual([program.line(), program.line(), program.line()], ["rising", "falling", ""])
            self.assertEqual(program.wait(30), 0)
            machine.until_released(0, 3)
            self.assertEqual((machine.until_read(0, 3, 0), machine.until_opened(0)), (2, 1))
            self.assertEqual(machine.now, 5_000_000)

    def test_the_files_of_a_run_stay_where_they_are_wanted(self) -> None:
        with tempfile.TemporaryDirectory() as folder:
            with Machine(folder=folder) as machine:
                machine.pull(0, 1, True)
            self.assertEqual(
                sorted(path.name for path in Path(folder).iterdir()),
                ["answers", "board", "errors", "transcript", "waves.vcd"],
            )
            self.assertIn("write gpiochip0/sim_gpio1/pull pull-up\n", machine.transcript.read_text())
            self.assertEqual((machine.close(), machine.errors.read_text()), (0, ""))

    def test_a_folder_of_its_own_is_gone_in_the_end(self) -> None:
        with Machine() as machine:
            self.assertTrue(machine.board.is_file())
        self.assertFalse(machine.folder.exists())

    def test_a_board_may_be_a_file_and_set_the_clock(self) -> None:
        with tempfile.TemporaryDirectory() as folder:
            board = Path(folder, "a board")
            board.write_text("clock 7000000000 0\nprobe demo 4\n")
            with Machine(board, clock="manual") as machine:
                machine.clock(microseconds=1)
                self.assertEqual(machine.now, 7_000_001_000)
            with self.assertRaisesRegex(NotStarted, "the board .*/none can't be read"):
                Machine(Path(folder, "none"))

    def test_what_does_not_begin_says_why(self) -> None:
        with self.assertRaisesRegex(NotStarted, "line 2, column 1: no statement begins with this word"):
            Machine("probe demo 4\nprobee demo 4")
        with self.assertRaisesRegex(NotStarted, "unrecognized option '--none'"):
            Machine(options=["--none"])

    def test_programs_that_still_run_are_ended(self) -> None:
        with Machine() as machine:
            program = machine.popen(["sleep", "600"])
        self.assertEqual(program.returncode, -15)

    def test_what_is_given_as_environment_is_kept(self) -> None:
        with Machine() as machine:
            script = ["/bin/sh", "-c", 'echo "$ONE,$HOME"; ls /dev/gpiochip0']
            done = machine.run(script, env={"ONE": "1", "GPIOSERVE": "x"})
            self.assertEqual(done.stdout, "1,\n/dev/gpiochip0\n")
            with mock.patch.dict(os.environ, {"ONE": "2", "HOME": "/"}):
                self.assertEqual(machine.run(script).stdout, f",{machine.environment['HOME']}\n/dev/gpiochip0\n")
            self.assertEqual(machine.run(["gpiosay", "read gpiochip0/sim_gpio1/value"]).stdout, "0\n")

    def test_a_line_that_does_not_come(self) -> None:
        with Machine() as machine:
            program = machine.start(["sh", "-c", "printf part; exec sleep 600"])
            with self.assertRaisesRegex(TimeoutError, "wrote no line in 0.2 s, only b'part'"):
                while not program.line(0.2):
                    pass
            self.assertEqual(program.stop(), -15)
            self.assertEqual(program.line(), "part")

    def test_sixty_four_machines_do_not_see_each_other(self) -> None:
        def use(number: int) -> str:
            with Machine(f"probe demo{number} 4") as machine:
                machine.pull(0, number % 4, True)
                return machine.say("gpiodetect", *(f"read gpiochip0/sim_gpio{line}/value" for line in range(4)))

        with ThreadPoolExecutor(64) as pool:
            for number, said in enumerate(pool.map(use, range(64))):
                levels = "".join(f"{int(line == number % 4)}\n" for line in range(4))
                self.assertEqual(said, f"gpiochip0 [demo{number}] (4 lines)\n{levels}")


class ConnectionTest(unittest.TestCase):
    def setUp(self) -> None:
        self.machine = Machine("probe demo 4", clock="manual")
        self.addCleanup(self.machine.close)

    def test_what_is_no_statement(self) -> None:
        with self.assertRaises(Refused) as caught:
            self.machine.say("read  gpiochip0/sim_gpio1/value now")
        self.assertEqual((caught.exception.column, caught.exception.kind), (33, "words"))
        with self.assertRaises(Refused) as caught:
            self.machine.say("data chip.1 48")
        self.assertEqual((caught.exception.column, caught.exception.text), (None, "refused: say events or changes\n"))
        with self.assertRaisesRegex(Refused, "wait held CHIP LINE"):
            self.machine.say("wait held")
        with self.assertRaisesRegex(Refused, "at most 8192 bytes"):
            self.machine.say("#" * 8193)
        with self.assertRaisesRegex(ValueError, "at most 65536 bytes"):
            self.machine.say("#" * 65537)

    def test_what_the_machine_refuses(self) -> None:
        with self.assertRaises(MachineError) as caught:
            self.machine.unplug(7)
        self.assertEqual((caught.exception.errno, str(caught.exception)), (errno.ENOENT, "unplug gpiochip7: ENOENT"))
        self.machine.say("start a gpioset -c 0 1=on")
        with self.assertRaises(OSError) as busy:
            self.machine.say("gpioset -c 0 1=off")
        self.assertEqual(busy.exception.errno, errno.EBUSY)

    def test_a_wait_that_fails(self) -> None:
        with self.assertRaises(WaitTimeout) as caught:
            self.machine.until_level(0, 1, 1, seconds=0.01)
        self.assertIsInstance(caught.exception, TimeoutError)
        self.assertIn("after 10 ms line 1 of gpiochip0 has level 0", str(caught.exception))
        self.machine.unplug(0)
        with self.assertRaisesRegex(WaitFailed, "gpiochip0 is gone") as gone:
            self.machine.until_held(0, 1, by="nobody")
        self.assertNotIsInstance(gone.exception, TimeoutError)

    def test_a_thread_waits_beside_others(self) -> None:
        with self.machine.connect() as waiting, ThreadPoolExecutor(1) as pool:
            level = pool.submit(waiting.until_level, 0, 2, 1)
            while threading.active_count() < 2:
                time.sleep(0.01)
            self.machine.pull(0, 2, True)
            self.assertIsNone(level.result())

    def test_a_text_for_which_a_packet_has_no_room(self) -> None:
        names = [self.machine.plug(f"big{number}", 512) for number in range(4)]
        self.assertEqual(names, ["gpiochip1", "gpiochip2", "gpiochip3", "gpiochip4"])
        self.assertEqual(len(self.machine.say("gpioinfo").splitlines()), 5 + 4 * 513)

    def test_the_driver_fails_once(self) -> None:
        self.machine.fault()
        with self.assertRaises(MachineError) as caught:
            self.machine.say("gpioget -c 0 1")
        self.assertEqual((caught.exception.errno, caught.exception.text), (errno.EIO, "gpioget: EIO\n"))
        self.assertEqual(self.machine.say("gpioget -c 0 1"), '"1"=inactive\n')

    def test_the_folder_of_the_environment(self) -> None:
        folder = self.machine.environment["GPIOSERVE"]
        with mock.patch.dict(os.environ, GPIOSERVE=folder), Connection() as connection:
            self.assertEqual(connection.value(0, 1), 0)
        for variables in ({}, {"GPIOSERVE": "/none"}):
            with mock.patch.dict(os.environ, variables, clear=True), self.assertRaises(NotServed):
                Connection()

    def test_a_machine_that_has_ended(self) -> None:
        connection = self.machine.connect()
        self.machine.close()
        with self.assertRaises(NotServed):
            connection.say("gpiodetect")
        connection.close()


class ProgramsTest(unittest.TestCase):
    def test_the_served_program_is_named_as_for_gpioserve(self) -> None:
        with tempfile.TemporaryDirectory() as folder:
            program = Path(folder, "a program")
            program.write_text("#!/bin/sh\n")
            program.chmod(0o755)
            for named, words in ((str(program), [str(program)]), ("env  A=1 true", ["env", "A=1", "true"])):
                with mock.patch.dict(os.environ, GPIOSERVED=named):
                    self.assertEqual(programs.served(), words)
            with mock.patch.dict(os.environ, GPIOSERVED="/no/such"), self.assertRaisesRegex(NotServed, "/no/such"):
                programs.served()

    def test_programs_are_found_beside_the_package_and_on_the_path(self) -> None:
        with tempfile.TemporaryDirectory() as folder:
            package = Path(folder, "lib/python3/dist-packages/gpioserve")
            package.parent.mkdir(parents=True)
            subprocess.run(["cp", "-r", HERE.parent / "python/gpioserve", package], check=True)
            where = [Path(folder, "lib/gpioserve/gpiosay"), Path(folder, "bin/gpiosay")]
            for path in where:
                path.parent.mkdir(exist_ok=True)
                path.write_text("#!/bin/sh\n")
                path.chmod(0o755)
            script = "from gpioserve import programs; print(programs.find('gpiosay'))"
            told = []
            for path in (*where, None):
                variables = {"PYTHONPATH": str(package.parent), "PATH": str(where[1].parent)}
                done = subprocess.run([sys.executable, "-c", script], env=variables, capture_output=True, text=True)
                told.append(done.stdout.rstrip("\n"))
                if path:
                    path.unlink()
        self.assertEqual(told, [str(where[0]), str(where[1]), ""])
        self.assertIn("gpiosay is neither in", done.stderr)

    def test_the_version_is_that_of_the_repository(self) -> None:
        self.assertEqual(programs.version(), (TOP / "VERSION").read_text().strip())


if __name__ == "__main__":
    unittest.main()
