"""Tests of the dump that gpioserve writes: what stands in it, and that waves.py, vcd2fst and sigrok-cli read it."""
import os
import re
import shutil
import subprocess
import sys
import tempfile
import unittest
from pathlib import Path
from typing import Dict, List, Tuple

HERE = Path(__file__).resolve().parent
OUT = HERE.parent / "out"
sys.path[:0] = [str(HERE.parent), str(HERE.parent / "python")]
import waves  # noqa: E402
from gpioserve import NotServed, programs  # noqa: E402

BOARD = [
    "clock 5000 0",
    "probe plain 2",
    "mkdir panel",
    "mkdir panel/soc",
    "write panel/soc/num_lines 3",
    "mkdir panel/soc/line0",
    "write panel/soc/line0/name POWER",
    "mkdir panel/soc/line2",
    "write panel/soc/line2/name LED",
    "write panel/live 1",
]
# Pulls of lines with and without a name, a holder whose name needs escapes, a chip that comes and goes, and one that only goes.
SAID = [
    "clock 6000 0",
    "write gpiochip0/sim_gpio1/pull pull-up",
    "write gpiochip1/sim_gpio0/pull pull-up",
    "write gpiochip1/sim_gpio2/pull pull-down",
    "clock 7500 0",
    "start led gpioset -c 1 -C a\\b~ 2=on",
    "clock 8000 0",
    "probe late 1",
    "clock 8250 0",
    "write gpiochip2/sim_gpio0/pull pull-up",
    "clock 9000 0",
    "stop led",
    "unplug gpiochip2",
    "clock 9500 0",
    "write panel/live 0",
    "clock 10000 0",
]
WANTED: Dict[Tuple[str, str], List[Tuple[int, str]]] = {
    ("gpiochip0", "gpiochip0:1"): [(0, "0"), (1000, "1")],
    ("gpiochip0", "gpiochip0:1:holder"): [(0, "")],
    ("gpiochip1", "POWER"): [(0, "0"), (1000, "1"), (4500, "x")],
    ("gpiochip1", "POWER:holder"): [(0, "")],
    ("gpiochip1", "LED"): [(0, "0"), (2500, "1"), (4000, "0"), (4500, "x")],
    ("gpiochip1", "LED:holder"): [(0, ""), (2500, "a\\b~"), (4000, "")],
    ("gpiochip2", "gpiochip2:0"): [(0, "x"), (3250, "1"), (4000, "x")],
    ("gpiochip2", "gpiochip2:0:holder"): [(0, "")],
}


def rows(text: str) -> Dict[Tuple[str, str], List[Tuple[int, str]]]:
    """The changes of each row of a dump, at nanoseconds."""
    dump = waves.Reader(text).read()
    nano = 10 ** waves.UNITS["ns"]
    return {(row.scope, row.name): [(change.at // nano, change.value) for change in row.changes] for row in dump.rows}


class DumpTest(unittest.TestCase):
    def setUp(self) -> None:
        try:
            programs.served()
        except NotServed as fault:
            self.skipTest(str(fault))
        if not os.access(OUT / "gpioserve", os.X_OK):
            self.skipTest("serve/ isn't built")
        folder = tempfile.TemporaryDirectory()
        self.addCleanup(folder.cleanup)
        self.folder = Path(folder.name)
        self.dump = self.written()

    def written(self) -> Path:
        """The dump of a run that says all of it."""
        dump, board = self.folder / "waves.vcd", self.folder / "board"
        board.write_text("".join(line + "\n" for line in BOARD))
        subprocess.run(
            [OUT / "gpioserve", "--clock", "manual", "-b", board, "-w", dump, "--", OUT / "gpiosay", *SAID], check=True
        )
        return dump

    def test_the_dump_has_all_that_was_said(self) -> None:
        self.assertEqual(rows(self.dump.read_text()), WANTED)
        lines = self.dump.read_text().splitlines()
        self.assertEqual(lines[:3], ["$version gpioserve $end", "$comment start 5000 $end", "$timescale 1 ns $end"])
        self.assertEqual(lines[-1], "#5000")

    def test_waves_py_draws_it(self) -> None:
        self.assertEqual(waves.main([str(self.dump)]), 0)
        picture = self.dump.with_suffix(".svg").read_text()
        for text in (">POWER<", ">LED<", ">gpiochip0:1<", ">gpiochip2:0<", ">a\\b~<", ">5 us<"):
            self.assertIn(text, picture)

    def test_vcd2fst_reads_it(self) -> None:
        if not shutil.which("vcd2fst") or not shutil.which("fst2vcd"):
            self.skipTest("vcd2fst isn't installed")
        fst = self.folder / "waves.fst"
        subprocess.run(["vcd2fst", self.dump, fst], check=True, capture_output=True)
        back = subprocess.run(["fst2vcd", fst], check=True, capture_output=True, text=True).stdout
        self.assertEqual(rows(back.replace("\\\\", "\\x5c")), WANTED)

    def test_sigrok_reads_its_levels(self) -> None:
        if not shutil.which("sigrok-cli"):
            self.skipTest("sigrok-cli isn't installed")
        samples = subprocess.run(
            ["sigrok-cli", "-I", "vcd", "-i", self.dump, "-O", "binary"], check=True, capture_output=True
        ).stdout
        samples = re.sub(rb"\AMETA [^\n]*\n", b"", samples)
        self.assertEqual(len(samples), 5000)
        for bit, name in enumerate(("gpiochip0:1", "POWER", "LED", "gpiochip2:0")):
            for at, value in next(changes for (_, row), changes in WANTED.items() if row == name):
                self.assertEqual(samples[at] >> bit & 1, value == "1", (name, at))


if __name__ == "__main__":
    unittest.main()
