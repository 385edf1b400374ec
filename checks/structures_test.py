"""Tests of examples/structures.py: against the pieces of examples/raw-ioctls, the C compiler's layout, and the program."""
import importlib.util
import os
import shutil
import subprocess
import tempfile
import unittest
from pathlib import Path

TOP = Path(__file__).resolve().parent.parent
PROGRAM = Path(os.environ.get("GPIOSESS") or TOP / "crates/gpiosess/out/gpiosess")
_SPEC = importlib.util.spec_from_file_location("structures", TOP / "examples/structures.py")
structures = importlib.util.module_from_spec(_SPEC)
_SPEC.loader.exec_module(structures)

# The same request, filled in by a C compiler from linux/gpio.h, and written as it is.
WRITER = r"""
#include <linux/gpio.h>
#include <string.h>
#include <unistd.h>

int main(void) {
  struct gpio_v2_line_request request;
  memset(&request, 0, sizeof request);
  request.offsets[0] = 3;
  request.offsets[1] = 300;
  strcpy(request.consumer, "panel");
  request.config.flags = GPIO_V2_LINE_FLAG_INPUT | GPIO_V2_LINE_FLAG_EDGE_RISING;
  request.config.num_attrs = 3;
  request.config.attrs[0].attr.id = GPIO_V2_LINE_ATTR_ID_FLAGS;
  request.config.attrs[0].attr.flags = GPIO_V2_LINE_FLAG_OUTPUT | GPIO_V2_LINE_FLAG_OPEN_DRAIN;
  request.config.attrs[0].mask = 1;
  request.config.attrs[1].attr.id = GPIO_V2_LINE_ATTR_ID_OUTPUT_VALUES;
  request.config.attrs[1].attr.values = 1;
  request.config.attrs[1].mask = 3;
  request.config.attrs[2].attr.id = GPIO_V2_LINE_ATTR_ID_DEBOUNCE;
  request.config.attrs[2].attr.debounce_period_us = 5000;
  request.config.attrs[2].mask = 2;
  request.num_lines = 2;
  request.event_buffer_size = 32;
  return write(1, &request, sizeof request) != sizeof request;
}
"""
WORDS = [
    "get-line",
    "3",
    "300",
    "--consumer",
    "panel",
    "--flags",
    "INPUT,EDGE_RISING",
    "--attribute",
    "flags:OUTPUT,OPEN_DRAIN:0",
    "--attribute",
    "values:0=1,1=0",
    "--attribute",
    "debounce:5000:1",
    "--event-buffer-size",
    "32",
]


def bytes_of(text: str) -> bytes:
    return structures.read_pieces(text.split())


def raw_statement(start: str) -> str:
    """The pieces of a statement of examples/raw-ioctls.session."""
    lines = (TOP / "examples/raw-ioctls.session").read_text().splitlines()
    return next(line for line in lines if line.startswith(start))[len(start) :].partition(" as ")[0]


class StructuresTest(unittest.TestCase):
    def test_pieces_are_those_of_the_example(self) -> None:
        made = structures.answer_to(
            ["get-line", "0", "1", "--consumer", "panel", "--flags", "INPUT", "--attribute", "flags:OUTPUT:0"]
        )
        self.assertEqual(bytes_of(made), bytes_of(raw_statement("ioctl chip GET_LINE ")))
        made = structures.answer_to(
            ["config", "--flags", "ACTIVE_LOW,INPUT", "--attribute", "flags:ACTIVE_LOW,INPUT,BIAS_PULL_UP:1"]
        )
        written = bytes_of(raw_statement("ioctl lines SET_CONFIG "))
        self.assertEqual(len(bytes_of(made)), len(written))
        self.assertEqual(structures.answer_to(["line", "1"]), "00*64 01 00*191")
        self.assertEqual(
            bytes_of(structures.answer_to(["values", "0=1", "1=1"])), bytes_of(raw_statement("ioctl lines SET_VALUES "))
        )
        self.assertEqual(structures.answer_to(["chip"]), "00*68")
        self.assertEqual(structures.answer_to(["offset", "3"]), "03000000")

    def test_printed_structures_are_read(self) -> None:
        printed = (TOP / "examples/raw-ioctls.expected").read_text().splitlines()
        self.assertEqual(
            structures.answer_to(["read", "chip", *printed[0].split()]), "name gpiochip0\nlabel demo\nlines 4"
        )
        self.assertEqual(
            structures.answer_to(["read", "line", *printed[4].split()]),
            "offset 0\nname -\nconsumer panel\nflags USED,OUTPUT",
        )
        self.assertEqual(structures.answer_to(["read", "values", *printed[8].split()]), "place 0: 1\nplace 1: 0")

    def test_what_is_made_is_read_back(self) -> None:
        data = bytes_of(structures.answer_to(WORDS))
        self.assertEqual(len(data), 592)
        self.assertEqual(structures.spelled(data), structures.answer_to(WORDS))
        self.assertEqual(structures.Request.of(data).to_bytes(), data)
        self.assertIn(
            "attribute debounce:5000 of [1]",
            structures.answer_to(["read", "get-line", *structures.spelled(data).split()]),
        )
        for made in (
            structures.ChipInfo("a", "b", 3),
            structures.LineInfo(7, "n", "c", 5, [structures.Attribute("debounce", 9)]),
        ):
            self.assertEqual(type(made).of(made.to_bytes()), made)

    def test_wrong_words_are_refused(self) -> None:
        for words in (["config", "--flags", "INPUTS"], ["values", "64"], ["config", "--attribute", "flags:INPUT"]):
            with self.assertRaises(ValueError):
                structures.answer_to(words)

    @unittest.skipUnless(
        shutil.which("cc") and Path("/usr/include/linux/gpio.h").exists(), "no C compiler or no linux/gpio.h"
    )
    def test_bytes_are_those_of_the_c_header(self) -> None:
        with tempfile.TemporaryDirectory() as folder:
            writer = Path(folder) / "writer"
            subprocess.run(["cc", "-x", "c", "-", "-o", writer], input=WRITER.encode(), check=True)
            written = subprocess.run([writer], stdout=subprocess.PIPE, check=True).stdout
        self.assertEqual(bytes_of(structures.answer_to(WORDS)), written)

    @unittest.skipUnless(PROGRAM.exists(), "the program is not built")
    def test_the_program_takes_what_is_made(self) -> None:
        request = structures.answer_to(
            ["get-line", "0", "2", "--flags", "OUTPUT", "--attribute", "values:0=0,1=1", "--consumer", "me"]
        )
        session = [
            "session 1",
            "setup",
            "probe demo 4",
            "open c 0",
            f"ioctl c GET_LINE {request} as r",
            f"ioctl r GET_VALUES {structures.answer_to(['values', '0', '1'])}",
            f"ioctl r SET_VALUES {structures.answer_to(['values', '0=1', '1=0'])}",
            "read gpiochip0/sim_gpio0/value",
            "read gpiochip0/sim_gpio2/value",
            f"ioctl c GET_LINEINFO {structures.answer_to(['line', '2'])}",
        ]
        ran = subprocess.run(
            [PROGRAM], input="\n".join(session), stdout=subprocess.PIPE, text=True, check=True, timeout=60
        )
        fd, values, first, second, info = ran.stdout.splitlines()
        self.assertEqual((fd, first, second), ("fd 4", "1", "0"))
        self.assertEqual(structures.answer_to(["read", "values", *values.split()]), "place 0: 0\nplace 1: 1")
        self.assertEqual(
            structures.answer_to(["read", "line", *info.split()]), "offset 2\nname -\nconsumer me\nflags USED,OUTPUT"
        )
