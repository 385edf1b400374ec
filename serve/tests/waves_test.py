"""Tests of serve/waves.py: what it reads of well-formed and of broken dumps, and what it draws."""
import contextlib
import importlib.util
import io
import shutil
import subprocess
import sys
import tempfile
import unittest
import xml.etree.ElementTree as xml
from pathlib import Path
from typing import List, Tuple

HERE = Path(__file__).resolve().parent
_SPEC = importlib.util.spec_from_file_location("waves", HERE.parent / "waves.py")
assert _SPEC is not None and _SPEC.loader is not None
waves = importlib.util.module_from_spec(_SPEC)
sys.modules["waves"] = waves
_SPEC.loader.exec_module(waves)

BUTTON = HERE / "button.vcd"
SVG = "{http://www.w3.org/2000/svg}"
MS = 10**12
HEAD = "$timescale 1 ns $end\n$var wire 1 l0 A $end\n$var string 1 h0 A:holder $end\n$enddefinitions $end\n"

# A dump that breaks the form: its text, the line that is named, and a part of what is said.
BROKEN: List[Tuple[str, int, str]] = [
    ("", 1, "no $enddefinitions"),
    ("$timescale 1 ns $end\n$var wire 1 l0 A $end\n", 2, "no $enddefinitions"),
    ("$timescale 1 ns $end\n$enddefinitions $end\n#0\n", 2, "no variable"),
    ("$timescale 2 ns $end\n", 1, "$timescale 2ns"),
    ("$timescale 1 min $end\n", 1, "$timescale 1min"),
    ("$var wire 1 l0 $end\n", 1, "$var has"),
    ("$var wire one l0 A $end\n", 1, "$var has"),
    ("$comment\nit goes on\n", 1, "$comment has no $end"),
    ("$scope module $end\n", 1, "$scope has"),
    ("$upscope $end\n", 1, "outside every scope"),
    ("$end\n", 1, "ends nothing"),
    ("#0\n0l0\n", 1, "stands before $enddefinitions"),
    ("$var wire 1 l0 A $end\n$enddefinitions $end\n#0\n", 3, "no $timescale"),
    (HEAD, 4, "no time"),
    (HEAD + "0l0\n", 5, "before the first time"),
    (HEAD + "#0\n0l0\n#five\n", 7, "#five is no time"),
    (HEAD + "#0\n0l0\n#" + "9" * 5000 + "\n", 7, "is no time"),
    (HEAD + "#9\n0l0\n\n#8\n", 8, "#8 is earlier"),
    (HEAD + "#0\n0l1\n", 6, "l1 is no code"),
    (HEAD + "#0\n0\n", 6, "a value without a code"),
    (HEAD + "#0\nb10\n", 6, "ends after b10"),
    (HEAD + "#0\nb12 l0\n", 6, "12 is no level of A"),
    (HEAD + "#0\nsnobody l0\n", 6, "nobody is no level of A"),
    (HEAD + "#0\n?l0\n", 6, "?l0 is neither"),
    (HEAD + "#0\n$var wire 1 l1 B $end\n", 6, "$var is neither"),
]


def read(text: str) -> "waves.Dump":
    """The dump of a text."""
    return waves.Reader(text).read()


def changes(row: "waves.Row") -> List[Tuple[int, str]]:
    """The changes of a row, as pairs."""
    return [(change.at, change.value) for change in row.changes]


class ReadingTest(unittest.TestCase):
    def test_rows_of_the_dump(self) -> None:
        dump = read(BUTTON.read_text())
        self.assertEqual(
            [row.name for row in dump.rows],
            ["POWER", "POWER:holder", "LED", "LED:holder", "gpiochip0:3", "gpiochip0:3:holder"],
        )
        self.assertEqual([row.is_level for row in dump.rows], [True, False] * 3)
        self.assertEqual({row.scope for row in dump.rows}, {"gpiochip0"})
        self.assertEqual((dump.begin, dump.end, dump.start), (0, 31_500_000_000_000, 620_113_000_000))
        self.assertEqual(
            changes(dump.rows[2]),
            [(0, "0"), (9_600_000_000_000, "1"), (26_100_000_000_000, "0"), (30_000_000_000_000, "x")],
        )
        self.assertEqual(
            changes(dump.rows[1]), [(0, ""), (1_800_000_000_000, "power button"), (30_000_000_000_000, "")]
        )

    def test_each_broken_dump_names_its_line(self) -> None:
        for text, line, said in BROKEN:
            with self.subTest(text=text), self.assertRaises(waves.BadDump) as caught:
                read(text)
            self.assertEqual(caught.exception.line, line, text)
            self.assertIn(said, str(caught.exception))

    def test_a_later_value_of_one_time_counts(self) -> None:
        dump = read(HEAD + "#0\n0l0\n#5\n1l0\n0l0\n#6\n1l0\n1l0\n#7\n1l0\n")
        self.assertEqual(changes(dump.rows[0]), [(0, "0"), (6 * 10**6, "1")])

    def test_values_of_other_writers(self) -> None:
        header = (
            "$date today $end $timescale 10ps $end $scope module top $end $var reg 8 # bus [7:0] $end $var real 64 ! volt $end "
            "$var wire 1 a Q $end $var wire 1 a ALIAS $end $upscope $end $enddefinitions $end "
        )
        dump = read(
            header + "$comment none $end #1 $dumpvars bx # r0.5 ! Za $end #2 b1010 # r-1e3 ! b1 a #3 $dumpoff xa $end"
        )
        self.assertEqual(
            [changes(row) for row in dump.rows],
            [[(10_000, "x"), (20_000, "0xa")], [(10_000, "0.5"), (20_000, "-1e3")]]
            + [[(10_000, "z"), (20_000, "1"), (30_000, "x")]] * 2,
        )

    def test_escapes_of_texts(self) -> None:
        for spelled, shown in (
            ("a\\x20b", "a b"),
            ("\\xc3\\xa9", "é"),
            ("\\xff", "\\xff"),
            ("\\x01", "\\x01"),
            ("\\x5cx41", "\\x41"),
            ("?", "?"),
            ("", ""),
        ):
            self.assertEqual(changes(read(HEAD + f"#0 s{spelled} h0 ").rows[1]), [(0, shown)], spelled)


class TimeTest(unittest.TestCase):
    def test_ticks_have_one_unit_and_even_steps(self) -> None:
        for begin, end, wanted in (
            (0, 30 * MS, ["0 ms", "5 ms", "10 ms", "15 ms", "20 ms", "25 ms", "30 ms"]),
            (0, 3 * 10**15, ["0.0 s", "0.5 s", "1.0 s", "1.5 s", "2.0 s", "2.5 s", "3.0 s"]),
            (
                39 * MS // 10,
                47 * MS // 10,
                ["3900 us", "4000 us", "4100 us", "4200 us", "4300 us", "4400 us", "4500 us", "4600 us", "4700 us"],
            ),
            (0, 7 * 10**6, ["0 ns", "1 ns", "2 ns", "3 ns", "4 ns", "5 ns", "6 ns", "7 ns"]),
            (0, 1, ["0 fs", "1 fs"]),
        ):
            self.assertEqual([text for _, text in waves.ticks(begin, end, 8)], wanted)

    def test_times_to_the_nanosecond(self) -> None:
        for at, text in (
            (0, "0 ns"),
            (1_850_000_000_000, "1.85 ms"),
            (30 * MS, "30 ms"),
            (10**15, "1 s"),
            (1_000_000_001_999_999, "1.000000001 s"),
        ):
            self.assertEqual(waves.shortest(at), text)

    def test_times_of_the_command_line(self) -> None:
        self.assertEqual(
            [waves.time_of(text) for text in ("1.5ms", "2s", "7ns", "0.25us")],
            [3 * MS // 2, 2 * 10**15, 7 * 10**6, 25 * 10**7],
        )


class DrawingTest(unittest.TestCase):
    def draw(self, *words: str) -> xml.Element:
        """The picture that the arguments ask for, as a tree."""
        with contextlib.redirect_stdout(io.StringIO()) as out:
            self.assertEqual(waves.main([*words, "-o", "-"]), 0)
        return xml.fromstring(out.getvalue())

    def drawn(self, text: str) -> xml.Element:
        """The picture of a dump."""
        dump = read(text)
        return xml.fromstring(waves.picture(dump, dump.begin, dump.end, 600))

    @staticmethod
    def texts(picture: xml.Element) -> List[str]:
        return [element.text or "" for element in picture.iter(SVG + "text")]

    def test_labels_bands_and_ticks(self) -> None:
        texts = self.texts(self.draw(str(BUTTON)))
        self.assertEqual(
            [text for text in texts if not text.endswith(" ms")],
            [
                "0 is 620.113000000 s of the monotonic clock",
                "POWER",
                "held by",
                "power button",
                "LED",
                "held by",
                "power button",
                "gpiochip0:3",
            ],
        )
        self.assertEqual([text for text in texts if text.endswith(" ms")], [f"{at} ms" for at in range(0, 31, 5)])

    def test_a_level_is_a_stroke_and_hatched_where_it_is_not_known(self) -> None:
        picture = self.draw(str(BUTTON), "--width", "1161")
        strokes = [element.get("d") for element in picture.iter(SVG + "path") if element.get("class") == "level"]
        self.assertEqual(len(strokes), 3)
        self.assertEqual(strokes[1].count("V"), 2)
        self.assertEqual(strokes[0].count("V"), 5)
        self.assertEqual(len([element for element in picture.iter(SVG + "rect") if element.get("class") == "gone"]), 3)

    def test_a_part_of_the_time(self) -> None:
        picture = self.draw(str(BUTTON), "--from", "9.5ms", "--to", "9.7ms")
        strokes = [element.get("d") for element in picture.iter(SVG + "path") if element.get("class") == "level"]
        self.assertEqual([stroke.count("V") for stroke in strokes], [0, 1, 0])

    def test_scopes_tell_equal_names_apart(self) -> None:
        header = "".join(
            f"$scope module gpiochip{chip} $end $var wire 1 l{chip} BUTTON $end $upscope $end " for chip in (0, 1)
        )
        texts = self.texts(self.drawn("$timescale 1 s $end " + header + "$enddefinitions $end #0 0l0 1l1 #5"))
        self.assertEqual(texts[-2:], ["gpiochip0 BUTTON", "gpiochip1 BUTTON"])

    def test_signs_of_the_picture_are_escaped(self) -> None:
        picture = self.drawn(HEAD + '#0 0l0 s<&"> h0 #9')
        self.assertIn('<&">', self.texts(picture))

    def test_what_cannot_stand_in_a_picture_is_spelled_out(self) -> None:
        picture = self.drawn(
            "$timescale 1 ns $end $var wire 1 l0 A\x01 $end $var string 1 h0 B $end $enddefinitions $end #0 s\x02 h0 #9"
        )
        self.assertEqual(self.texts(picture)[-3:], ["A\\x01", "B", "\\x02"])

    def test_long_labels_make_the_picture_wider(self) -> None:
        dump = read(HEAD.replace(" A ", " " + "A" * 99 + " ") + "#0 0l0 #9 1l0 #12")
        picture = xml.fromstring(waves.picture(dump, dump.begin, dump.end, 300))
        self.assertEqual(picture.get("width"), "913")
        self.assertIn("V14H883", xml.tostring(picture, "unicode"))

    def test_a_dump_of_one_moment_is_drawn(self) -> None:
        self.assertIn("A", self.texts(self.drawn_at_once(HEAD + "#7 0l0")))

    def drawn_at_once(self, text: str) -> xml.Element:
        with tempfile.TemporaryDirectory() as folder:
            path = Path(folder, "moment.vcd")
            path.write_text(text)
            self.assertEqual(waves.main([str(path)]), 0)
            return xml.parse(Path(folder, "moment.svg")).getroot()

    def test_many_changes_make_a_small_picture(self) -> None:
        text = HEAD + "".join(f"#{at} {at % 2}l0 s{at % 2 or ''} h0\n" for at in range(100_000))
        dump = read(text)
        self.assertLess(len(waves.picture(dump, dump.begin, dump.end, 960)), 1_200_000)

    def test_errors_name_the_file_and_the_line(self) -> None:
        with tempfile.TemporaryDirectory() as folder:
            path = Path(folder, "broken.vcd")
            path.write_text(HEAD + "#0\n0l1\n")
            for words, said in (
                ([str(path)], f"waves.py: {path}:6: l1 is no code of the header\n"),
                ([folder + "/none.vcd"], f"waves.py: {folder}/none.vcd: No such file or directory\n"),
                ([str(BUTTON), "-o", folder], f"waves.py: {folder}: Is a directory\n"),
            ):
                with contextlib.redirect_stderr(io.StringIO()) as out:
                    self.assertEqual(waves.main(words), 1)
                self.assertEqual(out.getvalue(), said)

    def test_wrong_arguments_are_status_2(self) -> None:
        for words in (
            [],
            [str(BUTTON), "--from", "5"],
            [str(BUTTON), "--from", "2ms", "--to", "1ms"],
            [str(BUTTON), "--width", "3"],
        ):
            with contextlib.redirect_stderr(io.StringIO()), self.assertRaises(SystemExit) as caught:
                waves.main(words)
            self.assertEqual(caught.exception.code, 2)


class OtherReadersTest(unittest.TestCase):
    def test_vcd2fst_reads_the_dump(self) -> None:
        if not shutil.which("vcd2fst") or not shutil.which("fst2vcd"):
            self.skipTest("vcd2fst isn't installed")
        with tempfile.TemporaryDirectory() as folder:
            subprocess.run(["vcd2fst", str(BUTTON), folder + "/button.fst"], check=True, capture_output=True)
            back = subprocess.run(
                ["fst2vcd", folder + "/button.fst"], check=True, capture_output=True, text=True
            ).stdout
        mine, theirs = read(BUTTON.read_text()), read(back.replace("\\040", "\\x20"))
        self.assertEqual(
            [(row.name, changes(row)) for row in theirs.rows], [(row.name, changes(row)) for row in mine.rows]
        )

    def test_sigrok_reads_the_levels(self) -> None:
        if not shutil.which("sigrok-cli"):
            self.skipTest("sigrok-cli isn't installed")
        said = subprocess.run(
            ["sigrok-cli", "-I", "vcd", "-i", str(BUTTON), "--show"], check=True, capture_output=True, text=True
        ).stdout
        for part in ("- POWER: logic", "- LED: logic", "- gpiochip0:3: logic", "Logic sample count: 31500"):
            self.assertIn(part, said)


if __name__ == "__main__":
    unittest.main()
