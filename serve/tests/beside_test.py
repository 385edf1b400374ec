"""Tests of gpioserve.served and serve/beside.py: over a small program that answers as it is told, and over the one that serves."""
import os
import subprocess
import sys
import tempfile
import unittest
from pathlib import Path
from typing import List, Optional

HERE = Path(__file__).resolve().parent
TOP = HERE.parent.parent
sys.path.insert(0, str(HERE.parent / "python"))
import gpioserve  # noqa: E402
from gpioserve import programs, served  # noqa: E402

# Answers `say TEXT` with TEXT, in which `/` stands for a line end and `>` for a tab; refuses `no`; writes what comes after `raw` as it is;
# ends at `end`; and prints nothing for every other line.
TOLD = r"""
import sys
for number, line in enumerate(sys.stdin.buffer, 1):
    word, _, rest = line.rstrip(b"\n").partition(b" ")
    text = rest.replace(b"/", b"\n").replace(b">", b"\t")
    if word == b"end":
        sys.exit(6)
    frame = b"= 0\n"
    if word == b"say":
        frame = b"= %d\n%s" % (len(text) + 1, text + b"\n")
    elif word == b"no":
        text = b"refused %d 4 word\n" % number
        frame = b"! %d\n%s" % (len(text), text)
    elif word == b"raw":
        frame = text
    sys.stdout.buffer.write(frame)
    sys.stdout.buffer.flush()
sys.exit(5)
"""


def told() -> List[str]:
    """The command of the small program."""
    return [sys.executable, "-c", TOLD]


def beside(*words: str, **given: str) -> "subprocess.CompletedProcess[str]":
    """Runs beside with these arguments and variables."""
    command = [sys.executable, str(HERE.parent / "beside.py"), *words]
    return subprocess.run(command, env={**os.environ, **given}, capture_output=True, text=True)


class ServedTest(unittest.TestCase):
    def test_a_line_is_answered_at_once(self) -> None:
        with served.Served(told()) as machine:
            machine.begin()
            self.assertEqual(machine.say("say one/two"), "one\ntwo\n")
            self.assertEqual(machine.say("clock 1 2"), "")
            self.assertEqual(machine.answer(b"say \xff\xfe"), served.Answer(True, b"\xff\xfe\n"))

    def test_a_refused_line_raises_and_the_next_is_answered(self) -> None:
        with served.Served(told()) as machine:
            with self.assertRaises(gpioserve.Refused) as caught:
                machine.say("no tea")
            self.assertEqual((caught.exception.line, caught.exception.column, caught.exception.kind), (1, 4, "word"))
            self.assertEqual(machine.answer(b"no"), served.Answer(False, b"refused 2 4 word\n"))
            self.assertEqual(machine.say("say on"), "on\n")

    def test_close_gives_the_status(self) -> None:
        self.assertEqual(served.Served(told()).close(), 5)

    def test_an_end_before_an_answer_is_said(self) -> None:
        for line in ("end", "raw = 5/abc/"):
            with served.Served(
                [sys.executable, "-c", TOLD.replace("flush()", "flush()\n    if word == b'raw': sys.exit(6)")]
            ) as machine:
                with self.assertRaisesRegex(gpioserve.NotServed, "ended with status 6"):
                    machine.say(line)

    def test_what_is_no_answer_is_shown(self) -> None:
        for text in ("hello/", "= x/", "? 0/", "= -1/", "= 00000000000000000000000000000000000"):
            with served.Served(told()) as machine, self.assertRaisesRegex(gpioserve.NotServed, "begins no answer"):
                machine.say("raw " + text)

    def test_a_program_that_is_missing_is_named(self) -> None:
        with self.assertRaisesRegex(gpioserve.NotServed, "/no/such can't be started"):
            served.Served(["/no/such"])

    def test_a_line_end_inside_a_line_is_no_line(self) -> None:
        with served.Served(told()) as machine, self.assertRaises(ValueError):
            machine.say("clock 1 2\nclock 3 4")


class BesideTest(unittest.TestCase):
    def show(
        self, session: bytes, *words: str, command: Optional[List[str]] = None
    ) -> "subprocess.CompletedProcess[str]":
        """Runs beside over a session."""
        with tempfile.NamedTemporaryFile(suffix=".session") as file:
            file.write(session)
            file.flush()
            self.name = file.name
            return beside(*words, file.name, GPIOSERVED=" ".join(command or [sys.executable, str(self.program)]))

    def setUp(self) -> None:
        folder = tempfile.TemporaryDirectory()
        self.addCleanup(folder.cleanup)
        self.program = Path(folder.name, "told.py")
        self.program.write_text(TOLD)

    def test_what_a_statement_printed_stands_beside_it(self) -> None:
        shown = self.show(b"session 1\n# a comment\nsetup\n\nsay a\nlonger statement\nsay b/>c/d\nsay /e")
        self.assertEqual((shown.returncode, shown.stderr), (0, ""))
        self.assertEqual(
            shown.stdout,
            "session 1\nsetup\nsay a             a\nlonger statement\nsay b/>c/d        b\n"
            "                    c\n                  d\nsay /e\n                  e\n",
        )

    def test_comments_are_kept_where_it_is_asked(self) -> None:
        self.assertEqual(self.show(b"# a comment\n\nsay a\n", "--comments").stdout, "# a comment\n\nsay a  a\n")

    def test_a_long_statement_has_its_text_below(self) -> None:
        shown = self.show(b"say a\nsay a-long-one\nstart\n", "--width", "6")
        self.assertEqual(shown.stdout, "say a  a\nsay a-long-one\n       a-long-one\nstart\n")

    def test_bytes_that_cannot_be_shown_are_escaped(self) -> None:
        self.assertEqual(self.show(b"say \x1b[1m\xff\n").stdout, "say \\x1b[1m\\xff  \\x1b[1m\\xff\n")

    def test_a_refused_line_is_shown_with_a_caret(self) -> None:
        shown = self.show(b"session 1\nno tea\nsay a\n")
        self.assertEqual(
            (shown.returncode, shown.stdout, shown.stderr),
            (3, "", f"beside: {self.name}:2:4: word\n  no tea\n     ^\n"),
        )

    def test_sections_of_actors_are_refused_with_a_reason(self) -> None:
        for words, said in (
            (b"actor a\nsay a\nactor b", "the section `actor`: actors run beside each other"),
            (b"after", "the section `after`: gpioserved answers the statements of `setup` alone"),
            (b"  actor", "the section `actor`: gpioserved answers the statements of `setup` alone"),
        ):
            shown = self.show(b"session 1\nsetup\n" + words + b"\nsay a\n")
            self.assertEqual((shown.returncode, shown.stdout), (3, ""))
            self.assertIn(f"beside: {self.name}:3: {said}", shown.stderr)
        self.assertEqual(self.show(b"say a\n# actor b\nsay actor\n").returncode, 0)

    def test_no_line_that_counts(self) -> None:
        for session in (b"", b"# nothing\n\n"):
            self.assertEqual(
                self.show(session).stderr, f"beside: {self.name}: no line counts; a session begins with `session 1`\n"
            )

    def test_without_the_file_or_the_program(self) -> None:
        shown = self.show(b"say a\n", command=["/no/such"])
        self.assertEqual((shown.returncode, shown.stdout), (1, ""))
        self.assertEqual(shown.stderr, "beside: /no/such isn't there, which GPIOSERVED names\n")
        shown = self.show(b"say a\nend\n")
        self.assertEqual((shown.returncode, shown.stdout), (1, ""))
        self.assertEqual(shown.stderr, "beside: gpioserved ended with status 6 before it answered\n")
        missing = beside("/no/such")
        self.assertEqual(
            (missing.returncode, missing.stderr), (1, "beside: /no/such can't be read: No such file or directory\n")
        )


class MachineTest(unittest.TestCase):
    """Over the program that serves."""

    def setUp(self) -> None:
        try:
            programs.served()
        except gpioserve.NotServed as fault:
            self.skipTest(str(fault))

    def test_answers_of_a_session_are_its_output(self) -> None:
        for session in sorted((TOP / "examples").glob("*.session")):
            lines = session.read_bytes().removesuffix(b"\n").split(b"\n")
            expected = session.with_suffix(".expected")
            if not expected.exists() or any(line.startswith((b"actor", b"after", b"aggregate")) for line in lines):
                continue
            with self.subTest(session=session.name), served.Served() as machine:
                answers = [machine.answer(line) for line in lines]
                refused = [answer.text for answer in answers if not answer.accepted]
                text = refused[0] if refused else b"".join(answer.text for answer in answers)
                self.assertEqual(text, expected.read_bytes())

    def test_the_listing_of_the_button(self) -> None:
        shown = beside(str(TOP / "examples/button.session")).stdout
        self.assertIn("\n".join(shown.splitlines()[:19]), (TOP / "README.md").read_text())
        self.assertIn("gpioinfo -c gpiochip0                     gpiochip0 - 8 lines:\n", shown)


if __name__ == "__main__":
    unittest.main()
