"""What gpioserved answers: tests over pipes. The last line is `N passed, M failed`."""
import os
import shutil
import subprocess
import sys
import tempfile
import threading
import unittest
from pathlib import Path
from typing import IO, Iterator, List, Tuple

from gpioserve import Refused, Served
from gpioserve.programs import served as program
from gpioserve.served import LINE_MAX

TOP = Path(__file__).resolve().parent.parent
VERSION = (TOP / "VERSION").read_text().strip()
FOLDERS = ("examples", "checks/rows")
MANY = 1_000_000
# what a machine and its open files take at most, in kilobytes
MEMORY = 8192
# sessions that are served with each allocation refused in turn
SHORT_OF_MEMORY = ("one-chip", "led", "watch")
# plays sessions in memory: there a line to which memory was refused is given again
RUNS = TOP / "crates/gl_session_runs/out/gl_session_runs"


def folder_sessions(status: int) -> Iterator[Tuple[Path, List[str]]]:
    """The sessions without words that end with a status."""
    for folder in FOLDERS:
        for path in sorted((TOP / folder).glob("*.session")):
            told = path.with_suffix(".status")
            if not path.with_suffix(".words").is_file() and (int(told.read_text()) if told.is_file() else 0) == status:
                yield path, path.read_text(errors="surrogateescape").removesuffix("\n").split("\n")


def has_sections(lines: List[str]) -> bool:
    """It has an `actor` or an `after`."""
    return any(line.split()[:1] in (["actor"], ["after"]) for line in lines)


def joins_lines(lines: List[str]) -> bool:
    """It has an `aggregate`, which is refused where a session is served."""
    return any(line.split()[:1] == ["aggregate"] for line in lines)


def sessions() -> Iterator[Tuple[Path, List[str]]]:
    """The sessions that run, have a `setup` alone, and print the same where they are served."""
    for path, lines in folder_sessions(0):
        if not has_sections(lines) and not joins_lines(lines):
            yield path, lines


def answers_in(frames: bytes) -> List[Tuple[bytes, bytes]]:
    """What whole frames hold, each by its mark and its text. ValueError where they aren't whole."""
    answers = []
    while frames:
        head, frames = frames.split(b"\n", 1)
        mark, length = head.split(b" ")
        if len(frames) < int(length):
            raise ValueError("a frame is cut off")
        answers.append((mark, frames[: int(length)]))
        frames = frames[int(length) :]
    return answers


def answered(lines: List[bytes]) -> Tuple[List[Tuple[bytes, bytes]], int]:
    """What lines are answered that come in one write, and the status."""
    done = subprocess.run(program(), input=b"\n".join(lines), stdout=subprocess.PIPE, check=False)
    return answers_in(done.stdout), done.returncode


class Lines(unittest.TestCase):
    def test_sessions_line_by_line(self) -> None:
        count = 0
        for path, lines in sessions():
            with self.subTest(session=path.stem):
                with Served() as served:
                    text = "".join(served.say(line) for line in lines)
                self.assertEqual(text, path.with_suffix(".expected").read_text())
            count += 1
        self.assertGreater(count, 20)

    def test_sessions_in_one_write(self) -> None:
        for path, lines in sessions():
            with self.subTest(session=path.stem):
                answers, status = answered([line.encode() for line in lines])
                self.assertEqual([mark for mark, _ in answers], [b"="] * len(lines))
                self.assertEqual(b"".join(text for _, text in answers), path.with_suffix(".expected").read_bytes())
                self.assertEqual(status, 0)

    def test_refused_sessions_are_refused_at_their_line(self) -> None:
        """The first refusal is the session's, where one of its lines has the fault and it has a `setup` alone."""
        count = 0
        for path, lines in folder_sessions(3):
            wanted = path.with_suffix(".expected").read_bytes()
            if has_sections(lines) or not any(lines):
                continue
            with self.subTest(session=path.stem):
                answers, status = answered([line.encode(errors="surrogateescape") for line in lines])
                self.assertEqual([text for mark, text in answers if mark == b"!"][:1], [wanted])
                self.assertEqual(status, 0)
            count += 1
        self.assertGreater(count, 5)

    def test_long_lines(self) -> None:
        refusal = f"refused 3 {LINE_MAX + 1} limit\n".encode()
        for length, answer in ((LINE_MAX - 1, b""), (LINE_MAX, b""), (LINE_MAX + 1, refusal), (100_000, refusal)):
            answers, _ = answered([b"session 1", b"setup", b"#" + b" " * (length - 1), b"gpiodetect"])
            self.assertEqual(answers[2], (b"!" if answer else b"=", answer))
            self.assertEqual(answers[3], (b"=", b""))

    def test_names_of_any_bytes(self) -> None:
        """Each byte but 0 stands in a label that is listed."""
        every = bytes(range(1, 256))
        labels = [every[at : at + 31] for at in range(0, len(every), 31)]
        statements = [f"probe \\{label.hex()} 1".encode() for label in labels]
        lists = [f"gpiodetect {place}".encode() for place in range(len(labels))]
        answers, status = answered([b"session 3", b"setup", *statements, *lists])
        wanted = [b"gpiochip%d [%s] (1 lines)\n" % (place, label) for place, label in enumerate(labels)]
        self.assertEqual([mark for mark, _ in answers], [b"="] * len(answers))
        self.assertEqual([text for _, text in answers[2 + len(labels) :]], wanted)
        self.assertEqual(status, 0)

    def test_refused_lines_count_as_not_given(self) -> None:
        lines = [
            b"setup",
            b"session 1",
            b"gpiodetect",
            b"setup",
            b"actor a",
            b"after",
            b"probe x 0",
            b"aggregate x 0/1",
            b"nonsense",
            b"gpiodetect",
        ]
        refused = [
            b"refused 1 1 header\n",
            b"",
            b"refused 3 1 section\n",
            b"",
            b"refused 5 1 section\n",
            b"refused 6 1 section\n",
            b"refused 7 9 word\n",
            b"refused 8 13 word\n",
            b"refused 9 1 statement\n",
            b"",
        ]
        self.assertEqual([text for _, text in answered(lines)[0]], refused)

    def test_questions(self) -> None:
        with Served() as served:
            served.begin()
            served.say("probe demo 4")
            served.say("open chip gpiochip0")
            self.assertEqual(served.say("due"), "-\n")
            self.assertEqual(served.say("data chip 288"), "EAGAIN\n")
            self.assertEqual(served.say("data other 288"), "EBADF\n")
            self.assertRaises(Refused, served.say, "data chip")
            self.assertRaises(Refused, served.say, "due 1")

    def test_words(self) -> None:
        """`--help` and `--version` are answered, and any other words are the usage; then nothing is read."""
        for words, status, front in (
            (["--help"], 0, b"gpioserved: "),
            (["--hel"], 2, b"usage\n"),
            (["--help", "me"], 2, b"usage\n"),
            (["\udcff"], 2, b"usage\n"),
        ):
            with self.subTest(words=words):
                done = subprocess.run([*program(), *words], input=b"session 1\n", stdout=subprocess.PIPE, check=False)
                self.assertEqual((done.returncode, done.stdout[: len(front)]), (status, front))
                self.assertEqual(done.stdout == front, status == 2)
        for words, status, text in ((["--version"], 0, f"gpioserved {VERSION}\n"), (["--version", "me"], 2, "usage\n")):
            with self.subTest(words=words):
                done = subprocess.run(
                    [*program(), *words], input="session 1\n", stdout=subprocess.PIPE, text=True, check=False
                )
                self.assertEqual((done.returncode, done.stdout), (status, text))

    def test_many_lines_in_the_memory_of_few(self) -> None:
        turn = b"open chip gpiochip0\npoll chip\ngpioget -c 0 1\nclose chip\n"
        wanted = b'= 0\n= 2\n-\n= 13\n"1"=inactive\n= 0\n'
        with subprocess.Popen(program(), stdin=subprocess.PIPE, stdout=subprocess.PIPE) as process:
            assert process.stdin is not None and process.stdout is not None
            process.stdin.write(b"session 1\nsetup\nprobe demo 4\n")
            process.stdin.flush()
            self.assertEqual(process.stdout.read(12), b"= 0\n" * 3)
            writer = threading.Thread(target=give, args=(process.stdin, turn * 1000, MANY // 4000))
            writer.start()
            for _ in range(MANY // 4000):
                self.assertTrue(process.stdout.read(1000 * len(wanted)) == wanted * 1000)
            status = Path(f"/proc/{process.pid}/status").read_text()
            writer.join()
            process.stdin.close()
            peak = [int(line.split()[1]) for line in status.split("\n") if line.startswith("VmHWM")]
            self.assertLess(peak[0], MEMORY)


class ShortOfMemory(unittest.TestCase):
    """Sessions that are served while one allocation after another is refused."""

    def setUp(self) -> None:
        compiler = shutil.which("cc")
        if compiler is None:
            self.skipTest("there is no cc")
        folder = tempfile.TemporaryDirectory()
        self.addCleanup(folder.cleanup)
        self.library, self.count = Path(folder.name) / "refuse.so", Path(folder.name) / "count"
        subprocess.run(
            [compiler, "-shared", "-fPIC", "-O1", "-o", self.library, TOP / "serve/tests/refuse.c"], check=True
        )

    def runs(self, command: List[str], text: bytes) -> Iterator["subprocess.CompletedProcess[bytes]"]:
        """A run in which nothing is refused, and one for each allocation that it made, which is refused there."""
        yield self.refusing(command, text, 0)
        for number in range(1, int(self.count.read_text()) + 1):
            yield self.refusing(command, text, number)

    def refusing(self, command: List[str], text: bytes, number: int) -> "subprocess.CompletedProcess[bytes]":
        """A run in which the allocation of a number is refused, counted from 1; 0 is none. How many it made is in `count`."""
        env = {**os.environ, "LD_PRELOAD": str(self.library), "FAILS": str(number), "COUNT": str(self.count)}
        return subprocess.run(command, input=text, stdout=subprocess.PIPE, check=False, env=env)

    def test_each_allocation_refused(self) -> None:
        """It ends with status 6 after whole frames, which are the first of what it would have written; or it is not missed."""
        for name in SHORT_OF_MEMORY:
            whole, *runs = self.runs(program(), (TOP / "examples" / f"{name}.session").read_bytes())
            missed = 0
            for number, done in enumerate(runs, 1):
                with self.subTest(session=name, allocation=number):
                    answers_in(done.stdout)
                    if done.returncode == 6:
                        missed += 1
                        self.assertTrue(whole.stdout.startswith(done.stdout))
                    else:
                        self.assertEqual((done.returncode, done.stdout), (0, whole.stdout))
            self.assertGreater(missed, len(runs) // 2)

    def test_a_line_is_given_again(self) -> None:
        """A line to which memory was refused is answered as it would have been, also where it was begun; then another one waits. Where
        memory is refused outside of an answer, the program that gives the lines says so, or ends."""
        if not os.access(RUNS, os.X_OK):
            self.skipTest(f"{RUNS} isn't built")
        for name in SHORT_OF_MEMORY:
            path = TOP / "examples" / f"{name}.session"
            lines = b"".join(b"|" + line for line in path.read_bytes().splitlines(keepends=True))
            text = path.with_suffix(".expected").read_bytes()
            numbers = []
            for allocation, done in enumerate(self.runs([str(RUNS)], b"session short\n" + lines + b"again\n")):
                with self.subTest(session=name, allocation=allocation):
                    head, _, told = done.stdout.partition(b"\n")
                    if done.returncode == 0 and not head.startswith(b"ENOMEM"):
                        self.assertIn(head, (b"== short 0", b"== short 1", b"== short 2"))
                        self.assertEqual(told, text)
                        numbers.append(int(head[-1:]))
            self.assertEqual(numbers[0], 0)
            self.assertGreater(numbers.count(1), 0)
            self.assertGreater(numbers.count(2), 0)


def give(pipe: IO[bytes], lines: bytes, times: int) -> None:
    """Writes lines so many times."""
    for _ in range(times):
        pipe.write(lines)
    pipe.flush()


def main() -> int:
    loader = unittest.defaultTestLoader
    tests = unittest.TestSuite(
        (loader.loadTestsFromModule(sys.modules[__name__]), loader.discover(str(TOP / "examples/serve"), "button.py"))
    )
    done = unittest.TextTestRunner(verbosity=0).run(tests)
    failed, left_out = len(done.failures) + len(done.errors), len(done.skipped)
    for _, reason in done.skipped:
        print(f"served: a test is left out: {reason}")
    print(f"{max(done.testsRun - left_out - failed, 0)} passed, {failed} failed")
    return 1 if failed else 0


if __name__ == "__main__":
    sys.exit(main())
