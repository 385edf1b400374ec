"""Tests of what gpioserve does when others hang, die or get in its way. They need serve/out/gpioserve and a gpioserved."""

import fcntl
import os
import shlex
import signal
import struct
import subprocess
import sys
import tempfile
import termios
import time
import unittest
from pathlib import Path
from typing import Callable, List, Optional

HERE = Path(__file__).resolve().parent
TOP = HERE.parent.parent
OUT = HERE.parent / "out"
BOARD = HERE / "board"
# Seconds that anything may take: a machine may be busy.
LIMIT = 120
# Bytes of a page, which is the least that a pipe has.
PAGE = os.sysconf("SC_PAGE_SIZE")

# A command that asks the chip's name again and again. SIGTERM ends it with status 5, once it has printed so.
ASKS = r"""
import fcntl, os, signal, sys, time
def terminated(number, frame):
    os.write(1, b"terminated\n")
    os._exit(5)
signal.signal(signal.SIGTERM, terminated)
chip = os.open("/dev/gpiochip0", os.O_RDWR)
os.write(1, b"begun\n")
while True:
    try:
        fcntl.ioctl(chip, 0x8044B401, bytes(68))
    except OSError as error:
        os.write(1, b"error %d\n" % error.errno)
        while True:
            time.sleep(0.01)
"""

# A command that makes the first file named when SIGTERM comes, and asks the chip's name once the second one is there.
ASKS_LATE = r"""
import fcntl, os, signal, sys, time
signal.signal(signal.SIGTERM, lambda number, frame: open(sys.argv[1], "w").close())
chip = os.open("/dev/gpiochip0", os.O_RDWR)
os.write(1, b"begun\n")
while not os.path.exists(sys.argv[2]):
    time.sleep(0.01)
fcntl.ioctl(chip, 0x8044B401, bytes(68))
"""

# What a command in Python needs to request lines and to say statements: `edges LINE`, `watch LINE`, `say TEXT`.
ASKING = r"""
import fcntl, os, select, signal, socket, struct, sys, time
connection = socket.socket(socket.AF_UNIX, socket.SOCK_SEQPACKET)
connection.connect(os.environ["GPIOSERVE"] + "/socket")
chip = os.open("/dev/gpiochip0", os.O_RDWR)
def say(text):
    connection.send(struct.pack("=IIQII", 4, 0, 0, len(text), 0) + text.encode())
    answer = connection.recv(65560)
    assert struct.unpack_from("=ii", answer) == (0, 0), (text, answer)
    return answer[24:].decode()
def pull(line, up):
    say(f"write gpiochip0/sim_gpio{line}/pull " + ("pull-up" if up else "pull-down"))
def edges(line):
    asked = bytearray(592)
    struct.pack_into("=I", asked, 0, line)
    struct.pack_into("=Q", asked, 288, 4 | 16 | 32)
    struct.pack_into("=I", asked, 560, 1)
    fcntl.ioctl(chip, 0xC250B407, asked)
    return struct.unpack_from("=i", asked, 588)[0]
def watch(line):
    file = os.open("/dev/gpiochip0", os.O_RDWR)
    asked = bytearray(256)
    struct.pack_into("=I", asked, 64, line)
    fcntl.ioctl(file, 0xC100B406, asked)
    return file
"""


def served() -> str:
    """The program that serves, as one path."""
    named = os.environ.get("GPIOSERVED")
    return shlex.split(named)[0] if named else str(TOP / "crates/gpioserved/out/gpioserved")


def waiting_in(pipe: int) -> int:
    """How many bytes wait in a pipe."""
    (count,) = struct.unpack("=i", fcntl.ioctl(pipe, termios.FIONREAD, bytes(4)))
    return int(count)


def wait_until(holds: Callable[[], bool]) -> bool:
    """Waits until something holds; whether it did within the limit."""
    end = time.monotonic() + LIMIT
    while time.monotonic() < end:
        if holds():
            return True
        time.sleep(0.01)
    return False


class BrokerTest(unittest.TestCase):
    """Runs of gpioserve, each with a folder of its own."""

    def setUp(self) -> None:
        self.room = tempfile.TemporaryDirectory()
        self.addCleanup(self.room.cleanup)
        self.folder = Path(self.room.name)
        (self.folder / "tmp").mkdir()
        self.environment = {**os.environ, "TMPDIR": str(self.folder / "tmp")}

    def start(self, *words: str, command: Optional[List[str]] = None) -> "subprocess.Popen[str]":
        """Starts gpioserve with these options, and a command that asks where no other is named."""
        said = open(self.folder / "said", "w")
        self.addCleanup(said.close)
        broker = subprocess.Popen(
            [str(OUT / "gpioserve"), "-b", str(BOARD), *words, "--", *(command or [sys.executable, "-c", ASKS])],
            stdin=subprocess.DEVNULL,
            stdout=said,
            stderr=subprocess.STDOUT,
            env=self.environment,
            text=True,
        )
        self.addCleanup(self.end, broker)
        return broker

    def end(self, broker: "subprocess.Popen[str]") -> None:
        """Kills what a test left running."""
        if broker.poll() is None:
            broker.kill()
            broker.wait()

    def said(self) -> str:
        """What gpioserve and the command printed so far."""
        return (self.folder / "said").read_text()

    def begun(self) -> None:
        """Waits until the command has begun."""
        self.assertTrue(wait_until(lambda: "begun\n" in self.said()), self.said())

    def status(self, broker: "subprocess.Popen[str]") -> int:
        """The status that gpioserve ends with. Nothing of it is left behind."""
        try:
            status = broker.wait(LIMIT)
        except subprocess.TimeoutExpired:
            self.fail(f"gpioserve does not end; it said {self.said()!r}")
        self.assertEqual(list((self.folder / "tmp").iterdir()), [])
        return status

    def stoppable(self) -> List[str]:
        """Options by which the process number of the served program is known, which `number` gives."""
        script = self.folder / "served"
        script.write_text(f"#!/bin/sh\necho $$ >{self.folder}/number\nexec {shlex.quote(served())}\n")
        script.chmod(0o755)
        return ["--served", str(script)]

    def number(self) -> int:
        """The process number of the served program, once the command has begun."""
        return int((self.folder / "number").read_text())


class HangingTest(BrokerTest):
    """Others that neither end nor go on."""

    def test_a_served_program_that_hangs_ends_the_run_in_time(self) -> None:
        broker = self.start(*self.stoppable(), "--answer-timeout", "2")
        self.begun()
        os.kill(self.number(), signal.SIGSTOP)
        self.assertEqual(self.status(broker), 124)
        self.assertIn("the served program hangs: it did not answer for 2 seconds, and was ended", self.said())
        self.assertIn("terminated\n", self.said())

    def test_the_handler_of_sigterm_runs_where_the_served_program_dies_in_the_midst_of_a_call(self) -> None:
        broker = self.start(*self.stoppable())
        self.begun()
        os.kill(self.number(), signal.SIGKILL)
        self.assertEqual(self.status(broker), 124)
        self.assertIn("terminated\n", self.said())

    def test_a_served_program_that_hangs_before_the_command_begins(self) -> None:
        script = self.folder / "served"
        script.write_text("#!/bin/sh\nexec sleep 1000\n")
        script.chmod(0o755)
        broker = self.start("--served", str(script), "--answer-timeout", "1")
        self.assertEqual(self.status(broker), 125)
        self.assertIn("hangs: it did not answer for 1 seconds, and was ended before the command began", self.said())

    def test_sigterm_ends_a_run_whose_served_program_hangs(self) -> None:
        broker = self.start(*self.stoppable(), "--answer-timeout", "0")
        self.begun()
        os.kill(self.number(), signal.SIGSTOP)
        broker.terminate()
        self.assertEqual(self.status(broker), 124)
        self.assertIn("the served program hangs: it did not answer when a signal came", self.said())
        self.assertIn("terminated\n", self.said())

    def test_sigterm_that_came_before_a_call_ends_the_wait_for_its_answer(self) -> None:
        came, stopped = self.folder / "came", self.folder / "stopped"
        command = [sys.executable, "-c", ASKS_LATE, str(came), str(stopped)]
        broker = self.start(*self.stoppable(), "--answer-timeout", "0", command=command)
        self.begun()
        broker.terminate()
        self.assertTrue(wait_until(came.exists))
        os.kill(self.number(), signal.SIGSTOP)
        stopped.touch()
        self.assertEqual(self.status(broker), 124)
        self.assertIn("the served program hangs: it did not answer when a signal came", self.said())

    def test_a_served_program_that_was_stopped_for_a_while_goes_on(self) -> None:
        broker = self.start(*self.stoppable(), "--answer-timeout", "100")
        self.begun()
        os.kill(self.number(), signal.SIGSTOP)
        time.sleep(1.5)
        os.kill(self.number(), signal.SIGCONT)
        broker.terminate()
        self.assertEqual(self.status(broker), 5)
        self.assertEqual(self.said(), "begun\nterminated\n")

    def unread(self) -> int:
        """Makes a pipe of one page at `pipe`, which nobody reads: its reading end."""
        os.mkfifo(self.folder / "pipe")
        reader = os.open(self.folder / "pipe", os.O_RDONLY | os.O_NONBLOCK)
        self.addCleanup(os.close, reader)
        fcntl.fcntl(reader, fcntl.F_SETPIPE_SZ, PAGE)
        return reader

    def test_sigterm_while_nobody_reads_the_transcript(self) -> None:
        reader, pipe = self.unread(), self.folder / "pipe"
        broker = self.start("-t", str(pipe), "--answer-timeout", "0")
        self.begun()
        self.assertTrue(wait_until(lambda: waiting_in(reader) > PAGE - 300))
        time.sleep(0.5)
        broker.terminate()
        self.assertEqual(self.status(broker), 125)
        self.assertIn(f"nobody reads {pipe}: from here on it isn't written", self.said())
        self.assertIn("terminated\n", self.said())

    def test_nobody_reads_the_transcript_for_too_long(self) -> None:
        self.unread()
        pipe = self.folder / "pipe"
        script = ASKING + "for turn in range(200): say('gpioinfo -c 0')"
        broker = self.start("-a", str(pipe), "--answer-timeout", "1", command=[sys.executable, "-c", script])
        self.assertEqual(self.status(broker), 125)
        self.assertIn(f"nobody reads {pipe}: from here on it isn't written", self.said())

    def test_sigterm_while_a_pipe_is_opened(self) -> None:
        for option in ("-t", "-w", "-b"):
            pipe = self.folder / f"pipe{option}"
            os.mkfifo(pipe)
            broker = self.start(option, str(pipe))
            time.sleep(0.2)
            broker.terminate()
            self.assertEqual(self.status(broker), -signal.SIGTERM)


class LookingTest(BrokerTest):
    """Which files are looked at after a statement."""

    def polls(self, script: str) -> List[str]:
        """The looks that stand in the transcript of a command, since it printed a line `looks`."""
        (self.folder / "board").write_text("probe big 256\n")
        transcript = self.folder / "transcript"
        broker = self.start(
            "-b", str(self.folder / "board"), "-t", str(transcript), command=[sys.executable, "-c", ASKING + script]
        )
        self.assertEqual(self.status(broker), 0, self.said())
        lines = transcript.read_text().split("\n")
        return [line for line in lines[lines.index("# looks") :] if line.startswith("poll ")]

    def test_a_pull_looks_at_the_requests_of_its_line(self) -> None:
        looked = self.polls(
            """
files = [edges(line) for line in range(240)]
say("# looks")
for turn in range(10):
    pull(7, turn % 2 == 0)
assert len(os.read(files[7], 4800)) == 480
"""
        )
        self.assertEqual(len(set(looked)), 1)
        self.assertLessEqual(len(looked), 12)

    def test_an_edge_triggered_reader_that_never_reads_is_woken_by_each_event(self) -> None:
        broker = self.start(
            command=[
                sys.executable,
                "-c",
                ASKING
                + """
import select
waiter, held = select.epoll(), edges(1)
waiter.register(held, select.EPOLLIN | select.EPOLLET)
woken = 0
for turn in range(2500):
    pull(1, turn % 2 == 0)
    woken += len(waiter.poll(0))
print(woken, len(os.read(held, 48000)), len(waiter.poll(0)))
""",
            ]
        )
        self.assertEqual(self.status(broker), 0)
        self.assertEqual(self.said(), f"2500 {16 * 48} 0\n")

    def test_a_request_looks_at_the_watches_of_its_line(self) -> None:
        looked = self.polls(
            """
files = [watch(line) for line in range(60)] + [edges(line) for line in range(100, 200)]
say("# looks")
held = edges(7)
os.close(held)
assert len(os.read(files[7], 288 * 4)) == 288 * 2
"""
        )
        self.assertEqual(len(set(looked)), 1)
        self.assertLessEqual(len(looked), 4)


# A command that leaves a daemon behind, in a session of its own and without the files that the command has, and ends with
# status 3. The daemon requests line 3; it ends once it has read an event, or by SIGTERM, and says so in a file.
LEAVES = """
def say_end(how):
    with open(sys.argv[1], "a") as end:
        end.write(how + "\\n")
    os._exit(0)
command = os.getpid()
if os.fork() != 0:
    os._exit(3)
os.setsid()
if os.fork() != 0:
    os._exit(0)
for number in range(3, 256):
    try:
        os.close(number)
    except OSError:
        pass
signal.signal(signal.SIGTERM, lambda number, frame: say_end("terminated"))
# (a signal that comes between Python's last look and a read would be seen after the read alone)
woken, wakes = os.pipe()
os.set_blocking(wakes, False)
signal.set_wakeup_fd(wakes)
while os.path.exists(f"/proc/{command}"):
    time.sleep(0.01)
try:
    chip = os.open("/dev/gpiochip0", os.O_RDWR)
    file = edges(3)
    select.select([file, woken], [], [])
    os.read(file, 48)
    say_end("an event")
except OSError as error:
    while sys.argv[2] == "stays":
        time.sleep(0.01)
    say_end(f"error {error.errno}")
"""


class DaemonsTest(BrokerTest):
    """What the command leaves behind."""

    def leave(self, *words: str, after_an_error: str = "ends") -> "subprocess.Popen[str]":
        """Runs the command that leaves a daemon, which ends after an error, or stays."""
        return self.start(
            "--folder",
            str(self.folder / "run"),
            *words,
            command=[sys.executable, "-c", ASKING + LEAVES, str(self.folder / "end"), after_an_error],
        )

    def say(self, text: str) -> int:
        """The status of gpiosay."""
        words = [str(OUT / "gpiosay"), "--folder", str(self.folder / "run"), text]
        return subprocess.run(words, capture_output=True).returncode

    def daemon_end(self) -> str:
        """How the daemon ended."""
        end = self.folder / "end"
        self.assertTrue(wait_until(lambda: end.exists() and end.read_text().endswith("\n")))
        return end.read_text()

    def wait_until_held(self, broker: "subprocess.Popen[str]") -> None:
        """Waits until the daemon holds its line, which it can't once gpioserve has ended."""
        waited = "wait held gpiochip0 3 within 100ms"
        self.assertTrue(wait_until(lambda: broker.poll() is not None or self.say(waited) == 0))
        self.assertIsNone(broker.poll(), "gpioserve has ended")

    def test_a_run_goes_on_until_the_daemon_has_ended(self) -> None:
        broker = self.leave("--daemons", "-t", str(self.folder / "transcript"))
        self.wait_until_held(broker)
        self.assertEqual(self.say("write gpiochip0/sim_gpio3/pull pull-up"), 0)
        self.assertEqual(self.status(broker), 3)
        self.assertEqual(self.daemon_end(), "an event\n")
        self.assertIn("close lines.", (self.folder / "transcript").read_text())

    def test_a_new_machine_is_no_daemon(self) -> None:
        (self.folder / "empty").write_text("")
        script = """
for turn in range(2):
    say("probe some 4")
    say("unplug gpiochip0")
"""
        asking = ASKING.replace('chip = os.open("/dev/gpiochip0", os.O_RDWR)', "")
        words = ["-b", str(self.folder / "empty"), "--each", "--daemons"]
        broker = self.start(*words, command=[sys.executable, "-c", asking + script])
        self.assertEqual(self.status(broker), 0, self.said())

    def test_sigterm_ends_the_daemon_that_the_command_left(self) -> None:
        broker = self.leave("--daemons")
        self.wait_until_held(broker)
        broker.terminate()
        self.assertEqual(self.status(broker), 3)
        self.assertEqual(self.daemon_end(), "terminated\n")

    def test_a_daemon_is_ended_with_the_served_program(self) -> None:
        broker = self.leave("--daemons", *self.stoppable())
        self.wait_until_held(broker)
        os.kill(self.number(), signal.SIGKILL)
        self.assertEqual(self.status(broker), 124)
        self.assertIn(self.daemon_end(), ("terminated\n", "error 19\n"))

    def test_a_daemon_that_stays_is_ended_by_sigterm(self) -> None:
        broker = self.leave("--daemons", *self.stoppable(), after_an_error="stays")
        self.wait_until_held(broker)
        os.kill(self.number(), signal.SIGKILL)
        self.assertEqual(self.status(broker), 124)
        self.assertEqual(self.daemon_end(), "terminated\n")

    def test_without_the_option_the_run_ends_with_the_command(self) -> None:
        broker = self.leave()
        self.assertEqual(self.status(broker), 3)
        self.assertEqual(self.daemon_end(), "error 19\n")


class StatusTest(BrokerTest):
    """What gpioserve says and ends with where something is wrong."""

    def test_a_full_disk_is_seen_whatever_the_status_of_the_command(self) -> None:
        for status in (0, 3):
            broker = self.start("-t", "/dev/full", command=["sh", "-c", f"exit {status}"])
            self.assertEqual(self.status(broker), 125)
            self.assertIn("/dev/full can't be written from here on: No space left on device", self.said())
            self.assertIn(f"that of the command was {status}", self.said())

    def test_a_report_goes_to_no_file_where_standard_error_is_closed(self) -> None:
        transcript = self.folder / "transcript"
        words = f"-b {shlex.quote(str(BOARD))} -t {transcript} -w {self.folder}/none/waves"
        run = ["sh", "-c", f"exec {shlex.quote(str(OUT / 'gpioserve'))} {words} -- true <&- >&- 2>&-"]
        self.assertEqual(subprocess.run(run, env=self.environment).returncode, 125)
        self.assertNotIn("gpioserve:", transcript.read_text())

    def test_the_command_finds_a_stream_closed_that_was(self) -> None:
        ask = f"exec {shlex.quote(str(OUT / 'gpioserve'))} -- sh -c 'test ! -e /proc/self/fd/0' <&-"
        self.assertEqual(subprocess.run(["sh", "-c", ask], env=self.environment).returncode, 0)

    def test_blanks_in_both_folders_are_refused(self) -> None:
        beside, other = self.folder / "a b", self.folder / "c d"
        beside.mkdir()
        other.mkdir()
        for name in ("gpioserve", "libgpioserve.so"):
            (beside / name).write_bytes((OUT / name).read_bytes())
            (beside / name).chmod(0o755)
        words = [str(beside / "gpioserve"), "--served", served(), "-b", str(BOARD), "--", "ls", "/dev/gpiochip0"]
        run = subprocess.run(words, env={**self.environment, "TMPDIR": str(other)}, capture_output=True, text=True)
        self.assertEqual(run.returncode, 125, run.stdout)
        self.assertIn("the library can't be preloaded, since its folder and", run.stderr)


# A machine with 30,720 lines, of which `gpioinfo` prints a megabyte.
FULL = "".join(f"probe x{chip} 512\n" for chip in range(60))
# What a command needs for answers of which a packet has no room: `connect()`, `send(CONNECTION, TEXT)`, `take(CONNECTION)`.
LARGE = """
import select
def connect():
    made = socket.socket(socket.AF_UNIX, socket.SOCK_SEQPACKET)
    made.connect(os.environ["GPIOSERVE"] + "/socket")
    return made
def send(connection, text):
    connection.send(struct.pack("=IIQII", 4, 0, 0, len(text), 0) + text.encode())
def take(connection):
    "The error's number, the length that the answer says, and that of the file; None at the connection's end."
    try:
        answer, files, _, _ = socket.recv_fds(connection, 65560, 1)
    except ConnectionResetError:
        return None
    if not answer:
        return None
    size = os.fstat(files[0]).st_size if files else 0
    for file in files:
        os.close(file)
    return struct.unpack_from("=i", answer, 4)[0], struct.unpack_from("=I", answer, 16)[0], size
"""


class GreedyTest(BrokerTest):
    """Clients that ask for more than others leave them."""

    def run_full(self, script: str, *words: str) -> str:
        """What a script prints that is run as a command on the full machine."""
        (self.folder / "board").write_text(FULL)
        broker = self.start(
            "-b", str(self.folder / "board"), *words, command=[sys.executable, "-c", ASKING + LARGE + script]
        )
        self.assertEqual(self.status(broker), 0, self.said())
        return self.said()

    def test_a_large_answer_that_is_not_taken_is_the_last(self) -> None:
        said = self.run_full(
            """
whole = connect()
for turn in range(3):
    send(whole, "gpioinfo")
    error, length, size = take(whole)
    assert error == 0 and length == size > 1000000
greedy = connect()
for turn in range(3):
    send(greedy, "gpioinfo")
ended = select.poll()
ended.register(greedy, 0)
assert ended.poll()
answers = [take(greedy) for turn in range(2)]
print(answers[0][2], answers[1])
"""
        )
        self.assertEqual(said, "0 None\n")

    def test_large_answers_that_nobody_takes_have_a_limit(self) -> None:
        said = self.run_full(
            """
greedy = [connect() for turn in range(80)]
for one in greedy:
    send(one, "gpioinfo")
last = None
while last is None or last[0] == 0:
    last = take(greedy.pop())
kept = greedy[:5]
for one in greedy[5:]:
    one.close()
say("gpiodetect")
again = connect()
send(again, "gpioinfo")
print(last, take(again)[0], [take(one)[0] for one in kept])
"""
        )
        self.assertEqual(said, "(12, 0, 0) 0 [0, 0, 0, 0, 0]\n")

    def test_nobody_waits_for_more_than_one_large_answer(self) -> None:
        transcript = self.folder / "transcript"
        self.run_full(
            """
held, child = edges(1), os.fork()
if child == 0:
    greedy = [connect() for turn in range(12)]
    for turn in range(4):
        for one in greedy:
            send(one, "gpioinfo")
        for one in greedy:
            assert take(one)[0] == 0
    os._exit(0)
while os.waitpid(child, os.WNOHANG)[0] == 0:
    fcntl.ioctl(chip, 0x8044B401, bytes(68))
""",
            "-t",
            str(transcript),
        )
        lines = [line for line in transcript.read_text().split("\n") if line[:8] in ("gpioinfo", "ioctl ch")]
        between = "".join("i" if line == "gpioinfo" else "." for line in lines).strip(".").split(".")
        waits = sorted(len(part) for part in between if part)
        self.assertGreater(len(waits), 20)
        self.assertEqual(waits[len(waits) // 2], 1)


if __name__ == "__main__":
    unittest.main()
