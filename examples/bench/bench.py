"""A bench for powerbutton: the daemon runs as it is over a simulated board, and the bench is the world around it.

It runs `gpioserve` with the board, speaks to the machine by `gpiosay`, and reads what the daemon writes.
"""
import os
import select
import shutil
import subprocess
import tempfile
import time
from pathlib import Path

HERE = Path(__file__).resolve().parent
TOP = HERE.parent.parent
TOOLS = TOP / "serve/out"
DAEMON = HERE / "out/powerbutton"
PATIENCE = 30.0


class Bench:
    """The daemon under gpioserve. Time stands still except where `clock` moves it; with `system` it is the system's."""

    def __init__(self, *board: str, clock: str = "manual") -> None:
        self.folder = Path(tempfile.mkdtemp(prefix="powerbutton."))
        self.served, given = self.folder / "served", self.folder / "board"
        given.write_text((HERE / "board").read_text() + "".join(line + "\n" for line in board))
        self.transcript, self.answers, self.waves = (
            self.folder / name for name in ("transcript", "answers", "waves.vcd")
        )
        self._process = subprocess.Popen(
            [
                TOOLS / "gpioserve",
                "--clock",
                clock,
                "--folder",
                self.served,
                "-b",
                given,
                "-t",
                self.transcript,
                "-a",
                self.answers,
                "-w",
                self.waves,
                "--",
                DAEMON,
                "/dev/gpiochip0",
                "POWER",
                "LED",
            ],
            stdout=subprocess.PIPE,
            stderr=subprocess.STDOUT,
        )
        self._unread = b""
        self.now = 0

    def line(self) -> str:
        """The next line that the daemon writes; an empty one once it has ended."""
        assert self._process.stdout is not None
        until = time.monotonic() + PATIENCE
        while b"\n" not in self._unread:
            if not select.select([self._process.stdout], [], [], max(until - time.monotonic(), 0))[0]:
                raise AssertionError(f"nothing came for {PATIENCE} s")
            data = os.read(self._process.stdout.fileno(), 4096)
            if not data:
                return self._unread.decode()
            self._unread += data
        first, self._unread = self._unread.split(b"\n", 1)
        return first.decode()

    def say(self, *statements: str) -> str:
        """What statements print, by gpiosay."""
        command = [TOOLS / "gpiosay", "--folder", self.served, *statements]
        done = subprocess.run(command, capture_output=True, text=True, timeout=PATIENCE)
        if done.returncode == 2:
            raise AssertionError(done.stderr)
        return done.stdout

    def button(self, down: bool) -> None:
        """Pulls the button's line up, as a press does, or lets it go."""
        self.say(f"write gpiochip0/sim_gpio0/pull {'pull-up' if down else 'pull-down'}")

    def clock(self, microseconds: int) -> None:
        """Moves the clocks on."""
        self.now += microseconds
        self.say(f"clock {self.now * 1000} {self.now * 1000}")

    def press(self) -> None:
        """Presses the button for half a second, without a bounce."""
        self.button(True)
        self.clock(500_000)
        self.button(False)
        self.clock(500_000)

    def led(self) -> int:
        """The level of the LED's line."""
        return int(self.say("read gpiochip0/sim_gpio1/value"))

    def stop(self) -> int:
        """Ends the daemon as a service manager does: its status."""
        self._process.terminate()
        return self.status()

    def status(self) -> int:
        """Waits for the end: the status of gpioserve, which is the daemon's."""
        return self._process.wait(PATIENCE)

    def close(self) -> None:
        """Ends what still runs, and takes the folder away."""
        self._process.terminate()
        self._process.wait(PATIENCE)
        if self._process.stdout is not None:
            self._process.stdout.close()
        shutil.rmtree(self.folder)
