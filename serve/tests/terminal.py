"""A terminal of tmux for tests: a command runs in it, keys are pressed, and its screen is read."""

import os
import re
import subprocess
import tempfile
import time
from pathlib import Path


class Terminal:
    """A terminal in which a command of the shell runs; its status is printed at its end."""

    def __init__(self, command: str, columns: int, rows: int, limit: float) -> None:
        """Starts it. `limit` has the seconds that a screen may take to change."""
        self.limit = limit
        self._folder = tempfile.TemporaryDirectory()
        self._tmux("new-session", "-d", "-x", str(columns), "-y", str(rows), f"{command}; echo status $?; sleep 3600")

    def _tmux(self, *words: str) -> str:
        command = ["tmux", "-S", f"{self._folder.name}/socket", "-f", "/dev/null", *words]
        environment = {name: value for name, value in os.environ.items() if name != "TMUX"}
        done = subprocess.run(
            command, stdout=subprocess.PIPE, text=True, env=environment, check=True, timeout=self.limit
        )
        return done.stdout

    def screen(self, with_looks: bool = False) -> str:
        """What stands on the terminal, without blanks at the ends of lines; on demand with attributes and colours."""
        looks = ["-e"] if with_looks else []
        return "\n".join(row.rstrip() for row in self._tmux("capture-pane", "-p", *looks).split("\n"))

    def until(self, pattern: str) -> str:
        """The first screen that has a match. The limit begins anew with each change of the screen."""
        before, end = "", 0.0
        while True:
            screen = self.screen()
            if re.search(pattern, screen, re.M):
                return screen
            if screen != before:
                before, end = screen, time.monotonic() + self.limit
            if time.monotonic() > end:
                raise AssertionError(f"for {self.limit} s there is no {pattern!r} in\n{screen}")
            time.sleep(0.02)

    def keys(self, *keys: str) -> None:
        """Presses keys, as tmux names them."""
        self._tmux("send-keys", *keys)

    def signal(self, number: int) -> None:
        """Sends a signal to the command."""
        shell = self._tmux("display-message", "-p", "#{pane_pid}").strip()
        os.kill(int(Path(f"/proc/{shell}/task/{shell}/children").read_text().split()[0]), number)

    def resize(self, columns: int, rows: int) -> None:
        """Gives the terminal another size, as a user does at a window's edge."""
        self._tmux("resize-window", "-x", str(columns), "-y", str(rows))

    def close(self) -> None:
        """Ends the command and the terminal."""
        self._tmux("kill-server")
        self._folder.cleanup()
