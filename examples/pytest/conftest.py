"""What the tests of this folder share."""

import os
from pathlib import Path

import pytest

pytest_plugins = ["gpioserve.pytest_plugin"]

BENCH = Path(__file__).resolve().parent.parent / "bench"
PANEL = (BENCH / "board").read_text()


@pytest.fixture
def gpio_board() -> str:
    """The front panel: gpiochip0 with the lines POWER, 0, and LED, 1."""
    return PANEL


@pytest.fixture
def begun(gpio):
    """The daemon as it was started. The variable DAEMON names another build of it than that of examples/bench."""
    program = os.environ.get("DAEMON", str(BENCH / "out/powerbutton"))
    return gpio.start([program, "/dev/gpiochip0", "POWER", "LED"])


@pytest.fixture
def daemon(gpio, begun):
    """The daemon, which has its lines."""
    gpio.until_held(0, 1)
    assert begun.line() == "POWER switches LED"
    return begun
