"""The daemon of examples/bench: each press of a button switches an LED. See docs/TESTING.md."""

import errno

import pytest

from conftest import PANEL
from gpioserve import MachineError

manual = pytest.mark.gpio(clock="manual")


def press(gpio) -> None:
    """Presses the button for half a second."""
    gpio.pull(0, 0, True)
    gpio.clock(milliseconds=500)
    gpio.pull(0, 0, False)
    gpio.clock(milliseconds=500)


@manual
def test_each_press_switches_the_led(gpio, daemon):
    for level, said in ((1, "LED is on"), (0, "LED is off"), (1, "LED is on")):
        press(gpio)
        assert (daemon.line(), gpio.value(0, 1)) == (said, level)
    assert daemon.stop() == 0


@manual
def test_a_bounce_is_one_press(gpio, daemon):
    for down in (True, False, True, False, True):
        gpio.clock(milliseconds=3)
        gpio.pull(0, 0, down)
    gpio.clock(microseconds=9_999)
    assert gpio.value(0, 1) == 0
    gpio.clock(microseconds=1)
    assert (daemon.line(), gpio.value(0, 1)) == ("LED is on", 1)


@manual
def test_a_knock_is_no_press(gpio, daemon):
    gpio.pull(0, 0, True)
    gpio.clock(microseconds=9_999)
    gpio.pull(0, 0, False)
    gpio.clock(seconds=1)
    press(gpio)
    assert (daemon.line(), gpio.value(0, 1)) == ("LED is on", 1)


@manual
def test_the_daemon_reads_each_event(gpio, daemon):
    with gpio.reading(0, 0):
        press(gpio)
    gpio.until_level(0, 1, 1)


def test_with_the_clocks_of_the_system(gpio, daemon):
    gpio.pull(0, 0, True)
    gpio.until_level(0, 1, 1)
    assert daemon.line() == "LED is on"


def test_its_lines_are_its_own(gpio, daemon):
    with pytest.raises(MachineError) as caught:
        gpio.say("gpioset LED=on")
    assert caught.value.errno == errno.EBUSY


def test_the_cable_is_pulled(gpio, daemon):
    gpio.say("write panel/live 0")
    assert daemon.line() == "powerbutton: /dev/gpiochip0 is gone"
    assert daemon.wait(30) == 3


@manual
def test_a_driver_that_fails_at_a_press(gpio, daemon):
    gpio.fault()
    press(gpio)
    assert (daemon.line(), gpio.value(0, 1)) == ("powerbutton: LED can't be switched: Input/output error", 0)


@pytest.mark.parametrize("gpio_board, name", [(PANEL + "fault 1", "POWER"), (PANEL + "fault 2", "LED")])
def test_a_driver_that_fails_at_the_start(gpio, begun, name):
    assert begun.line() == f"powerbutton: {name} can't be had: Input/output error"
    assert begun.wait(30) == 1
