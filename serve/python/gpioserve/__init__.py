"""Simulated Linux GPIO chips for tests: a client of gpioserve and of gpioserved.

Machine      runs gpioserve, and starts programs that find its chips
Connection   says statements to a gpioserve that runs already
Served       asks gpioserved alone, over pipes, where no program is to find chips

    from gpioserve import Machine

    with Machine("probe demo 4") as machine:
        daemon = machine.start(["./daemon", "/dev/gpiochip0"])
        machine.until_held(0, 3)              # the daemon has its line
        machine.pull(0, 3, True)              # somebody presses the button
        assert daemon.line() == "LED is on"
        assert machine.value(0, 1) == 1

docs/SERVING.md lists what can be said, and docs/FORMATS.md the statements. `gpioserve.pytest_plugin` has the fixtures.
"""

from .connection import Connection, World
from .errors import MachineError, NotServed, NotStarted, Refused, WaitFailed, WaitTimeout
from .machine import Machine, Program
from .programs import version
from .served import Answer, Served

__version__ = version()
__all__ = [
    "Answer",
    "Connection",
    "Machine",
    "MachineError",
    "NotServed",
    "NotStarted",
    "Program",
    "Refused",
    "Served",
    "WaitFailed",
    "WaitTimeout",
    "World",
]
