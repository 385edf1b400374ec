"""Fixtures of pytest. In the conftest.py at the top of the tests:

    pytest_plugins = ["gpioserve.pytest_plugin"]

gpio         a Machine for each test, in its tmp_path. Its clock is the system's; `@pytest.mark.gpio(clock="manual")`
             has another one, and `@pytest.mark.gpio("probe demo 4")` another board
gpio_board   the board of tests without one of their own: override it for a module or a folder
gpio_sweep   what came of a command at each place at which something can go wrong: a Report. The test's marker is
             `@pytest.mark.gpio_sweep(command, board=.., kinds=["faults", "unplug"], limit=.., timeout=..)`
gpio_chip    in a run as `gpioserve -b board -- pytest ..`: makes a chip for the test, and takes it away after it

Where there is no gpioserve the tests fail, or are skipped with `gpio_missing = skip` in the configuration.
"""

from __future__ import annotations

import itertools
import os
from pathlib import Path
from typing import Any, Callable, Generator, Iterator, Union

import pytest

from .connection import Connection
from .errors import NotServed, NotStarted
from .machine import BOARD, Machine
from .sweep import KINDS, NotSwept, Sweep
from .sweep_report import Report

_labels = itertools.count()


def pytest_addoption(parser: pytest.Parser) -> None:
    """The line of the configuration."""
    parser.addini("gpio_missing", "where there is no gpioserve, tests with `gpio`: fail or skip", default="fail")


def pytest_configure(config: pytest.Config) -> None:
    """The marker."""
    config.addinivalue_line("markers", "gpio(board, clock='system', options=()): the machine of the fixture gpio")
    config.addinivalue_line("markers", "gpio_sweep(command, board, kinds, limit, timeout): the fixture gpio_sweep")


@pytest.hookimpl(hookwrapper=True)  # type: ignore[misc]
def pytest_runtest_makereport(item: pytest.Item, call: "pytest.CallInfo[None]") -> Generator[None, Any, None]:
    """Names what is left of the machine of a test that failed."""
    report = (yield).get_result()
    machine = getattr(item, "funcargs", {}).get("gpio")
    if report.failed and isinstance(machine, Machine):
        rows = (
            f"transcript  {machine.transcript}  (gpiosess < FILE runs it again)",
            f"answers     {machine.answers}",
            f"waves       {machine.waves}  (gpioserve-waves FILE draws it)",
        )
        report.sections.append(("gpioserve", "\n".join(rows)))


@pytest.fixture
def gpio_board() -> Union[str, Path]:
    """The board of tests whose marker names none: statements, or the Path of a file of them."""
    return BOARD


@pytest.fixture
def gpio(request: pytest.FixtureRequest, tmp_path: Path, gpio_board: Union[str, Path]) -> Iterator[Machine]:
    """A machine of simulated chips for this test alone."""
    marker = request.node.get_closest_marker("gpio")
    words, names = (marker.args, dict(marker.kwargs)) if marker else ((), {})
    board = words[0] if words else names.pop("board", gpio_board)
    try:
        machine = Machine(board, folder=tmp_path, **names)
    except NotStarted as fault:
        pytest.fail(f"gpioserve didn't begin: {fault}", pytrace=False)
    except NotServed as fault:
        if request.config.getini("gpio_missing") == "skip":
            pytest.skip(str(fault))
        pytest.fail(str(fault), pytrace=False)
    yield machine
    status = machine.close()
    if status != 0:
        pytest.fail(f"gpioserve ended with status {status}: {machine.errors.read_text()}", pytrace=False)


@pytest.fixture
def gpio_sweep(request: pytest.FixtureRequest, gpio_board: Union[str, Path]) -> Iterator[Report]:
    """What came of the marker's command at each place."""
    marker = request.node.get_closest_marker("gpio_sweep")
    if marker is None or not marker.args:
        pytest.fail("gpio_sweep wants a marker with a command: @pytest.mark.gpio_sweep([..])", pytrace=False)
    how = dict(marker.kwargs)
    names = how.pop("kinds", ("faults", "unplug"))
    kinds = [kind for name in names for kind in KINDS[name]]
    sweep = Sweep(marker.args[0], how.pop("board", gpio_board), kinds, **how)
    try:
        places = sweep.begin()
        yield Report(sweep, list(sweep.outcomes(places)), len(places))
    except NotSwept as fault:
        pytest.fail(str(fault), pytrace=False)
    finally:
        sweep.close()


@pytest.fixture
def gpio_chip() -> Iterator[Callable[..., str]]:
    """Makes a chip in pytest's own process, which runs under gpioserve: a function of its number of lines, to its name.

    A machine has 64 such chips at most. With `gpioserve --each` a new one begins whenever all have gone.
    """
    try:
        connection = Connection()
    except NotServed:
        pytest.skip("not under gpioserve: gpioserve -b board -- pytest ..")
    made = []

    def make(lines: int = 8) -> str:
        """Makes a chip: its name."""
        made.append(connection.plug(f"test{os.getpid()}.{next(_labels)}", lines))
        return made[-1]

    yield make
    for name in made:
        connection.unplug(name)
    connection.close()
