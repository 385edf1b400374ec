"""Tests of gpioserve.pytest_plugin, under pytest: python3 -m pytest -p pytester serve/tests/plugin_test.py

Each runs a small suite as a user writes it, and looks at what pytest says of it. Where the package isn't on PYTHONPATH,
that of this repository is tested.
"""

import os
import shutil
import sys
from pathlib import Path

import pytest

try:
    import gpioserve
except ImportError:
    sys.path.insert(0, str(Path(__file__).resolve().parent.parent / "python"))
    import gpioserve

from gpioserve import programs

pytest_plugins = ["pytester"]
PRESS = """
    import pytest

    @pytest.mark.gpio("probe demo 4", clock="manual")
    def test_a_press(gpio):
        gpio.pull(0, 3, True)
        gpio.clock(seconds=1)
        assert gpio.value(0, 3) == 1
"""


@pytest.fixture(autouse=True)
def conftest(pytester: pytest.Pytester, monkeypatch: pytest.MonkeyPatch) -> None:
    """What a user's conftest.py has."""
    monkeypatch.setenv("PYTHONPATH", str(Path(gpioserve.__file__).parent.parent))
    pytester.makeconftest('pytest_plugins = ["gpioserve.pytest_plugin"]')


def expect(result: pytest.RunResult, **counts: int) -> None:
    """A run has to end with these counts."""
    result.assert_outcomes(**counts)


def test_a_machine_for_a_test(pytester: pytest.Pytester) -> None:
    pytester.makepyfile(PRESS)
    expect(pytester.runpytest_subprocess("--strict-markers"), passed=1)


def test_the_board_of_a_module_and_that_of_a_test(pytester: pytest.Pytester) -> None:
    pytester.makepyfile(
        """
        import pytest

        @pytest.fixture
        def gpio_board():
            return "probe mine 3"

        def test_the_modules(gpio):
            assert gpio.say("gpiodetect") == "gpiochip0 [mine] (3 lines)\\n"

        @pytest.mark.gpio("probe other 5")
        def test_its_own(gpio):
            assert gpio.say("gpiodetect") == "gpiochip0 [other] (5 lines)\\n"

        @pytest.mark.gpio(board="probe named 6")
        def test_its_own_by_name(gpio):
            assert gpio.say("gpiodetect") == "gpiochip0 [named] (6 lines)\\n"
        """
    )
    expect(pytester.runpytest_subprocess(), passed=3)


def test_a_test_that_failed_names_its_files(pytester: pytest.Pytester) -> None:
    pytester.makepyfile(
        """
        def test_wrong(gpio):
            gpio.pull(0, 3, True)
            assert gpio.value(0, 3) == 0

        def test_right(gpio):
            pass
        """
    )
    result = pytester.runpytest_subprocess("--basetemp=kept")
    expect(result, passed=1, failed=1)
    folder = pytester.path / "kept/test_wrong0"
    result.stdout.fnmatch_lines(
        [f"transcript  {folder}/transcript *", f"answers     {folder}/answers", f"waves       {folder}/waves.vcd *"]
    )
    result.stdout.no_fnmatch_line("*test_right0*")
    assert "write gpiochip0/sim_gpio3/pull pull-up\n" in (folder / "transcript").read_text()
    assert (folder / "answers").read_text().startswith("gpiochip0 [demo] (8 lines)\n")
    assert "$var wire 1" in (folder / "waves.vcd").read_text()


def test_a_fixture_that_failed_names_the_files_too(pytester: pytest.Pytester) -> None:
    pytester.makepyfile(
        """
        import pytest

        @pytest.fixture
        def daemon(gpio):
            assert gpio.value(0, 3) == 1

        def test_it(gpio, daemon):
            pass
        """
    )
    result = pytester.runpytest_subprocess("--basetemp=kept")
    expect(result, errors=1)
    result.stdout.fnmatch_lines([f"transcript  {pytester.path}/kept/test_it0/transcript *"])


def test_programs_of_a_test_are_ended_with_it(pytester: pytest.Pytester) -> None:
    pytester.makepyfile(
        """
        import os

        def test_it(gpio):
            program = gpio.popen(["sleep", "600"])
            with open("number", "w") as file:
                file.write(str(program.pid))
        """
    )
    expect(pytester.runpytest_subprocess(), passed=1)
    assert not os.path.exists(f"/proc/{(pytester.path / 'number').read_text()}")


def test_a_board_that_is_none_fails_the_test(pytester: pytest.Pytester) -> None:
    pytester.makepyfile(
        """
        import pytest

        @pytest.mark.gpio("probee demo 4")
        def test_it(gpio):
            pass
        """
    )
    result = pytester.runpytest_subprocess()
    expect(result, errors=1)
    result.stdout.fnmatch_lines(["gpioserve didn't begin:*line 1, column 1: no statement begins with this word"])


def test_a_machine_that_ends_fails_the_test(pytester: pytest.Pytester) -> None:
    pytester.makepyfile(
        """
        import os, signal

        def test_it(gpio):
            os.kill(gpio._process.pid, signal.SIGTERM)
        """
    )
    result = pytester.runpytest_subprocess()
    expect(result, passed=1, errors=1)
    result.stdout.fnmatch_lines(["gpioserve ended with status 143:*"])


def test_without_gpioserve_tests_fail_or_are_left_out(
    pytester: pytest.Pytester, monkeypatch: pytest.MonkeyPatch
) -> None:
    package = pytester.path / "alone/gpioserve"
    shutil.copytree(Path(gpioserve.__file__).parent, package)
    monkeypatch.setenv("PYTHONPATH", str(package.parent))
    monkeypatch.setenv("PATH", "/none")
    pytester.makepyfile(PRESS)
    result = pytester.runpytest_subprocess()
    expect(result, errors=1)
    result.stdout.fnmatch_lines(["gpioserve is neither in *, nor on the PATH"])
    pytester.makeini("[pytest]\ngpio_missing = skip\n")
    expect(pytester.runpytest_subprocess(), skipped=1)


def test_suites_run_beside_each_other(pytester: pytest.Pytester) -> None:
    pytest.importorskip("xdist")
    pytester.makepyfile(
        """
        import pytest

        @pytest.mark.parametrize("number", range(16))
        def test_it(gpio, number):
            assert gpio.value(0, 3) == 0
            gpio.pull(0, 3, True)
            assert gpio.value(0, 3) == 1
        """
    )
    expect(pytester.runpytest_subprocess("-n", "8"), passed=16)


def test_chips_in_the_process_of_pytest(pytester: pytest.Pytester) -> None:
    pytester.makepyfile(
        """
        import os, pytest
        from gpioserve import Connection

        @pytest.mark.parametrize("lines", [2, 5])
        def test_it(gpio_chip, lines):
            names = [gpio_chip(lines), gpio_chip()]
            assert all(os.path.exists(f"/dev/{name}") for name in names)
            with Connection() as world:
                assert f"{names[0]} [" in world.say("gpiodetect") and f"({lines} lines)" in world.say("gpiodetect")

        @pytest.mark.skipif("GPIOSERVE" not in os.environ, reason="these are the machine's own chips")
        def test_what_was_made_is_gone():
            assert [name for name in os.listdir("/dev") if name.startswith("gpiochip")] == ["gpiochip0"]
        """
    )
    expect(pytester.runpytest_subprocess(), skipped=3)
    pytester.makefile("", board="probe first 1\n")
    command = [programs.find("gpioserve"), "-b", "board", "--", sys.executable, "-m", "pytest"]
    result = pytester.run(*command)
    expect(result, passed=3)
