#!/usr/bin/env python3
"""Python's own tests of files, sockets, waits and processes, which must not notice that the library is there.

    suite_test.py OUT BOARD

OUT is the folder of the programs, and BOARD a board for gpioserve. Each module runs under gpioserve. Where tests fail,
it runs once more under gpioserve and once without: only a test counts that fails both times with the library and not
without. The last line is `N passed, M failed`. Debian's libpython3.N-testsuite has the tests.
"""

import subprocess
import sys
import tempfile
import unittest
from collections.abc import Iterator
from concurrent.futures import ThreadPoolExecutor
from pathlib import Path

MODULES = ["socket", "subprocess", "io", "selectors", "poll", "os", "select", "epoll"]
PYTHON = "/usr/bin/python3"
# One at a time may use the port that they have.
LEFT_OUT = "VSOCK"
# A module that hangs is ended; none takes a minute.
MOST_SECONDS = 900


class Result(unittest.TestResult):
    """Prints the name of each test as it ends: `failed NAME`, or `ran NAME`."""

    def addSubTest(self, test: unittest.TestCase, subtest: unittest.TestCase, err: object) -> None:
        super().addSubTest(test, subtest, err)
        if err:
            print("failed", test.id(), flush=True)

    def addError(self, test: unittest.TestCase, err: object) -> None:
        super().addError(test, err)
        print("failed", test.id(), flush=True)

    def addFailure(self, test: unittest.TestCase, err: object) -> None:
        super().addFailure(test, err)
        print("failed", test.id(), flush=True)

    def addUnexpectedSuccess(self, test: unittest.TestCase) -> None:
        super().addUnexpectedSuccess(test)
        print("failed", test.id(), flush=True)

    def addSuccess(self, test: unittest.TestCase) -> None:
        super().addSuccess(test)
        print("ran", test.id(), flush=True)


def tests_of(suite: unittest.TestSuite) -> Iterator[unittest.TestCase]:
    """The tests of a suite and of those in it."""
    for test in suite:
        if isinstance(test, unittest.TestSuite):
            yield from tests_of(test)
        elif LEFT_OUT not in test.id():
            yield test


def run_here(module: str) -> None:
    """Runs a module's tests in this process."""
    found = unittest.defaultTestLoader.loadTestsFromName("test.test_" + module)
    unittest.TestSuite(tests_of(found)).run(Result())
    print("ended", flush=True)


def run(prefix: list[str], module: str) -> tuple[set[str], set[str]]:
    """Runs a module in a process of its own: the names of the tests that passed, and of those that failed."""
    words = [*prefix, PYTHON, str(Path(__file__).resolve()), "--run", module]
    with tempfile.TemporaryDirectory() as folder:
        with tempfile.TemporaryFile("w+") as out:
            try:
                subprocess.run(
                    words,
                    stdin=subprocess.DEVNULL,
                    stdout=out,
                    stderr=subprocess.DEVNULL,
                    cwd=folder,
                    timeout=MOST_SECONDS,
                )
            except subprocess.TimeoutExpired:
                pass
            out.seek(0)
            lines = out.read().splitlines()
    ran = {line.removeprefix("ran ") for line in lines if line.startswith("ran ")}
    failed = {line.removeprefix("failed ") for line in lines if line.startswith("failed ")}
    if "ended" not in lines:
        failed.add(f"test.test_{module} has an end")
    return ran - failed, failed


def compare(prefix: list[str], module: str) -> tuple[int, set[str]]:
    """Runs a module with the library: how many tests passed, and which fail with it alone."""
    passed, failed = run(prefix, module)
    if failed:
        failed &= run(prefix, module)[1]
    if failed:
        failed -= run([], module)[1]
    return len(passed), failed


def main() -> int:
    """Runs all modules, some at a time."""
    if sys.argv[1] == "--run":
        run_here(sys.argv[2])
        return 0
    out, board = (str(Path(word).resolve()) for word in sys.argv[1:3])
    if (
        not Path(PYTHON).exists()
        or subprocess.run([PYTHON, "-c", "import test.test_socket"], capture_output=True).returncode
    ):
        print("left out: Python's own tests: libpython3.N-testsuite isn't installed")
        print("0 passed, 0 failed")
        return 0
    prefix = [f"{out}/gpioserve", "-b", board, "--"]
    with ThreadPoolExecutor(4) as pool:
        results = list(pool.map(lambda module: compare(prefix, module), MODULES))
    for module, (passed, failed) in zip(MODULES, results):
        print(
            f"ok test_{module}: {passed} passed" if not failed else f"FAILED test_{module}: {' '.join(sorted(failed))}"
        )
    bad = sum(len(failed) for _, failed in results)
    print(f"{sum(passed for passed, _ in results)} passed, {bad} failed")
    return int(bad > 0)


if __name__ == "__main__":
    sys.exit(main())
