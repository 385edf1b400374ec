"""Runs the published suites over gpioserve, and compares the count of each with the one that is expected.

suites_runs.py SUITES PROGRAMS WORK [COMMAND ..]: the folder of the built suites, that of gpioserve and the served program, one that the user
may write to, and the command by which a suite is run as that user. GPIOSESS names what runs a session again. A test that fails is run again
alone, since the suites wait for fixed times; that it was needed is printed. The last line is `N passed, M failed`.
"""
import os
import re
import shutil
import subprocess
import sys
import time
import xml.etree.ElementTree
from dataclasses import dataclass, field
from pathlib import Path
from typing import Callable, Dict, List, Mapping, Sequence, Tuple

# How often a test that failed is run again alone, and how long a suite may take on the busiest machine, in seconds.
TRIES = 3
LONGEST = 900
# The kernel on which libgpiod's suites run: they ask it for its release.
LEAST_KERNEL = (5, 17, 4)
# The system's own, for which the modules were built.
PYTHON = "/usr/bin/python3"

Results = Dict[str, bool]


@dataclass(frozen=True)
class Suite:
    """A suite: how it is run, what its output says, and what is expected of it."""

    name: str
    tests: int
    command: List[str]
    parse: Callable[[str], Results]
    alone: Callable[[str], List[str]]
    folder: Path
    environment: Mapping[str, str] = field(default_factory=dict)
    # The tests that fail, each with the reason.
    exceptions: Mapping[str, str] = field(default_factory=dict)


def read_tap(text: str) -> Results:
    """The tests of a program of GLib: `ok 1 /path` or `not ok 1 /path`."""
    return {test: not is_bad for is_bad, test in re.findall(r"^(not )?ok \d+ (/\S+)", text, re.M)}


def read_catch(text: str) -> Results:
    """The tests of a program of Catch2, as XML. What the program itself prints may stand in front."""
    start = text.find("<?xml")
    try:
        root = xml.etree.ElementTree.fromstring(text[start : text.rindex(">") + 1])
    except (xml.etree.ElementTree.ParseError, ValueError):
        return {}
    return {case.get("name", "").strip(): case.find("OverallResult").get("success") == "true" for case in root.iter("TestCase")}  # type: ignore[union-attr]


def read_unittest(text: str) -> Results:
    """The tests of Python's unittest with -v: `test_name (module.Class.test_name) ... ok`. A line of a test's own may stand between."""
    found = re.findall(r"^(test\w*) \(([\w.]+)\).*?\.\.\. .*?(ok|FAIL|ERROR)$", text, re.M | re.S)
    return {(path if path.endswith(name) else f"{path}.{name}"): end == "ok" for name, path, end in found}


def read_shunit(text: str) -> Results:
    """The tests of shunit2: the name of each in a line, and what failed below it."""
    results: Results = {}
    name = ""
    for line in re.sub(r"\x1b\[[0-9;]*m", "", text).splitlines():
        if re.fullmatch(r"test_\w+", line):
            name = line
            results[name] = True
        elif name and re.match(r"ASSERT|FAILED|.*shunit2:ERROR", line):
            results[name] = False
    return results


def read_parts(text: str) -> Results:
    """The numbered parts of the kernel's script, which ends at the first that fails."""
    parts = re.findall(r"^(\d+\.\d+)\. ", text, re.M)
    results = {part: True for part in parts}
    if parts and "test PASS" not in text:
        results[parts[-1]] = False
    return results


class Runner:
    """Runs programs by gpioserve, and their sessions again."""

    def __init__(self, programs: Path, work: Path, front: Sequence[str], again: str) -> None:
        self._gpioserve = programs / "gpioserve"
        self._environment = {
            **os.environ,
            "GPIOSERVED": str(programs / "gpioserved"),
            "TMPDIR": str(work),
            "HOME": str(work),
            "LC_ALL": "C.UTF-8",
            "PYTHONDONTWRITEBYTECODE": "1",
        }
        self._work = work
        self._front = list(front)
        self._again = again

    def run(self, suite: Suite, command: Sequence[str], recorded: bool = False) -> str:
        """What a command of a suite prints, by gpioserve with a machine for each of its tests."""
        record = ["-t", str(self._work / "sessions/t"), "-a", str(self._work / "sessions/a")] if recorded else []
        words = [*self._front, str(self._gpioserve), "--each", *record, "--", *command]
        try:
            done = subprocess.run(
                words,
                cwd=suite.folder,
                env={**self._environment, **suite.environment},
                stdin=subprocess.DEVNULL,
                stdout=subprocess.PIPE,
                stderr=subprocess.STDOUT,
                timeout=LONGEST,
                check=False,
            )
        except subprocess.TimeoutExpired as fault:
            return (fault.stdout or b"").decode("utf-8", "replace")
        return done.stdout.decode("utf-8", "replace")

    def begin(self) -> None:
        """Makes an empty folder for sessions, which the user may write to."""
        folder = self._work / "sessions"
        shutil.rmtree(folder, ignore_errors=True)
        folder.mkdir()
        shutil.chown(folder, self._work.stat().st_uid)

    def sessions(self) -> Tuple[int, int]:
        """How many sessions were kept, and how many of them print their answers again."""
        kept = sorted((self._work / "sessions").glob("t*"))
        good = 0
        for session in kept:
            answers = session.with_name("a" + session.name[1:])
            with session.open("rb") as file:
                done = subprocess.run(
                    [self._again], stdin=file, stdout=subprocess.PIPE, stderr=subprocess.DEVNULL, check=False
                )
            good += done.stdout == answers.read_bytes()
        return len(kept), good


def repeat(runner: Runner, suite: Suite, results: Results) -> None:
    """Runs the tests that failed again, each alone, and says so. Those that are expected to fail are left."""
    for test in [test for test, good in results.items() if not good and test not in suite.exceptions]:
        for turn in range(1, TRIES + 1):
            if suite.parse(runner.run(suite, suite.alone(test))).get(test, False):
                print(f"  {test} failed among the others, and passed when it was run alone ({turn})")
                results[test] = True
                break


def judge(runner: Runner, suite: Suite) -> int:
    """Runs a suite and prints how it went: how many of its three checks failed."""
    runner.begin()
    begins = time.monotonic()
    text = runner.run(suite, suite.command, recorded=True)
    took = time.monotonic() - begins
    kept, good = runner.sessions()
    results = suite.parse(text)
    if len(results) != suite.tests:
        print(f"  {suite.name}: {len(results)} tests of {suite.tests} ended; it is run again")
        text = runner.run(suite, suite.command)
        results = suite.parse(text)
    repeat(runner, suite, results)
    failing = {test for test, passed in results.items() if not passed}
    passing = len(results) - len(failing)
    as_expected = len(results) == suite.tests and failing == set(suite.exceptions)
    print(
        f"{'ok' if as_expected else 'FAILED'} {suite.name}: {passing} of {suite.tests} tests pass, in {took:.0f} s",
        flush=True,
    )
    for test in sorted(failing | set(suite.exceptions)):
        reason = (
            suite.exceptions.get(test, "it isn't expected to fail")
            if test in failing
            else "it passes, and was expected to fail"
        )
        print(f"  {test}: {reason}")
    if not as_expected:
        print("\n".join(f"  {line}" for line in text.splitlines()[-25:]))
    run_again = kept > 0 and kept == good
    print(f"{'ok' if run_again else 'FAILED'} {suite.name}: {good} of {kept} sessions run again to the same answers")
    return (not as_expected) + (not run_again)


def suites_of(folder: Path, programs: Path, work: Path) -> List[Suite]:
    """The suites, built in that folder."""
    new, old, kernel = folder / "new", folder / "old", folder / "kernel/tools/testing/selftests/gpio"
    sources = folder / "libgpiod-2.2.1/bindings/python"
    new_test, old_test, new_cxx, old_cxx = (
        str(path) for path in (new / "gpiod-test", old / "gpiod-test", new / "gpiod-cxx-test", old / "gpiod-cxx-test")
    )
    new_libraries = {"LD_LIBRARY_PATH": str(new)}
    # The tests of 1.6 make their chips by libgpiomockup, in whose place stands that of serve/.
    old_libraries = {"LD_LIBRARY_PATH": f"{programs}:{old}"}
    tools = str(work / "tools/gpio-tools-test.bash")
    old_python = [PYTHON, "-B", str(folder / "libgpiod-1.6.3/bindings/python/tests/gpiod_py_test.py"), "-v"]
    return [
        Suite(
            "libgpiod 2.2.1, C",
            106,
            [new_test, "-k"],
            read_tap,
            lambda test: [new_test, "-k", "-p", test],
            work,
            new_libraries,
        ),
        Suite(
            "libgpiod 2.2.1, C++",
            51,
            [new_cxx, "-r", "xml"],
            read_catch,
            lambda test: [new_cxx, "-r", "xml", quoted(test)],
            work,
            new_libraries,
        ),
        Suite(
            "libgpiod 2.2.1, Python",
            142,
            [PYTHON, "-B", "-m", "unittest", "-v", *python_modules(sources)],
            read_unittest,
            lambda test: [PYTHON, "-B", "-m", "unittest", "-v", test],
            sources,
            {**new_libraries, "PYTHONPATH": str(sources)},
        ),
        Suite(
            "libgpiod 2.2.1, tools",
            165,
            ["bash", tools],
            read_shunit,
            lambda test: ["bash", tools, "--", test],
            work,
            {**new_libraries, "PATH": f"{work}/tools:{os.environ['PATH']}"},
        ),
        Suite(
            "libgpiod 1.6.3, C",
            92,
            [old_test, "-k"],
            read_tap,
            lambda test: [old_test, "-k", "-p", test],
            work,
            old_libraries,
        ),
        Suite(
            "libgpiod 1.6.3, C++",
            33,
            [old_cxx, "-r", "xml"],
            read_catch,
            lambda test: [old_cxx, "-r", "xml", quoted(test)],
            work,
            old_libraries,
        ),
        Suite(
            "libgpiod 1.6.3, Python",
            70,
            old_python,
            read_unittest,
            lambda test: [*old_python, test.partition(".")[2]],
            work,
            {**old_libraries, "PYTHONPATH": str(old)},
        ),
        Suite(
            "Linux 6.1, gpio-sim.sh",
            23,
            ["sh", "./gpio-sim.sh"],
            read_parts,
            lambda test: ["sh", "./gpio-sim.sh"],
            kernel,
        ),
    ]


def python_modules(folder: Path) -> List[str]:
    """The modules of the tests in Python."""
    return [f"tests.{path.stem}" for path in sorted((folder / "tests").glob("tests_*.py"))]


def quoted(test: str) -> str:
    """A test's name as Catch2 takes it as an argument."""
    return re.sub(r"([\\,\[\]*])", r"\\\1", test)


def prepare_tools(folder: Path, work: Path) -> None:
    """Puts the tools and their tests side by side, where the tests look for them."""
    tools = work / "tools"
    tools.mkdir()
    source = folder / "libgpiod-2.2.1"
    for path in [source / "tools/gpio-tools-test.bash", source / "tests/scripts/gpiod-bash-test-helper.inc"]:
        shutil.copy(path, tools)
    for name in ("gpiodetect", "gpioget", "gpioinfo", "gpiomon", "gpionotify", "gpioset"):
        shutil.copy(folder / "new" / name, tools)


def kernel_tools(folder: Path, again: str) -> int:
    """The kernel's own tools, which serve/tests/others builds and runs: how many checks failed."""
    here = Path(__file__).resolve().parent.parent / "serve"
    done = subprocess.run(
        [str(here / "tests/others"), str(here / "out"), again],
        env={**os.environ, "KERNEL_SOURCE": str(folder / "kernel")},
        stdin=subprocess.DEVNULL,
        stdout=subprocess.PIPE,
        stderr=subprocess.STDOUT,
        timeout=LONGEST,
        check=False,
    )
    text = done.stdout.decode("utf-8", "replace")
    good = [
        tool
        for tool in ("lsgpio", "gpio-event-mon", "gpio-watch", "gpio-hammer")
        if re.search(rf"^ok {tool}$", text, re.M)
    ]
    print(f"{'ok' if len(good) == 4 else 'FAILED'} Linux 6.1, tools: {len(good)} of 4 run")
    if len(good) < 4:
        print("\n".join(f"  {line}" for line in text.splitlines()[-25:]))
    return int(len(good) != 4)


def main() -> int:
    """Runs all, and prints the counts."""
    folder, programs, work = (Path(word) for word in sys.argv[1:4])
    again = os.environ["GPIOSESS"]
    runner = Runner(programs, work, sys.argv[4:], again)
    release = tuple(int(number) for number in re.findall(r"\d+", os.uname().release)[:3])
    failed = kernel_tools(folder, again)
    checks = 1
    prepare_tools(folder, work)
    for suite in suites_of(folder, programs, work):
        if release < LEAST_KERNEL and suite.name.startswith("libgpiod 2"):
            print(f"left out: {suite.name}, which wants a kernel of {'.'.join(map(str, LEAST_KERNEL))} or later")
            continue
        failed += judge(runner, suite)
        checks += 2
    for suite, why in (
        ("libgpiod 1.6.3, tools", "their bats tests load the module gpio-mockup"),
        ("Linux 6.1, gpio-mockup.sh", "it loads the module gpio-mockup"),
        ("libgpiod 2.2.1, GLib, D-Bus and Rust", "they need newer libraries than Debian 12 has"),
    ):
        print(f"left out: {suite}: {why}")
    print(f"{checks - failed} passed, {failed} failed")
    return int(failed > 0)


if __name__ == "__main__":
    sys.exit(main())
