"""Refuses one allocation after another in runs of the program: each ends with status 6 and writes nothing, or writes its whole output.

This is no part of the gate. It needs the program that ./gpiosess --prove builds, and a C compiler for a library that stands
before the C library's malloc. The sessions are given as words; without any they are four that use most of the machine. Prints for each
how many allocations it makes, and how many of them may fail without being missed. The last line is `N passed, M failed`.
"""
import subprocess
import sys
import tempfile
from pathlib import Path

TOP = Path(__file__).resolve().parent.parent
PROGRAM = TOP / "crates/gpiosess/out/gpiosess"
SESSIONS = ["examples/one-chip", "checks/rows/board", "checks/rows/values", "checks/rows/monitor"]


def build_shim(folder):
    library = Path(folder) / "shim.so"
    subprocess.run(["cc", "-O1", "-shared", "-fPIC", "-o", library, TOP / "serve/tests/refuse.c"], check=True)
    return library


def run(shim, text, number, count):
    env = {"LD_PRELOAD": str(shim), "FAILS": str(number), "COUNT": str(count)}
    done = subprocess.run([PROGRAM], input=text, capture_output=True, env=env, timeout=60)
    return done.returncode, done.stdout


def try_session(name, shim, count):
    """Whether each run of a session ends as it has to."""
    text = (TOP / f"{name}.session").read_bytes()
    wanted = (TOP / f"{name}.expected").read_bytes()
    whole = run(shim, text, 0, count)
    made = int(count.read_text())
    if whole != (0, wanted):
        print(f"{name}: ends with {whole} where nothing is refused")
        return False
    spared = 0
    for number in range(1, made + 1):
        got = run(shim, text, number, count)
        if got == (0, wanted):
            spared += 1
        elif got != (6, b""):
            print(f"{name}: allocation {number} is refused: status {got[0]}, {got[1][:80]!r}")
            return False
    print(f"{name}: {made} allocations, {spared} of them not missed")
    return made > spared


def main():
    if subprocess.run([TOP / "gpiosess", "--prove"], stdin=subprocess.DEVNULL).returncode != 0:
        sys.exit("there is no program to run")
    with tempfile.TemporaryDirectory() as folder:
        shim, count = build_shim(folder), Path(folder) / "count"
        results = [try_session(name, shim, count) for name in sys.argv[1:] or SESSIONS]
    print(f"{results.count(True)} passed, {results.count(False)} failed")
    sys.exit(0 if all(results) else 1)


main()
