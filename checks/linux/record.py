#!/usr/bin/env python3
"""Has a running Linux make lists of actions, and writes what it answered.

    checks/linux/record LISTS ..                      makes the lists of these files, and prints the results
    checks/linux/record --seed 1 --count 2000         makes lists by checks/linux/generate.py, and keeps both
    checks/linux/record --again                       makes those that are kept once more, and says which differ

It builds a small kernel of Debian's linux-source into out/linux/, once for each version, and boots it under qemu with the
probe as its only program. A kernel that hangs or crashes is ended, the list is named, and the others go on with a new boot.
"""
import argparse
import os
import re
import shutil
import subprocess
import sys
import tarfile
import tempfile
import time
from pathlib import Path
from typing import Dict, List, NoReturn, Tuple

sys.dont_write_bytecode = True
sys.path.insert(0, str(Path(__file__).resolve().parent))
from generate import SHAPES, generated  # noqa: E402
from lists import HERE, TOP, ActionList, build_probe, read_lists, read_results  # noqa: E402

BUILT = TOP / "out/linux"
NEEDED = "qemu-system-x86_64 make cc flex bison bc".split()
RESULTS_SECONDS = 0.5  # that a list may take each time that it is made, beside BOOT_SECONDS
BOOT_SECONDS = 60
BOOTS = 3  # that may fail


def fail(what: str) -> NoReturn:
    """Ends the program."""
    raise SystemExit(f"checks/linux/record: {what}")


def unpack(version: str, folder: Path) -> Path:
    """The kernel's sources, unpacked once."""
    archive = Path(f"/usr/src/linux-source-{version}.tar.xz")
    sources = folder / "sources"
    if sources.is_dir():
        return sources
    if not archive.is_file():
        fail(f"{archive} is not here: apt-get install linux-source-{version}")
    print(f"unpacking {archive}", file=sys.stderr)
    with tempfile.TemporaryDirectory(dir=folder) as room:
        with tarfile.open(archive) as sources_of:
            sources_of.extractall(room)
        next(Path(room).iterdir()).rename(sources)
    return sources


def build_kernel(version: str) -> Path:
    """The folder with the kernel that was built of a version, which takes ten minutes of a processor the first time."""
    missing = [name for name in NEEDED if not shutil.which(name)]
    if missing:
        fail(f"{', '.join(missing)} missing: apt-get install qemu-system-x86 build-essential flex bison bc libelf-dev")
    folder = BUILT / version
    folder.mkdir(parents=True, exist_ok=True)
    build = folder / "build"
    if (folder / "ready").is_file():
        return build
    sources = unpack(version, folder)
    make = ["make", "-C", str(sources), f"O={build}", f"-j{os.cpu_count() or 1}"]
    log = folder / "build.log"
    print(f"building Linux {version}: {log}", file=sys.stderr)
    with log.open("w") as out:
        merge = [str(sources / "scripts/kconfig/merge_config.sh"), "-m", "-O", str(build), str(build / ".config")]
        for words in (
            [*make, "tinyconfig"],
            [*merge, str(HERE / "kernel.config")],
            [*make, "olddefconfig"],
            [*make, "bzImage"],
        ):
            if subprocess.run(words, stdin=subprocess.DEVNULL, stdout=out, stderr=out, cwd=sources).returncode:
                fail(f"{words[0]} failed: {log}")
    (folder / "ready").touch()
    return build


def release_of(build: Path) -> str:
    """The kernel's version as it prints it, as 6.12.117."""
    return re.sub(r"[^0-9.].*", "", (build / "include/config/kernel.release").read_text().strip())


class Machine:
    """Boots a kernel over lists."""

    def __init__(self, build: Path, room: Path, processors: int, words: List[str]):
        self.build, self.room, self.processors, self.words = build, room, processors, words
        probe = build_probe(room, "probe-static")
        if not probe:
            fail("the probe cannot be linked statically: apt-get install libc6-dev")
        self.probe = probe
        words = ["cc", "-std=c11", "-D_GNU_SOURCE", "-Wall", "-Wextra", "-Werror", "-O1", "-static"]
        if subprocess.run([*words, "-o", str(room / "init"), str(HERE / "init.c")]).returncode:
            fail("init.c is not built")

    def pack(self, lists: List[ActionList]) -> Path:
        """The files that the kernel boots with."""
        (self.room / "lists").write_text("".join(one.text() for one in lists))
        (self.room / "words").write_text("".join(word + "\n" for word in self.words))
        spec = ["dir /dev 755 0 0", "nod /dev/console 600 0 0 c 5 1"]
        spec += [f"file /{name} {self.room}/{name} 755 0 0" for name in ("init", "lists", "words")]
        spec += [f"file /probe {self.probe} 755 0 0"]
        (self.room / "spec").write_text("\n".join(spec) + "\n")
        packed = self.room / "initramfs"
        with packed.open("wb") as out:
            subprocess.run([str(self.build / "usr/gen_init_cpio"), str(self.room / "spec")], stdout=out, check=True)
        return packed

    def boot(self, lists: List[ActionList], seconds: float) -> Tuple[str, str]:
        """What the probe printed, and the console's text. A list may take so many seconds."""
        console, results = self.room / "console", self.room / "results"
        for path in (console, results):
            path.write_bytes(b"")
        words = ["qemu-system-x86_64", "-machine", "pc", "-accel", "tcg", "-cpu", "max", "-m", "256"]
        words += ["-smp", str(self.processors), "-display", "none", "-monitor", "none", "-net", "none", "-no-reboot"]
        words += [
            "-serial",
            f"file:{console}",
            "-serial",
            f"file:{results}",
            "-kernel",
            str(self.build / "arch/x86/boot/bzImage"),
        ]
        words += ["-initrd", str(self.pack(lists)), "-append", "console=ttyS0 quiet no_timer_check oops=panic panic=-1"]
        machine = subprocess.Popen(words, stdin=subprocess.DEVNULL, stderr=subprocess.DEVNULL)
        try:
            self.watch(machine, results, seconds)
        finally:
            machine.kill()
            machine.wait()
        return results.read_text(errors="replace"), console.read_text(errors="replace")

    @staticmethod
    def watch(machine: "subprocess.Popen[bytes]", results: Path, seconds: float) -> None:
        """Waits for a machine's end, as long as there is a new result every so many seconds."""
        size, since = -1, time.monotonic()
        while machine.poll() is None and time.monotonic() - since < seconds:
            time.sleep(0.1)
            if results.stat().st_size != size:
                size, since = results.stat().st_size, time.monotonic()

    def record(self, lists: List[ActionList], seconds: float) -> Dict[str, List[str]]:
        """The results of all lists, but of those with which the kernel hangs or crashes, which are named."""
        results: Dict[str, List[str]] = {}
        left, failed = lists, 0
        while left:
            text, console = self.boot(left, BOOT_SECONDS + seconds * max(max(one.times, 1) for one in left))
            found = read_results(text)
            is_whole = "\nended 0" in text
            if not found and failed < BOOTS:  # (under emulation on a busy machine a kernel may not come up)
                failed += 1
                continue
            if not found:
                fail(f"the kernel made no list. Its last lines:\n{console[-2000:]}")
            if is_whole:
                found[left[len(found) - 1].name] = [
                    line for line in found[left[len(found) - 1].name] if line != "ended 0"
                ]
            else:
                last = left[len(found) - 1].name
                del found[last]
                print(f"the kernel hangs or crashes in {last}, which is left out:\n{console[-600:]}", file=sys.stderr)
            results.update(found)
            left = [] if is_whole else left[len(found) + 1 :]
        return results


def write_results(path: Path, lists: List[ActionList], results: Dict[str, List[str]]) -> None:
    """Keeps results, and the lists where they do not stand in `lists/`."""
    kept = [one for one in lists if one.name in results]
    if not (HERE / "lists" / f"{path.name}.list").is_file():
        path.with_suffix(".lists").write_text("\n".join(one.text() for one in kept))
    path.with_suffix(".results").write_text(
        "\n".join("\n".join([f"list {one.name}", *results[one.name]]) + "\n" for one in kept)
    )


def keep_generated(machine: Machine, folder: Path, seed: int, count: int) -> None:
    """Makes lists of each shape, and keeps them with their results."""
    folder.mkdir(parents=True, exist_ok=True)
    for shape in SHAPES:
        lists = [generated(shape, seed + number) for number in range(-(-count // len(SHAPES)))]
        results = machine.record(lists, RESULTS_SECONDS)
        write_results(folder / shape, lists, results)
        print(f"{shape}: {len(results)} of {len(lists)} lists", file=sys.stderr)


def compare_again(machine: Machine, folder: Path) -> int:
    """Makes the lists that are kept once more. How many have other results, which are named."""
    differing, count = [], 0
    for path in sorted(folder.glob("*.lists")):
        lists = read_lists(path)
        before = read_results(path.with_suffix(".results").read_text())
        now = machine.record(lists, RESULTS_SECONDS) if lists else {}
        differing += [one.name for one in lists if now.get(one.name) != before[one.name]]
        count += len(lists)
    print(
        f"{count - len(differing)} of {count} lists have the same results" + "".join(f"\n{name}" for name in differing)
    )
    return len(differing)


def options_of(words: List[str]) -> argparse.Namespace:
    """The options, as --help lists them."""
    parser = argparse.ArgumentParser(description=__doc__, formatter_class=argparse.RawDescriptionHelpFormatter)
    parser.add_argument("--version", default="6.12", help="of the package linux-source-VERSION (6.12)")
    parser.add_argument("--seed", type=int, default=1, help="of the first list that is made (1)")
    parser.add_argument("--count", type=int, default=0, help="how many lists to make and keep, of all shapes together")
    parser.add_argument("--again", action="store_true", help="makes the lists that are kept once more, and compares")
    parser.add_argument("--processors", type=int, default=1, help="of the machine: 2 for lists with threads (1)")
    parser.add_argument(
        "--seconds",
        type=float,
        default=RESULTS_SECONDS,
        help="that a list may take each time that it is made, beside a minute (0.5)",
    )
    parser.add_argument("--keep", metavar="NAME", help="keeps the results of LISTS in recorded/VERSION/NAME.results")
    parser.add_argument("lists", nargs="*", type=Path, metavar="LISTS", help="files of lists")
    options = parser.parse_args(words)
    if not options.again and not options.count and not options.lists:
        parser.error("name LISTS, or say --count or --again")
    return options


def main() -> int:
    """Does what the options say."""
    options = options_of(sys.argv[1:])
    build = build_kernel(options.version)
    folder = HERE / "recorded" / release_of(build)
    with tempfile.TemporaryDirectory() as room:
        machine = Machine(build, Path(room), options.processors, ["--pause", "200"])
        if options.count:
            keep_generated(machine, folder, options.seed, options.count)
        if options.again:
            return 1 if compare_again(machine, folder) else 0
        lists = [one for path in options.lists for one in read_lists(path)]
        results = machine.record(lists, options.seconds) if lists else {}
        if options.keep:
            folder.mkdir(parents=True, exist_ok=True)
            write_results(folder / options.keep, lists, results)
            print(f"{options.keep}: {len(results)} of {len(lists)} lists", file=sys.stderr)
        else:
            for name, lines in results.items():
                print("\n".join([f"list {name}", *lines]))
    return 0


if __name__ == "__main__":
    sys.exit(main())
