"""Compares the program with the plain one of checks/bench_peer over random sessions: compare [COUNT [SEED]], 200 and 1 without words.

This is no part of the gate. It needs the program that ./gpiosess proves and builds, and rustc. With one actor the whole outputs have to be
the same; of several actors, of which half the sessions are, each output has to be judged a lawful run, so none of these has an `aggregate`.
A session that differs is kept, and named. The last line is `N passed, M failed`.
"""
import random
import subprocess
import sys
import tempfile
from pathlib import Path

TOP = Path(__file__).resolve().parent.parent
PROGRAM = TOP / "crates/gpiosess/out/gpiosess"

FLAGS = [
    4,
    6,
    8,
    0xA,
    0x14,
    0x16,
    0x24,
    0x34,
    0x34,
    0x34,
    0x36,
    0x48,
    0x88,
    0x104,
    0x108,
    0x148,
    0x204,
    0x404,
    0x834,
    0,
]
WRONG_FLAGS = [1, 0xC, 0xC8, 0x304, 0x1034, 0x10, 0x44, 0x100, 2**63]
OLD_FLAGS = [0, 1, 1, 2, 2, 4, 5, 6, 0xA, 0x12, 0x21, 0x22, 0x41, 0x82]
WRONG_OLD_FLAGS = [3, 0x18, 0x1A, 0x9, 0x61, 0x100, 2**31]


def u32(number):
    return (number % 2**32).to_bytes(4, "little").hex()


def u64(number):
    return (number % 2**64).to_bytes(8, "little").hex()


class Session:
    """Makes the statements of a random session."""

    def __init__(self, seed):
        self.random = random.Random(seed)
        self.clock = 0
        self.actors = self.pick(0, 1, 2, 4)

    def pick(self, *choices):
        return self.random.choice(choices)

    def number(self, most):
        return self.random.randrange(most + 1)

    def often(self, likely=0.5):
        return self.random.random() < likely

    def chip(self):
        return (
            self.pick("0", "gpiochip0", "1", "gpiochip1", "2", "/dev/gpiochip2")
            if self.often(0.95)
            else self.pick("63", "16", "gpiochip3")
        )

    def name(self):
        return self.pick("A", "A", "B", "B", "C", "D")

    def request_name(self):
        return self.pick("R", "S", "T", "U", "V", "W")

    def line(self):
        return self.number(7) if self.often(0.95) else self.number(200)

    def flags(self):
        return self.random.choice(FLAGS if self.often(0.95) else WRONG_FLAGS)

    def level(self):
        return self.pick("pull-up", "pull-down")

    def config(self, lines):
        rows = []
        for _ in range(self.pick(0, 0, 0, 1, 1, 2)):
            kind = self.pick(1, 2, 3, 3, 9)
            value = {1: self.flags(), 2: self.number(7), 3: self.pick(0, 1, 1000)}.get(kind, 5)
            rows.append(
                u32(kind)
                + u32(self.often(0.05))
                + u64(value)
                + u64(self.number(2**lines) if self.often() else 2**lines - 1)
            )
        count = len(rows) if self.often(0.97) else 11
        return [
            u64(self.flags()),
            u32(count),
            "00*20" if self.often(0.97) else "01 00*19",
            *rows,
            f"00*{240 - 24 * len(rows)}",
        ]

    def request(self):
        count = self.pick(1, 1, 1, 2, 3)
        offsets = [u32(self.line()) for _ in range(count)]
        told = u32(count if self.often(0.97) else self.pick(0, 65))
        ring = u32(self.pick(0, 0, 1, 2, 5000))
        consumer = self.pick("00*32", "6162 00*30", "ff 00*31")
        return [*offsets, f"00*{256 - 4 * count}", consumer, *self.config(count), told, ring, "00*20", "ffffffff"]

    def ioctl(self):
        kind = self.number(9)
        offset = f"00*64 {u32(self.line())} 00*188"
        values = f"{u64(self.number(7))} {u64(self.number(15))}"
        if kind <= 3:
            name = self.pick(self.name(), self.name(), self.request_name())
            return f"ioctl {name} GET_LINE {' '.join(self.request())} as {self.request_name()}"
        chip = self.name() if self.often(0.95) else self.request_name()
        line = self.request_name() if self.often(0.95) else self.name()
        return {
            4: f"ioctl {chip} GET_CHIPINFO 00*{self.pick(68, 68, 67, 70)}",
            5: f"ioctl {chip} {self.pick('GET_LINEINFO', 'WATCH', 'WATCH')} {offset}",
            6: f"ioctl {chip} UNWATCH {u32(self.line())}",
            7: f"ioctl {line} SET_CONFIG {' '.join(self.config(3))}",
            8: f"ioctl {line} GET_VALUES {values}",
            9: f"ioctl {line} SET_VALUES {values}",
        }[kind]

    def old_flags(self):
        return u32(self.random.choice(OLD_FLAGS if self.often(0.9) else WRONG_OLD_FLAGS))

    def old_name(self):
        return self.pick("H", "K", "E", "F")

    def old_values(self):
        return f"{self.number(255):02x} {self.number(1):02x} 00*{self.pick(62, 62, 62, 61, 70)}"

    def old_made(self):
        name, made = self.name() if self.often(0.95) else self.old_name(), self.old_name()
        consumer = self.pick("00*32", "6f6c64 00*29", "ff*32")
        if self.often(0.4):
            edges = u32(self.pick(0, 1, 2, 3, 3, 4))
            event = f"{u32(self.line())} {self.old_flags()} {edges} {consumer} 00*{self.pick(4, 4, 4, 3)}"
            return f"ioctl1 {name} {self.pick('LINEEVENT', '0xC030b404')} {event} as {made}"
        count = self.pick(1, 1, 2, 3)
        offsets = " ".join(u32(self.line()) for _ in range(count))
        told = u32(count if self.often(0.9) else self.pick(0, 64, 65, 4 * 10**9))
        handle = f"{offsets} 00*{256 - 4 * count} {self.old_flags()} {self.number(1):02x} 01 00*62 {consumer} {told} 00*{self.pick(4, 4, 4, 3)}"
        return f"ioctl1 {name} {self.pick('LINEHANDLE', '0xc16cb403')} {handle} as {made}"

    def old_ioctl(self):
        kind = self.number(9)
        if kind <= 3:
            return self.old_made()
        chip = self.name() if self.often(0.9) else self.old_name()
        made = self.old_name() if self.often(0.9) else self.pick(self.name(), self.request_name())
        return {
            4: f"ioctl1 {chip} CHIPINFO 00*{self.pick(68, 68, 67, 70)}",
            5: f"ioctl1 {chip} LINEINFO {u32(self.line())} ff*{self.pick(68, 68, 67)}",
            6: f"ioctl1 {made} SET_CONFIG {self.old_flags()} {self.old_values()} 00*{self.pick(20, 16)}",
            7: f"ioctl1 {made} {self.pick('GET_VALUES', '0xC040B408')} {self.old_values()}",
            8: f"ioctl1 {made} SET_VALUES {self.old_values()}",
            9: f"ioctl {made} GET_VALUES 00*16",
        }[kind]

    def tree(self):
        bank = self.pick("d", "e") + "/" + self.pick("a", "b")
        line = f"{bank}/line{self.number(9)}"
        return self.pick(
            f"mkdir {self.pick('d', 'e', 'd/a', bank, line, line, line + '/hog')}",
            f"rmdir {self.pick('d', bank, line, line + '/hog')}",
            f"write {bank}/num_lines {self.pick('4', '8', '1', '0', '512')}",
            f"write {bank}/label lab",
            f"write {line}/name {self.pick('PIN', 'LED')}",
            f"write {line}/hog/direction {self.pick('input', 'output-low', 'output-high', 'out')}",
            f"write {line}/hog/name guard",
            f"write {self.pick('d', 'e')}/live {self.pick('1', '1', '1', '1', '0', '2')}",
            f"read {self.pick(bank + '/chip_name', bank + '/label', line + '/name', 'd/live', line + '/hog/direction')}",
        )

    def tool_words(self, tool):
        words = []
        by_chip = self.often(0.75)
        if by_chip:
            words += [self.pick("-c", "--chip"), self.chip()]
        lines = [
            str(self.line()) if by_chip and self.often(0.8) else self.pick("PIN", "LED", "3")
            for _ in range(self.pick(1, 1, 2))
        ]
        if tool == "gpioset":
            lines = [line + "=" + self.pick("0", "1", "on", "off", "active") for line in lines]
        options = {
            "gpioget": ["-l", "--numeric", "--unquoted", "-s", "--by-name", "-b pull-up", "--bias=disabled", "-C me"],
            "gpioset": ["-l", "-d open-drain", "--drive=open-source", "-b pull-down", "-C me", "-s"],
            "gpiomon": [
                "-l",
                "-e rising",
                "--edges=falling",
                "-p 1us",
                "-n 2",
                "-F %o:%e:%E:%l:%c:%S",
                "--unquoted",
                "-b pull-up",
            ],
            "gpionotify": ["-e released", "--event=requested", "-n 3", "--unquoted", "-F %o-%E-%S"],
        }[tool]
        for option in self.random.sample(options, self.pick(0, 0, 1, 2)):
            words += option.split()
        if self.often(0.03):
            words.append("--nonsense")
        return " ".join(words + lines)

    def tool(self):
        name = self.pick("x", "y")
        started = self.pick("gpioset", "gpiomon", "gpiomon", "gpionotify")
        return self.pick(
            "gpiodetect",
            f"gpiodetect {self.chip()}",
            f"gpioinfo -c {self.chip()}",
            f"gpioget {self.tool_words('gpioget')}",
            f"gpioget {self.tool_words('gpioget')}",
            f"gpioset {self.tool_words('gpioset')}",
            f"start {name} {started} {self.tool_words(started)}",
            f"start {name} {started} {self.tool_words(started)}",
            f"step {name} {self.pick(1, 2, 3)}",
            f"step {name} 2",
            f"stop {name}",
        )

    def statement(self):
        pulled = f"write gpiochip{self.number(2)}/sim_gpio{self.line()}/pull {self.level()}"
        self.clock += self.pick(0, 1, 500, 1000, 2000, 10**6)
        return self.pick(
            pulled,
            pulled,
            f"read gpiochip{self.number(2)}/sim_gpio{self.line()}/{self.pick('value', 'pull')}",
            f"clock {self.clock if self.often(0.9) else self.number(5000)} {self.number(10**6)}",
            f"fault {self.number(3) + 1}",
            f"pin {self.pick(f'range {self.chip()} {self.number(4)} {self.number(9)} {self.number(3)}', f'hold {self.chip()} {self.number(9)}', f'drop {self.chip()} {self.number(9)}')}",
            f"irq {self.pick('lock', 'unlock', 'enable', 'disable', 'none')} {self.chip()} {self.line()}",
            f"open {self.name()} {self.chip()}",
            f"open {self.name()} {self.chip()}",
            self.ioctl(),
            self.ioctl(),
            self.ioctl(),
            self.old_ioctl(),
            self.old_ioctl(),
            f"events {self.request_name()} {self.pick(48, 480, 47)}",
            f"events1 {self.old_name() if self.often(0.9) else self.name()} {self.pick(15, 16, 320)}",
            f"changes {self.name()} {self.pick(288, 9216, 287)}",
            f"poll {self.pick(self.name(), self.request_name(), self.old_name())}",
            f"close {self.pick(self.name(), self.request_name(), self.old_name())}",
            self.tree(),
            self.tool(),
            self.tool(),
            self.tool(),
            f"unplug {self.chip()}" if self.often(0.05) else pulled,
            f"probe more {self.number(7) + 1}" if self.often(0.1) else pulled,
            self.joined() if self.often(0.1) else pulled,
        )

    def joined(self):
        """A chip over requests. Of several actors a session that has one isn't judged."""
        if self.actors > 1:
            return self.tool()
        names = [
            self.pick("E", "E", "H", "H", self.request_name()) if self.often(0.95) else self.name()
            for _ in range(self.pick(1, 1, 2, 3, 4))
        ]
        return f"aggregate {self.pick('joined', 'agg')} {' '.join(names)}"

    def old_files(self):
        """A handle and a line of events, which later statements find, in half of the cases."""
        if self.often():
            return []
        event = f"ioctl1 A LINEEVENT {u32(self.line())} 00000000 03000000 00*36 as E"
        handle = f"ioctl1 A LINEHANDLE {u32(self.line())} {u32(self.line())} 00*248 {self.old_flags()} 00*96 02000000 00*4 as H"
        pulls = [f"write gpiochip0/sim_gpio{self.number(7)}/pull {self.level()}" for _ in range(6)]
        return [event, handle, *pulls, "events1 E 160", "ioctl1 E GET_VALUES 00*64", "ioctl1 H GET_VALUES 00*64"]

    def text(self):
        lines = ["session 1", "setup", "probe one 8", "probe two 8"]
        lines += ["mkdir d", "mkdir d/a", "write d/a/num_lines 8", "mkdir d/a/line1", "write d/a/line1/name PIN"]
        lines += ["write d/live 1"] if self.often(0.8) else []
        lines += ["open A 0", "open B 1", *self.old_files(), *[self.statement() for _ in range(self.pick(0, 5, 60))]]
        lines += [self.joined() for _ in range(self.pick(0, 0, 1, 3))]
        for actor in range(self.actors):
            lines += [f"actor a{actor}", "open A 0", f"open B {self.chip()}", *self.old_files()] + [
                self.statement() for _ in range(self.pick(20, 60, 150) // max(1, self.actors // 2))
            ]
        if self.often():
            lines += ["after"] + [self.statement() for _ in range(10)]
        return "\n".join(lines) + "\n"


def run(program, text):
    done = subprocess.run([program], input=text.encode(), capture_output=True, timeout=60)
    return done.returncode, done.stdout


def judged(session, output):
    """What the program says of the output of a session."""
    text = b"check %d\n" % len(session) + session + output
    return subprocess.run([PROGRAM, "check"], input=text, capture_output=True, timeout=60).stdout.decode().strip()


def fault_of(peer, text, actors):
    own = run(PROGRAM, text)
    if actors < 2:
        return "" if own == run(peer, text) else "the outputs differ"
    judgment = judged(text.encode(), own[1])
    return "" if own[0] == 0 and judgment == "yes" else f"status {own[0]}, judged: {judgment}"


def main():
    count, seed = ([int(word) for word in sys.argv[1:]] + [200, 1][len(sys.argv) - 1 :])[:2]
    if subprocess.run([TOP / "gpiosess"], input=b"session 1\n", capture_output=True).returncode != 0:
        sys.exit("there is no program to run")
    failed = 0
    with tempfile.TemporaryDirectory() as folder:
        peer = Path(folder) / "peer"
        subprocess.run([TOP / "checks/bench_peer/build", peer], check=True)
        for number in range(seed, seed + count):
            session = Session(number)
            text = session.text()
            fault = fault_of(peer, text, session.actors)
            if fault:
                failed += 1
                kept = Path(tempfile.gettempdir()) / f"compare-{number}.session"
                kept.write_text(text)
                print(f"{kept}: {fault}")
    print(f"{count - failed} passed, {failed} failed")
    sys.exit(1 if failed else 0)


if __name__ == "__main__":
    main()
