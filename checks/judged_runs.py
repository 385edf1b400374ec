"""What `check` says of printed runs. The last line is `N passed, M failed`: of inputs, of runs, and of outputs with one thing wrong, each of
which has to be told by a line of its kind."""
import os
import random
import subprocess
import sys
from pathlib import Path
from typing import Callable, Dict, Iterator, List, NamedTuple, Optional, Tuple

TOP = Path(__file__).resolve().parent.parent
PROGRAM = os.environ.get("GPIOSESS") or TOP / "crates/gpiosess/out/gpiosess"
RUNS = 200
# how many spoilt outputs there are at least
SPOILT = 2000
LONGEST = 67_108_864

SESSION = b"session 1\nsetup\nprobe demo 1\nactor a\ngpiodetect 0\nactor b\nunplug gpiochip0\n"
FRONT = b"== setup\n== actor a\ngpiochip0 [demo] (1 lines)\n== actor b\n== after\n"
ENTRIES = [
    b"0 0 probe demo 1 sim -> ok 0\n",
    b"1 1 open 0 -> ok 3\n",
    b"2 2 unplug 0 begin -> ok\n",
    b"3 1 ioctl 0 3 0x8044b401 68 00*68 -> ok\n",
    b"4 1 close 3 -> ok\n",
    b"5 2 unplug 0 finish -> ok\n",
]


class Judgment(NamedTuple):
    """The line that was written, and the status."""

    line: str
    status: int


class Case(NamedTuple):
    """An input, and what it is to be judged."""

    name: str
    text: bytes
    wanted: Judgment


def with_header(session: bytes, output: bytes) -> bytes:
    return b"check %d\n" % len(session) + session + output


def judged(text: bytes) -> Judgment:
    done = subprocess.run([PROGRAM, "check"], input=text, stdout=subprocess.PIPE, check=False)
    return Judgment(done.stdout.decode(), done.returncode)


def output_of(entries: List[bytes], head: bytes = b"== history 6\n") -> bytes:
    return FRONT + head + b"".join(entries)


def replaced(changes: Dict[int, bytes]) -> List[bytes]:
    """The entries with others in the place of some."""
    return [changes.get(at, entry) for at, entry in enumerate(ENTRIES)]


def header_cases() -> Iterator[Case]:
    """Inputs that are refused."""
    lawful = with_header(SESSION, output_of(ENTRIES))
    rest = lawful[len(b"check 75\n") :]
    header = Judgment("refused 1 1 header\n", 3)
    yield Case(
        "one byte more than there may be",
        lawful + b"\n" * (LONGEST + 1 - len(lawful)),
        Judgment("refused 0 0 too-long\n", 3),
    )
    yield Case("as many bytes as there may be", b"\n" * LONGEST, header)
    for name, line in (
        ("a leading zero", b"check 075\n"),
        ("two blanks", b"check  75\n"),
        ("a blank behind the number", b"check 75 \n"),
        ("no number", b"check \n"),
        ("a sign", b"check +75\n"),
        ("upper case", b"Check 75\n"),
        ("no line", b""),
    ):
        yield Case(name, line + rest, header)
    # So many bytes follow it, and they would be no session.
    yield Case("a longer session than there may be", b"check 1048577\n" + b"\n" * 1_048_577, header)
    yield Case("nothing", b"", header)
    yield Case("no end of the line", b"check 0", header)
    yield Case("a byte less than the session has", b"check 75\n" + SESSION[:-1], header)


def session_cases() -> Iterator[Case]:
    """Sessions that can't be judged."""
    no_session = Judgment("no session\n", 7)
    output = output_of(ENTRIES)
    yield Case("no bytes", with_header(b"", output), no_session)
    yield Case("an unknown statement", with_header(SESSION + b"nothing\n", output), no_session)
    yield Case(
        "a session of one actor",
        with_header(b"session 1\nsetup\nprobe demo 1\nactor a\ngpiodetect 0\n", output),
        no_session,
    )
    yield Case("a session without actors", with_header(b"session 1\nsetup\ngpiodetect\n", b""), no_session)
    yield Case("a session that costs too much", with_header(SESSION + b"gpiodetect\n" * 1563, output), no_session)


def format_cases() -> Iterator[Case]:
    """Outputs without a history of its form, and the number of the line that is at fault."""

    def case(name: str, output: bytes, line: int) -> Case:
        return Case(name, with_header(SESSION, output), Judgment(f"no format {line}\n", 7))

    yield case("no output", b"", 1)
    yield case("no history", FRONT, 6)
    yield case("one more entry told than there are", output_of(ENTRIES, b"== history 7\n"), 13)
    yield case("one entry less told than there are", output_of(ENTRIES, b"== history 5\n"), 12)
    yield case("a leading zero", output_of(ENTRIES, b"== history 06\n"), 6)
    yield case("no number", output_of(ENTRIES, b"== history \n"), 6)
    yield case("a blank behind the number", output_of(ENTRIES, b"== history 6 \n"), 6)
    yield case("more entries than a session may cost", output_of(ENTRIES, b"== history 300001\n"), 6)
    yield case("a last line without its end", output_of(ENTRIES)[:-1], 12)
    yield case("a line behind the last entry", output_of(ENTRIES) + b"\n", 13)
    yield case("a header at the end", output_of(ENTRIES) + b"== history 1\n", 14)
    yield case("an index that begins at 1", output_of(replaced({0: b"1" + ENTRIES[0][1:]})), 7)
    yield case("a leading zero in an index", output_of(replaced({2: b"0" + ENTRIES[2]})), 9)
    yield case("digits in upper case", output_of(replaced({3: ENTRIES[3].replace(b"b401", b"B401")})), 10)
    yield case("two entries that change places", output_of(replaced({3: ENTRIES[4], 4: ENTRIES[3]})), 10)
    yield case("an empty line among entries", output_of(replaced({3: b"\n"})), 10)


def entry_cases() -> Iterator[Case]:
    """Histories whose first entry that isn't lawful has this index, or that end too early."""

    def case(name: str, entries: List[bytes], index: int) -> Case:
        return Case(
            name,
            with_header(SESSION, output_of(entries, b"== history %d\n" % len(entries))),
            Judgment(f"no entry {index}\n", 7),
        )

    # The removal ends while the command is inside the chip.
    yield case(
        "a command behind the removal's end",
        replaced(
            {
                3: b"3 2 unplug 0 finish -> ok\n",
                4: b"4 1 ioctl 0 3 0x8044b401 68 00*68 -> ok\n",
                5: b"5 1 close 3 -> ok\n",
            }
        ),
        4,
    )
    yield case("no entries", [], 0)
    yield case("an actor that isn't at its end", ENTRIES[:5], 5)
    yield case("another place than the chip got", replaced({0: b"0 0 probe demo 1 sim -> ok 1\n"}), 0)
    yield case("another label than the session has", replaced({0: b"0 0 probe other 1 sim -> ok 0\n"}), 0)
    yield case("setup by another actor", replaced({0: b"0 1 probe demo 1 sim -> ok 0\n"}), 0)
    yield case("an actor who isn't there", replaced({1: b"1 3 open 0 -> ok 3\n"}), 1)
    yield case("a file that another actor opened before", replaced({1: b"1 1 open 0 -> ok 4\n"}), 1)
    yield case("a refusal of a chip that is up", ENTRIES[:2] + [b"2 1 refused 0 call -> ENODEV\n"], 2)
    yield case("a removal that another actor ends", replaced({5: b"5 1 unplug 0 finish -> ok\n"}), 5)
    yield case("a legal call that no statement makes", ENTRIES + [b"6 0 open 0 -> ENOENT\n"], 6)


def text_cases() -> Iterator[Case]:
    """Histories with texts that aren't theirs."""
    history = output_of(ENTRIES)[len(FRONT) :]
    for name, front in (
        ("another number of lines", FRONT.replace(b"(1 lines)", b"(2 lines)")),
        ("a text of the other actor", b"== setup\n== actor a\n== actor b\ngpiochip0 [demo] (1 lines)\n== after\n"),
        ("an actor of another name", FRONT.replace(b"actor b", b"actor c")),
        ("two actors that change places", b"== setup\n== actor b\n== actor a\ngpiochip0 [demo] (1 lines)\n== after\n"),
        ("no header of `after`", FRONT.replace(b"== after\n", b"")),
        ("nothing in front", b""),
        ("an earlier history", FRONT + b"== history 0\n"),
        ("a line more", FRONT + b"\n"),
    ):
        yield Case(name, with_header(SESSION, front + history), Judgment("no text\n", 7))
    yield Case("the session's last byte", b"check 74\n" + SESSION + FRONT + history, Judgment("no text\n", 7))
    yield Case("as it was printed", with_header(SESSION, output_of(ENTRIES)), Judgment("yes\n", 0))
    refused = output_of(replaced({3: b"3 1 refused 0 call -> ENODEV\n"}))
    yield Case(
        "a command that came too late, and what is printed then",
        with_header(SESSION, refused.replace(b"gpiochip0 [demo] (1 lines)\n", b"gpiodetect: ENODEV\n")),
        Judgment("yes\n", 0),
    )
    yield Case(
        "a command that came too late, and what is printed else",
        with_header(SESSION, refused),
        Judgment("no text\n", 7),
    )


def cases() -> Iterator[Case]:
    for some in (header_cases, session_cases, format_cases, entry_cases, text_cases):
        yield from some()


class Output:
    """An output by its parts: the lines in front of the history, and the entries without their indices."""

    def __init__(self, text: bytes):
        front, _, rest = text.rpartition(b"== history ")
        self.front = front.splitlines(keepends=True)
        self.entries = [line.split(b" ", 1)[1] for line in rest.splitlines(keepends=True)[1:]]

    def text(self, entries: Optional[List[bytes]] = None, front: Optional[List[bytes]] = None) -> bytes:
        entries = self.entries if entries is None else entries
        lines = [b"%d %s" % (at, entry) for at, entry in enumerate(entries)]
        return b"".join(self.front if front is None else front) + b"== history %d\n" % len(entries) + b"".join(lines)

    def texts(self) -> List[int]:
        """The lines that an actor printed."""
        return [at for at, line in enumerate(self.front) if not line.startswith(b"== ")]

    def headers(self) -> List[int]:
        return [at for at, line in enumerate(self.front) if line.startswith(b"== ")]


def actor_of(entry: bytes) -> bytes:
    return entry.split(b" ", 1)[0]


def is_counted(entry: bytes) -> bool:
    """A tool that waits polls as often as nothing is there, which differs from run to run: a poll of that kind more or less may be lawful, and
    so may an entry in its place."""
    return not entry.endswith(b"-> poll -\n")


def is_guard(entry: bytes) -> bool:
    """A call at a chip that is leaving may be let in or refused."""
    return entry.split(b" ")[1] == b"refused"


# Each of these spoils an output in one way, or gives none where it can't. What it gives is no lawful run: an actor's entries follow one from
# another, by its statements and the replies so far, and each reply and each text follows from the entries; so of two runs of a session
# that have the same entries so far, the next entry of each actor is the same call.
Spoil = Callable[[random.Random, Output], Optional[bytes]]

NO_FORMAT = "no format "
NO_ENTRY = "no entry "
NO_TEXT = "no text\n"


class Way(NamedTuple):
    """A way to spoil an output, and what the line that is written then may begin with."""

    spoil: Spoil
    beginnings: Tuple[str, ...]


class Spoilt(NamedTuple):
    """An input with a spoilt output, and what the line that is written may begin with."""

    name: str
    text: bytes
    beginnings: Tuple[str, ...]

    def is_told_by(self, got: Judgment) -> bool:
        return got.status == 7 and got.line.startswith(self.beginnings)


def one_byte(chance: random.Random, output: Output) -> Optional[bytes]:
    """One byte of one entry, behind its index, is another one."""
    at = chance.randrange(len(output.entries))
    entry = bytearray(output.entries[at])
    place = chance.randrange(len(entry) - 1)
    entry[place] = chance.choice([byte for byte in range(32, 127) if byte != entry[place]])
    return output.text(output.entries[:at] + [bytes(entry)] + output.entries[at + 1 :])


def swapped(chance: random.Random, output: Output) -> Optional[bytes]:
    """Two entries of one actor change places; of two actors they often may."""
    entries = list(output.entries)
    actor = chance.choice(sorted({actor_of(entry) for entry in entries}))
    own = [
        at for at, entry in enumerate(entries) if actor_of(entry) == actor and is_counted(entry) and not is_guard(entry)
    ]
    if len(own) < 2:
        return None
    first = chance.randrange(len(own) - 1)
    a, b = own[first], own[first + 1]
    if entries[a] == entries[b]:
        return None
    entries[a], entries[b] = entries[b], entries[a]
    return output.text(entries)


def swapped_with_setup(chance: random.Random, output: Output) -> Optional[bytes]:
    """An entry of `setup` stands behind one of a further actor."""
    entries = list(output.entries)
    first = next((at for at, entry in enumerate(entries) if actor_of(entry) != b"0"), 0)
    if first == 0:
        return None
    entries[first - 1], entries[first] = entries[first], entries[first - 1]
    return output.text(entries)


def swapped_with_after(_: random.Random, output: Output) -> Optional[bytes]:
    """The first entry of `after` stands in front of the last one of all others."""
    entries = list(output.entries)
    last = max((at for at, entry in enumerate(entries) if actor_of(entry) != b"0"), default=len(entries))
    if last + 1 >= len(entries):
        return None
    entries[last], entries[last + 1] = entries[last + 1], entries[last]
    return output.text(entries)


def answered_otherwise(chance: random.Random, output: Output) -> Optional[bytes]:
    """The last digit of what a driver answered is another one. What the call is answered may stay legal, but no planned driver answers so."""
    tells = [
        at
        for at, entry in enumerate(output.entries)
        if entry.split(b" ")[1] == b"tell" and b" 0x" in entry[entry.rindex(b" -> ") - 19 :]
    ]
    if not tells:
        return None
    at = chance.choice(tells)
    entry = bytearray(output.entries[at])
    place = entry.rindex(b" -> ") - 1
    entry[place] = chance.choice([digit for digit in b"0123456789abcdef" if digit != entry[place]])
    return output.text(output.entries[:at] + [bytes(entry)] + output.entries[at + 1 :])


def dropped(chance: random.Random, output: Output) -> Optional[bytes]:
    """One entry is missing, and the others are numbered anew. It stays where its actor's next one is a refusal: that names no call, so it may be
    the refusal of the call which would be missing, and what is printed the same."""
    at = chance.randrange(len(output.entries))
    entry, behind = output.entries[at], output.entries[at + 1 :]
    following = next((other for other in behind if actor_of(other) == actor_of(entry)), None)
    if not is_counted(entry) or (following is not None and is_guard(following)):
        return None
    return output.text(output.entries[:at] + behind)


def doubled(chance: random.Random, output: Output) -> Optional[bytes]:
    """One entry stands twice."""
    at = chance.randrange(len(output.entries))
    return output.text(output.entries[: at + 1] + output.entries[at:]) if is_counted(output.entries[at]) else None


def of_another(chance: random.Random, output: Output) -> Optional[bytes]:
    """One entry is another actor's."""
    at = chance.randrange(len(output.entries))
    actor, rest = output.entries[at].split(b" ", 1)
    other = b"%d" % chance.choice([number for number in range(4) if b"%d" % number != actor])
    return (
        output.text(output.entries[:at] + [other + b" " + rest] + output.entries[at + 1 :])
        if is_counted(output.entries[at])
        else None
    )


def counted_wrong(chance: random.Random, output: Output) -> Optional[bytes]:
    """The line above the entries tells one more or one less."""
    many = len(output.entries)
    return output.text().replace(b"== history %d\n" % many, b"== history %d\n" % (many + chance.choice([-1, 1])))


def text_dropped(chance: random.Random, output: Output) -> Optional[bytes]:
    """A line of a text is missing."""
    texts = output.texts()
    if not texts:
        return None
    at = chance.choice(texts)
    return output.text(front=output.front[:at] + output.front[at + 1 :])


def text_moved(chance: random.Random, output: Output) -> Optional[bytes]:
    """A line of a text stands behind another header."""
    texts = output.texts()
    if not texts:
        return None
    at = chance.choice(texts)
    rest = output.front[:at] + output.front[at + 1 :]
    behind = chance.choice([place for place, line in enumerate(rest) if line.startswith(b"== ")]) + 1
    return output.text(front=rest[:behind] + [output.front[at]] + rest[behind:])


def header_changed(chance: random.Random, output: Output) -> Optional[bytes]:
    """A byte of a header is another one."""
    at = chance.choice(output.headers())
    line = bytearray(output.front[at])
    place = chance.randrange(len(line) - 1)
    line[place] = chance.choice([byte for byte in b"abcxyz0129=-_" if byte != line[place]])
    return output.text(front=output.front[:at] + [bytes(line)] + output.front[at + 1 :])


WAYS = [
    Way(one_byte, (NO_FORMAT, NO_ENTRY)),
    Way(swapped, (NO_ENTRY,)),
    Way(swapped_with_setup, (NO_ENTRY,)),
    Way(swapped_with_after, (NO_ENTRY,)),
    Way(answered_otherwise, (NO_ENTRY,)),
    Way(dropped, (NO_ENTRY,)),
    Way(doubled, (NO_ENTRY,)),
    Way(of_another, (NO_ENTRY,)),
    Way(counted_wrong, (NO_FORMAT,)),
    Way(text_dropped, (NO_TEXT,)),
    Way(text_moved, (NO_TEXT,)),
    Way(header_changed, (NO_TEXT,)),
]


def sessions() -> List[Path]:
    """The sessions of several actors whose output is judged: those without `aggregate`."""
    found = []
    for folder in ("examples", "checks/rows"):
        for path in sorted((TOP / folder).glob("*.session")):
            lines = path.read_bytes().splitlines()
            plain = not path.with_suffix(".words").is_file() and not path.with_suffix(".status").is_file()
            aggregates = any(line.split()[:1] == [b"aggregate"] for line in lines)
            if plain and not aggregates and len([line for line in lines if line.split()[:1] == [b"actor"]]) > 1:
                found.append(path)
    return found


def run(session: bytes) -> bytes:
    return subprocess.run([PROGRAM], input=session, stdout=subprocess.PIPE, check=True).stdout


def spoilt(chance: random.Random, outputs: List[Tuple[str, bytes, bytes]]) -> Iterator[Spoilt]:
    """Outputs of sessions with one thing wrong, each once: as many of each session and of each way."""
    each = -(-SPOILT * 4 // (len(outputs) * len(WAYS)))
    seen = {text for _, _, text in outputs}
    for name, session, text in outputs:
        output = Output(text)
        for way in WAYS:
            for _ in range(each):
                other = way.spoil(chance, output)
                if other is not None and other not in seen:
                    seen.add(other)
                    yield Spoilt(f"{name}, {way.spoil.__name__}", with_header(session, other), way.beginnings)


def main() -> int:
    runs = int(sys.argv[1]) if len(sys.argv) > 1 else RUNS
    passed = failed = 0

    def count(is_right: bool, said: str) -> None:
        nonlocal passed, failed
        passed, failed = passed + is_right, failed + (not is_right)
        if not is_right:
            print(said)

    for case in cases():
        got = judged(case.text)
        count(got == case.wanted, f"{case.name}: {got}, expected {case.wanted}")
    outputs = []
    for path in sessions():
        session = path.read_bytes()
        for number in range(runs):
            text = run(session)
            got = judged(with_header(session, text))
            count(got == Judgment("yes\n", 0), f"{path}, run {number}: {got}")
            if number % max(1, runs // 4) == 0:
                outputs.append((path.stem, session, text))
    chance = random.Random(1)
    tried = 0
    names = set()
    for other in spoilt(chance, outputs):
        tried += 1
        names.add(other.name)
        got = judged(other.text)
        count(
            other.is_told_by(got),
            f"{other.name}: {got}, expected one of {other.beginnings}, of\n{other.text.decode('latin-1')}",
        )
    count(runs < RUNS or tried >= SPOILT, f"{tried} spoilt outputs, wanted {SPOILT}")
    for way in WAYS:
        found = len([name for name in names if name.endswith(", " + way.spoil.__name__)])
        count(found >= 2, f"{way.spoil.__name__}: outputs of {found} sessions, wanted 2")
    print(f"{passed} passed, {failed} failed")
    return 1 if failed else 0


if __name__ == "__main__":
    sys.exit(main())
