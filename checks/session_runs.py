"""Compares what `gl_session_runs` plays with the sessions of examples/ and checks/rows/, and with tables of faults.

Its standard input plays each session of these folders that has fewer than two actors, whole and in pieces of 7 bytes, and two of them in
pieces of other lengths. One session is also played with each call of the source failing in turn, and with a sink that has room for each
front of its output. Sessions at the limits of length and cost are made by lines that are added many times. What has to be told of each run
follows from the sessions' expected outputs. Some short sessions stand here: texts that are refused, two actors whose output is always the
same, and actors who are held in the driver at the same time, or wait in it for what others do, and whose output is judged. A session that
has a `setup` alone is served as well, whole and byte by byte, unless it makes a chip over requests; one of them also with each call failing in turn, and line by line without
streams; and one with lines of the
greatest length. With --write the two files are written anew. The last line is `N passed, M failed`.
"""
import sys
from pathlib import Path

TOP = Path(__file__).resolve().parent.parent
sys.dont_write_bytecode = True
sys.path.insert(0, str(TOP / "serve/python"))
from gpioserve.served import LINE_MAX  # noqa: E402

TESTS = TOP / "crates/gl_session_runs"
PIECE = 3
# how many bytes a call moves at most, for sessions that are played in more ways than others
PIECES = {"one-chip": (4096, 64, 7, 1), "board": (4096, 1000, 64, 7, 2, 1)}
# room for what a session prints in frames
ROOM = 65536


def sessions():
    """Each session: its name, its bytes, its words, its status and its output."""
    for folder in ("examples", "checks/rows"):
        for path in sorted((TOP / folder).glob("*.session")):
            text = path.read_text()
            if (
                len([line for line in text.split("\n") if line.split()[:1] == ["actor"]]) < 2
                or path.with_suffix(".status").is_file()
            ):
                yield path.stem, text, *ends(path)


def ends(path):
    words, status = path.with_suffix(".words"), path.with_suffix(".status")
    return (
        words.read_text().strip() if words.is_file() else "",
        int(status.read_text()) if status.is_file() else 0,
        path.with_suffix(".expected").read_text(),
    )


def said(text):
    """The lines that say a session's bytes."""
    *whole, last = text.split("\n")
    return ["|" + line for line in whole] + ([":" + last] if last else [])


def told(name, status, output):
    """What is told of a run."""
    return [f"== {name} {status}", *(output.removesuffix("\n").split("\n") if output else [])]


def played(asked, answered, name, plan, status, output):
    asked.append("play " + plan)
    answered += told(name, status, output)


def faults(asked, answered, name, text, output):
    """Each read and each write of a session fails in turn, and its sink ends behind each front of its output."""
    whole = len(output)
    for call in range(-(-len(text) // PIECE) + 1):
        played(asked, answered, name, f"{PIECE} {whole} {call} -", 4, "")
    for room in range(whole + 1):
        played(asked, answered, name, f"{PIECE} {room} - -", 0 if room == whole else 5, output[:room])
    for call in range(-(-whole // PIECE)):
        played(asked, answered, name, f"{PIECE} {whole} - {call}", 5, output[: call * PIECE])


def is_served(text, status, words):
    """A session served line by line prints the same as one that is run, where it has a `setup` alone and makes no chip over requests."""
    return (
        status == 0
        and not words
        and not [line for line in text.split("\n") if line.split()[:1] in (["actor"], ["after"], ["aggregate"])]
    )


def told_as(asked, answered, way, name, plan, status, output):
    asked.append(f"{way} {plan}")
    answered += told(name, status, output)


def serve_faults(asked, answered, name, lines):
    """Each read and each write of a session that is served fails in turn, and its sink ends behind each front of its frames. Each line
    stands with what it prints."""
    frames = [f"= {len(text)}\n{text}" for _, text in lines]
    ends = [sum(len(line) + 1 for line, _ in lines[: i + 1]) for i in range(len(lines))]
    whole = "".join(frames)
    told_as(asked, answered, "frames", name, f"{PIECE} {len(whole)} - -", 0, whole)
    for call in range(-(-ends[-1] // PIECE) + 1):
        ended = "".join(frame for frame, end in zip(frames, ends) if end <= call * PIECE)
        told_as(asked, answered, "frames", name, f"{PIECE} {len(whole)} {call} -", 4, ended)
    for room in range(len(whole)):
        told_as(asked, answered, "frames", name, f"{PIECE} {room} - -", 5, whole[:room])
    # what one read gives is answered in one write
    told_as(asked, answered, "frames", name, f"{ROOM} {len(whole)} - 0", 5, "")
    told_as(asked, answered, "frames", name, f"{ROOM} {len(whole)} - 1", 0, whole)
    pieces = [frame[at : at + PIECE] for frame in frames for at in range(0, len(frame), PIECE)]
    for call in range(len(pieces)):
        told_as(asked, answered, "frames", name, f"{PIECE} {len(whole)} - {call}", 5, "".join(pieces[:call]))


def long_lines(asked, answered):
    """The longest line, and one byte more."""
    asked += [
        "session long-lines",
        "|session 1",
        "|setup",
        "|#" + " " * (LINE_MAX - 1),
        "|#" + " " * LINE_MAX,
        "|gpiodetect",
    ]
    for piece in (1, 4096, LINE_MAX + 1):
        told_as(asked, answered, "serve", "long-lines", f"{piece} {ROOM} - -", 0, f"refused 4 {LINE_MAX + 1} limit\n")


def no_maps(asked, answered):
    """Served, a chip over requests is refused."""
    made = "ioctl A GET_LINE 00*288 04 00*271 01000000 00*28 as R"
    asked += [
        "session no-maps",
        "|session 1",
        "|setup",
        "|probe demo 1",
        "|open A 0",
        "|" + made,
        "|aggregate agg A",
        "|aggregate agg R",
        "|gpiodetect",
    ]
    for piece in (1, 4096):
        told_as(
            asked,
            answered,
            "serve",
            "no-maps",
            f"{piece} {ROOM} - -",
            0,
            "fd 4\nEINVAL\nENOSPC\ngpiochip0 [demo] (1 lines)\n",
        )


def limits(asked, answered, text, output):
    """The longest session and one byte more, and the dearest one and one statement more."""
    comment = "# a line that is passed over"
    left = 1_048_576 - len(text)
    count, rest = divmod(left, len(comment) + 1)
    asked += ["session longest", *said(text), f"*{count} {comment}", ":" + "#" * rest]
    played(asked, answered, "longest", f"65536 {len(output)} - -", 0, output)
    asked.append(":#")
    played(asked, answered, "longest", "65536 64 - -", 3, "refused 0 0 too-long\n")
    asked += ["session dearest", "|session 1", "|setup", "*1562 gpiodetect"]
    played(asked, answered, "dearest", "65536 0 - -", 0, "")
    asked.append("|gpiodetect")
    played(asked, answered, "dearest", "65536 64 - -", 3, "refused 0 0 cost\n")
    # With an `aggregate` five times as much.
    asked += ["session dearest-aggregate", "|session 1", "|setup", "|aggregate agg R", "*312 gpiodetect"]
    played(asked, answered, "dearest-aggregate", "65536 6 - -", 0, "EBADF\n")
    asked.append("|gpiodetect")
    played(asked, answered, "dearest-aggregate", "65536 64 - -", 3, "refused 0 0 cost\n")


def short(asked, answered, name, text, status, output):
    """A session in pieces of 1, 3 and 64 bytes."""
    asked += [f"session {name}", *said(text)]
    for piece in (1, 3, 64):
        played(asked, answered, name, f"{piece} {len(output)} - -", status, output)


def refusals(asked, answered):
    """A text with a fault in each of its parts: one line tells where and of what kind."""
    for text, line in (
        ("", "refused 1 1 header\n"),
        ("session 1\nsetup\nprobe demo 0", "refused 3 12 word\n"),
        ("# \x7f\nsession 1", "refused 1 3 byte\n"),
        ("session 1\nactor a\n actor a", "refused 3 8 name\n"),
        ("session 1\nactor a\nactor b\nafter\nprob", "refused 5 1 statement\n"),
    ):
        short(asked, answered, "faulty", text, 3, line)


# Two actors, of whom one alone asks the device while both are at work.
TWO_ACTORS = "session 1\nsetup\nprobe demo 1\nactor a\ngpiodetect 0\nactor b\n{}\nafter\ngpiodetect 0\n"
TWO_ACTORS_TEXT = """\
== setup
== actor a
gpiochip0 [demo] (1 lines)
== actor b
EBADF
== after
gpiochip0 [demo] (1 lines)
== history 7
0 0 probe demo 1 sim -> ok 0
1 1 open 0 -> ok 3
2 1 ioctl 0 3 0x8044b401 68 00*68 -> ok
3 1 close 3 -> ok
4 0 open 0 -> ok 4
5 0 ioctl 0 4 0x8044b401 68 00*68 -> ok
6 0 close 4 -> ok
"""


def meeting(asked, answered, calls, text, front):
    """A session whose actors' first driver calls are there before one is answered. Its history differs from run to run, so what is told
    ends in front of the history's entries; but the whole output is judged."""
    asked += ["session meeting", *said(text), f"meet {calls} 16384 {len(front)}"]
    answered += told("meeting", 0, front) + told("meeting", 0, "yes\n")


def meetings(asked, answered):
    """Two and sixteen actors that get a line each. Setup has one entry, and gpioget seven: it opens the chip, asks and tells GET_LINE,
    closes the chip, asks and tells GET_VALUES, and closes the request. One whose driver fails makes four: it closes the chip after the
    tell of GET_LINE."""
    two = "session 1\nsetup\nprobe demo 2\nactor a\n{}gpioget -c 0 0\nactor b\ngpioget -c 0 1\n"
    front = '== setup\n== actor a\n{}\n== actor b\n"1"=inactive\n== after\n== history {}\n'
    meeting(asked, answered, 2, two.format(""), front.format('"0"=inactive', 15))
    meeting(asked, answered, 2, two.format("fault 1\n"), front.format("gpioget: EIO", 12))
    actors = "".join(f"actor a{i}\ngpioget -c 0 {i}\n" for i in range(16))
    texts = "".join(f'== actor a{i}\n"{i}"=inactive\n' for i in range(16))
    meeting(
        asked,
        answered,
        16,
        "session 1\nsetup\nprobe demo 16\n" + actors,
        f"== setup\n{texts}== after\n== history 113\n",
    )


# The chips of sessions whose actors go by the driver's bells, of which line K and each eighth behind it have one (bells.rt). Lines of the
# first chip rest when they are set. A request of a line of the second one rings its bell and waits for the next. Lines of the third chip
# wait for their bells when they are set, and those of the fourth ring them.
BELLS = "session 1\nsetup\nprobe rests 1\nprobe held 4\nprobe waits 32\nprobe rings 8\n"
RESTS, HELD, WAITS, RINGS = range(4)


def requested(place, line, name):
    """A line of a chip as an output, under a name."""
    return f"open {name}.chip {place}\nioctl {name}.chip GET_LINE {line:02x} 00*287 08 00*271 01 00*31 as {name}\n"


def set_to(value, name):
    """Sets a request's first line; of the chips with bells it waits for one, rings it, or rests."""
    return f"ioctl {name} SET_VALUES {value:02x} 00*7 01 00*7\n"


def got(name):
    return f"ioctl {name} GET_VALUES 00*8 01 00*7\n"


def ringing(asked, answered, name, text, before, entries):
    """A session whose actors go by bells: what is told of it in front of its history, and those entries of the history, each with the first
    word of its answer, that come in this order in each run."""
    asked += [f"session {name}", *said(text), "ring 1000000 " + "|".join(entries)]
    history = "".join(f"{entry} -> {answer}\n" for entry, answer in entries.items())
    answered += told(name, 0, before + history) + told(name, 0, "yes\n")


def removed_under_load(asked, answered):
    """A chip is unplugged while an actor is held in its driver. A third actor polls a file of the chip until that has hung up, can neither
    open nor unplug the chip, and lets the first one go. That one calls on its request when the removal has ended."""
    holder = (
        "open f 1\n"
        + requested(WAITS, 3, "ready")
        + requested(WAITS, 2, "ended")
        + set_to(1, "ready")
        + "ioctl f GET_LINE 00*288 08 00*271 01 00*31 as r\n"
        + set_to(1, "ended")
        + "ioctl r SET_CONFIG 00*272\npoll r\n"
        + set_to(1, "r")
        + "poll r\n"
        + got("r")
        + "poll r\nevents r 48\npoll r\nevents r 47\n"
        + "close r\nclose f\n"
    )
    remover = (
        requested(WAITS, 0, "entered")
        + requested(RINGS, 2, "ended")
        + set_to(1, "entered")
        + "unplug 1\n"
        + set_to(1, "ended")
    )
    poller = (
        "open f 1\npoll f\n"
        + requested(WAITS, 8, "entered")
        + requested(RINGS, 1, "go")
        + requested(RINGS, 3, "ready")
        + requested(RESTS, 0, "rest")
        + "start m gpionotify -c 1 3\nstep m 1\n"
        + set_to(1, "ready")
        + set_to(1, "entered")
        + ("step m 250\n" + set_to(1, "rest")) * 20
        + "poll f\nopen g 1\nunplug 1\n"
        + set_to(1, "go")
    )
    text = BELLS + f"actor holder\n{holder}actor remover\n{remover}actor poller\n{poller}"
    before = (
        "== setup\n== actor holder\nfd\nENODEV\n"
        + "HUP ERR\nENODEV\n" * 4
        + "== actor remover\nfd\n== actor poller\n-\nfd\nidle\ngpionotify: ENODEV\nEBADF\nHUP ERR\nENODEV\nEBUSY\n== after\n"
    )
    entries = {
        "2 unplug 1 begin": "ok",
        "3 refused 1 poll": "poll",
        "3 unplug 1 begin": "EBUSY",
        "1 tell 1": "ok",
        "2 unplug 1 finish": "ok",
    }
    ringing(asked, answered, "removed-under-load", text, before, entries)


def device_taken_down(asked, answered):
    """A device of three banks is taken down while three actors set and get values of their lines. Each is done what it asks for, until it is
    refused, and then nothing more."""
    text = BELLS + "mkdir d\nmkdir d/a\nmkdir d/b\nmkdir d/c\nwrite d/live 1\n"
    turn = set_to(0, "r") + set_to(1, "r") + got("r")
    for user in range(3):
        text += (
            f"actor u{user}\n"
            + requested(4 + user, 0, "r")
            + requested(RINGS, user, "used")
            + requested(WAITS, 3 + 8 * user, "gone")
            + set_to(0, "r")
            + got("r")
            + turn
            + set_to(1, "used")
            + turn * 50
            + set_to(1, "gone")
            + turn * 3
        )
    text += (
        "actor remover\n"
        + "".join(requested(WAITS, user, f"used{user}") for user in range(3))
        + requested(RINGS, 3, "gone")
    )
    text += (
        "".join(set_to(1, f"used{user}") for user in range(3))
        + "write d/live 0\n"
        + set_to(1, "gone")
        + "after\nread d/live\n"
    )
    low, high = "00*8 0100000000000000\n", "01000000000000000100000000000000\n"
    before = (
        "== setup\n"
        + "".join(f"== actor u{user}\nfd\n{low}{high}ENODEV\n" for user in range(3))
        + "== actor remover\nfd\n== after\n0\n"
    )
    ringing(asked, answered, "taken-down", text, before, {"4 remove d begin": "ok", "4 remove d finish": "ok"})


def files():
    asked, answered = [], []
    for name, text, words, status, output in sessions():
        asked += [f"session {name}", *said(text)]
        room = len(output)
        for piece in PIECES.get(name, (4096, 7)):
            played(asked, answered, name, f"{piece} {room} - - {words}".rstrip(), status, output)
        if is_served(text, status, words):
            for piece in (4096, 1):
                told_as(asked, answered, "serve", name, f"{piece} {ROOM} - -", 0, output)
        if name in ("one-chip", "refused", "help-word", "generate-1", "check-yes"):
            front = (asked, answered, name, text, output)
            if name == "one-chip":
                faults(*front)
                serve_faults(
                    asked,
                    answered,
                    name,
                    [("session 1", ""), ("setup", ""), ("probe demo 4", ""), ("gpiodetect", output)],
                )
                asked.append("again")
                answered += told(name, 0, output)
                long_lines(asked, answered)
                no_maps(asked, answered)
                limits(asked, answered, text, output)
                asked += [f"session {name}", *said(text)]
            if name == "check-yes":
                for call in range(-(-len(text) // 64) + 1):
                    played(asked, answered, name, f"64 {room} {call} - {words}", 4, "")
            for cut in range(room):
                played(asked, answered, name, f"4096 {cut} - - {words}".rstrip(), 5, output[:cut])
    short(asked, answered, "header", "session 1\n", 0, "")
    refusals(asked, answered)
    # The second one has a statement that costs nothing in place of the poll: it costs seven, as many as the entries that it makes.
    for statement in ("poll nothing", "close nothing"):
        short(asked, answered, "actors", TWO_ACTORS.format(statement), 0, TWO_ACTORS_TEXT)
    meetings(asked, answered)
    removed_under_load(asked, answered)
    device_taken_down(asked, answered)
    return asked, answered


def main():
    failed = 0
    for name, lines in zip(("stdin", "stdout"), files()):
        path, wanted = TESTS / name, "\n".join(lines) + "\n"
        if "--write" in sys.argv[1:]:
            path.write_text(wanted)
        elif path.read_text() != wanted:
            failed += 1
            here = path.read_text().split("\n")
            at = next((i for i, (a, b) in enumerate(zip(here, lines)) if a != b), min(len(here), len(lines)))
            print(f"{path}:{at + 1}: {here[at:at + 1]} and not {lines[at:at + 1]}")
    print(f"{2 - failed} passed, {failed} failed")
    return failed


if __name__ == "__main__":
    sys.exit(1 if main() else 0)
