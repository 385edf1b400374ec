#!/usr/bin/env python3
"""Draws a value change dump (VCD), as `gpioserve -w FILE.vcd` writes it, as a picture (SVG).

    waves.py FILE.vcd                               writes FILE.svg
    waves.py FILE.vcd -o PICTURE.svg                - stands for standard output
    waves.py FILE.vcd --from 1.2s --to 1250ms       a part of it

Each line has its level over time, hatched where it isn't there, and below it a band with who holds it. A variable of another kind than
one bit is a band with its values. DUMP.md has the form of the dump; those of other programs are drawn too.

Status 0; 1 where the dump can't be read or the picture not written, with FILE:LINE and what is wrong; 2 for wrong arguments.
"""
import argparse
import re
import sys
from dataclasses import dataclass, field
from html import escape
from pathlib import Path
from typing import Dict, Iterator, List, NoReturn, Optional, Sequence, Tuple

# Times are whole femtoseconds, the smallest unit that a dump can have: ten to these powers are a unit.
UNITS = {"fs": 0, "ps": 3, "ns": 6, "us": 9, "ms": 12, "s": 15}
HOLDER = ":holder"
TEXT_TYPES = ("string", "real", "realtime", "integer", "parameter", "event", "time")

# What is drawn, in pixels.
SIGN = 6.7
LEVEL_HEIGHT = 20
BAND_HEIGHT = 16
GAP = 16
BAND_GAP = 5
TOP = 14
AXIS = 40
TICK_ROOM = 90
NARROW = 0.5
ROOM = 200
PALETTE = ("#ddf4ff", "#dafbe1", "#fff8c5", "#ffeff7", "#fbefff", "#ffe7d6")
STYLE = """
  text { font: 11px ui-monospace, monospace; fill: #24292f }
  .small { font-size: 10px; fill: #57606a }
  .grid { stroke: #d8dee4; stroke-width: 1 }
  .level { fill: none; stroke: #0550ae; stroke-width: 1.5 }
  .open { fill: none; stroke: #0550ae; stroke-width: 1; stroke-dasharray: 3 2 }
  .gone { fill: url(#hatch); stroke: none }
  .band { stroke: #8c959f; stroke-width: 0.7 }
"""
HATCH = (
    '<pattern id="hatch" width="6" height="6" patternUnits="userSpaceOnUse" patternTransform="rotate(45)">'
    '<rect width="6" height="6" fill="#f6f8fa"/><line x1="0" y1="0" x2="0" y2="6" stroke="#afb8c1"/></pattern>'
)


class BadDump(Exception):
    """A dump that breaks the form: the line, counted from 1, and what is wrong."""

    def __init__(self, line: int, text: str) -> None:
        super().__init__(text)
        self.line = line


@dataclass(frozen=True)
class Change:
    """From a time on a variable has a value: a bit, or a text."""

    at: int
    value: str


@dataclass
class Row:
    """A variable of the dump. Its changes come in the order of their times, at most one a time."""

    scope: str
    name: str
    is_level: bool
    changes: List[Change] = field(default_factory=list)

    def set(self, at: int, value: str) -> None:
        """Notes a value from a time on; a later one of the same time stands in place of the earlier."""
        if self.changes and self.changes[-1].at == at:
            self.changes.pop()
        if not self.changes or self.changes[-1].value != value:
            self.changes.append(Change(at, value))


@dataclass
class Dump:
    """The variables in the order of the dump, its first and last time, and what the machine's clock showed at time 0, in nanoseconds."""

    rows: List[Row]
    begin: int
    end: int
    start: Optional[int]


@dataclass(frozen=True)
class Word:
    """A word of the dump, and its line."""

    line: int
    text: str


def words_of(text: str) -> Iterator[Word]:
    """The words of a dump, which blanks and line ends divide."""
    for line, content in enumerate(text.split("\n"), 1):
        for word in content.split():
            yield Word(line, word)


def unescaped(text: str) -> str:
    """A text of a dump with its escapes read: what can be shown as a sign is one, and other bytes stay as they are spelled."""

    def bytes_at(found: "re.Match[str]") -> str:
        spelled = found[0]
        try:
            plain = bytes.fromhex(spelled.replace("\\x", "")).decode("utf-8")
        except ValueError:
            return spelled
        return plain if plain.isprintable() else spelled

    return re.sub(r"(?:\\x[0-9A-Fa-f]{2})+", bytes_at, text)


def shown(text: str) -> str:
    """A text without signs that can't be shown, which are spelled out."""
    return "".join(sign if sign.isprintable() else ascii(sign)[1:-1] for sign in text)


def is_number(text: str) -> bool:
    """Whether a text is a decimal number that a dump can have."""
    return re.fullmatch("[0-9]{1,40}", text) is not None


def number_of(bits: str) -> str:
    """A vector's value: in hexadecimal digits where all its bits are known."""
    return hex(int(bits, 2)) if re.fullmatch("[01]+", bits) else bits


class Reader:
    """Reads a dump word by word."""

    def __init__(self, text: str) -> None:
        self._words = words_of(text)
        self._last = 1
        self._scopes: List[str] = []
        self._rows: List[Row] = []
        self._by_code: Dict[str, List[Row]] = {}
        self._unit: Optional[int] = None
        self._start: Optional[int] = None
        self._at: Optional[int] = None
        self._begin: Optional[int] = None

    def read(self) -> Dump:
        """The dump; BadDump for the first word that breaks its form."""
        self._header()
        if not self._rows:
            self._fail("the header names no variable")
        for word in self._all():
            self._last = word.line
            self._value(word)
        if self._at is None or self._begin is None:
            self._fail("there is no time and no value after the header")
        return Dump(self._rows, self._begin, self._at, self._start)

    def _fail(self, text: str) -> NoReturn:
        raise BadDump(self._last, text)

    def _all(self) -> Iterator[Word]:
        return self._words

    def _next(self, after: str) -> str:
        """The next word; BadDump where the dump ends after what is named."""
        word = next(self._words, None)
        if word is None:
            self._fail(f"the dump ends after {after}")
        self._last = word.line
        return word.text

    def _body(self, command: str) -> List[str]:
        """The words of a command up to its $end."""
        begins, body = self._last, []
        for word in self._words:
            if word.text == "$end":
                self._last = word.line
                return body
            body.append(word.text)
        raise BadDump(begins, f"{command} has no $end")

    def _header(self) -> None:
        while True:
            command = self._next("its header, which has no $enddefinitions")
            if not command.startswith("$"):
                self._fail(f"{command} stands before $enddefinitions")
            if command == "$end":
                self._fail("$end ends nothing here")
            body = self._body(command)
            if command == "$enddefinitions":
                return
            self._declare(command, body)

    def _declare(self, command: str, body: List[str]) -> None:
        if command == "$timescale":
            self._timescale("".join(body))
        elif command == "$scope":
            if len(body) != 2:
                self._fail("$scope has a kind and a name")
            self._scopes.append(body[1])
        elif command == "$upscope":
            if not self._scopes:
                self._fail("$upscope stands outside every scope")
            self._scopes.pop()
        elif command == "$var":
            self._variable(body)
        elif command == "$comment" and len(body) == 2 and body[0] == "start" and is_number(body[1]):
            self._start = int(body[1])

    def _timescale(self, text: str) -> None:
        found = re.fullmatch("(1|10|100)(fs|ps|ns|us|ms|s)", text)
        if not found:
            self._fail(f"$timescale {text} is no 1, 10 or 100 of fs, ps, ns, us, ms or s")
        self._unit = int(found[1]) * 10 ** UNITS[found[2]]

    def _variable(self, body: List[str]) -> None:
        if len(body) < 4 or not is_number(body[1]):
            self._fail("$var has a type, a number of bits, a code and a name")
        kind, size, code = body[:3]
        row = Row(shown(".".join(self._scopes)), shown(" ".join(body[3:])), kind not in TEXT_TYPES and size == "1")
        self._rows.append(row)
        self._by_code.setdefault(code, []).append(row)

    def _value(self, word: Word) -> None:
        first, rest = word.text[0], word.text[1:]
        if first == "#":
            self._time(rest)
        elif first in "01xXzZ":
            self._set(rest, first.lower())
        elif first in "bB":
            self._set(self._next(word.text), rest.lower())
        elif first in "rRsS":
            self._set(self._next(word.text), unescaped(rest))
        elif word.text == "$comment":
            self._body(word.text)
        elif word.text not in ("$dumpvars", "$dumpall", "$dumpon", "$dumpoff", "$end"):
            self._fail(f"{word.text} is neither a time nor a value")

    def _time(self, text: str) -> None:
        if not is_number(text):
            self._fail(f"#{text} is no time")
        if self._unit is None:
            self._fail("there is a time, and no $timescale in the header")
        at = int(text) * self._unit
        if self._at is not None and at < self._at:
            self._fail(f"#{text} is earlier than the time before it")
        self._at = at
        self._begin = at if self._begin is None else self._begin

    def _set(self, code: str, value: str) -> None:
        if self._at is None:
            self._fail("there is a value before the first time")
        if code not in self._by_code:
            self._fail(f"{code or 'a value without a code'} is no code of the header")
        for row in self._by_code[code]:
            if not row.is_level:
                row.set(self._at, shown(number_of(value)))
            elif value[-1:] in ("0", "1", "x", "z"):
                row.set(self._at, value[-1])
            else:
                self._fail(f"{value} is no level of {row.name}")


@dataclass(frozen=True)
class Segment:
    """A value from one time to another."""

    begin: int
    end: int
    value: str


def segments(row: Row, begin: int, end: int) -> Iterator[Segment]:
    """The values of a row in a window of time, in order. Before its first change a level is `x` and a text is empty."""
    value, at = ("x" if row.is_level else ""), begin
    for change in row.changes:
        if change.at >= end:
            break
        if change.at > at:
            yield Segment(at, change.at, value)
            at = change.at
        value = change.value
    yield Segment(at, end, value)


def amount(at: int, unit: str, step: int) -> str:
    """A time in a unit, with as many decimals as multiples of the step have."""
    whole, decimals = UNITS[unit], 0
    while decimals < whole and step % 10 ** (whole - decimals):
        decimals += 1
    scaled = at // 10 ** (whole - decimals)
    text = str(scaled) if not decimals else f"{scaled // 10 ** decimals}.{scaled % 10 ** decimals:0{decimals}d}"
    return f"{text} {unit}"


def unit_of(span: int) -> str:
    """The largest unit that isn't longer than a span."""
    return max((unit for unit in UNITS if 10 ** UNITS[unit] <= span), key=lambda unit: UNITS[unit], default="fs")


def shortest(at: int) -> str:
    """A time to the nanosecond, in the unit that reads best."""
    at -= at % 10 ** UNITS["ns"]
    return amount(at, unit_of(at), at) if at else "0 ns"


def step_of(span: int, most: int) -> int:
    """The smallest of 1, 2 and 5 times a power of ten that divides a span into no more parts than that."""
    power = 1
    while True:
        for factor in (1, 2, 5):
            if span <= most * factor * power:
                return factor * power
        power *= 10


def ticks(begin: int, end: int, most: int) -> List[Tuple[int, str]]:
    """The times of an axis with their texts: at most one more than that many."""
    step, unit = step_of(end - begin, max(most, 1)), unit_of(end - begin)
    first = -(-begin // step)
    return [(number * step, amount(number * step, unit, step)) for number in range(first, end // step + 1)]


@dataclass(frozen=True)
class Window:
    """The part of the time that is drawn, and where."""

    begin: int
    end: int
    left: float
    width: float

    def x(self, at: int) -> float:
        """The place of a time, to a tenth of a pixel."""
        return round(self.left + self.width * (at - self.begin) / (self.end - self.begin), 1)


@dataclass(frozen=True)
class Track:
    """A row of the picture: its label, the variable, and its upper edge."""

    label: str
    row: Row
    top: int

    @property
    def height(self) -> int:
        """How high the row is."""
        return LEVEL_HEIGHT if self.row.is_level else BAND_HEIGHT


def labels(rows: Sequence[Row]) -> List[str]:
    """The label of each row: its name, after its scope where another scope has the same name."""
    scopes: Dict[str, set[str]] = {}
    for row in rows:
        scopes.setdefault(row.name, set()).add(row.scope)
    return [f"{row.scope} {row.name}" if len(scopes[row.name]) > 1 else row.name for row in rows]


def holders(rows: Sequence[Row]) -> Dict[int, Row]:
    """For the places of lines among the rows: the row with who holds that line."""
    texts = {(row.scope, row.name): row for row in rows if not row.is_level}
    found = {place: texts.get((row.scope, row.name + HOLDER)) for place, row in enumerate(rows) if row.is_level}
    return {place: row for place, row in found.items() if row is not None}


def tracks(rows: Sequence[Row]) -> List[Track]:
    """The rows of the picture from above. A holder's stands below its line, and isn't there where nobody ever held the line."""
    held = holders(rows)
    below, made = TOP, []
    for place, label in enumerate(labels(rows)):
        row = rows[place]
        if any(row is holder for holder in held.values()):
            continue
        made.append(Track(label, row, below))
        below += made[-1].height
        if place in held and any(change.value for change in held[place].changes):
            made.append(Track("held by", held[place], below + BAND_GAP))
            below += BAND_GAP + BAND_HEIGHT
        below += GAP
    return made


def stroke(points: Sequence[Tuple[float, float]]) -> str:
    """A path of horizontal and vertical strokes through points. Of many at one place only what can be seen is kept."""
    kept: List[Tuple[float, float]] = []
    for point in points:
        kept.append(point)
        while len(kept) > 3 and kept[-4][0] == point[0]:
            del kept[-3:-1]
    path = f"M{kept[0][0]:g} {kept[0][1]:g}"
    for before, point in zip(kept, kept[1:]):
        path += f"H{point[0]:g}" if point[1] == before[1] else f"V{point[1]:g}"
    return path


def level_marks(track: Track, window: Window) -> Iterator[str]:
    """The level of a line: a stroke, hatched where it isn't known, and dashed in the middle where nothing drives it."""
    heights = {"1": track.top, "0": track.top + LEVEL_HEIGHT}
    points: List[Tuple[float, float]] = []
    for part in segments(track.row, window.begin, window.end):
        left, right = window.x(part.begin), window.x(part.end)
        if part.value in heights:
            points += [(left, heights[part.value]), (right, heights[part.value])]
            continue
        if points:
            yield f'<path class="level" d="{stroke(points)}"/>'
            points = []
        if part.value == "x":
            yield f'<rect class="gone" x="{left:g}" y="{track.top}" width="{right - left:.1f}" height="{LEVEL_HEIGHT}"/>'
        else:
            yield f'<path class="open" d="M{left:g} {track.top + LEVEL_HEIGHT / 2:g}H{right:g}"/>'
    if points:
        yield f'<path class="level" d="{stroke(points)}"/>'


def fitted(text: str, width: float) -> str:
    """As much of a text as has room in a width."""
    room = int((width - 6) / SIGN)
    return text if len(text) <= room else text[: room - 1] + "…" if room > 1 else ""


def band_marks(track: Track, window: Window, colours: Dict[str, str]) -> Iterator[str]:
    """A band: a box for each time with a text, with as much of the text as has room in it. Pointing at it shows all. Of narrow boxes
    that lie on each other the first is kept."""
    narrow = -1.0
    for part in segments(track.row, window.begin, window.end):
        left, width = window.x(part.begin), window.x(part.end) - window.x(part.begin)
        if not part.value or (width < NARROW and left < narrow + NARROW):
            continue
        narrow = left if width < NARROW else -1.0
        colour = colours.setdefault(part.value, PALETTE[len(colours) % len(PALETTE)])
        said = escape(f"{part.value}: {shortest(part.begin)} to {shortest(part.end)}")
        yield (
            f'<g><title>{said}</title><rect class="band" x="{left:g}" y="{track.top}" width="{max(width, NARROW):.1f}" '
            f'height="{BAND_HEIGHT}" fill="{colour}"/>'
        )
        text = fitted(part.value, width)
        yield (f'<text x="{left + 3:g}" y="{track.top + 12}">{escape(text)}</text></g>' if text else "</g>")


def axis_marks(window: Window, bottom: int, start: Optional[int]) -> Iterator[str]:
    """The axis of time below the rows, its grid, and what the machine's clock showed at time 0."""
    for at, text in ticks(window.begin, window.end, int(window.width // TICK_ROOM)):
        x = window.x(at)
        yield f'<line class="grid" x1="{x:g}" y1="{TOP - 6}" x2="{x:g}" y2="{bottom}"/>'
        yield f'<text class="small" x="{x:g}" y="{bottom + 14}" text-anchor="middle">{text}</text>'
    if start:
        clock = f"{start // 10 ** 9}.{start % 10 ** 9:09d}"
        yield f'<text class="small" x="{window.left:g}" y="{bottom + 30}">0 is {clock} s of the monotonic clock</text>'


def picture(dump: Dump, begin: int, end: int, width: int) -> str:
    """The dump from one time to another as an SVG of that width, or wider where the labels leave too little room."""
    made = tracks(dump.rows)
    left = round(max(len(track.label) for track in made) * SIGN + 20)
    width = max(width, left + 30 + ROOM)
    window = Window(begin, end, left, width - left - 30)
    bottom = made[-1].top + made[-1].height + 8
    colours: Dict[str, str] = {}
    marks = list(axis_marks(window, bottom, dump.start))
    for track in made:
        style = "" if track.row.is_level else ' class="small"'
        marks.append(
            f'<text{style} x="{left - 10}" y="{track.top + track.height - 5}" text-anchor="end">{escape(track.label)}</text>'
        )
        marks += level_marks(track, window) if track.row.is_level else band_marks(track, window, colours)
    height = bottom + AXIS
    names = escape(", ".join(track.label for track in made if track.label != "held by"))
    head = (
        f'<svg xmlns="http://www.w3.org/2000/svg" width="{width}" height="{height}" viewBox="0 0 {width} {height}" role="img">\n'
        f"<title>{names}, {shortest(begin)} to {shortest(end)}</title>\n<style>{STYLE}</style>\n<defs>{HATCH}</defs>\n"
        f'<rect width="{width}" height="{height}" fill="#ffffff"/>\n'
    )
    return head + "\n".join(marks) + "\n</svg>\n"


def time_of(text: str) -> int:
    """A time of the command line: a number and a unit."""
    found = re.fullmatch(r"([0-9]+)(?:\.([0-9]{1,15}))?(s|ms|us|ns)", text)
    if not found:
        raise argparse.ArgumentTypeError(f"{text} is no number with s, ms, us or ns, as 1.5ms")
    digits = (found[2] or "").ljust(15, "0")
    return (int(found[1]) * 10**15 + int(digits)) * 10 ** UNITS[found[3]] // 10**15


def version() -> str:
    """The version number, which stands beside this program where it is installed, or at the repository's top."""
    here = Path(__file__).resolve().parent
    files = [path for path in (here / "VERSION", here.parent / "VERSION") if path.is_file()]
    return files[0].read_text(encoding="ascii").strip() if files else "unknown"


def arguments(words: Sequence[str]) -> argparse.Namespace:
    """The arguments of the command line."""
    parser = argparse.ArgumentParser(
        prog="waves.py", description=__doc__, formatter_class=argparse.RawDescriptionHelpFormatter
    )
    parser.add_argument("dump", metavar="FILE.vcd", help="the dump")
    parser.add_argument(
        "-o", "--output", metavar="FILE.svg", help="the picture; - for standard output (the dump's name with .svg)"
    )
    parser.add_argument(
        "--from", dest="begin", type=time_of, metavar="TIME", help="the first time that is drawn, as 1.5ms (the dump's)"
    )
    parser.add_argument("--to", dest="end", type=time_of, metavar="TIME", help="the last one (the dump's)")
    parser.add_argument("--version", action="version", version=f"waves.py {version()}", help="prints the version")
    parser.add_argument("--width", type=int, default=960, metavar="N", help="pixels, 300 to 20000 (960)")
    asked = parser.parse_args(words)
    if not 300 <= asked.width <= 20000:
        parser.error("--width is from 300 to 20000")
    if asked.begin is not None and asked.end is not None and asked.begin >= asked.end:
        parser.error("--from is before --to")
    return asked


def draw(asked: argparse.Namespace) -> None:
    """Reads the dump and writes its picture. BadDump, or OSError of either file."""
    with open(asked.dump, encoding="utf-8", errors="replace", newline="") as source:
        dump = Reader(source.read()).read()
    begin = dump.begin if asked.begin is None else asked.begin
    end = max(dump.end, begin + 1) if asked.end is None else asked.end
    text = picture(dump, min(begin, end - 1), end, asked.width)
    if asked.output == "-":
        sys.stdout.write(text)
        return
    output = asked.output or Path(asked.dump).with_suffix(".svg")
    with open(output, "w", encoding="utf-8") as sink:
        sink.write(text)


def main(words: Sequence[str]) -> int:
    """Draws what the arguments ask for: the status."""
    asked = arguments(words)
    try:
        draw(asked)
    except BadDump as fault:
        print(f"waves.py: {asked.dump}:{fault.line}: {fault}", file=sys.stderr)
        return 1
    except OSError as fault:
        print(f"waves.py: {fault.filename or asked.output}: {fault.strerror}", file=sys.stderr)
        return 1
    return 0


if __name__ == "__main__":
    sys.exit(main(sys.argv[1:]))
