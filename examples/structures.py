#!/usr/bin/env python3
"""Makes and reads the structures of linux/gpio.h (uAPI v2) as pieces of a session.

What it prints stands behind a command in an `ioctl` statement; what `ioctl` printed can be read back:

  structures.py get-line 0 1 --flags INPUT,EDGE_RISING --consumer panel --attribute debounce:5000:1
      ioctl chip GET_LINE PIECES as lines
  structures.py config --flags INPUT,ACTIVE_LOW --attribute flags:OUTPUT:0    ioctl lines SET_CONFIG PIECES
  structures.py values 0 1        ioctl lines GET_VALUES PIECES
  structures.py values 0=1 1=0    ioctl lines SET_VALUES PIECES
  structures.py line 3            ioctl chip GET_LINEINFO PIECES, and WATCH
  structures.py offset 3          ioctl chip UNWATCH PIECES
  structures.py chip              ioctl chip GET_CHIPINFO PIECES
  structures.py read line PIECES  prints the fields of a line's information; so do chip, get-line, config and values

Lines of values and of attributes are named by their place in the request, from 0 on.
"""
import argparse
import re
import struct
import sys
from dataclasses import dataclass, field
from typing import Callable, Dict, List, Sequence, Tuple

FLAGS = [
    "USED",
    "ACTIVE_LOW",
    "INPUT",
    "OUTPUT",
    "EDGE_RISING",
    "EDGE_FALLING",
    "OPEN_DRAIN",
    "OPEN_SOURCE",
    "BIAS_PULL_UP",
    "BIAS_PULL_DOWN",
    "BIAS_DISABLED",
    "EVENT_CLOCK_REALTIME",
    "EVENT_CLOCK_HTE",
]
ATTRIBUTES = {"flags": 1, "values": 2, "debounce": 3}
ATTRIBUTES_MAX = 10
LINES_MAX = 64
# Numbers have their lowest byte first. The kernel's are in the order of its machine.
CHIP_INFO = struct.Struct("<32s32sI")
ATTRIBUTE = struct.Struct("<IIQ")
MASK = struct.Struct("<Q")
CONFIG_HEAD = struct.Struct("<QI20x")
CONFIG_SIZE = 272
REQUEST_TAIL = struct.Struct("<II20xi")
LINE_INFO_HEAD = struct.Struct("<32s32sIIQ")
LINE_INFO_SIZE = 256
VALUES = struct.Struct("<QQ")


def spelled(data: bytes) -> str:
    """The pieces of bytes, as a session prints them: each run of eight zeros or more as 00*N, the others as pairs."""
    if not data:
        return "-"
    parts = re.split(rb"(\0{8,})", data)
    return " ".join(f"00*{len(part)}" if part.startswith(b"\0" * 8) else part.hex() for part in parts if part)


def piece(word: str) -> bytes:
    """The bytes of one piece: pairs of hexadecimal digits, or HH*N."""
    found = re.fullmatch(r"([0-9A-Fa-f]{2})\*([1-9][0-9]*)", word)
    return bytes.fromhex(found[1]) * int(found[2]) if found else bytes.fromhex(word)


def read_pieces(words: Sequence[str]) -> bytes:
    """The bytes of pieces in a row."""
    return b"".join(piece(word) for word in words if word != "-")


def text_of(data: bytes) -> str:
    """A name field: its bytes up to the first zero."""
    return data.split(b"\0", 1)[0].decode("ascii", "backslashreplace")


def flags_of(text: str) -> int:
    """The word of flags that are named, separated by commas."""
    unknown = [name for name in text.split(",") if name and name not in FLAGS]
    if unknown:
        raise ValueError(f"{unknown[0]} is no flag; there are {', '.join(FLAGS)}")
    return sum(1 << FLAGS.index(name) for name in set(text.split(",")) if name)


def names_of(flags: int) -> str:
    """The names of the flags of a word, and what is left of it."""
    names = [name for bit, name in enumerate(FLAGS) if flags >> bit & 1]
    rest = flags >> len(FLAGS) << len(FLAGS)
    return ",".join(names + [hex(rest)] * (rest != 0)) or "-"


def places_in(mask: int) -> List[int]:
    """The places whose bit is in a mask."""
    return [place for place in range(LINES_MAX) if mask >> place & 1]


def mask_of(places: Sequence[int]) -> int:
    """The mask of some places."""
    if any(not 0 <= place < LINES_MAX for place in places):
        raise ValueError(f"a request has at most {LINES_MAX} lines, so places go from 0 to {LINES_MAX - 1}")
    return sum(1 << place for place in set(places))


@dataclass
class Attribute:
    """An attribute: flags, values (a bit a place) or debounce (microseconds)."""

    kind: str
    value: int

    def to_bytes(self) -> bytes:
        return ATTRIBUTE.pack(ATTRIBUTES[self.kind], 0, self.value)

    @classmethod
    def of(cls, data: bytes) -> "Attribute":
        number, _, value = ATTRIBUTE.unpack(data[: ATTRIBUTE.size])
        kinds = {known: name for name, known in ATTRIBUTES.items()}
        return cls(
            kinds.get(number, f"unknown-{number}"), value & 0xFFFFFFFF if number == ATTRIBUTES["debounce"] else value
        )

    def __str__(self) -> str:
        return f"{self.kind}:{names_of(self.value) if self.kind == 'flags' else self.value}"


@dataclass
class Config:
    """A line config: the flags of all lines, and attributes for the places of a mask each."""

    flags: int = 0
    attributes: List[Tuple[Attribute, int]] = field(default_factory=list)

    def to_bytes(self) -> bytes:
        if len(self.attributes) > ATTRIBUTES_MAX:
            raise ValueError(f"a config has at most {ATTRIBUTES_MAX} attributes")
        rows = b"".join(attribute.to_bytes() + MASK.pack(mask) for attribute, mask in self.attributes)
        return (CONFIG_HEAD.pack(self.flags, len(self.attributes)) + rows).ljust(CONFIG_SIZE, b"\0")

    @classmethod
    def of(cls, data: bytes) -> "Config":
        flags, count = CONFIG_HEAD.unpack_from(data)
        size = ATTRIBUTE.size + MASK.size
        rows = [data[CONFIG_HEAD.size + size * at :][:size] for at in range(min(count, ATTRIBUTES_MAX))]
        return cls(flags, [(Attribute.of(row), MASK.unpack(row[ATTRIBUTE.size :])[0]) for row in rows])

    def lines(self) -> List[str]:
        rows = [f"attribute {attribute} of {places_in(mask)}" for attribute, mask in self.attributes]
        return [f"flags {names_of(self.flags)}", *rows]


@dataclass
class Request:
    """A line request, for GET_LINE."""

    offsets: List[int]
    config: Config = field(default_factory=Config)
    consumer: str = ""
    event_buffer_size: int = 0
    fd: int = 0

    def to_bytes(self) -> bytes:
        if len(self.offsets) > LINES_MAX or len(self.consumer) > 31:
            raise ValueError(f"a request has at most {LINES_MAX} lines, and a consumer of at most 31 bytes")
        offsets = struct.pack(f"<{len(self.offsets)}I", *self.offsets).ljust(4 * LINES_MAX, b"\0")
        tail = REQUEST_TAIL.pack(len(self.offsets), self.event_buffer_size, self.fd)
        return offsets + self.consumer.encode("ascii").ljust(32, b"\0") + self.config.to_bytes() + tail

    @classmethod
    def of(cls, data: bytes) -> "Request":
        count, room, fd = REQUEST_TAIL.unpack_from(data, 4 * LINES_MAX + 32 + CONFIG_SIZE)
        offsets = struct.unpack_from(f"<{LINES_MAX}I", data)[:count]
        return cls(list(offsets), Config.of(data[4 * LINES_MAX + 32 :]), text_of(data[4 * LINES_MAX :][:32]), room, fd)

    def lines(self) -> List[str]:
        return [
            f"offsets {self.offsets}",
            f"consumer {self.consumer or '-'}",
            *self.config.lines(),
            f"event buffer size {self.event_buffer_size}",
            f"fd {self.fd}",
        ]


@dataclass
class LineInfo:
    """The information on a line: GET_LINEINFO and WATCH are handed the offset, and fill in the rest."""

    offset: int
    name: str = ""
    consumer: str = ""
    flags: int = 0
    attributes: List[Attribute] = field(default_factory=list)

    def to_bytes(self) -> bytes:
        head = LINE_INFO_HEAD.pack(
            self.name.encode("ascii"), self.consumer.encode("ascii"), self.offset, len(self.attributes), self.flags
        )
        return (head + b"".join(attribute.to_bytes() for attribute in self.attributes)).ljust(LINE_INFO_SIZE, b"\0")

    @classmethod
    def of(cls, data: bytes) -> "LineInfo":
        name, consumer, offset, count, flags = LINE_INFO_HEAD.unpack_from(data)
        rows = [data[LINE_INFO_HEAD.size + ATTRIBUTE.size * at :] for at in range(min(count, ATTRIBUTES_MAX))]
        return cls(offset, text_of(name), text_of(consumer), flags, [Attribute.of(row) for row in rows])

    def lines(self) -> List[str]:
        return [
            f"offset {self.offset}",
            f"name {self.name or '-'}",
            f"consumer {self.consumer or '-'}",
            f"flags {names_of(self.flags)}",
            *[f"attribute {attribute}" for attribute in self.attributes],
        ]


@dataclass
class ChipInfo:
    """The information on a chip."""

    name: str = ""
    label: str = ""
    count: int = 0

    def to_bytes(self) -> bytes:
        return CHIP_INFO.pack(self.name.encode("ascii"), self.label.encode("ascii"), self.count)

    @classmethod
    def of(cls, data: bytes) -> "ChipInfo":
        name, label, count = CHIP_INFO.unpack_from(data)
        return cls(text_of(name), text_of(label), count)

    def lines(self) -> List[str]:
        return [f"name {self.name}", f"label {self.label}", f"lines {self.count}"]


@dataclass
class Values:
    """The values of a request's lines: a bit for each place of the mask."""

    bits: int
    mask: int

    def to_bytes(self) -> bytes:
        return VALUES.pack(self.bits, self.mask)

    @classmethod
    def of(cls, data: bytes) -> "Values":
        return cls(*VALUES.unpack_from(data))

    def lines(self) -> List[str]:
        return [f"place {place}: {self.bits >> place & 1}" for place in places_in(self.mask)]


READERS: Dict[str, Callable] = {
    "chip": ChipInfo.of,
    "line": LineInfo.of,
    "get-line": Request.of,
    "config": Config.of,
    "values": Values.of,
}


def attribute_of(text: str) -> Tuple[Attribute, int]:
    """An attribute with its mask, of flags:NAMES:PLACES, values:PLACE=BIT,.. or debounce:MICROSECONDS:PLACES."""
    kind, _, rest = text.partition(":")
    if kind == "values":
        values = values_of(rest.split(","))
        return Attribute(kind, values.bits), values.mask
    said, _, places = rest.partition(":")
    if kind not in ATTRIBUTES or not places:
        raise ValueError(f"{text} is not flags:NAMES:PLACES, values:PLACE=BIT,.. or debounce:MICROSECONDS:PLACES")
    return Attribute(kind, flags_of(said) if kind == "flags" else int(said)), mask_of(
        [int(place) for place in places.split(",")]
    )


def values_of(words: Sequence[str]) -> Values:
    """Values of PLACE, which asks for it, and PLACE=BIT, which sets it."""
    pairs = [word.partition("=") for word in words]
    return Values(
        mask_of([int(place) for place, _, bit in pairs if bit == "1"]), mask_of([int(place) for place, _, _ in pairs])
    )


def parser() -> argparse.ArgumentParser:
    """What the words are."""
    top = argparse.ArgumentParser(description=__doc__, formatter_class=argparse.RawDescriptionHelpFormatter)
    kinds = top.add_subparsers(dest="kind", required=True)
    for kind in ("get-line", "config"):
        made = kinds.add_parser(kind)
        made.add_argument("--flags", default="", metavar="NAME,NAME..")
        made.add_argument("--attribute", action="append", default=[], metavar="KIND:VALUE:PLACES")
        if kind == "get-line":
            made.add_argument("offsets", nargs="+", type=int)
            made.add_argument("--consumer", default="")
            made.add_argument("--event-buffer-size", default=0, type=int)
    kinds.add_parser("values").add_argument("places", nargs="+", metavar="PLACE[=BIT]")
    kinds.add_parser("line").add_argument("offset", type=int)
    kinds.add_parser("offset").add_argument("offset", type=int)
    kinds.add_parser("chip")
    read = kinds.add_parser("read")
    read.add_argument("structure", choices=sorted(READERS))
    read.add_argument("pieces", nargs="+")
    return top


def made_of(words: argparse.Namespace) -> bytes:
    """The bytes that the words ask for."""
    if words.kind in ("get-line", "config"):
        config = Config(flags_of(words.flags), [attribute_of(text) for text in words.attribute])
        if words.kind == "config":
            return config.to_bytes()
        return Request(words.offsets, config, words.consumer, words.event_buffer_size).to_bytes()
    if words.kind == "values":
        return values_of(words.places).to_bytes()
    if words.kind == "line":
        return LineInfo(words.offset).to_bytes()
    return struct.pack("<I", words.offset) if words.kind == "offset" else ChipInfo().to_bytes()


def answer_to(arguments: Sequence[str]) -> str:
    """What is printed for these words."""
    words = parser().parse_args(arguments)
    if words.kind == "read":
        return "\n".join(READERS[words.structure](read_pieces(words.pieces)).lines())
    return spelled(made_of(words))


if __name__ == "__main__":
    try:
        print(answer_to(sys.argv[1:]))
    except (ValueError, struct.error, UnicodeEncodeError) as error:
        sys.exit(f"structures.py: {error}")
