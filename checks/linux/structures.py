"""The structures of linux/gpio.h that lists hand to ioctl, built as bytes. `struct` has their layout, little-endian."""
import struct
from typing import Sequence, Tuple

ACTIVE_LOW, INPUT, OUTPUT, RISING, FALLING, OPEN_DRAIN, OPEN_SOURCE = (1 << bit for bit in range(1, 8))
PULL_UP, PULL_DOWN, BIAS_DISABLED, REALTIME = (1 << bit for bit in range(8, 12))
EDGES, BIASES, DRIVES, DIRECTIONS = (
    RISING | FALLING,
    PULL_UP | PULL_DOWN | BIAS_DISABLED,
    OPEN_DRAIN | OPEN_SOURCE,
    INPUT | OUTPUT,
)
# of an attribute
FLAGS, OUTPUT_VALUES, DEBOUNCE = 1, 2, 3
# of the first uAPI
INPUT1, OUTPUT1, ACTIVE_LOW1, OPEN_DRAIN1, OPEN_SOURCE1, PULL_UP1, PULL_DOWN1, BIAS_DISABLED1 = (
    1 << bit for bit in range(8)
)
RISING1, FALLING1 = 1, 2
ATTRIBUTE, ATTRIBUTES_MOST, ATTRIBUTES_AT = 24, 10, 32
REQUEST, CONFIG_AT, CONFIG = 592, 288, 272

Attribute = Tuple[int, int, int]  # id, value, mask


def config(flags: int, attributes: Sequence[Attribute] = ()) -> bytes:
    """A line config: 272 bytes."""
    text = b"".join(struct.pack("<IIQQ", name, 0, value, mask) for name, value, mask in attributes)
    return struct.pack("<QI20x", flags, len(attributes)) + text.ljust(ATTRIBUTE * ATTRIBUTES_MOST, b"\0")


def request(offsets: Sequence[int], configured: bytes, consumer: bytes = b"", capacity: int = 0) -> bytes:
    """A line request: 592 bytes. `capacity` is its event_buffer_size."""
    lines = struct.pack("<64I", *offsets, *[0] * (64 - len(offsets)))
    return lines + consumer.ljust(32, b"\0") + configured + struct.pack("<II24x", len(offsets), capacity)


def values(bits: int, mask: int) -> bytes:
    """Line values: 16 bytes."""
    return struct.pack("<QQ", bits, mask)


def line_info(offset: int) -> bytes:
    """Line information of v2 that is asked for: 256 bytes."""
    return struct.pack("<64xI188x", offset)


def handle_request(offsets: Sequence[int], flags: int, levels: Sequence[int] = (), consumer: bytes = b"") -> bytes:
    """A handle request of v1: 364 bytes."""
    lines = struct.pack("<64II", *offsets, *[0] * (64 - len(offsets)), flags)
    return lines + bytes(levels).ljust(64, b"\0") + consumer.ljust(32, b"\0") + struct.pack("<I4x", len(offsets))


def event_request(offset: int, flags: int, edges: int, consumer: bytes = b"") -> bytes:
    """An event request of v1: 48 bytes."""
    return struct.pack("<III", offset, flags, edges) + consumer.ljust(32, b"\0") + bytes(4)


def handle_data(levels: Sequence[int] = ()) -> bytes:
    """Values of v1: 64 bytes."""
    return bytes(levels).ljust(64, b"\0")


def handle_config(flags: int, levels: Sequence[int] = ()) -> bytes:
    """A config of v1: 84 bytes."""
    return struct.pack("<I", flags) + bytes(levels).ljust(64, b"\0") + bytes(16)
