#!/usr/bin/env python3
"""Lists the lines of GPIO chips as linux/gpio.h has them: lines.py [CHIP ..], /dev/gpiochip0 without a word.

It runs on a board with chips of its own as it does under gpioserve.
"""
import fcntl
import struct
import sys
from typing import List

# Commands of linux/gpio.h, and the structures that they fill in.
GET_CHIPINFO = 0x8044B401
GET_LINEINFO = 0xC100B405
CHIP_INFO = struct.Struct("=32s32sI")
LINE_INFO = struct.Struct("=32s32sIIQ176x")
USED = 1 << 0
OUTPUT = 1 << 3


def text_of(field: bytes) -> str:
    """A text that ends at its first zero byte; `-` for an empty one."""
    return field.split(b"\0")[0].decode() or "-"


def chip_lines(path: str) -> List[str]:
    """A line of text for the chip at that path, and one for each of its lines."""
    with open(path, "rb", buffering=0) as chip:
        data = fcntl.ioctl(chip, GET_CHIPINFO, bytes(CHIP_INFO.size))
        name, label, count = CHIP_INFO.unpack(data)
        found = [f"{text_of(name)} [{text_of(label)}] {count} lines"]
        for offset in range(count):
            data = fcntl.ioctl(chip, GET_LINEINFO, LINE_INFO.pack(b"", b"", offset, 0, 0))
            name, consumer, _, _, flags = LINE_INFO.unpack(data)
            holder = text_of(consumer) if flags & USED else "free"
            found.append(f"  line {offset}: {text_of(name)} {holder} {'output' if flags & OUTPUT else 'input'}")
    return found


def main() -> None:
    for path in sys.argv[1:] or ["/dev/gpiochip0"]:
        print("\n".join(chip_lines(path)))


if __name__ == "__main__":
    main()
