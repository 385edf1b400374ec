#!/usr/bin/env python3
"""Runs the examples of a page, and compares what they print with what the page says.

    page_examples.py PAGE ..     PAGE is a manual page (NAME.1, NAME.5.gz), or a document (NAME.md)

Of a manual page these are the blocks of its section EXAMPLES, of a document the blocks that are marked `console`. In a block a line that
begins with `$ ` is a command, up to the end of its here-document if it has one. What follows is what it prints, on both of its outputs. There
`...` stands for any text, and a line of `...` alone for any lines. All commands of a page run in one shell, in a folder that is empty at
first. The last line is `N passed, M failed`, of commands.
"""

from __future__ import annotations

import gzip
import re
import subprocess
import sys
import tempfile
from dataclasses import dataclass, field
from pathlib import Path
from typing import Iterator, List, Sequence

SIGNS = {"\\e": "\\", "\\-": "-", "\\(aq": "'", "\\(ga": "`", "\\(ha": "^", "\\(ti": "~", "\\&": ""}
PROMPT = "$ "
ANY = "..."
# How long all commands of a page may take, in seconds.
LIMIT = 600


@dataclass
class Example:
    """A command, and the lines that it should print."""

    command: str
    expected: List[str] = field(default_factory=list)


def roff_blocks(text: str) -> Iterator[List[str]]:
    """The blocks of a manual page's examples, as a reader sees them."""
    section = re.search(r"^\.SH EXAMPLES\n(.*?)(?=^\.SH|\Z)", text, re.M | re.S)
    pattern = re.compile("|".join(map(re.escape, SIGNS)))
    for block in re.findall(r"^\.nf\n(.*?)^\.fi\n", section[1] if section else "", re.M | re.S):
        yield [
            pattern.sub(lambda sign: SIGNS[sign[0]], line) for line in block.splitlines() if not line.startswith(".R")
        ]


def markdown_blocks(text: str) -> Iterator[List[str]]:
    """The blocks of a document that are marked `console`."""
    for block in re.findall(r"^```console\n(.*?)^```$", text, re.M | re.S):
        yield block.splitlines()


def examples(lines: Sequence[str]) -> Iterator[Example]:
    """The examples of a block."""
    rest = list(lines)
    while rest:
        line = rest.pop(0)
        if not line.startswith(PROMPT):
            raise ValueError(f"no command comes before {line!r}")
        example = Example(line[len(PROMPT) :])
        here = re.search(r"<<'(\w+)'", example.command)
        while here and example.command.split("\n")[-1] != here[1]:
            example.command += "\n" + rest.pop(0)
        while rest and not rest[0].startswith(PROMPT):
            example.expected.append(rest.pop(0))
        yield example


def matches(expected: Sequence[str], printed: str) -> bool:
    """Whether what was printed is what the page says."""
    parts = []
    for line in expected:
        if line.strip() == ANY:
            parts.append("(?:.*\n)*?")
        else:
            parts.append(".*".join(map(re.escape, line.rstrip().split(ANY))) + " *\n")
    return re.fullmatch("".join(parts), printed) is not None


def script(all_of: Sequence[Example], outputs: Path) -> str:
    """The commands as one script, whose outputs go to a file each."""
    parts = [f"{{\n{example.command}\n}} >{outputs}/{at} 2>&1" for at, example in enumerate(all_of)]
    return "\n".join(parts) + "\n"


def run(path: Path) -> List[str]:
    """Runs the examples of a page: what is wrong, `ok` for what is not."""
    data = gzip.decompress(path.read_bytes()) if path.suffix == ".gz" else path.read_bytes()
    text = data.decode()
    blocks = markdown_blocks(text) if path.suffix == ".md" else roff_blocks(text)
    found = [example for block in blocks for example in examples(block)]
    if not found:
        return [f"{path.name} has no examples"]
    with tempfile.TemporaryDirectory() as outputs, tempfile.TemporaryDirectory() as folder:
        program = Path(outputs, "script")
        program.write_text(script(found, Path(outputs)))
        subprocess.run(["bash", program], cwd=folder, stdin=subprocess.DEVNULL, timeout=LIMIT, check=False)
        results = []
        for at, example in enumerate(found):
            output = Path(outputs, str(at))
            printed = output.read_text(errors="backslashreplace") if output.exists() else "(it didn't run)\n"
            if matches(example.expected, printed):
                results.append("ok")
            else:
                expected = "".join(f"  > {line}\n" for line in example.expected)
                results.append(f"{path.name}: {example.command}\n{expected}printed\n{printed.rstrip()}")
    return results


def main(words: Sequence[str]) -> int:
    """Runs the examples of all pages."""
    results = [result for word in words for result in run(Path(word))]
    wrong = [result for result in results if result != "ok"]
    for result in wrong:
        print(f"FAILED {result}")
    print(f"{len(results) - len(wrong)} passed, {len(wrong)} failed")
    return 1 if wrong or not results else 0


if __name__ == "__main__":
    sys.exit(main(sys.argv[1:]))
