#!/usr/bin/env python3
"""Prints a manual page, made of what stands elsewhere already.

    manual.py TOP NAME PROGRAM     of a command: what its --help prints, by help2man, and packaging/man/NAME.txt as examples
    manual.py TOP gpiosession      of sessions: the tables of docs/FORMATS.md, and packaging/man/gpiosession.txt

TOP is the top of the repository. SOURCE_DATE_EPOCH sets the date that the page shows. Status 1 where a part is missing.
"""

from __future__ import annotations

import os
import re
import subprocess
import sys
import tempfile
import time
from dataclasses import dataclass
from pathlib import Path
from typing import Dict, Iterator, List, Sequence, Tuple

# The one line of each page, and the pages that it names.
SUMMARIES = {
    "gpioserve": "run a command on simulated GPIO chips",
    "gpiosay": "say statements to the machine that gpioserve runs",
    "gpioserved": "answer the lines of a session one by one",
    "gpiosess": "run a session on simulated GPIO chips",
    "gpioserve-beside": "show each statement of a session with what it printed",
    "gpioserve-board": "show the lines of a simulated board, and press its buttons",
    "gpioserve-sweep": "try a command at every call at which something can go wrong",
    "gpioserve-waves": "draw a value change dump as a picture",
    "gpiosession": "sessions, boards and statements of simulated GPIO chips",
}
FORMAT_PAGE = "gpiosession"
DOCUMENTS = "/usr/share/doc/gpioserve"
SIGNS = {
    "\\": "\\e",
    "-": "\\-",
    "'": "\\(aq",
    "`": "\\(ga",
    "^": "\\(ha",
    "~": "\\(ti",
}


class Missing(Exception):
    """A part of a page that isn't where it should be."""


def escaped(text: str) -> str:
    """Text as roff has it, sign by sign."""
    text = "".join(SIGNS.get(sign, sign) for sign in text)
    return "\\&" + text if text.startswith((".", "\\(aq")) else text


def inline(text: str) -> str:
    """A sentence of Markdown as roff: code is bold, a link is its text, and a reference to a crate is left out."""
    text = re.sub(r" \([^()]*`(?:gl_\w+|specs/[\w/]+)`[^()]*\)", "", text)
    text = re.sub(r"\[([^]]*)\]\([^)]*\)", r"\1", text)
    parts = re.split(r"`([^`]+)`", text.replace("\\|", "|"))
    return "".join(f"\\fB{escaped(part)}\\fR" if at % 2 else escaped(part) for at, part in enumerate(parts))


def examples(path: Path) -> str:
    """Paragraphs, and indented blocks as they are."""
    out: List[str] = []
    for block in path.read_text().strip("\n").split("\n\n"):
        lines = block.split("\n")
        if all(line.startswith("    ") for line in lines):
            out += [".PP", ".nf", ".RS 4", *(escaped(line[4:]) for line in lines), ".RE", ".fi"]
        else:
            out += [".PP", inline(" ".join(lines))]
    return "\n".join(out) + "\n"


def see_also(name: str) -> str:
    """The other pages."""
    others = [f".BR {other} ({section(other)})" for other in SUMMARIES if other != name]
    return ",\n".join(others) + f",\n.I {DOCUMENTS}\n"


def section(name: str) -> int:
    """The section of a page."""
    return 5 if name == FORMAT_PAGE else 1


def command_page(top: Path, name: str, program: str) -> str:
    """The page of a command."""
    parts = {
        "NAME": f"{name} \\- {SUMMARIES[name]}\n",
        "EXAMPLES": examples(top / f"packaging/man/{name}.txt"),
        "SEE ALSO": see_also(name),
    }
    with tempfile.NamedTemporaryFile("w", suffix=".h2m") as include:
        include.write("".join(f"[{title}]\n{text}\n" for title, text in parts.items()))
        include.flush()
        version = (top / "VERSION").read_text().strip()
        command = ["help2man", "--no-info", f"--version-string={version}", f"--include={include.name}", program]
        done = subprocess.run(command, capture_output=True, text=True, env={**os.environ, "LC_ALL": "C"}, check=False)
    if done.returncode != 0:
        raise Missing(done.stderr.strip())
    return done.stdout


@dataclass(frozen=True)
class Table:
    """A table of Markdown: its heads, and its rows of cells."""

    heads: Tuple[str, ...]
    rows: List[List[str]]


def tables(text: str) -> Iterator[Table]:
    """The tables of a text."""
    for block in re.findall(r"(?:^\|.*\n)+", text, re.M):
        rows = [[cell.strip() for cell in re.split(r"(?<!\\)\|", line)[1:-1]] for line in block.splitlines()]
        yield Table(tuple(rows[0]), rows[2:])


def chapter(text: str, title: str) -> str:
    """What stands under a heading of FORMATS, up to the next one."""
    found = re.search(rf"^#+ {re.escape(title)}\n(.*?)(?=^#)", text, re.M | re.S)
    if not found:
        raise Missing(f"docs/FORMATS.md has no heading {title!r}")
    return found[1]


def paragraphs(text: str) -> Iterator[str]:
    """The paragraphs of a chapter before its first table or subheading."""
    for block in re.split(r"\n\n+", text.strip()):
        if block.startswith("|"):
            return
        yield inline(" ".join(block.splitlines()))


def entries(table: Table) -> str:
    """A table as a list: its first column, and under it what the others say."""
    out = []
    for row in table.rows:
        cells = [(head, inline(cell)) for head, cell in zip(table.heads[1:], row[1:]) if cell]
        rest = [cell if head == "Words" else f"{head}: {cell}" for head, cell in cells]
        out.append(f".TP\n{inline(row[0])}\n" + ". ".join(rest) + "\n")
    return "".join(out)


def format_page(top: Path) -> str:
    """The page of sessions."""
    text = (top / "docs/FORMATS.md").read_text()
    found: Dict[Sequence[str], Table] = {table.heads: table for table in tables(text)}
    parts = {
        "NAME": f"{FORMAT_PAGE} \\- {SUMMARIES[FORMAT_PAGE]}\n",
        "DESCRIPTION": "\n.PP\n".join(paragraphs(chapter(text, "The text of a session"))) + "\n.PP\n"
        "A board of \\fBgpioserve\\fR(1) is the statements of a \\fBsetup\\fR alone.\n",
    }
    titles = {
        "STATEMENTS": ("Statement", "Cost"),
        "FORMS OF WORDS": ("Form", "Words"),
        "WHAT THEY CALL AND PRINT": ("Statement", "Errors without a call", "Calls", "Prints"),
        "LINES THAT ARE REFUSED": ("KIND", "Comes for", "Column"),
    }
    for title, heads in titles.items():
        if heads not in found:
            raise Missing(f"docs/FORMATS.md has no table with the heads {heads}")
        parts[title] = entries(found[heads])
    parts["EXAMPLES"] = examples(top / f"packaging/man/{FORMAT_PAGE}.txt")
    parts["SEE ALSO"] = see_also(FORMAT_PAGE)
    day = time.strftime("%B %Y", time.gmtime(int(os.environ.get("SOURCE_DATE_EPOCH", time.time()))))
    version = (top / "VERSION").read_text().strip()
    head = f'.TH {FORMAT_PAGE.upper()} "5" "{day}" "gpioserve {version}" "File Formats"\n'
    return head + "".join(f".SH {title}\n{body}" for title, body in parts.items())


def main(words: Sequence[str]) -> int:
    """Prints the page that the arguments name."""
    if len(words) < 2 or words[1] not in SUMMARIES or len(words) != (2 if words[1] == FORMAT_PAGE else 3):
        print(__doc__, file=sys.stderr)
        return 2
    top = Path(words[0])
    try:
        page = format_page(top) if words[1] == FORMAT_PAGE else command_page(top, words[1], words[2])
    except (Missing, OSError) as fault:
        print(f"manual: {words[1]}: {fault}", file=sys.stderr)
        return 1
    sys.stdout.write(page)
    return 0


if __name__ == "__main__":
    sys.exit(main(sys.argv[1:]))
