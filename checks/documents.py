"""Whether the documents say what is there: links lead to files, the names that PROMISES.md and docs/COMING-FROM.md cite are defined
in the files that they name, a cited contract has the clauses that are cited, a crate's README.md says what the crate stands on, what
CALLING.md quotes is in the sources, and a program has the number of the file VERSION. And whether they can be read: sentences and
paragraphs have a length limit. The last line is `N passed, M failed`.
"""
import re
import sys
from pathlib import Path
from typing import Callable, Dict, Iterator, List, Set, Tuple

TOP = Path(__file__).resolve().parent.parent
DOCUMENTS = [
    *sorted(TOP.glob("*.md")),
    *sorted((TOP / "docs").glob("*.md")),
    *sorted((TOP / "serve").glob("*.md")),
    *sorted((TOP / "checks").glob("*/README.md")),
    *sorted((TOP / "crates").glob("*/*.md")),
]
CODE = re.compile(r"`([^`]+)`")
READ = [
    *sorted(TOP.glob("*.md")),
    *sorted((TOP / "docs").glob("*.md")),
    *sorted((TOP / "serve").glob("*.md")),
    *sorted((TOP / "crates").glob("*/README.md")),
]
LINK = re.compile(r"\[([^\]]*)\]\([^)]*\)")
LIST_MARK = re.compile(r"\s*(?:[-*]|\d+\.)\s")
WORDS_WANTED, WORDS_MOST = 30, 45  # of a sentence: as a rule, and ever
RULE_PERCENT = 90  # of a page's sentences that keep to the rule
PARAGRAPH_MOST = 500  # characters
REPEATED_LEAST = 100  # characters of a paragraph that may not stand twice


def crates() -> Dict[str, List[str]]:
    """Each crate, and the libraries that it uses."""
    rows = [line.split("#")[0] for line in (TOP / "crates.txt").read_text().splitlines()]
    heads = [row.partition(":") for row in rows if ":" in row]
    return {head.split()[0]: uses.split() for head, _, uses in heads}


def named(path: Path) -> str:
    """A file by its path below the top."""
    return str(path.relative_to(TOP))


def anchors(path: Path) -> Set[str]:
    """The names by which a link finds the headings of a document."""
    heads = re.findall(r"^#+ (.*)$", path.read_text(), re.M)
    return {re.sub(r"[^\w\- ]", "", head.lower()).replace(" ", "-") for head in heads}


def links() -> Iterator[str]:
    """Links that lead to no file, or to no heading of a document."""
    for path in DOCUMENTS:
        for target, heading in re.findall(r"\]\(([^)#\s]*)(?:#([^)]*))?\)", path.read_text()):
            other = path.parent / target if target else path
            if "://" not in target and not other.exists():
                yield f"{named(path)}: the link {target} leads nowhere"
            elif heading and other.suffix == ".md" and heading not in anchors(other):
                yield f"{named(path)}: {target or 'the page'} has no heading #{heading}"


def lengths() -> Iterator[str]:
    """Documents that are too long: the first page, and a crate's, which fits a screen."""
    crate_pages = sorted((TOP / "crates").glob("*/README.md"))
    for path, most in ((TOP / "README.md", 300), *((page, 40) for page in crate_pages)):
        size = len(path.read_text().splitlines())
        if size > most:
            yield f"{named(path)}: {size} lines, at most {most}"


def prose(path: Path) -> Iterator[Tuple[int, str]]:
    """The lines of a document, with their numbers, that are no code, table or heading. A line of those is empty, as it ends a paragraph."""
    fenced = False
    for number, line in enumerate(path.read_text().splitlines(), 1):
        if line.startswith("```"):
            fenced = not fenced
        other = fenced or line.startswith(("```", "#", "|", "    "))
        yield number, "" if other else line


def sentences(path: Path) -> Iterator[Tuple[int, int]]:
    """The sentences of a document: the line, and how many words. Code is one word, and a link is its text."""
    for number, line in prose(path):
        text = re.sub(rf"^{LIST_MARK.pattern}", "", CODE.sub("x", LINK.sub(r"\1", line)))
        for sentence in re.split(r"(?<=[.:;?!])\s", text):
            if sentence.strip():
                yield number, len(sentence.split())


def paragraphs(path: Path) -> Iterator[Tuple[int, int]]:
    """The paragraphs of a document that are no list: the first line, and how many characters."""
    first, size, listed = 0, 0, False
    for number, line in [*prose(path), (0, "")]:
        blank, item = not line.strip(), bool(LIST_MARK.match(line))
        if size and (blank or item):
            yield first, size
            size = 0
        listed = (listed or item) and not blank
        if not blank and not listed:
            first = first if size else number
            size += len(line) + (1 if size else 0)


def readable() -> Iterator[str]:
    """Sentences and paragraphs that are too long to be read once."""
    for path in READ:
        counts = list(sentences(path))
        short = sum(words <= WORDS_WANTED for _, words in counts)
        if counts and 100 * short < RULE_PERCENT * len(counts):
            yield f"{named(path)}: {len(counts) - short} of {len(counts)} sentences have over {WORDS_WANTED} words"
        for number, words in counts:
            if words > WORDS_MOST:
                yield f"{named(path)}:{number}: a sentence of {words} words, at most {WORDS_MOST}"
        for number, size in paragraphs(path):
            if size > PARAGRAPH_MOST:
                yield f"{named(path)}:{number}: a paragraph of {size} characters, at most {PARAGRAPH_MOST}"


def repeated() -> Iterator[str]:
    """Paragraphs and lists of some length that stand in the documents twice."""
    first: Dict[str, str] = {}
    for path in READ:
        for block in path.read_text().split("\n\n"):
            if len(block) > REPEATED_LEAST and not block.startswith(("|", "```")):
                if block.strip() in first:
                    yield f"{named(path)}: a paragraph of {first[block.strip()]} again: {block.strip()[:60]}"
                first.setdefault(block.strip(), named(path))


def promises() -> Iterator[Tuple[str, List[str], List[str]]]:
    """The rows of promises: where each stands, the crates of its page, and its cells."""
    for path in sorted((TOP / "crates").glob("*/PROMISES.md")):
        for number, section, columns in rows(path):
            yield f"{named(path)}:{number}", section, columns


def rows(path: Path) -> Iterator[Tuple[int, List[str], List[str]]]:
    """The rows of the tables of a document: line, crates of the heading, cells."""
    section: List[str] = []
    for number, line in enumerate(path.read_text().splitlines(), 1):
        if line.startswith("#"):
            section = [name for name in CODE.findall(line.partition(":")[0]) if name in crates()]
        if line.startswith("| "):
            yield number, section, [cell.strip() for cell in re.split(r"(?<!\\)\|", line)[1:-1]]


def defined(sources: List[Path]) -> Set[str]:
    """The names that files of definitions define, or hand on."""
    text = "\n".join(path.read_text() for path in sources if path.is_file())
    handed_on = " ".join(re.findall(r"^pub use [^{]*{(.*)}", text, re.M))
    return {*re.findall(r"\bpub (?:record |data )?([\w']+)", text), *re.findall(r"[\w']+", handed_on)}


def citations(cell: str) -> Iterator[Tuple[List[str], List[str], List[str]]]:
    """The names that a cell of definitions cites, with the crates and the files that it gives for them."""
    names: List[str] = []
    for part in re.finditer(r"`([^`]+)`|\(([^)]*)\)", cell):
        if part[1]:
            names.append(part[1].split()[0])
            continue
        inside = CODE.findall(part[2])
        others = [word for word in inside if word in crates()]
        files = [word for word in inside if word not in others]
        yield names, others, ["/".join(["specs"] * ("/" not in file) + [file]) for file in files]
        names = []


def definitions() -> Iterator[str]:
    """Definitions that a crate's PROMISES.md cites and that stand elsewhere."""
    for place, section, columns in promises():
        for names, others, files in citations(columns[1]) if len(columns) == 4 else ():
            sources = [TOP / "crates" / crate / f"{file}.antt" for crate in others or section for file in files]
            there = defined(sources)
            for file in files:
                if not any(source.is_file() for source in sources if source.match(f"{file}.antt")):
                    yield f"{place}: there is no {file} in {' or '.join(others or section)}"
            for name in names:
                if files and "/" not in name and name not in there:
                    yield f"{place}: `{name}` isn't in {', '.join(files)} of {' or '.join(others or section)}"


def functions(crate: str) -> Dict[str, Set[str]]:
    """The functions of a crate by name, with the names of their `ensures` lines."""
    found: Dict[str, Set[str]] = {}
    for path in sorted((TOP / "crates" / crate / "src").glob("**/*.rt")):
        clauses: Set[str] = set()
        for line in path.read_text().splitlines():
            function = re.match(r"\s*(?:pub(?:\(crate\))? )?(?:const )?fn (\w+)", line)
            if function:
                clauses = found.setdefault(function[1], set())
            clauses.update(re.findall(r"^\s*ensures\*? (\w+)", line))
    return found


def clauses_of(part: str) -> Tuple[str, List[str]]:
    """A citation of functions, and the clauses that it names after a colon that is no part of a name."""
    found = re.search(r"(?<!:):(?!:)", part)
    return (part[: found.start()], CODE.findall(re.sub(r"\([^)]*\)", "", part[found.end() :]))) if found else (part, [])


def contracts() -> Iterator[str]:
    """Functions that a crate's PROMISES.md cites and that aren't there, or have no clause of a name that is cited."""
    known = {crate: functions(crate) for crate in crates()}
    for place, section, columns in promises():
        for part in columns[2].split(";") if len(columns) == 4 and columns[2] != "Contract" else ():
            cited, clauses = clauses_of(part)
            others = [word for word in CODE.findall(" ".join(re.findall(r"\([^)]*\)", cited))) if word in known]
            names = [
                name
                for name in CODE.findall(re.sub(r"\([^)]*\)", "", cited))
                if re.fullmatch(r"[\w:]+", name) and name not in known
            ]
            for name in names:
                there = [
                    known[crate][name.split("::")[-1]]
                    for crate in others + section
                    if name.split("::")[-1] in known[crate]
                ]
                if "::" in name and not there:
                    yield f"{place}: `{name}` is no function of {' or '.join(others + section)}"
                for clause in clauses if there and len(names) == 1 else ():
                    if re.fullmatch(r"\w+", clause) and not any(clause in row for row in there):
                        yield f"{place}: `{name}` has no clause `{clause}`"


def cells() -> Iterator[str]:
    """Cells of promises that are too long."""
    for place, _, columns in promises():
        for cell in columns:
            if len(cell.split()) > 40:
                yield f"{place}: a cell of {len(cell.split())} words, at most 40"


def kernel() -> Iterator[str]:
    """Definitions that docs/COMING-FROM.md cites and that stand elsewhere."""
    for number, _, columns in rows(TOP / "docs/COMING-FROM.md"):
        if len(columns) != 3 or "`gl_" not in columns[2]:
            continue
        sources = [TOP / "crates" / (file if "src/" in file else f"{file}.antt") for file in CODE.findall(columns[2])]
        missing = [named(source) for source in sources if not source.is_file()]
        if missing:
            yield f"docs/COMING-FROM.md:{number}: there is no {', '.join(missing)}"
            continue
        there = defined(sources).union(
            *(re.findall(r"\b(?:fn|impl<.*?>) (\w+)", source.read_text()) for source in sources)
        )
        for name in CODE.findall(columns[1]):
            if name not in there:
                yield f"docs/COMING-FROM.md:{number}: `{name}` isn't in {', '.join(map(named, sources))}"


def stands_on() -> Iterator[str]:
    """What a crate's README says that the crate stands on, where it isn't what crates.txt says."""
    for crate, uses in crates().items():
        path = TOP / "crates" / crate / "README.md"
        line = re.search(r"^\*\*Stands on\*\*(.*)$", path.read_text(), re.M) if path.is_file() else None
        if not line or set(CODE.findall(line[1])) != set(uses):
            yield f"{named(path)}: **Stands on** isn't what crates.txt says"


def modules() -> Iterator[str]:
    """Files of a crate that its README or its PROOFS names and that aren't there."""
    for path in sorted([*(TOP / "crates").glob("*/README.md"), *(TOP / "crates").glob("*/PROOFS.md")]):
        for line in path.read_text().splitlines():
            for file, crate in re.findall(r"`((?:specs|proofs)/\w+)`(?: of `(gl_\w+)`)?", line):
                near = [path.parent, *(TOP / "crates" / name for name in re.findall(r"`(gl_\w+)`", line))]
                if not any((folder / f"{file}.antt").is_file() or (folder / file).is_dir() for folder in near):
                    yield f"{named(path)}: there is no {file}"


def recipes() -> Iterator[str]:
    """Files that docs/HOW-TO.md has somebody touch and that aren't there."""
    for number, line in enumerate((TOP / "docs/HOW-TO.md").read_text().splitlines(), 1):
        for file in CODE.findall(line):
            if re.fullmatch(r"[\w.-]+(/[\w.-]*)+", file) and not (TOP / file).exists():
                yield f"docs/HOW-TO.md:{number}: there is no {file}"


def terms() -> Iterator[str]:
    """Files that docs/TERMS.md names for a word and that aren't there. A crate's files are named without `crates/` and `.antt`."""
    for number, _, columns in rows(TOP / "docs/TERMS.md"):
        for file in CODE.findall(columns[-1]):
            forms = (file, f"crates/{file}", f"crates/{file}.antt")
            if re.fullmatch(r"\w+/[\w/*.-]+", file) and not any(list(TOP.glob(form)) for form in forms):
                yield f"docs/TERMS.md:{number}: there is no {file}"


def squeezed(text: str) -> str:
    """A text without blanks, line ends and commas before a closing bracket."""
    return re.sub(r",(?=[)>\]])", "", re.sub(r"\s+", "", text))


def machine() -> Iterator[str]:
    """Definitions that a document names before a link to their file and that stand elsewhere."""
    for path in DOCUMENTS:
        for number, line in enumerate(path.read_text().splitlines(), 1):
            for names, file in re.findall(r"((?:`[\w']+`(?:, | and )?)+) in \[(\w+/specs/\w+)\]", line):
                for name in set(CODE.findall(names)) - defined([TOP / "crates" / f"{file}.antt"]):
                    yield f"{named(path)}:{number}: `{name}` isn't in {file}"


def statements() -> Iterator[str]:
    """Statements and kinds of refusal that docs/FORMATS.md or launcher/messages.sh doesn't have. The tools' arguments have forms of their own."""
    texts = {name: (TOP / name).read_text() for name in ("docs/FORMATS.md", "launcher/messages.sh")}
    table = (TOP / "crates/gl_script/specs/Table.antt").read_text()
    kinds = (TOP / "crates/gl_script/specs/Refusal.antt").read_text()
    for word in re.findall(r'^keyword_name \w+ = codes "(.*)"', table, re.M):
        wanted = {
            "docs/FORMATS.md": rf"^\| .*`{word}[ `]",
            "launcher/messages.sh": "" if word.startswith("gpio") else rf"^{word}\|",
        }
        yield from (
            f"{name}: the statement {word} is missing"
            for name, form in wanted.items()
            if not re.search(form, texts[name], re.M)
        )
    for word in re.findall(r'^kind_word (?!NoMemory)\w+ = codes "(.*)"', kinds, re.M):
        wanted = {"docs/FORMATS.md": rf"\b{word}`", "launcher/messages.sh": rf"^  {word}\) "}
        yield from (
            f"{name}: the kind {word} is missing"
            for name, form in wanted.items()
            if not re.search(form, texts[name], re.M)
        )


def quotes() -> Iterator[str]:
    """What a document quotes as code, and a CALLING.md as a contract, and that no source has so."""
    code = "\n".join(path.read_text() for path in sorted((TOP / "crates").glob("*/src/**/*.rt")))
    tight = squeezed(code)
    for path in DOCUMENTS:
        kinds = "rust|text" if path.name == "CALLING.md" else "rust"
        for kind, block in re.findall(rf"```({kinds})\n(.*?)```", path.read_text(), re.S):
            for part in block.strip("\n").split("\n\n") if kind == "rust" else block.splitlines():
                spelled = re.sub(r"^(\s*(?:requires|ensures)(?: \w+)?): (.*)$", r"\1 { \2 }", part)
                found = (
                    squeezed(part) in tight
                    if kind == "rust"
                    else squeezed(re.sub(r"^fn \w+::", "fn ", spelled)) in tight
                )
                if not found:
                    yield f"{named(path)}: no source has {part.splitlines()[0].strip()}"


def version() -> Iterator[str]:
    """A program's number of the version, where it isn't that of the file VERSION."""
    number = (TOP / "VERSION").read_text().strip()
    if f'b"gpioserved {number}\\n"' not in (TOP / "crates/gpioserved/src/program.rt").read_text():
        yield f"crates/gpioserved/src/program.rt: VERSION isn't {number}, which the file VERSION has"


CHECKS: List[Callable[[], Iterator[str]]] = [
    links,
    lengths,
    readable,
    repeated,
    cells,
    definitions,
    contracts,
    kernel,
    machine,
    stands_on,
    modules,
    recipes,
    terms,
    statements,
    quotes,
    version,
]


def main() -> int:
    failed = 0
    for check in CHECKS:
        faults = list(check())
        for fault in faults:
            print(f"documents: {fault}")
        failed += bool(faults)
    print(f"{len(CHECKS) - failed} passed, {failed} failed")
    return 1 if failed else 0


sys.exit(main())
