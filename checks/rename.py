"""Renames definitions, functions, types, clauses, files and crates by a table, over the whole tree.

  rename [--check] [TABLE] [TOP]   says what is wrong with the table: rename.tsv of this folder, where none is named
  rename --apply [TABLE] [TOP]     renames, lays each crate out by `rt fmt`, and says which imports lead nowhere now

A line of the table is OLD, NEW, KIND, SCOPE and perhaps APART, with tabs between them. A line that begins with # is passed over.

KIND says what is renamed:
  crate   a crate: its folder, and its name wherever it is
  file    a file of definitions, of proofs or of code: crates/OLD gets the name crates/NEW, and its module the new name
  mutant  a mutant, as CRATE/NAME
  text    a text in a file of another kind, whose path is the scope
  prose   words in comments and in the pages of crates; a capital letter stays one. Lines hold in their order
  any other word (fn, type, def, law, clause, field, module ..): a name. It is renamed in code, and in the code that
          comments and documents quote. Files and folders of that name follow.

SCOPE is * for a name that means one thing everywhere. Otherwise it lists, with commas, the crates, files or folders
(CRATE/proofs/FILE) in which the name has this meaning; the most exact one holds. APART lists crates that were looked at,
in which the old or the new name is another thing.

A table is refused if a new name is already there where it would be seen, if a name is renamed twice in one crate, if a
new name is an old one, or if a name that two crates share would get two names. A name that is nowhere is passed over, so
a second --apply changes nothing. All crates are to be proved after it: names that the toolchain makes are not known here.
"""
import os
import re
import shutil
import subprocess
import sys
import tempfile
from collections import defaultdict
from pathlib import Path
from typing import Dict, Iterator, List, NamedTuple, Set, Tuple

CODE = (".rt", ".antt", ".edit")
# A name of code. A goal's name joins such names with hyphens, which end a name here. Names of the toolchain stay: the
# lengths of a goal (`g.row.N`), what a reader knows (`.told-bytes`), and a lemma of clap (`one_text-rows`).
TOKEN = re.compile(
    r"\b(?!(?<=g\.)row\.[A-Z]\b)(?!(?<=\.)told-(?:bytes|request)\b)(?!(?<=one_text-)rows\b)[A-Za-z_][A-Za-z0-9_]*'*"
)
# what stays in code: strings, characters, and the text of comments but for what stands between backticks
RT = re.compile(r"""(?P<comment>//[^\n]*)|(?P<string>b?"(?:[^"\\]|\\.)*")|(?P<char>b?'(?:[^'\\\n]|\\.)')""")
ANTT = re.compile(r"""(?P<comment>(?<![^\s])--(?=\s|$)[^\n]*)|(?P<string>"(?:[^"\\]|\\.)*")""")
NAMES = {
    "fn",
    "type",
    "def",
    "law",
    "clause",
    "field",
    "module",
    "word",
    "variant",
    "const",
    "lemma",
    "record",
    "trait",
    "data",
}


class Row(NamedTuple):
    """A row of the table."""

    old: str
    new: str
    kind: str
    scope: Tuple[str, ...]
    apart: Tuple[str, ...]
    line: int

    def covers(self, crate: str) -> bool:
        return self.scope == ("*",) or crate in self.scope

    def rank(self, crate: str, place: str) -> int:
        """How exactly the scope names a file of a crate: 0 where it doesn't, 1 by *, 2 by its crate, 3 by itself or its folder."""
        if any("/" in item and f"{place.rsplit('.', 1)[0]}/".startswith(f"{item}/") for item in self.scope):
            return 3
        return 2 if crate in self.scope else int(self.scope == ("*",))


def table(path: Path) -> List[Row]:
    rows = []
    for number, line in enumerate(path.read_text().splitlines(), 1):
        if not line.strip() or line.startswith("#"):
            continue
        cells = [cell.strip() for cell in line.split("\t")]
        if len(cells) not in (4, 5):
            sys.exit(f"{path}:{number}: a row has 4 or 5 cells")
        parts = [tuple(filter(None, cell.split(","))) for cell in cells[3:]]
        rows.append(Row(cells[0], cells[1], cells[2], parts[0], parts[1] if len(parts) > 1 else (), number))
    return rows


class Tree:
    """The repository: its crates, what each depends on, and the names in the code of each."""

    def __init__(self, top: Path) -> None:
        self.top = top
        self.uses: Dict[str, Set[str]] = {}
        for line in (top / "crates.txt").read_text().splitlines():
            head, colon, rest = line.split("#")[0].partition(":")
            if colon:
                self.uses[head.split()[0]] = set(rest.split())
        self.below = {crate: self.reach(crate) for crate in self.uses}

    def reach(self, crate: str) -> Set[str]:
        found: Set[str] = set()
        left = [crate]
        while left:
            for other in self.uses.get(left.pop(), ()):
                if other in self.uses and other not in found:
                    found.add(other)
                    left.append(other)
        return found

    def related(self, one: str, other: str) -> bool:
        return one == other or other in self.below[one] or one in self.below[other]

    def code(self, crate: str) -> Iterator[Path]:
        for folder in ("src", "specs", "proofs", "mutants"):
            for path in sorted((self.top / "crates" / crate / folder).glob("**/*")):
                if path.is_file() and path.suffix in CODE:
                    yield path

    def tokens(self) -> Dict[str, Set[str]]:
        """Each name in code, files' and folders' names among them, with the crates in which it is."""
        found: Dict[str, Set[str]] = defaultdict(set)
        for crate in self.uses:
            for path in self.code(crate):
                for part in path.relative_to(self.top / "crates" / crate).parts[1:]:
                    found[Path(part).stem].add(crate)
                for token in code_tokens(path):
                    found[token].add(crate)
        return found


def pieces(path: Path, text: str) -> Iterator[Tuple[bool, str]]:
    """The text in pieces: what is code, and what stays as it is."""
    if path.suffix == ".edit":
        for line in text.splitlines(keepends=True):
            yield line.startswith(("old:", "new:", "killed by:")), line
        return
    place = 0
    for found in (RT if path.suffix == ".rt" else ANTT).finditer(text):
        yield True, text[place : found.start()]
        if found.lastgroup == "comment":
            for number, part in enumerate(found[0].split("`")):
                yield number % 2 == 1, ("`" if number else "") + part
        else:
            yield False, found[0]
        place = found.end()
    yield True, text[place:]


def code_tokens(path: Path) -> Set[str]:
    return {token for is_code, part in pieces(path, path.read_text()) if is_code for token in TOKEN.findall(part)}


def renamed(text: str, names: Dict[str, str]) -> str:
    return TOKEN.sub(lambda found: names.get(found[0], found[0]), text) if names else text


def names_for(rows: List[Row], crate: str, place: str) -> Dict[str, str]:
    """The names of a file, as CRATE/src/FILE.rt, and what they become: by the row that names the file most exactly."""
    best: Dict[str, Tuple[int, str]] = {}
    for row in rows:
        rank = row.rank(crate, place) if row.kind in NAMES else 0
        if rank > best.get(row.old, (0, ""))[0]:
            best[row.old] = (rank, row.new)
    return {old: new for old, (_, new) in best.items()}


def linked(tree: Tree, upper: str, lower: str, old: str) -> bool:
    """Whether a crate may mean by a name what a crate below it does: it imports the name from there, or reads a clause, a field or a method."""
    if lower not in tree.below[upper]:
        return False
    imports = re.compile(
        rf"(?:Rattle\.{lower}\.[\w.]*|\b{lower}::[\w:]*)(?:\{{[^}}]*(?<!\w){old}(?!\w)|[.:]{old}(?!\w))", re.S
    )
    member = re.compile(
        rf"(?:ensures|requires)\*? {old} \{{|^\s+(?:pub )?{old}\s?:|fn {old}(?:<[^>]*>)?\(\s*(?:&|mut )?(?:mut )?self|^    {old}[,({{ ]",
        re.M,
    )
    texts = {
        crate: [path.read_text() for path in tree.code(crate) if path.suffix != ".edit"] for crate in (upper, lower)
    }
    if any(imports.search(text) for text in texts[upper]):
        return True
    return any(member.search(text) for text in texts[lower]) and any(
        re.search(rf"\.{old}(?!\w)", text) for text in texts[upper]
    )


def check(tree: Tree, rows: List[Row]) -> List[str]:
    """What is wrong with the table."""
    tokens = tree.tokens()
    rows = [row for row in rows if row.kind in NAMES]
    wrong = []
    owner: Dict[Tuple[str, str], Row] = {}
    olds = {row.old for row in rows}
    for row in rows:
        exact = {item.split("/")[0] for item in row.scope if "/" in item}
        mine = {crate for crate in tokens.get(row.old, set()) if row.covers(crate)}
        for crate in mine:
            other = owner.get((row.old, crate))
            if other and (other.scope == ("*",)) == (row.scope == ("*",)):
                wrong.append(f"{row.line}: {row.old} is renamed twice in {crate}")
            if not other or other.scope == ("*",):
                owner[row.old, crate] = row
        mine |= exact & tokens.get(row.old, set())
        if row.new in olds:
            wrong.append(f"{row.line}: the new name {row.new} is an old one too")
        seen = {crate for crate in tokens.get(row.new, ()) if any(tree.related(crate, other) for other in mine)} - set(
            row.apart
        )
        if mine and seen:
            wrong.append(f"{row.line}: {row.old}: the new name {row.new} is in {' '.join(sorted(seen))}")
    news: Dict[Tuple[str, str], str] = {}
    for (old, crate), row in owner.items():
        if news.setdefault((row.new, crate), old) != old:
            wrong.append(f"{row.line}: {old} and {news[row.new, crate]} both become {row.new} in {crate}")
        for other in sorted(tokens[old] - set(row.apart)) if row.scope != ("*",) else ():
            to = owner[old, other].new if (old, other) in owner else old
            if to != row.new and (linked(tree, crate, other, old) or linked(tree, other, crate, old)):
                wrong.append(f"{row.line}: {old} of {crate} and of {other} may be one, and become {row.new} and {to}")
    return sorted(set(wrong), key=lambda line: (int(line.split(":")[0]), line))


def replace(path: Path, text: str) -> bool:
    if path.read_text() == text:
        return False
    path.write_text(text)
    return True


def move(old: Path, new: Path) -> None:
    if old.exists() and old != new:
        new.parent.mkdir(parents=True, exist_ok=True)
        os.rename(old, new)


def everywhere(top: Path) -> Iterator[Path]:
    """The files of text that may name a crate or a file."""
    listed = subprocess.run(
        ["git", "ls-files", "-co", "--exclude-standard"], cwd=top, capture_output=True, text=True
    ).stdout.splitlines()
    for name in listed or ["crates.txt", *(str(path.relative_to(top)) for path in top.glob("crates/**/*"))]:
        path = top / name
        if path.is_file() and path.suffix not in (".session", ".expected", ".svg", ".status"):
            yield path


def rename_crates(top: Path, rows: List[Row]) -> None:
    for row in (row for row in rows if row.kind == "crate" and (top / "crates" / row.old).is_dir()):
        token = re.compile(rf"(?<![\w]){re.escape(row.old)}(?![\w])")
        for path in everywhere(top):
            try:
                replace(path, token.sub(row.new, path.read_text()))
            except UnicodeDecodeError:
                continue
        move(top / "crates" / row.old, top / "crates" / row.new)


class Moved(NamedTuple):
    """A file of definitions or proofs that gets another name."""

    crate: str
    old: str  # below the crate, without .antt
    new: str
    alone: bool  # no other crate has a file of the old name

    def within(self, text: str, own: bool, is_page: bool) -> str:
        """A text with the new name: in imports, as Rattle.CRATE.specs.NAME, and in documents, as `specs/NAME` and CRATE/specs/NAME."""
        if self.old.rsplit("/", 1)[-1] not in text:
            return text
        inner = re.escape(self.old)
        dotted = re.compile(rf"\b({self.crate}[.]|{self.crate}::|crate::){inner.replace('/', '(?:[.]|::)')}(?![\w/])")

        def swap(found: "re.Match[str]") -> str:
            if found[1] == "crate::" and not own:
                return found[0]
            return found[1] + self.new.replace("/", "::" if "::" in found[0] else ".")

        text = dotted.sub(swap, text)
        text = re.sub(rf"(?<!\w){self.crate}/{inner}(?!\w)", f"{self.crate}/{self.new}", text)
        if own or is_page and self.alone:
            return re.sub(rf"(?<![\w/]){inner}(?!\w)", self.new, text)
        near = re.compile(rf"\([^()]*`{self.crate}`[^()]*\)|`{inner}`[^`\n]{{0,4}}of `{self.crate}`")
        return near.sub(lambda found: re.sub(rf"`{inner}`", f"`{self.new}`", found[0]), text)


def rename_files(top: Path, rows: List[Row]) -> None:
    moved = []
    for row in (row for row in rows if row.kind == "file"):
        crate, _, inner = row.old.partition("/")
        if (top / "crates" / f"{row.old}.antt").is_file():
            moved.append(
                Moved(crate, inner, row.new.partition("/")[2], len(list(top.glob(f"crates/*/{inner}.antt"))) == 1)
            )
    for path in list(everywhere(top)) if moved else ():
        if path.suffix in (".py", ".sh"):
            text = path.read_text()
            for one in moved:
                text = re.sub(
                    rf"(?<![\w/])crates/{one.crate}/{re.escape(one.old)}(?!\w)", f"crates/{one.crate}/{one.new}", text
                )
            replace(path, text)
        elif path.suffix in (*CODE, ".md"):
            text = path.read_text()
            for one in moved:
                text = one.within(text, f"crates/{one.crate}/" in str(path), path.suffix == ".md")
            replace(path, text)
    for one in moved:
        old, new = (top / "crates" / one.crate / name for name in (one.old, one.new))
        library = old.parent / "Lib.antt"
        if library.is_file():
            replace(
                library,
                re.sub(rf"(?m)^((?:pub )?mod ){re.escape(old.name)}$", rf"\g<1>{new.name}", library.read_text()),
            )
        move(old.with_suffix(".antt"), new.with_suffix(".antt"))
        move(old, new)


def rename_mutants(top: Path, rows: List[Row]) -> None:
    for row in (row for row in rows if row.kind == "mutant"):
        (crate, old), new = row.old.split("/"), row.new.split("/")[-1]
        source = top / "crates" / crate / "mutants" / f"{old}.edit"
        if source.is_file():
            move(source, source.with_name(f"{new}.edit"))
            for path in everywhere(top):
                if path.suffix == ".md":
                    replace(path, re.sub(rf"(?<![\w-]){re.escape(old)}(?![\w-])", new, path.read_text()))


def rename_names(tree: Tree, rows: List[Row]) -> None:
    home = tree.top / "crates"
    for crate in tree.uses:
        for path in list(tree.code(crate)):
            old = path.read_text()
            target = re.search(r"^file: (\S+)$", old, re.M) if path.suffix == ".edit" else None
            names = names_for(rows, crate, f"{crate}/{target[1]}" if target else str(path.relative_to(home)))
            here = code_tokens(path) | set(TOKEN.findall(old) if target else ())
            names = {name: new for name, new in names.items() if name in here}
            back = {new: name for name, new in names.items()}

            def swap(text: str, by: Dict[str, str]) -> str:
                of_edit = path.suffix == ".edit"
                return "".join(
                    renamed(part, by) if is_code or of_edit and part.startswith("file:") else part
                    for is_code, part in pieces(path, text)
                )

            new = swap(old, names)
            if swap(new, back) != old:
                sys.exit(f"rename: {path}: the new names don't lead back to the old ones")
            replace(path, new)
        for folder in ("src", "specs", "proofs"):
            for path in sorted((home / crate / folder).glob("**/*"), key=lambda path: -len(path.parts)):
                stem = path.stem if path.is_file() else path.name
                new = names_for(rows, crate, str(path.relative_to(home))).get(stem)
                if new:
                    move(path, path.with_name(new + (path.suffix if path.is_file() else "")))


SPAN = re.compile(r"```.*?```|`[^`\n]+`", re.S)


def squeezed(text: str) -> str:
    return re.sub(r"\s+", "", text)


def rename_in_documents(tree: Tree, rows: List[Row]) -> None:
    """Code that documents quote: names that mean one thing everywhere, in a crate's own pages the crate's, in a path those of its crate, and in a
    block of Rust those of the crate in which it stands."""
    everyone = {row.old: row.new for row in rows if row.kind in NAMES and row.scope == ("*",)}
    own = {crate: names_for(rows, crate, f"{crate}/README.md") for crate in tree.uses}
    code = squeezed(
        "".join(path.read_text() for crate in tree.uses for path in tree.code(crate) if path.suffix == ".rt")
    )
    place = re.compile(
        r"(?:[\w.]+/)*\b(" + "|".join(sorted(tree.uses, key=len, reverse=True)) + r")/[\w*.-]+(?:/[\w*.-]+)*"
    )

    def of_path(found: "re.Match[str]") -> str:
        head, tail = found[0].split(found[1] + "/", 1)
        return head + found[1] + "/" + "/".join(renamed(part, own[found[1]]) for part in tail.split("/"))

    for path in everywhere(tree.top):
        if path.suffix != ".md":
            continue
        parts = path.relative_to(tree.top).parts
        names = own.get(parts[1], everyone) if parts[0] == "crates" else everyone

        def of_span(found: "re.Match[str]") -> str:
            text = found[0]
            if text.startswith("```rust"):
                inner = text[7:-3]
                for crate in tree.uses:
                    blocks = [renamed(block, own[crate]) for block in inner.split("\n\n")]
                    if all(squeezed(block) in code for block in blocks):
                        return "```rust" + "\n\n".join(blocks) + "```"
            if place.fullmatch(text.strip("`")):
                return "`" + place.sub(of_path, text.strip("`")) + "`"
            return renamed(text, names)

        text = SPAN.sub(of_span, path.read_text())
        replace(path, re.sub(r"\]\(([^)\s]+)\)", lambda found: "](" + place.sub(of_path, found[1]) + ")", text))


def unresolved(tree: Tree) -> Set[str]:
    """Names that code imports from files of definitions and proofs of this repository, and that these don't have."""
    wrong = set()
    cache: Dict[Path, Set[str]] = {}

    def has(path: Path) -> Set[str]:
        if path not in cache:
            cache[path] = set(TOKEN.findall(path.read_text())) if path.is_file() else set()
        return cache[path]

    for crate in tree.uses:
        for path in tree.code(crate):
            if path.suffix == ".edit":
                continue
            for module, inner in re.findall(r"\bRattle\.(\w+(?:\.\w+)*?)\.\{([^}]*)\}", path.read_text()):
                parts = module.split(".")
                if (
                    parts[0] not in tree.uses
                    or parts[1] not in ("specs", "proofs")
                    or {"declared", "contracts", "Goals"} & set(parts)
                ):
                    continue
                target = tree.top / "crates" / "/".join(parts[:-1]) / f"{parts[-1]}.antt"
                if not target.is_file():
                    wrong.add(f"{path.relative_to(tree.top)}: no file {module}")
                    continue
                for name in inner.split(","):
                    name = name.split(" as ")[0].strip()
                    if TOKEN.fullmatch(name) and name not in has(target):
                        wrong.add(f"{path.relative_to(tree.top)}: {module} has no {name}")
    return wrong


def reworded(text: str, phrases: List[Row]) -> str:
    for row in phrases:

        def swap(found: "re.Match[str]") -> str:
            return row.new[0].upper() + row.new[1:] if found[0][0].isupper() else row.new

        first = row.old[0]
        text = re.sub(rf"(?<![\w`-])[{first.lower()}{first.upper()}]{re.escape(row.old[1:])}(?![\w`-])", swap, text)
    return text


def rename_in_prose(tree: Tree, rows: List[Row]) -> None:
    """What comments and the crates' own pages say, outside of code."""
    for crate in tree.uses:
        phrases = [row for row in rows if row.kind == "prose" and row.covers(crate)]
        for path in tree.code(crate) if phrases else ():
            if path.suffix == ".edit":
                continue
            form, old = RT if path.suffix == ".rt" else ANTT, path.read_text()

            def comment(found: "re.Match[str]") -> str:
                if found.lastgroup != "comment":
                    return found[0]
                parts = found[0].split("`")
                return "`".join(
                    reworded(part, phrases) if number % 2 == 0 else part for number, part in enumerate(parts)
                )

            replace(path, form.sub(comment, old))
        for path in sorted((tree.top / "crates" / crate).glob("*.md")) if phrases else ():
            old, place, new = path.read_text(), 0, []
            for found in SPAN.finditer(old):
                new += [reworded(old[place : found.start()], phrases), found[0]]
                place = found.end()
            replace(path, "".join([*new, reworded(old[place:], phrases)]))


def rename_texts(top: Path, rows: List[Row]) -> None:
    for row in (row for row in rows if row.kind == "text"):
        for name in row.scope:
            if (top / name).is_file():
                replace(top / name, (top / name).read_text().replace(row.old, row.new))


def prepare(top: Path, rows: List[Row]) -> Tuple[Tree, List[Row]]:
    """Renames crates, files and mutants; the tree is then that of the names' rows."""
    rename_files(top, rows)
    rename_mutants(top, rows)
    rename_crates(top, rows)
    moved = {row.old: row.new for row in rows if row.kind == "crate"}
    swap = {old: new for old, new in moved.items() if not (top / "crates" / old).is_dir()}
    return Tree(top), [
        row._replace(
            scope=tuple(swap.get(crate, crate) for crate in row.scope),
            apart=tuple(swap.get(crate, crate) for crate in row.apart),
        )
        for row in rows
    ]


def clauses(top: Path) -> int:
    """How many conditions and promises contracts have."""
    return sum(
        len(re.findall(r"^\s*(?:ensures|requires)\b", path.read_text(), re.M))
        for path in top.glob("crates/*/src/**/*.rt")
    )


def main() -> int:
    words = [word for word in sys.argv[1:] if not word.startswith("--")]
    top = Path(words[1] if len(words) > 1 else ".").resolve()
    rows = table(Path(words[0]) if words else Path(__file__).with_name("rename.tsv"))
    with tempfile.TemporaryDirectory() as room:
        copy = Path(room)
        shutil.copytree(top / "crates", copy / "crates", ignore=shutil.ignore_patterns("out"))
        shutil.copy(top / "crates.txt", copy)
        wrong = check(*prepare(copy, rows))
    for line in wrong:
        print(f"rename: {line}")
    if wrong or "--apply" not in sys.argv:
        print(f"rename: {len(rows)} rows, {len(wrong)} wrong")
        return 1 if wrong else 0
    before, contracts = unresolved(Tree(top)), clauses(top)
    tree, rows = prepare(top, rows)
    rename_names(tree, rows)
    rename_in_documents(tree, rows)
    rename_in_prose(tree, rows)
    rename_texts(top, rows)
    after = unresolved(tree)
    for line in sorted(after - before):
        print(f"rename: {line}")
    if shutil.which("rt"):
        for crate in sorted(tree.uses):
            subprocess.run(["rt", "fmt"], cwd=top / "crates" / crate, capture_output=True, check=False)
    print(f"rename: {len(rows)} rows applied; {len(before)} imports were unresolved before, {len(after)} are now")
    print(f"rename: contracts had {contracts} clauses, and have {clauses(top)}")
    return 0


if __name__ == "__main__":
    sys.exit(main())
