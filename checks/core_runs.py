"""Compares the runs that `gl_core_tests` plays with the worked runs of `gl_model_runs`.

Reads the lists of calls and answers in `crates/gl_model_runs/specs/Rows/`, spells them as lines, and compares these with
`crates/gl_core_tests/stdin` and `stdout`. With `--write` it writes the two files. Run it at the top of the repository.

The lines `legal` and `bad at N` aren't in those lists: each run is legal up to a guarded call on a place that is gone.
"""
import re
import sys
from pathlib import Path

ROWS = Path("crates/gl_model_runs/specs/Rows")
TESTS = Path("crates/gl_core_tests")
LIMITS = Path("crates/gl_base/src/limits.rt")
TOKEN = re.compile(r'"(?:[^"\\]|\\.)*"|0x[0-9A-Fa-f_]+|[0-9][0-9_]*|\+\+|[()\[\]{};,.λ∷=×→:]|[^\s()\[\]{};,.λ∷=×→:"]+')
COMMANDS = {
    "ChipInfo": 0x8044B401,
    "LineInfo": 0xC100B405,
    "Watch": 0xC100B406,
    "Unwatch": 0xC004B40C,
    "GetLine": 0xC250B407,
    "SetConfig": 0xC110B40D,
    "GetValues": 0xC010B40E,
    "SetValues": 0xC010B40F,
}
ERRNOS = {
    "Again": "EAGAIN",
    "BadF": "EBADF",
    "Busy": "EBUSY",
    "Exist": "EEXIST",
    "Fault": "EFAULT",
    "Inval": "EINVAL",
    "Io": "EIO",
    "MFile": "EMFILE",
    "NoDev": "ENODEV",
    "NoEnt": "ENOENT",
    "NoMemory": "ENOMEM",
    "NoSpc": "ENOSPC",
    "NxIo": "ENXIO",
    "Perm": "EPERM",
}


class Made(tuple):
    """A constructor with its arguments: ("Probe", label, lines, kind)."""


def curried(count, f):
    """A function of so many arguments, one by one."""

    def take(given):
        return f(*given) if len(given) == count else lambda x: take(given + [x])

    return take([])


def limits():
    """The limits that are numbers in the code, by the names under which definitions cite them."""
    return {
        name: int(number.replace("_", ""))
        for name, number in re.findall(r"^pub const ([A-Z_]+): \w+ = ([0-9_]+);", LIMITS.read_text(), re.M)
    }


BUILT_IN = {
    **limits(),
    "codes": lambda text: list(text.encode()),
    "length": len,
    "map": curried(2, lambda f, xs: [f(x) for x in xs]),
    "flat_map": curried(2, lambda f, xs: [y for x in xs for y in f(x)]),
    "replicate": curried(2, lambda n, x: [x] * n),
    "zeros": lambda n: [0] * n,
    "number_bytes": curried(2, lambda width, n: [(n >> 8 * i) & 255 for i in range(width)]),
    "padded": curried(2, lambda n, bytes_: (bytes_ + [0] * n)[:n]),
    "table_from": curried(3, lambda f, start, n: [f(start + i) for i in range(n)]),
    "number_of": lambda command: COMMANDS[command[0]],
    "true": True,
    "false": False,
    "zero": 0,
}


class Reader:
    """Reads one expression of a definition, as a function of the names in scope."""

    def __init__(self, text):
        self.tokens = TOKEN.findall(text)
        self.at = 0

    def peek(self):
        return self.tokens[self.at] if self.at < len(self.tokens) else None

    def take(self, wanted=None):
        token = self.peek()
        if wanted is not None and token != wanted:
            raise ValueError(f"{wanted} wanted and {token} found at {self.tokens[max(0, self.at - 8):self.at + 4]}")
        self.at += 1
        return token

    def expression(self):
        if self.peek() == "let":
            return self.let_in()
        if self.peek() == "if":
            return self.choice()
        if self.peek() == "λ":
            return self.function()
        left = self.sum()
        if self.peek() == "∷":
            self.take()
            right = self.expression()
            return lambda env: [left(env)] + right(env)
        if self.peek() == "++":
            self.take()
            right = self.expression()
            return lambda env: left(env) + right(env)
        return left

    def let_in(self):
        self.take("let")
        name = self.take()
        while self.peek() != "=":
            self.take()
        self.take("=")
        value = self.expression()
        self.take("in")
        rest = self.expression()
        return lambda env: rest({**env, name: value(env)})

    def choice(self):
        self.take("if")
        test = self.expression()
        self.take("then")
        yes = self.expression()
        self.take("else")
        no = self.expression()
        return lambda env: yes(env) if test(env) else no(env)

    def function(self):
        self.take("λ")
        names = []
        while self.peek() != ".":
            token = self.take()
            if token == "(":
                names.append(self.take())
                while self.take() != ")":
                    pass
            else:
                names.append(token)
        self.take(".")
        body = self.expression()
        return lambda env: curried(len(names), lambda *given: body({**env, **dict(zip(names, given))}))

    def sum(self):
        left = self.applied()
        while self.peek() in ("+", "*", "==", "-"):
            sign = self.take()
            right = self.applied()
            left = self.joined(sign, left, right)
        return left

    @staticmethod
    def joined(sign, left, right):
        does = {
            "+": lambda a, b: a + b,
            "*": lambda a, b: a * b,
            "==": lambda a, b: a == b,
            "-": lambda a, b: max(0, a - b),
        }[sign]
        return lambda env: does(left(env), right(env))

    def applied(self):
        head = self.atom()
        parts = []
        while (
            self.peek() is not None
            and (self.peek() in "([" or self.peek() == "record" or re.match(r'["\w]', self.peek()))
            and self.peek() not in ("in", "then", "else")
        ):
            parts.append(self.atom())
        return (lambda env: self.call(head(env), [part(env) for part in parts])) if parts else head

    @staticmethod
    def call(head, parts):
        for part in parts:
            head = Made(head + (part,)) if isinstance(head, Made) else head(part)
        return head

    def atom(self):
        value = self.simple()
        while self.peek() == "." and self.at + 1 < len(self.tokens) and re.match(r"\w", self.tokens[self.at + 1]):
            self.take()
            field = self.take()
            value = self.field(value, field)
        return value

    @staticmethod
    def field(value, field):
        return lambda env: value(env)[int(field) if field.isdigit() else field]

    def simple(self):
        token = self.take()
        if token == "(":
            return self.group()
        if token == "[":
            self.take("]")
            return lambda env: []
        if token == "record":
            return self.record()
        if token.startswith('"'):
            return lambda env: token[1:-1]
        if token[0].isdigit():
            return lambda env: int(token.replace("_", ""), 0)
        if token[0].isupper() and token not in BUILT_IN:
            return lambda env: Made((token,))
        return lambda env: env[token]

    def group(self):
        parts = [self.expression()]
        while self.peek() == ",":
            self.take()
            if self.peek() != ")":
                parts.append(self.expression())
        self.take(")")
        return parts[0] if len(parts) == 1 else lambda env: tuple(part(env) for part in parts)

    def record(self):
        self.take("{")
        fields = []
        while self.peek() != "}":
            name = self.take()
            self.take("=")
            fields.append((name, self.expression()))
            if self.peek() == ";":
                self.take()
        self.take("}")
        return lambda env: {name: value(env) for name, value in fields}


def definitions(path):
    """The definitions of a file: name -> (arguments, body), first clauses of one alone."""
    text = "\n".join(line for line in path.read_text().split("\n") if not line.lstrip().startswith("--"))
    found = {}
    for piece in re.split(r"\n(?=\S)", text):
        match = re.match(r"([a-z]\w*)((?: [a-z_]\w*)*) =\s(.*)", piece, re.S)
        if match:
            found[match.group(1)] = (match.group(2).split(), match.group(3))
    return found


def scope_of(path, known):
    """What a file defines, over what it uses of the others."""
    env = dict(BUILT_IN)
    for line in path.read_text().split("\n"):
        match = re.match(r"use Rattle\.gl_model_runs\.specs\.(?:Rows\.)?(\w+)\.\{(.*)\}", line)
        if match:
            for name in match.group(2).split(", "):
                old, _, new = name.partition(" as ")
                if old[0].islower():
                    env[new or old] = known[match.group(1)][old]
    for name, (arguments, body) in definitions(path).items():
        reader = Reader(body)
        value = reader.expression()
        if reader.peek() is not None:
            raise ValueError(f"{path}: {name}: {reader.tokens[reader.at:reader.at + 6]} is left")
        env[name] = bound(env, arguments, value)
    return env


def bound(env, arguments, value):
    """The value of a definition: computed where it is asked for, so that the order of definitions doesn't matter."""
    if not arguments:
        return value(env)
    return curried(len(arguments), lambda *given: value({**env, **dict(zip(arguments, given))}))


def pairs(numbers):
    """Bytes as text: runs of at least eight zeros as 00*N, the others in words of pairs."""
    out, at = [], 0
    while at < len(numbers):
        end = at
        while end < len(numbers) and numbers[end] == 0:
            end += 1
        if end - at >= 8:
            out.append(f"00*{end - at}")
            at = end
            continue
        if not out or out[-1].startswith("00*"):
            out.append("")
        step = max(end - at, 1)
        out[-1] += bytes(numbers[at : at + step]).hex()
        at += step
    return " ".join(out) if out else "-"


def text(codes):
    return bytes(codes).decode()


def part_of(part):
    if part[0] == "Tell":
        return "failed" if part[1][0] == "None" else f"told {part[1][1]}"
    return {"Whole": "whole", "Ask": "ask"}[part[0]]


def pin_of(what):
    word = {"Range": "range", "Hold": "hold", "Release": "drop"}[what[0]]
    return " ".join([word] + [str(n) for n in what[1:]])


def trimmed(bytes_):
    end = len(bytes_)
    while end and bytes_[end - 1] == 0:
        end -= 1
    return bytes_[:end]


def last_of(last):
    return "finish" if last else "begin"


def call_line(call):
    """A call as a line, without its actor."""
    kind, *a = call
    lines = {
        "Probe": lambda: f"probe {text(a[0])} {a[1]} {'sim' if a[2][0] == 'Simulated' else 'remote'}",
        "Unplug": lambda: f"unplug {a[0]} {last_of(a[1])}",
        "MakeDir": lambda: f"mkdir {text(a[0])}",
        "RemoveDir": lambda: f"rmdir {text(a[0])}",
        "Write": lambda: f"write {text(a[0])} {text(a[1])}",
        "Read": lambda: f"read {text(a[0])}",
        "Live": lambda: f"live {text(a[0])}",
        "Remove": lambda: f"remove {text(a[0])} {last_of(a[1])}",
        "Tick": lambda: f"tick {a[0]} {a[1]}",
        "Pin": lambda: f"pin {a[0]} {pin_of(a[1])}",
        "Irq": lambda: f"irq {a[0]} {a[1]} {a[2][0].lower()}",
        "Pull": lambda: f"pull {a[0]} {a[1]} {'up' if a[2] else 'down'}",
        "Level": lambda: f"level {a[0]} {a[1]} {'pull' if a[2] else 'line'}",
        "Interrupt": lambda: f"interrupt {a[0]} {a[1]} {'up' if a[2] else 'down'}",
        "OpenChip": lambda: f"open {text(a[0])}",
        "Find": lambda: f"find {text(a[1])}" if a[0][0] == "None" else f"findat {a[0][1]} {text(a[1])}",
        "Ioctl": lambda: f"ioctl {a[0]} {a[1]} {a[2]} {a[3]} {part_of(a[5])} {pairs(trimmed(a[4])) if trimmed(a[4]) else ''}".rstrip(),
        "ReadEdges": lambda: f"edges {a[0]} {a[1]} {a[2]}",
        "ReadInfo": lambda: f"changes {a[0]} {a[1]} {a[2]}",
        "PollLine": lambda: f"polledges {a[0]} {a[1]}",
        "PollChip": lambda: f"pollchanges {a[0]} {a[1]}",
        "Close": lambda: f"close {a[0]}",
        "Refused": lambda: f"refused {a[0]} {'poll' if a[1] else 'call'}",
        "RefusedCall": lambda: f"refused {a[0]} {'poll' if a[1] else 'call'}",
    }
    return lines[kind]()


def buffer_of(call):
    """The buffer with which a call is made."""
    if call[0] in ("Unplug", "Remove"):
        return [0, 0] if not call[2] else []
    if call[0] == "Ioctl":
        return (call[5][: call[4]] + [0] * call[4])[: call[4]]
    if call[0] in ("ReadEdges", "ReadInfo"):
        return [0] * call[3]
    return []


def answer_line(call, answer):
    """What a call is answered, with its buffer behind it."""
    reply, written = answer["reply"], answer["bytes"]
    told = {
        "Done": lambda: "ok",
        "Number": lambda: f"number {reply[1]}",
        "Go": lambda: f"go {reply[1]}",
        "Found": lambda: f"found {reply[1]} {reply[2]} {reply[3]}",
        "Text": lambda: f"text {text(reply[1])}",
        "Ready": lambda: f"ready {reply[1]}",
        "Refused": lambda: ERRNOS[reply[1][0]],
    }[reply[0]]()
    buffer = buffer_of(call)
    buffer[: len(written)] = written
    return f"{told} : {pairs(buffer)}" if buffer else told


GUARDED = {"Pin", "Irq", "Pull", "Level", "Interrupt", "Ioctl", "ReadEdges", "ReadInfo", "PollLine", "PollChip"}


def end_of(calls, answers):
    """Whether the entries of a run are legal: up to a guarded call on a place that an unplug has ended."""
    gone = set()
    for at, (made, answer) in enumerate(zip(calls, answers)):
        call = made["call"]
        if call[0] in GUARDED and call[1] in gone:
            return f"bad at {at}"
        if call[0] == "Unplug" and call[2] and answer["reply"][0] == "Done":
            gone.add(call[1])
    return "legal"


def snake(name):
    return re.sub(r"(?<!^)(?=[A-Z])", "_", name).lower()


def runs():
    """Each run by its name, with its calls and their answers."""
    known = {"Run": scope_of(ROWS.parent / "Run.antt", {}), "Structures": None}
    known["Structures"] = scope_of(ROWS / "Structures.antt", known)
    waiting = [path for path in sorted(ROWS.glob("*.antt")) if path.stem not in ("Structures", "Lib", "Histories")]
    while waiting:
        path = waiting.pop(0)
        try:
            known[path.stem] = scope_of(path, known)
        except KeyError as lacking:
            if str(lacking).strip("'") not in {p.stem for p in waiting}:
                raise
            waiting.append(path)
    return {snake(stem): (env["run"], env["given"]) for stem, env in known.items() if stem not in ("Run", "Structures")}


def main():
    asked, told = [], []
    for name, (calls, answers) in sorted(runs().items()):
        asked.append(f"run {name}")
        told.append(f"run {name}")
        for made, answer in zip(calls, answers, strict=True):
            asked.append(f"{made['actor']} {call_line(made['call'])}")
            told.append(answer_line(made["call"], answer))
        asked.append("end")
        told.append(end_of(calls, answers))
    failed = 0
    for name, lines in (("stdin", asked), ("stdout", told)):
        path, wanted = TESTS / name, "\n".join(lines) + "\n"
        if "--write" in sys.argv[1:]:
            path.write_text(wanted)
        elif path.read_text() != wanted:
            failed += 1
            here = path.read_text().split("\n")
            at = next((i for i, (a, b) in enumerate(zip(here, lines)) if a != b), min(len(here), len(lines)))
            print(f"{path}:{at + 1}: {here[at:at + 1]} and not {lines[at:at + 1]}")
    print(f"{2 - failed} passed, {failed} failed")
    return failed


if __name__ == "__main__":
    sys.exit(1 if main() else 0)
