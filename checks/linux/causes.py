"""Why a list may give other results under gpioserve than on Linux: one rule for each cause, by its name.

A rule looks at the first action whose results differ, and at those before it. It holds only where that difference can come
of its cause. docs/LINUX.md explains the causes; those that end with `profile linux` are marked there.
"""
from dataclasses import dataclass
from typing import Callable, Dict, List, Optional

import structures as s
from lists import ActionList, bytes_of


@dataclass
class Difference:
    """A list's first action with another result: its number, and both results of all actions."""

    actions: List[List[str]]  # as words
    linux: List[str]
    here: List[str]
    at: int

    @property
    def words(self) -> List[str]:
        return self.actions[self.at]

    @property
    def verb(self) -> str:
        """The action's verb, and of an ioctl the command too: `ioctl1 GET_VALUES`."""
        return verb_of(self.words)

    def before(self, *verbs: str) -> List[int]:
        """The actions before it with one of these verbs."""
        return [number for number in range(self.at) if verb_of(self.actions[number]) in verbs]

    def maker(self, name: str) -> Optional[int]:
        """The last action before it that makes a file of that name."""
        makers = [n for n in range(self.at) if made_by(self.actions[n]) == name and self.linux[n].startswith("ok")]
        return makers[-1] if makers else None

    def made_as(self, *verbs: str) -> bool:
        """Whether the action is on a file that was made by one of these verbs."""
        number = self.maker(self.words[1]) if len(self.words) > 1 else None
        return number is not None and verb_of(self.actions[number]) in verbs

    def errors(self, linux: str, here: str) -> bool:
        """Whether both results begin with these words."""
        return self.linux[self.at].split()[0] == linux and self.here[self.at].split()[0] == here


def verb_of(words: List[str]) -> str:
    return f"{words[0]} {words[2]}" if words[0].startswith("ioctl") else words[0]


def made_by(words: List[str]) -> Optional[str]:
    """The name of the file that an action makes."""
    if words[0] == "open":
        return words[1]
    return words[words.index("as") + 1] if "as" in words else None


def data_of(words: List[str]) -> bytes:
    """The bytes that an ioctl hands in."""
    return bytes_of(words[3 : words.index("as") if "as" in words else None])


def config_of(words: List[str]) -> bytes:
    """The line config of a GET_LINE or SET_CONFIG; nothing where there is none."""
    data = data_of(words) if verb_of(words) in ("ioctl GET_LINE", "ioctl SET_CONFIG") else b""
    data = data[s.CONFIG_AT : s.CONFIG_AT + s.CONFIG] if verb_of(words) == "ioctl GET_LINE" else data
    return data if len(data) >= s.CONFIG else b""


def number_at(data: bytes, at: int, length: int = 4) -> int:
    return int.from_bytes(data[at : at + length], "little")


def all_flags(words: List[str]) -> int:
    """All flags of a config, those of its attributes too; those of v1 as of v2."""
    config, verb = config_of(words), verb_of(words)
    if config:
        parts = [number_at(config, 0, 8)]
        count = min(number_at(config, 8), s.ATTRIBUTES_MOST)
        starts = [s.ATTRIBUTES_AT + s.ATTRIBUTE * number for number in range(count)]
        parts += [number_at(config, at + 8, 8) for at in starts if number_at(config, at) == s.FLAGS]
        return sum({1 << bit for part in parts for bit in range(64) if part >> bit & 1})
    if verb not in ("ioctl1 LINEHANDLE", "ioctl1 LINEEVENT", "ioctl1 SET_CONFIG"):
        return 0
    flags = number_at(data_of(words), {"ioctl1 LINEHANDLE": 256, "ioctl1 LINEEVENT": 4, "ioctl1 SET_CONFIG": 0}[verb])
    pairs = zip(
        (s.INPUT1, s.OUTPUT1, s.ACTIVE_LOW1, s.OPEN_DRAIN1, s.OPEN_SOURCE1, s.PULL_UP1, s.PULL_DOWN1, s.BIAS_DISABLED1),
        (s.INPUT, s.OUTPUT, s.ACTIVE_LOW, s.OPEN_DRAIN, s.OPEN_SOURCE, s.PULL_UP, s.PULL_DOWN, s.BIAS_DISABLED),
    )
    return sum(new for old, new in pairs if flags & old)


def debounces(words: List[str]) -> bool:
    """Whether a config has a debounce period."""
    config = config_of(words)
    count = min(number_at(config, 8), s.ATTRIBUTES_MOST) if config else 0
    return any(number_at(config, s.ATTRIBUTES_AT + s.ATTRIBUTE * number) == s.DEBOUNCE for number in range(count))


REQUESTS = ("ioctl GET_LINE", "ioctl1 LINEHANDLE", "ioctl1 LINEEVENT")
CONFIGS = ("ioctl SET_CONFIG", "ioctl1 SET_CONFIG")
LEVELS = ("ioctl GET_VALUES", "ioctl1 GET_VALUES", "get")
SEEN = ("ioctl GET_LINEINFO", "ioctl1 LINEINFO", "ioctl WATCH", "ioctl1 WATCH", "events")


def strict(d: Difference) -> bool:
    """What a config has beside its attributes is not zero."""
    config = config_of(d.words)
    count = min(number_at(config, 8), s.ATTRIBUTES_MOST) if config else 0
    starts = [s.ATTRIBUTES_AT + s.ATTRIBUTE * number for number in range(count)]
    unused = config[s.ATTRIBUTES_AT + s.ATTRIBUTE * count :] + b"".join(config[at + 4 : at + 8] for at in starts)
    return any(unused) and d.linux[d.at] == "EINVAL"


def v1config(d: Difference) -> bool:
    """A SET_CONFIG of v1 says no direction."""
    return d.verb == "ioctl1 SET_CONFIG" and not all_flags(d.words) & s.DIRECTIONS and d.linux[d.at] == "EINVAL"


def v1fifo(d: Difference) -> bool:
    """A v1 event file has lost events: the oldest 16 are kept, and not the newest."""
    return d.verb == "events" and d.made_as("ioctl1 LINEEVENT") and d.errors("ok", "ok")


def v1poll(d: Difference) -> bool:
    """A v1 handle is polled."""
    return d.verb == "poll" and d.made_as("ioctl1 LINEHANDLE")


def v1perm(d: Difference) -> bool:
    """The access check of SET_VALUES of v1."""
    return d.verb == "ioctl1 SET_VALUES" and "EPERM" in (d.linux[d.at], d.here[d.at])


def capacity_of(words: List[str]) -> int:
    data = data_of(words)
    return number_at(data, 564) or 16 * number_at(data, 560) if len(data) >= s.REQUEST else 0


def ring(d: Difference) -> bool:
    """A queue whose capacity is no power of two, or is 1."""
    if d.verb in ("ioctl GET_LINE", "ioctl SET_CONFIG"):
        maker = d.at if d.verb == "ioctl GET_LINE" else d.maker(d.words[1])
        edges = all_flags(d.words) & s.EDGES and maker is not None
        return bool(edges) and capacity_of(d.actions[maker or 0]) == 1 and d.linux[d.at] == "EINVAL"
    maker = d.maker(d.words[1]) if d.verb in ("events", "poll") else None
    capacity = capacity_of(d.actions[maker]) if maker is not None and d.made_as("ioctl GET_LINE") else 0
    return capacity & (capacity - 1) != 0 or capacity == 1


def partial(d: Difference) -> bool:
    """A request of several lines failed before: those before the faulty one were configured and released."""
    failed = [n for n in d.before(*REQUESTS) if d.linux[n] in ("EBUSY", "EINVAL", "EIO") and lines_of(d.actions[n]) > 1]
    return bool(failed) and d.verb in (*SEEN, *LEVELS, "poll")


def lines_of(words: List[str]) -> int:
    """How many lines a request asks for."""
    data = data_of(words)
    return number_at(data, {"ioctl GET_LINE": 560, "ioctl1 LINEHANDLE": 356}.get(verb_of(words), len(data)))


def configured(d: Difference, *verbs: str) -> List[int]:
    """The actions before it that configured lines."""
    return [n for n in d.before(*(verbs or (*REQUESTS, *CONFIGS))) if d.linux[n].startswith("ok")]


def keep(d: Difference) -> bool:
    """A line that was driven is no longer: its output became an input, or its drive is open."""
    drives = [n for n in configured(d) if all_flags(d.actions[n]) & s.OUTPUT]
    ends = [n for n in configured(d, *CONFIGS) if all_flags(d.actions[n]) & s.INPUT and any(m < n for m in drives)]
    open_drives = [n for n in drives if all_flags(d.actions[n]) & s.DRIVES]
    return bool(ends or open_drives) and d.verb in (*LEVELS, "events", "poll")


def chipdir(d: Difference) -> bool:
    """The direction of a line whose drive was open."""
    open_drives = [n for n in configured(d) if all_flags(d.actions[n]) & s.DRIVES]
    return bool(open_drives) and d.verb in (*SEEN, *LEVELS, "ioctl SET_VALUES", "ioctl1 SET_VALUES")


def biasedge(d: Difference) -> bool:
    """A SET_CONFIG changed the level of a line with edges by its bias."""
    changed = [n for n in configured(d, *CONFIGS) if all_flags(d.actions[n]) & s.BIASES]
    return bool(changed) and d.verb in ("events", "poll")


def realtime(d: Difference) -> bool:
    """A line had EVENT_CLOCK_REALTIME."""
    return d.verb in SEEN and any(all_flags(d.actions[n]) & s.REALTIME for n in configured(d))


def v1edges(d: Difference) -> bool:
    """The line is one of a v1 event file."""
    return d.verb in SEEN and bool(configured(d, "ioctl1 LINEEVENT"))


def period(d: Difference) -> bool:
    """A SET_CONFIG changed a debounce period."""
    changed = configured(d, "ioctl SET_CONFIG")
    before = any(debounces(d.actions[n]) for n in configured(d))
    return bool(changed) and before and d.verb in ("events", "poll", *LEVELS)


def labels(d: Difference) -> bool:
    """Two chips have one label."""
    given = [d.actions[n][2] for n in d.before("write") if d.actions[n][1].endswith("/label") and d.linux[n] == "ok"]
    return len(set(given)) < len(given)


def shortread(d: Difference) -> bool:
    """A read of changes is too short."""
    return d.verb == "events" and d.made_as("open") and int(d.words[2]) < 288 and d.linux[d.at] in ("EAGAIN", "EINVAL")


def label(d: Difference) -> bool:
    """The label of a bank that was given none."""
    return d.verb in ("ioctl GET_CHIPINFO", "ioctl1 CHIPINFO") and d.errors("ok", "ok")


def tree(d: Difference) -> bool:
    """An error of configfs or sysfs, where the result here is one too."""
    return d.words[0] in ("mkdir", "rmdir", "write", "read", "chip", "put", "get") and not (
        d.linux[d.at].startswith("ok") and d.here[d.at].startswith("ok")
    )


RULES: Dict[str, Callable[[Difference], bool]] = {
    rule.__name__: rule
    for rule in (
        strict, label, v1config, v1fifo, v1poll, v1perm, ring, labels, shortread, realtime, v1edges, chipdir, keep, biasedge, period,
        partial, tree,
    )
}  # fmt: skip


def first_difference(one: ActionList, linux: List[str], here: List[str]) -> Optional[Difference]:
    """Where the results of a list begin to differ; None where they are the same."""
    if linux == here:
        return None
    at = next((n for n, pair in enumerate(zip(linux, here)) if pair[0] != pair[1]), min(len(linux), len(here)))
    short = min(len(linux), len(here)) == at
    return Difference([line.split() for line in one.lines], linux, here, at) if not short else None


def cause_of(one: ActionList, linux: List[str], here: List[str]) -> Optional[str]:
    """The cause of a list's first difference; None where no rule holds for it."""
    found = first_difference(one, linux, here)
    return next((name for name, rule in RULES.items() if rule(found)), None) if found else None
