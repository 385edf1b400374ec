"""What a sweep has found: outcomes that are alike as one group, as a table and as JSON."""

from __future__ import annotations

import json
import re
from dataclasses import dataclass
from typing import Dict, Iterable, List, Sequence, Tuple, Union

from .sweep import EXPECTED, Kind, Outcome, Result, Sweep, repeat_command

# What a result is called in the table.
RESULT_PHRASES = {
    Result.SAME: "same as the clean run",
    Result.ENDED: "ended with status {status}",
    Result.DIFFERS: "went on and printed something else",
    Result.CRASHED: "crashed",
    Result.HUNG: "hung",
}
# What went wrong, before the call that a group names.
KIND_PHRASES = {
    Kind.FAULT: "the driver fails at",
    Kind.FAULTS: "the driver fails from there on, at",
    Kind.UNPLUG: "the chip goes before",
    Kind.UNPLUG_AFTER: "the chip goes after",
    Kind.REPLUG: "the chip goes and comes back before",
    Kind.BURST: "events are lost before",
    Kind.LATE: "time passes before",
}
# The worst comes first.
ORDER = (Result.CRASHED, Result.HUNG, Result.DIFFERS, Result.ENDED, Result.SAME)


@dataclass(frozen=True)
class Group:
    """Outcomes that are alike: what came of it, what went wrong, and at which call of the program."""

    result: Result
    status: int
    kind: Kind
    what: str
    says: str  # of its first outcome
    outcomes: Tuple[Outcome, ...]  # by their calls

    @property
    def first(self) -> Outcome:
        """The outcome at the earliest call."""
        return self.outcomes[0]


@dataclass(frozen=True)
class Report:
    """All that a sweep has found, and how many places it meant to try."""

    sweep: Sweep
    outcomes: Sequence[Outcome]
    wanted: int

    def groups(self) -> List[Group]:
        """The groups, the worst first, and then by their first calls, in whatever order the runs ended."""
        kept: Dict[Tuple[object, ...], List[Outcome]] = {}
        for outcome in sorted(self.outcomes, key=lambda one: (one.place.call, one.place.options)):
            place = outcome.place
            status = outcome.status if outcome.result is Result.ENDED else 0
            kept.setdefault((outcome.result, status, place.kind, place.what, generalized(outcome.says)), []).append(
                outcome
            )
        found = [
            Group(one[0].result, one[0].status, one[0].place.kind, one[0].place.what, one[0].says, tuple(one))
            for one in kept.values()
        ]
        return sorted(
            found,
            key=lambda group: (
                ORDER.index(group.result),
                group.status,
                generalized(group.says),
                group.first.place.call,
                list(Kind).index(group.kind),
                group.what,
            ),
        )

    def unexpected(self, expected: Iterable[Union[Result, str]] = EXPECTED) -> List[Outcome]:
        """The outcomes that are none of these results, which may be named by their words."""
        wanted = {Result(result) for result in expected}
        return [outcome for outcome in self.outcomes if outcome.result not in wanted]

    def table(self) -> str:
        """The groups as text below what came of them, each with the command that repeats its first run."""
        rows = [self._head()]
        shown = None
        for group in self.groups():
            title = RESULT_PHRASES[group.result].format(status=group.status) + (f": {group.says}" if group.says else "")
            if generalized(title) != shown:
                rows += ["", title]
                shown = generalized(title)
            rows += self._rows(group)
        return "\n".join(rows) + "\n"

    def _rows(self, group: Group) -> List[str]:
        """A group: how many runs, at which calls, and how its first one is repeated."""
        first = group.first.place
        rows = [f"  {len(group.outcomes):4} x {KIND_PHRASES[group.kind]} {group.what}, first at call {first.call}"]
        strays = sum(outcome.strays for outcome in group.outcomes)
        if strays:
            rows.append(f"         in {strays} of them the program made other calls before than in the clean run")
        if group.result is not Result.SAME:
            rows.append(f"         {repeat_command(self.sweep, first)}")
        return rows

    def _head(self) -> str:
        """How many runs there were, and what the clean one does."""
        clean = self.sweep.clean
        assert clean is not None
        driven = sum(call.driven > 0 for call in clean.calls)
        calls = "1 call" if len(clean.calls) == 1 else f"{len(clean.calls)} calls"
        text = f"{len(self.outcomes)} runs; the clean one makes {calls}, {driven} of the driver"
        if len(self.outcomes) < self.wanted:
            text += f"; {self.wanted - len(self.outcomes)} places were not tried"
        return text

    def as_json(self) -> str:
        """All outcomes, for other programs."""
        rows = [
            {
                "kind": outcome.place.kind.value,
                "call": outcome.place.call,
                "what": outcome.place.what,
                "options": list(outcome.place.options),
                "result": outcome.result.value,
                "status": outcome.status,
                "says": outcome.says,
                "strays": outcome.strays,
                "seconds": round(outcome.seconds, 3),
                "repeat": repeat_command(self.sweep, outcome.place),
            }
            for outcome in self.outcomes
        ]
        return json.dumps({"wanted": self.wanted, "outcomes": rows}, indent=1) + "\n"


def generalized(text: str) -> str:
    """A line without its numbers, which may differ from run to run."""
    return re.sub(r"[0-9]+", "N", text)
