"""What the tool says of a split, by lines of C as far as they are known. Licence: public domain (CC0)."""
from __future__ import annotations

from collections import Counter, defaultdict
from typing import Dict, Iterable, List, Set

from .flow import Place
from .kinds import Kinds
from .making import Split
from ..c.lines import Lines

MOST_LINES = 20  # of a list


class Places:
    """Steps of functions by their lines of C."""

    def __init__(self, kinds: Kinds) -> None:
        self.flow, self.module = kinds.flow, kinds.flow.module.module
        self.lines = Lines([])
        self.is_asked = False

    def ask(self) -> None:
        """Has all lines looked up at once."""
        self.is_asked = True
        if self.lines.tool and self.module.has_lines:
            places = {
                step.ins.place
                for one in self.flow.functions.values()
                for step in one.steps
                if step.ins.place >= 0
            }
            self.lines.look_up(self.module.path, sorted(place - self.module.code for place in places))

    def told(self, place: Place) -> str:
        if not self.is_asked:
            self.ask()
        at, name = self.flow.step(place).ins.place, self.flow.module.name_of(place.function)
        line = self.lines.known.get((self.module.path, at - self.module.code))
        return f"{line.place} {name}" if line and line.number else f"{name}, at {at:#x}"

    def listed(self, places: Iterable[Place], more: str = "") -> List[str]:
        """The lines of places, each with how many of them it has."""
        counted = Counter(map(self.told, sorted(places)))
        lines = [f"  {line}{more}" + (f" ({count})" if count > 1 else "") for line, count in counted.items()]
        return lines[:MOST_LINES] + [f"  and {len(lines) - MOST_LINES} more lines"] * (
            len(lines) > MOST_LINES
        )


def report_of(split: Split, has_runs: bool) -> List[str]:
    kinds, flow, places = split.kinds, split.kinds.flow, Places(split.kinds)
    if not kinds.changes and not split.recorded.leaks:
        return ["no public number passes through the memory: the module stays as it is"]
    both = [place for place in kinds.needed_loads() if place not in kinds.checked]
    stores = Counter(kinds.of(value) for value in flow.stores.values())
    lines = [
        f"loads: {len(flow.loads)}, of which {len(kinds.checked)} read the shadow alone, and trap unless all "
        "their bits are known there",
        *places.listed(kinds.checked),
    ]
    lines += [f"loads of both, with a mask of known bits: {len(both)}", *places.listed(both)] if both else []
    lines += [
        f"stores: {stores['U']} of public values go to the shadow, too; {stores['D']} with a mask; "
        f"{stores['S']} of secrets"
    ]
    return lines + known_at_first(split) + leaks(split, places) + unreached(split, places, has_runs)


def known_at_first(split: Split) -> List[str]:
    """The first contents that are taken as public: whoever ships the program has to agree."""
    if not split.known:
        return ["known at the start: nothing"]
    lines = [f"  {len(one.bytes)} bytes from {one.offset} on: {one.why}" for one in split.known]
    return [
        f"known at the start, and so public: {sum(len(one.bytes) for one in split.known)} bytes",
        *lines[:MOST_LINES],
        *[f"  and {len(lines) - MOST_LINES} more ranges"] * (len(lines) > MOST_LINES),
    ]


def leaks(split: Split, places: Places) -> List[str]:
    """Sinks that met unknown bits in a run, with the loads that these came of: they stay as they are, and the
    verdict will be no."""
    recorded, flow = split.recorded, split.kinds.flow
    if not recorded.leaks:
        return []
    causes: Dict[Place, Set[int]] = defaultdict(set)
    for number in recorded.leaks:
        for load in unknown_loads(split, flow.sinks[number].node):
            causes[load].add(number)
    lines = [
        f"a secret met {len(recorded.leaks)} branches, addresses or divisions, which stay as they are: the "
        "verdict is no",
        *places.listed(flow.sinks[number].place for number in recorded.leaks),
    ]
    return lines + ["it was loaded by", *places.listed(causes)] * bool(causes)


def unknown_loads(split: Split, node: int) -> Set[Place]:
    """The loads that a node is made of, not through memory, of which some bit wasn't known in a run."""
    rest: List[int] = [node]
    seen: Set[int] = set()
    found: Set[Place] = set()
    while rest:
        one = rest.pop()
        if one not in seen:
            seen.add(one)
            rest += split.kinds.flow.made_of[one]
            load = split.kinds.load_of.get(one)
            if load is not None and load in split.recorded.unknown:
                found.add(load)
    return found


def unreached(split: Split, places: Places, has_runs: bool) -> List[str]:
    """Code that no recorded run came to: loads that are taken as public there may not be, and then it
    traps."""
    if not has_runs:
        return [
            "no run was recorded (blade-cc --record START, blade-split --start START): each load that a "
            "branch or an address needs is taken as public, and the program traps if it isn't"
        ]
    recorded, flow = split.recorded, split.kinds.flow
    loads = [place for place in split.kinds.checked if place not in recorded.reached]
    sites = {one.place for one in flow.sinks}
    missed, lines = sites - recorded.executed, []
    if missed:
        lines = [
            f"no recorded run came to {len(missed)} of {len(sites)} branches, accesses and divisions",
            *places.listed(missed),
        ]
    if loads:
        lines += [
            f"among them are {len(loads)} loads that are taken as public, and trap if they aren't",
            *places.listed(loads),
        ]
    return lines


def summary(split: Split) -> str:
    """How many places are checked at run time, in a few words."""
    kinds = split.kinds
    checks = {place for place in kinds.checked}
    uses = {node for node in range(len(kinds.flow.kind)) if kinds.is_public_use(node)}
    return f"{len(checks) + len(uses)} public numbers checked at run time"
