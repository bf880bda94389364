"""Refused ends by what causes them: the lines of C that load the secrets. Licence: public domain (CC0)."""
from __future__ import annotations

from collections import defaultdict
from dataclasses import dataclass, field
from typing import Dict, List, Optional, Sequence, Tuple

from .flow import CONDITION, End, Findings, Origin, Reach, count_ends
from .guesses import Guess
from ..c.lines import NOWHERE, Lines


@dataclass
class Way:
    """How a secret goes to an end: its origin, the sites that it passes, and the end."""

    origin: Origin
    sites: List[int]
    end: End


@dataclass
class Cause:
    """Origins on one line of C, and the refused ends that they reach."""

    declared: str
    place: str
    source: str
    origins: List[Origin]
    counts: Dict[str, int] = field(default_factory=dict)
    # the refused ends, those first to which the way is short
    reached: List[End] = field(default_factory=list)
    reach: Optional[Reach] = None
    likely: Optional[Guess] = None
    observed: str = ""  # what a run and a witness show, in place of what is likely

    @property
    def ends(self) -> int:
        return sum(self.counts.values())

    def way(self, end: End) -> Way:
        """The shortest way to an end."""
        return Way(*self.reach.way(end.variable), end)

    @property
    def loads(self) -> List[int]:
        return [origin.position for origin in self.origins if origin.position is not None]

    def columns(self) -> Tuple[int, int, int]:
        """Branches, addresses, others."""
        branches = self.counts.get(CONDITION, 0)
        addresses = sum(n for kind, n in self.counts.items() if kind.startswith("address"))
        return branches, addresses, self.ends - branches - addresses


def told_by_callers(found: Findings, lines: Lines) -> List[Origin]:
    """The origins that cause something; a load in a module without lines (an accessor) is told by the sites
    with lines that take its value."""
    told: List[Origin] = []
    for origin in found.guilty:
        spot = lines.spot(origin.position) if origin.position is not None else None
        if not lines.has_lines or spot is None or spot.linked.module.has_lines:
            told.append(origin)
        else:
            told += takers(found, lines, origin, f"{origin.declared} by {spot.linked.name}")
    return told


def takers(found: Findings, lines: Lines, origin: Origin, declared: str) -> List[Origin]:
    seen, work, told = {origin.variable}, [origin.variable], []
    for variable in work:
        for position in found.graph.readers.get(variable, ()):
            writes = found.graph.commands[position].writes
            if lines.is_plain(position):
                told.append(Origin(declared, position, writes))
            elif writes not in seen:
                seen.add(writes)
                work.append(writes)
    return [one for one in dict.fromkeys(told) if one.variable in found.core]


def key_of(origin: Origin, lines: Lines) -> Tuple[str, str, str]:
    """What is told of an origin: what declares it, the line that loads it (else the instruction), and that
    line's text."""
    if origin.position is None:
        return origin.declared, parameter_place(origin, lines), ""
    line = lines.line(origin.position)
    if line is not NOWHERE:
        return origin.declared, lines.place(origin.position), lines.source(line)
    return (origin.declared, f"{lines.place(origin.position)} position {origin.position}".strip(),
            lines.instruction(origin.position))


def parameter_place(origin: Origin, lines: Lines) -> str:
    words = origin.declared.split()
    if words[0] == "parameter" and int(words[1]) < len(lines.functions):
        return f"of {lines.functions[int(words[1])].name}"
    return ""


def grouped(origins: Sequence[Origin], lines: Lines) -> List[Cause]:
    groups: Dict[Tuple[str, str, str], List[Origin]] = defaultdict(list)
    for origin in origins:
        groups[key_of(origin, lines)].append(origin)
    return [Cause(*key, members) for key, members in groups.items()]


def causes_of(found: Findings, lines: Lines) -> List[Cause]:
    """All causes, those first that reach the most ends."""
    lines.ask(origin.position for origin in found.guilty if origin.position is not None)
    told = told_by_callers(found, lines)
    lines.ask(origin.position for origin in told if origin.position is not None)
    causes = grouped(told, lines)
    counts, missed = count_ends(found, [cause.origins for cause in causes])
    if missed:
        # Ends inside an accessor, before any caller takes the value: told by the load itself.
        causes = grouped(list(dict.fromkeys(told + found.guilty)), lines)
        counts, _ = count_ends(found, [cause.origins for cause in causes])
    for cause, count in zip(causes, counts):
        cause.counts = count
    causes = [cause for cause in causes if cause.counts]
    return sorted(causes, key=lambda cause: (-cause.ends, cause.origins[0].position or 0, cause.declared))


def add_ends(found: Findings, cause: Cause) -> None:
    """The ends that a cause reaches, and its shortest ways."""
    cause.reach = found.graph.reach(cause.origins, found.core)
    depth = cause.reach.depth
    cause.reached = [end for end in found.refused if end.variable in depth]
    cause.reached.sort(key=lambda end: (depth[end.variable], end.position))
