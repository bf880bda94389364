"""What was found, as text. Licence: public domain (CC0)."""
from __future__ import annotations

from collections import Counter
from typing import Dict, Iterator, List, Optional, Sequence

from .causes import Cause, Way
from .evidence import Evidence, kind_of
from .flow import OBSERVED, PLURALS, End, Findings, is_bounds_test
from ..c.lines import Lines
from ..formats.certificate import Protect, function_name, totals

WIDE = 90  # so much of a line of C is shown
STEPS = 6  # so many lines of a way
# what an observer of a run sees
ALL, ONE = "branches, addresses and divisions", "branch, address or division"


def counted(number: int, kind: str) -> str:
    return f"{number} {kind if number == 1 else PLURALS.get(kind, kind + 's')}"


def kinds_text(counts: Dict[str, int]) -> str:
    return ", ".join(counted(number, kind) for kind,
                     number in sorted(counts.items(), key=lambda one: (-one[1], one[0])))


def declared_text(found: Findings) -> str:
    image = found.image
    params = sum(sum(function.secret_params) for function in image.functions)
    names = ((params, "parameter", "parameters"), (sum(image.secret_globals), "global", "globals"),
             (sum(image.secret_memories), "memory", "memories"))
    told = ", ".join(f"{number} {one if number == 1 else many}" for number, one, many in names if number)
    if not told:
        return ("declared secret: nothing. So nothing can leak, and the verdict says nothing: declare the "
                "secrets with blade-label")
    loads = sum(origin.position is not None for origin in found.origins)
    return f"declared secret: {told}" + (f"; {counted(loads, 'load')} of secret memories"
                                         if sum(image.secret_memories) else "")


def verdict_text(found: Findings, public: Sequence[int], evidence: Optional[Evidence] = None) -> str:
    supposed = f" (as if what is loaded at {', '.join(map(str, public))} were public)" if public else ""
    observed = [end for end in found.ends if end.kind in OBSERVED
                and not is_bounds_test(found.image.commands, end.position)]
    total = f"{len(observed)} {ALL if len(observed) != 1 else ONE}"
    if found.is_constant_time:
        return f"constant-time yes{supposed}: none of {total} depends on a secret"
    kinds = Counter(end.kind for end in found.refused)
    witnessed = ", leak witnessed" if evidence and evidence.witness else ""
    return f"constant-time no{witnessed}{supposed}: a secret reaches {kinds_text(kinds)} ({total} in all)"


def place_text(lines: Lines, position: int) -> str:
    """A position by its line of C and its instruction, as far as they are known."""
    place, instruction = lines.place(position), lines.instruction(position)
    return (f"{place} ({instruction + ', ' if instruction else ''}position {position})" if place
            else f"position {position}")


def evidence_text(evidence: Evidence, lines: Lines) -> Iterator[str]:
    """What a witness and a run showed."""
    if evidence.witness:
        witness = evidence.witness
        lines.ask([witness.position])
        yield (f"leak witnessed: {kind_of(evidence.found.image, witness.position)}: "
               f"{place_text(lines, witness.position)}")
        yield (f"  one run shows `{witness.difference.first}`, the other "
               f"`{witness.difference.second}`: {witness.words}")
    if evidence.meeting and evidence.found.refused:
        yield evidence.run_text()


def table(causes: Sequence[Cause]) -> Iterator[str]:
    yield "      violations that it causes (branches, addresses, others): the line that loads it"
    for number, cause in enumerate(causes, 1):
        place = (cause.place.split(" position ")[0].rsplit(" ", 1)[0] if cause.source and ":" in cause.place
                 else cause.place or cause.declared)
        columns = ", ".join(map(str, cause.columns()))
        yield (f"{number:4} {cause.ends:4} ({columns})  "
               f"{place}{': ' + cause.source[:WIDE] if cause.source else ''}")


def steps_of(way: Way, lines: Lines) -> str:
    """The way by lines of C, else by positions."""
    steps: List[str] = []
    for position in way.sites + [way.end.position]:
        line = lines.line(position)
        step = line.place if line.number else ""
        if step and (not steps or steps[-1] != step):
            steps.append(step)
    if len(steps) > 1:
        return " > ".join(steps[:STEPS] + (["..", steps[-1]] if len(steps) > STEPS else []))
    return " > ".join(f"{position} {lines.instruction(position)}".strip()
                      for position in way.sites + [way.end.position])


def user_of(way: Way, lines: Lines) -> int:
    """The last place of a way that has lines: of an end in an accessor, where it is called."""
    end = way.end.position
    if not lines.has_lines or lines.is_plain(end):
        return end
    return next((site for site in reversed(way.sites) if lines.is_plain(site)), end)


def way_text(way: Way, more: int, lines: Lines, above: str) -> Iterator[str]:
    end, user = way.end.position, user_of(way, lines)
    where = place_text(lines, end)
    called = f", called at {lines.place(user)}" if user != end else ""
    yield f"   -> {way.end.kind}: {where}{called}" + (f", and {more} more there" if more else "")
    source = lines.source(lines.line(user))
    if source and source != above:
        yield f"       {source}"
    yield f"       by {steps_of(way, lines)}"


def cause_text(number: int, cause: Cause, ways: int, lines: Lines) -> Iterator[str]:
    loads = [str(position) for position in cause.loads]
    listed = (f" ({counted(len(loads), 'load')}: {','.join(loads[:4])}{',..' if len(loads) > 4 else ''})"
              if loads else "")
    yield (f"{number:2} {cause.declared}{', ' + cause.place if cause.place else ''}{listed}: "
           f"{kinds_text(cause.counts)}")
    if cause.source:
        yield f"       {cause.source}"
    if cause.observed or cause.likely:
        yield f"       {cause.observed or cause.likely}"
    told = by_line(cause, lines)
    for same in told[:ways]:
        yield from way_text(cause.way(same[0]), len(same) - 1, lines, cause.source)
    if len(told) > ways:
        yield f"   -> and {counted(len(told) - ways, 'other line')}"


def by_line(cause: Cause, lines: Lines) -> List[List[End]]:
    """The ends that a cause reaches, those of one kind on one line together."""
    told: Dict[tuple, List[End]] = {}
    for end in cause.reached:
        told.setdefault((end.kind, lines.place(end.position) or end.position), []).append(end)
    return list(told.values())


def protects_text(protects: Sequence[Protect], found: Findings, lines: Lines, most: int) -> Iterator[str]:
    if not protects:
        yield "protects: none"
        return
    yield f"protects: {len(protects)}, of weight {sum(protect.weight for protect in protects)}"
    for protect in sorted(protects, key=lambda one: (-one.weight, one.position))[:most]:
        yield protect_text(protect, found, lines)
    if len(protects) > most:
        yield f"  and {len(protects) - most} lighter ones"
    sums = totals(list(protects), found.image, lines)
    yield "  by function: " + "; ".join(f"{name} {count}, weight {weight}" for name, count,
                                        weight in sums[:20])


def protect_text(protect: Protect, found: Findings, lines: Lines) -> str:
    at = protect.position
    place = lines.place(at) or function_name(found.image.function_at(at), found.image, lines)
    instruction = lines.instruction(at)
    text = f"  {protect.weight:6} at {at} {place}" + (f" ({instruction})" if instruction else "")
    if not protect.reason:
        return text
    sites, sink = protect.reason
    return f"{text}: loaded at {lines.place(sites[0])} {sites[0]}, would reach {lines.place(sink)} {sink}"


def report(found: Findings, causes: Sequence[Cause], protects: Sequence[Protect], lines: Lines,
           public: Sequence[int], most: int, ways: int, evidence: Optional[Evidence] = None) -> Iterator[str]:
    """The whole text."""
    yield declared_text(found)
    yield verdict_text(found, public, evidence)
    if evidence:
        yield from evidence_text(evidence, lines)
    if causes:
        loads = {origin.position for origin in found.guilty if origin.position is not None}
        total = sum(origin.position is not None for origin in found.origins)
        others = len(found.guilty) - len(loads)
        told = [f"{len(loads)} of {total} loads of "
                "secrets"] * bool(loads) + [counted(others, "declared variable")] * bool(others)
        yield f"caused by {' and '.join(told)}, in {counted(len(causes), 'place')}"
        yield ""
        yield from table(causes)
        for number, cause in enumerate(causes[:most], 1):
            yield ""
            yield from cause_text(number, cause, ways, lines)
        yield ""
    yield from protects_text(protects, found, lines, max(most, 10))
