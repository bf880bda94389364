"""What a search for a witness found, as text. Licence: public domain (CC0)."""
from __future__ import annotations

import shlex
from typing import Iterator, List

from ..verdict.flow import Findings
from ..c.lines import Lines
from .pairs import Secret
from .program import STEPS
from .search import Done
from .attempts import Sought
from ..verdict.evidence import UNPROVED, Evidence, end_at, kind_of
from .shrinking import Found, open_guesses
from .steering import LINES
from ..verdict.text import place_text

PLACES = 6  # so many lines of C are named in a row
BYTES = 4  # so many changed bytes are told one by one
UNSEARCHED = "gave up before anything was searched"


def where(lines: Lines, position: int) -> str:
    lines.ask([position])
    return place_text(lines, position)


def what_differs(secret: Secret, first: bytes, second: bytes) -> Iterator[str]:
    """A line for each parameter or range of bytes that differs."""
    for (one, _, mine), (_, _, other) in zip(secret.pieces(first), secret.pieces(second)):
        if mine == other:
            continue
        if one.memory is None:
            yield (f"parameter {one.offset}: {int.from_bytes(mine, 'little')} and "
                   f"{int.from_bytes(other, 'little')}")
            continue
        places = [place for place in range(one.size) if mine[place] != other[place]]
        few = "; ".join(f"byte {one.offset + place}: {mine[place]:02x} and {other[place]:02x}"
                        for place in places[:BYTES])
        more = (f"; and {len(places) - BYTES} more up to byte {one.offset + places[-1]}"
                if len(places) > BYTES else "")
        yield f"memory {one.memory}, {few}{more}"


def guess_text(sought: Sought, found: Found, lines: Lines) -> str:
    """Whether the end is under a wrong guess."""
    if found.plain:
        return "in the order of the program, under no wrong guess"
    _, wrong, waiting = open_guesses(sought, found)
    if wrong:
        more = f" and {len(wrong) - 1} more" if len(wrong) > 1 else ""
        return f"under a wrong guess at {where(lines, wrong[-1].position)}{more}"
    if waiting:
        return f"under a guess whose condition isn't known yet, at {where(lines, waiting[-1].position)}"
    return "under no wrong guess"


def not_refused(findings: Findings, found: Found, position: int) -> Iterator[str]:
    """Where the labels say nothing of this end."""
    if end_at(findings.image, position) in {end.position for end in findings.refused}:
        return
    word = kind_of(findings.image, position).split(" ")[0]
    if found.plain:
        yield (f"  the labels don't refuse this {word}, but a store to a public memory before it: what is "
               "loaded there again counts as public")
    else:
        yield (f"  the labels don't refuse this {word}: they speak of no wrong guess, of which "
               "protects keep what is loaded")


def witnessed(sought: Sought, found: Found, position: int, lines: Lines) -> Iterator[str]:
    """A leak that the program tells apart."""
    yield f"leak witnessed: {kind_of(sought.image, position)}: {where(lines, position)}"
    source = lines.source(lines.line(position))
    if source:
        yield f"    {source}"
    for change in what_differs(sought.secret, found.first, found.second):
        yield f"  secret changed: {change}"
    if found.arguments:
        yield f"  arguments of both: {' '.join(map(str, found.arguments))}"
    difference = found.difference
    yield (f"  at directive {difference.directive}, {found.trace[-1]}: one run shows `{difference.first}`, "
           f"the other `{difference.second}`")
    yield f"  {guess_text(sought, found, lines)}"
    yield from not_refused(sought.findings, found, position)


def again(judge: str, image: str, export: str, prefix: str) -> str:
    """The command by which anybody replays a witness."""
    return shlex.join(["blade", judge, image, export,
                       *(f"{prefix}.{end}" for end in ("trace", "a.start", "b.start"))])


def runs_again(image: str, export: str, prefix: str, counted: bool) -> str:
    """That by which anybody compares whole runs."""
    image, export, name = shlex.quote(image), shlex.quote(export), shlex.quote(prefix)
    words = f"blade run {image} {export} {name}.$s.start --steps {STEPS}"
    return f"for s in a b; do {words}{f' --counts {name}.$s.counts' if counted else ''}; done" + (
        f"; diff {name}.a.counts {name}.b.counts" if counted else "")


def places(positions: List[int], lines: Lines) -> str:
    """Lines of C in a row, the first few."""
    lines.ask(positions)
    named = list(dict.fromkeys(lines.place(position) or f"position {position}" for position in positions))
    return ", ".join(named[:PLACES]) + (", .." if len(named) > PLACES else "")


def of_the_run(evidence: Evidence, lines: Lines) -> Iterator[str]:
    """What START's own run says of the ends that the labels refuse."""
    if not evidence.found.refused:
        yield "  the labels refuse no branch, address or division"
        return
    yield f"  {evidence.run_text()}"
    clean = evidence.never_loaded()
    if clean:
        left = evidence.still_refused(clean)
        said = f"{left} violations would be left" if left else "no violation would be left"
        yield (f"  looks public, {UNPROVED}: these lines never loaded what was changed; were it public, "
               f"{said}: {places(clean, lines)}")
        yield f"    (blade-explain --public {','.join(map(str, clean))})"
    missed = evidence.not_reached()
    if missed:
        yield f"  not reached, give other starts: {places(missed, lines)}"


def nothing(done: Done, evidence: Evidence, seconds: float, lines: Lines) -> Iterator[str]:
    """Nothing found: how much was tried, and what the run says."""
    ended = f", stopped after {seconds:g} seconds" if done.stopped else ""
    if done.is_begun:
        yield f"nothing found, which isn't to say that there is nothing{ended}: {done.text()}"
    else:
        yield f"{UNSEARCHED}{ended}: no two runs were compared; give it more --seconds, or a shorter run"
    if done.cut:
        yield f"  the search isn't complete: traces end at {LINES:,} directives, before the run does"
    yield from of_the_run(evidence, lines)
