"""Where a run of split modules trapped: the line of C whose public number wasn't known. Licence: public
domain (CC0)."""
from __future__ import annotations

from typing import List, Optional, Sequence, Tuple

from .shadow import NAME
from ..c.lines import Lines, Spot
from ..formats.image import Image
from ..formats.lowering import LinkedFunction
from ..formats.running import Run, Start

UNKNOWN = "split: a public number was not known here"
CHECK = ("const -1", ".ne", "if", "unreachable")  # how a mask is tested, by the ends of instructions' texts
MOST = 30_000_000  # commands that are followed


def ended_at(image: Image, export: str, start: Start) -> Tuple[Optional[int], List[int]]:
    """The last command of a run, if it was a trap, and the calls that it was in."""
    run = Run(image, image.entries[export], start)
    last, kind = 0, ""
    for last, command, _ in run.steps(MOST):
        kind = command.kind
    return last if run.left and kind == "Trap" else None, [one - 1 for one in run.returns]


def is_check(functions: Sequence[LinkedFunction], spot: Spot) -> bool:
    """Whether an `unreachable` is one that a split put there."""
    rows = functions[spot.function].rows
    at = rows.index(spot.row)
    texts = [row.text for row in rows[max(0, at - 3) : at + 1]]
    return len(texts) == len(CHECK) and all(text.endswith(end) for text, end in zip(texts, CHECK))


def trapped(image: Image, lines: Lines, export: str, start: Start) -> str:
    """What is told of the end of a run."""
    position, calls = ended_at(image, export, start)
    if position is None:
        return "the run doesn't trap"
    spot = lines.spot(position)
    if spot is None:
        return f"the run traps at position {position}"
    is_shadow = spot.linked.module.name == NAME and bool(calls)
    place = calls[-1] if is_shadow else position
    lines.ask([place])
    is_unknown = is_shadow or is_check(lines.functions, spot)
    return f"{UNKNOWN if is_unknown else 'the run traps at'}: {lines.place(place) or f'position {place}'}"
