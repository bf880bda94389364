"""From which lines of the user's own sources functions of libraries are called, by the calls of the image.
Licence: public domain (CC0)."""
from __future__ import annotations

from collections import defaultdict
from typing import Dict, List, Sequence, Set, Tuple

from .libraries import OWN, Owners
from ..c.lines import Lines
from ..c.paths import shown
from ..formats.image import Image

DEEP = 12  # so many calls inside of libraries are followed
FEW = 3  # so many lines are told


class Uses:
    """The calls of an image, up to the user's own lines."""

    def __init__(self, image: Image, lines: Lines, owners: Owners) -> None:
        self.image, self.lines, self.owners = image, lines, owners
        self.calls: Dict[int, List[int]] = defaultdict(list)  # of each function, the positions of its calls
        numbers = {function.entry: number for number, function in enumerate(image.functions)}
        for position, command in enumerate(image.commands):
            if command.kind == "Call":
                self.calls[numbers[command.targets[0]]].append(position)

    def own_lines(self, function: int) -> List[str]:
        """The lines of the user's sources that call a function, by way of other functions of libraries if
        none does it directly."""
        seen, level = {function}, {function}
        for _ in range(DEEP):
            at = sorted({position for one in level for position in self.calls[one]})
            self.lines.ask(at)
            found = self.told(at)
            level = {self.image.function_at(position) for position in at} - seen
            seen |= level
            if found or not level:
                return found
        return []

    def told(self, positions: Sequence[int]) -> List[str]:
        """Of some positions the lines of the user's sources."""
        found: Set[Tuple[str, int]] = set()
        for line in map(self.lines.line, positions):
            if line.number and self.owners.owner(line) == OWN:
                found.add((shown(line.path), line.number))
        return [f"{path}:{number}" for path, number in sorted(found)]

    def text(self, positions: Sequence[int]) -> str:
        """Where the functions are called that some positions stand in."""
        spots = [spot for spot in map(self.lines.spot, positions) if spot]
        lines = list(dict.fromkeys(line for number in sorted({spot.function for spot in spots})
                                   for line in self.own_lines(number)))
        more = f" and {len(lines) - FEW} more lines" if len(lines) > FEW else ""
        return f", called at {', '.join(lines[:FEW])}{more}" if lines else ""
