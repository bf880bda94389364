"""The section blade.places of a split module: from which place of the module that was split each of its
instructions comes. So lines of C are found by the DWARF of that module, which goes with it unchanged.
Licence: public domain (CC0).

Its contents are the byte 1 and a vector of pairs, rising by the first: a place in this module's code section,
by how much it is more than the one before; and a place in the code section of the module that was split, by
how much it is more or less than the one before. A place between two belongs to the first."""
from __future__ import annotations

import bisect
from typing import Dict, List, Optional, Sequence, Tuple

from .encoding import custom, leb, signed_leb, vector
from .module import Module
from .reading import Bad, Reader

NAME = "blade.places"
NOWHERE = 0  # no instruction stands at the beginning of a code section
Places = List[Tuple[int, int]]


def section_of(places: Sequence[Tuple[int, int]]) -> bytes:
    listed, before = [], (0, 0)
    for place, origin in places:
        listed.append(leb(place - before[0]) + signed_leb(origin - before[1]))
        before = place, origin
    return custom(NAME, b"\1" + vector(listed))


def places_of(module: Module) -> Optional[Places]:
    """The pairs that stand in a module; None where it isn't a split one."""
    for one in module.sections:
        if one.name == NAME:
            reader = Reader(module.data, one.contents, one.end)
            reader.text()
            if reader.byte() != 1:
                raise Bad(f"a section {NAME} of another version")
            return pairs(reader)
    return None


def pairs(reader: Reader) -> Places:
    found: Places = []
    place = origin = 0
    for more, away in reader.many(lambda: (reader.number(), reader.signed())):
        place, origin = place + more, origin + away
        if origin < 0:
            raise Bad(f"a section {NAME} has a place that isn't there")
        found.append((place, origin))
    return found


class Origins:
    """Places of modules' code by the modules that they were split of."""

    def __init__(self) -> None:
        self.known: Dict[str, Optional[Tuple[List[int], List[int]]]] = {}

    def of(self, module: Module, place: int) -> int:
        """The place in the module that was split, or NOWHERE; of another module the place itself."""
        if module.path not in self.known:
            found = places_of(module)
            self.known[module.path] = (
                None if found is None else ([one for one, _ in found], [origin for _, origin in found])
            )
        table = self.known[module.path]
        if table is None:
            return place
        at = bisect.bisect_right(table[0], place) - 1
        return table[1][at] if at >= 0 else NOWHERE
