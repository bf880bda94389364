"""Positions of an image as instructions, functions and lines of C. Licence: public domain (CC0)."""
from __future__ import annotations

import bisect
import re
from collections import defaultdict
from dataclasses import dataclass
from typing import Dict, Iterable, List, NamedTuple, Optional, Sequence, Tuple

from . import paths
from ..formats.lowering import LinkedFunction, Row
from .sources import Sources
from .symbolizer import Frame, frames_of, symbolizer
from ..formats.places import NOWHERE as NO_PLACE, Origins
from ..printing import printable

HEADERS = (".h", ".inc", ".hpp")
OF_RUST = re.compile(r"(?:.*/)?library/(?:alloc|core|std)/src/.*\.rs$")  # rustc's own library


class Line(NamedTuple):
    """A line of C: its file, its number (0 where it isn't known), the function it stands in, and the column
    (0 where it isn't known)."""

    path: str
    number: int
    function: str
    column: int = 0

    @property
    def place(self) -> str:
        return f"{printable(paths.shown(self.path))}:{self.number or '?'}"


NOWHERE = Line("", 0, "")


@dataclass
class Spot:
    """Where a position stands: its function and its instruction."""

    function: int
    linked: LinkedFunction
    row: Row

    @property
    def inside(self) -> int:
        """The place in the code section, by which debuggers count."""
        return self.row.place - self.linked.module.code


class Lines:
    """Tells positions by the modules that an image was made of; without modules nothing but numbers."""

    def __init__(self, functions: Sequence[LinkedFunction], sources: Optional[Sources] = None) -> None:
        self.functions = functions
        self.starts: List[int] = []
        self.rows: List[Tuple[int, Row]] = []
        for number, linked in enumerate(functions):
            for row in linked.rows:
                if row.kinds:
                    self.starts.append(row.position)
                    self.rows.append((number, row))
        self.tool = symbolizer()
        self.origins = Origins()  # of split modules
        self.known: Dict[Tuple[str, int], Line] = {}
        self.sources = sources or Sources()
        self.told: Dict[str, list] = {}  # what DWARF says of a module's functions, once it is asked
        self.has_lines = self.tool is not None and any(linked.module.has_lines for linked in functions)

    def spot(self, position: int) -> Optional[Spot]:
        at = bisect.bisect_right(self.starts, position) - 1
        if at < 0:
            return None
        number, row = self.rows[at]
        return Spot(number, self.functions[number], row) if position < row.position + len(row.kinds) else None

    def is_plain(self, position: int) -> bool:
        """Whether the position is in a module that has lines."""
        spot = self.spot(position)
        return spot is not None and spot.linked.module.has_lines

    def ask(self, positions: Iterable[int]) -> None:
        """Has the lines of positions looked up, all at once."""
        if self.tool is None:
            return
        wanted = defaultdict(set)
        for spot in map(self.spot, positions):
            if spot and spot.linked.module.has_lines and self.key(spot) not in self.known:
                wanted[spot.linked.module.path].add(self.key(spot)[1])
        for path, places in wanted.items():
            self.look_up(path, sorted(places - {NO_PLACE}))

    def key(self, spot: Spot) -> Tuple[str, int]:
        """The module, and the place in the code that its DWARF speaks of."""
        module = spot.linked.module
        return module.path, self.origins.of(module, spot.inside)

    def look_up(self, path: str, places: List[int]) -> None:
        for place, frames in frames_of(self.tool, path, places):
            self.known[path, place] = chosen(frames)

    def line(self, position: int) -> Line:
        spot = self.spot(position)
        return self.known.get(self.key(spot), NOWHERE) if spot else NOWHERE

    def source(self, line: Line) -> str:
        """The text of a line of C, where its file is there."""
        return self.source_as_is(line).strip()

    def source_as_is(self, line: Line) -> str:
        """The same with the blanks in front; a tab is one, so that columns hold."""
        if not line.number:
            return ""
        texts = self.sources.lines(line.path)
        return texts[line.number - 1].replace("\t", " ") if line.number <= len(texts) else ""

    def place(self, position: int) -> str:
        """The line and function of a position, as far as they are known."""
        line, spot = self.line(position), self.spot(position)
        if line is not NOWHERE:
            return f"{line.place} {line.function or spot.linked.name}"
        return spot.linked.name if spot else ""

    def instruction(self, position: int) -> str:
        spot = self.spot(position)
        return spot.row.text if spot else ""


def chosen(frames: Sequence[Frame]) -> Line:
    """The line of a place: of a helper that was inlined from a header, or from rustc's library, the line that
    uses it."""
    read = [Line(frame.path, frame.line, frame.function, frame.column) for frame in frames if frame.path]
    return next((line for line in read if not line.path.endswith(HEADERS) and not OF_RUST.match(line.path)),
                read[0] if read else NOWHERE)
