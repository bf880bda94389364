"""Whose code a line is in: the user's own, or a library's. Licence: public domain (CC0)."""
from __future__ import annotations

import os
import re
from typing import TYPE_CHECKING, Callable, Dict, List, NamedTuple, Sequence, Tuple

from ..c.lines import Line
from ..c.paths import shown
from ..c.sources import Sources, is_plain
from ..c.tools import INCLUDE
from ..nesting import shortened

if TYPE_CHECKING:
    from .diagnostics import Problem

OWN = ""
WASI, FREESTANDING, BUILTINS = "wasi-libc", "blade-cc's libc.c", "compiler-rt"
# The folders of wasi-libc's sources, and of those of the compiler's own functions.
WASI_FOLDER = re.compile(r"(?:.*/)?(?:dlmalloc/(?:src|include)|libc-(?:bottom|top)-half)/")
BUILTINS_FOLDER = re.compile(r".*/compiler-rt/lib/builtins/")
NAMED = 3  # so many functions of a library are named
KNOWN = (WASI, FREESTANDING, BUILTINS)
OF_RUST = "rustc's library"


class Library(NamedTuple):
    """The violations in a library's code."""

    name: str
    problems: List["Problem"]

    def text(self, called: Callable[[List[int]], str]) -> str:
        """They are counted at their places, as in the list of all; a few functions are named, with what is
        known of the lines that call them."""
        number = len(self.problems)
        places: Dict[str, List[int]] = {}
        for one in self.problems:
            places.setdefault(one.function, []).append(one.position)
        functions = sorted(places)
        names = (f": {'; '.join(shortened(name) + called(places[name]) for name in functions)}"
                 if len(functions) <= NAMED else "")
        told = (f"{self.name}: {number} violation{'s' * (number != 1)} in {len(functions)} "
                f"function{'s' * (len(functions) != 1)}{names} "
                f"(--all shows {'them' if number != 1 else 'it'})")
        if self.name == WASI and any("dlmalloc/" in one.line.path for one in self.problems):
            told += ("; malloc keeps its state in C's memory: --allocator of blade-cc links one for "
                     "verification, whose state is public")
        return told


class Owners:
    """Tells lines of the folders of the user's sources from those of libraries."""

    def __init__(self, sources: Sources) -> None:
        self.sources, self.roots = sources, [os.path.realpath(root) for root in sources.roots]
        self.known: Dict[str, str] = {}

    def owner(self, line: Line) -> str:
        """The library of a line; empty for the user's own, and for a place without a line."""
        if line.path not in self.known:
            self.known[line.path] = self.library(line.path) if line.number else OWN
        return self.known[line.path]

    def library(self, path: str) -> str:
        places = self.sources.places(path)
        if any(is_below(place, INCLUDE) for place in places):
            return FREESTANDING
        named = [name for folder, name in self.sources.libraries
                 if any(is_below(place, folder) for place in places)]
        if named or self.sources.library_of(path):
            return (named or [self.sources.library_of(path)])[0]
        below = [place for place in places if any(is_below(place, root) for root in self.roots)]
        if any(map(is_plain, below)):
            return OWN
        if WASI_FOLDER.match(os.path.normpath(path)):
            return WASI
        if BUILTINS_FOLDER.match(path):
            return BUILTINS
        return OWN if below or not places else shown(os.path.dirname(path))

    def parted(self, problems: Sequence["Problem"]) -> Tuple[List["Problem"], List[Library]]:
        """The violations of the user's own sources, and those of libraries. If there are none of the first
        kind, a folder that isn't of a known library counts as the user's: make compiles in another one."""
        by_owner: Dict[str, List["Problem"]] = {}
        for one in problems:
            by_owner.setdefault(self.owner(one.line), []).append(one)
        own = by_owner.pop(OWN, [])
        if not own:
            named = {*KNOWN, *(name for _, name in self.sources.libraries)}
            others = [name for name in by_owner if name not in named and not name.startswith(OF_RUST)]
            own = [one for name in others for one in by_owner.pop(name)]
        return own, [Library(name, some) for name, some in
                     sorted(by_owner.items(), key=lambda it: (-len(it[1]), it[0]))]


def is_below(path: str, folder: str) -> bool:
    return path.startswith(folder.rstrip("/") + "/")
