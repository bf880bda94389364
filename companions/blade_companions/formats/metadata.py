"""Where the protects of an image stand in the binaries of its modules: for runtimes, whose compilers put
their fences there. A custom section metadata.code.blade.protect by the code metadata of WebAssembly's tool
conventions. Licence: public domain (CC0).

Of each function with protects, its index and its annotations, rising by offset: the offset of an instruction
from the start of the function's body (where its locals are declared), the size of the data, and the data. The
data here is one entry behind the other, each two or more bytes:

    00        the instruction's result: what it leaves on the stack (or, of local.set, local.tee and
    global.set, what it writes) 01 N      its operand N, counted from 0, the deepest one first: an argument of
    a call, a value that a branch or an end hands on 02 N      its result N, of a call with several 03 K
    a value that it makes inside: K is 0 that an access is in bounds, 1 that a divisor is zero, 2 that a
    division overflows, 3 that an index of
              a table (br_table, call_indirect) is that of an arm, 4 that a memory has room to grow, 5 the
              size that it has from then on
An entry says that the value may not be used while an older branch or bounds test is unresolved."""
from __future__ import annotations

from collections import Counter, defaultdict
from typing import Dict, List, NamedTuple, Optional, Sequence, Tuple

from .image import Image
from .encoding import custom, leb, sized, vector
from ..c.lines import Lines, Spot
from .reading import Bad, Reader
from .module import FUNCTION, Module

NAME = "metadata.code.blade.protect"
RESULT, OPERAND, MANY, INSIDE = range(4)
WHAT = ("its result", "its operand", "its result")
VALUES = ("in bounds", "divisor is zero", "overflow", "index of an arm", "room to grow", "new size")
BOUNDS, ZERO, OVERFLOW, ARM, ROOM, SIZE = range(6)


class Held(NamedTuple):
    """What of an instruction is held back: one of the four kinds, and a number."""

    what: int
    number: int

    @property
    def text(self) -> str:
        if self.what == INSIDE:
            return f"inside it: {VALUES[self.number]}"
        return WHAT[self.what] + (f" {self.number}" if self.what in (OPERAND, MANY) else "")


# Of memory.grow: what room there is, that it is too little, the old size, the new one, and -1 in place of the
# old one.
GROWTH = {0: Held(INSIDE, ROOM), 1: Held(INSIDE, ROOM), 3: Held(RESULT, 0), 4: Held(INSIDE, SIZE),
          6: Held(RESULT, 0)}


def held_at(spot: Spot, position: int) -> Optional[Held]:
    """What of its instruction a protect at a position holds back; None where no value of the module is it."""
    at, row = position - spot.row.position, spot.row
    kinds, word = row.kinds, row.text.split(" ")[0]
    if "." in word and (".load" in word or ".store" in word):
        return Held(INSIDE, BOUNDS) if at == 0 else Held(RESULT, 0) if kinds[at] == "Load" else None
    if word[4:7] in ("div", "rem") and "." in word:
        if at == len(kinds) - 1:
            return Held(RESULT, 0)
        return Held(INSIDE, ZERO if at == 0 else OVERFLOW)
    if word == "memory.grow":
        return GROWTH.get(at)
    if word == "call":
        if kinds[at] == "Arg":
            return Held(OPERAND, at)
        return result(kinds, at, kinds.index("Call")) if kinds[at] == "Set" else None
    if word == "call_indirect":
        return indirect(kinds, at)
    if word == "br_table":
        # First a test for each arm, then the values for each way.
        arms = next((place for place in range(0, len(kinds), 2)
                     if kinds[place : place + 2] != ("Set", "Test")), len(kinds))
        return (Held(INSIDE, ARM) if at < arms else Held(OPERAND, moved(kinds, at))
                if kinds[at] in ("Set", "Out") else None)
    if word in ("br", "br_if", "return", "end", "else", "loop", "if"):
        return Held(OPERAND, moved(kinds, at)) if kinds[at] in ("Set", "Out") else None
    if kinds == ("Set",):
        return Held(RESULT, 0)
    return None


def moved(kinds: Sequence[str], at: int) -> int:
    """Which of the values that a way hands on is written at a place: it counts from the first of its run."""
    first = at
    while first and kinds[first - 1] == kinds[at]:
        first -= 1
    return at - first


def indirect(kinds: Sequence[str], at: int) -> Optional[Held]:
    """Tests for the slots of the table, then arms of arguments, a call and results."""
    slots = 0
    while slots + 1 < len(kinds) and kinds[slots : slots + 2] == ("Set", "Test"):
        slots += 2
    if at < slots:
        return Held(INSIDE, ARM)
    start = at
    while start > slots and kinds[start - 1] != "Jump":
        start -= 1
    place = at - start
    if kinds[at] == "Arg":
        return Held(OPERAND, place)
    call = kinds.index("Call", start)
    return result(kinds, at, call) if kinds[at] == "Set" and at > call else None


def result(kinds: Sequence[str], at: int, call: int) -> Held:
    """What a call leaves."""
    return Held(MANY, at - call - 1) if kinds[call + 2 : call + 3] == ("Set",) else Held(RESULT, 0)


class Annotated(NamedTuple):
    """Annotations of a module by function and offset; and the positions that have none, with their
    instructions."""

    places: Dict[int, Dict[int, List[Held]]]
    lost: List[Tuple[int, str]]


def annotations(image: Image, lines: Lines) -> Dict[str, Annotated]:
    """Of each module, by its path."""
    found: Dict[str, Annotated] = {linked.module.path: Annotated(defaultdict(lambda: defaultdict(list)), [])
                                   for linked in lines.functions}
    for position in image.protects():
        spot = lines.spot(position)
        if spot is None:
            raise Bad(f"position {position} isn't in the modules")
        module = spot.linked.module
        one, held = found[module.path], held_at(spot, position)
        if held is None:
            one.lost.append((position, spot.row.text))
            continue
        start = module.bodies[spot.linked.index - len(module.imported(FUNCTION))][0]
        listed = one.places[spot.linked.index][spot.row.place - start]
        if held not in listed:
            listed.append(held)
    return found


def section_of(one: Annotated) -> bytes:
    functions = []
    for function, places in sorted(one.places.items()):
        listed = [leb(offset) + sized(b"".join(map(entry_of, sorted(held)))) for offset,
                  held in sorted(places.items())]
        functions.append(leb(function) + vector(listed))
    return custom(NAME, vector(functions))


def entry_of(held: Held) -> bytes:
    return bytes([held.what]) + (leb(held.number) if held.what else b"")


def annotated(module: Module, one: Annotated) -> bytes:
    """The module with the section in front of its code, as the conventions ask; its code stays as it is, byte
    for byte."""
    parts = []
    for section in module.sections:
        if section.name == NAME:
            continue
        if section.number == 10:
            parts.append(section_of(one))
        parts.append(module.data[section.start : section.end])
    return module.data[:8] + b"".join(parts)


def read_back(module: Module) -> Dict[int, Dict[int, List[Held]]]:
    """The annotations that stand in a module."""
    found: Dict[int, Dict[int, List[Held]]] = {}
    for section in module.sections:
        if section.name == NAME:
            reader = Reader(module.data, section.contents, section.end)
            reader.text()
            for _ in range(reader.number()):
                function = reader.number()
                found[function] = {}
                for _ in range(reader.number()):
                    offset = reader.number()
                    data, listed = Reader(reader.block()), []
                    while data.place < data.end:
                        what = data.byte()
                        listed.append(Held(what, data.number() if what else 0))
                    found[function][offset] = listed
    return found


def tally(image: Image, lines: Lines) -> Counter:
    """How many protects are of which kind, for a word on it."""
    counts: Counter = Counter()
    for position in image.protects():
        spot = lines.spot(position)
        held = held_at(spot, position) if spot else None
        word = spot.row.text.split(" ")[0] if spot else "?"
        counts[f"{word}: {held.text if held else 'none'}"] += 1
    return counts
