"""How much of C's stack a call may take, by what the compiler says of each frame. Licence: public domain
(CC0)."""
from __future__ import annotations

from typing import Dict, List, NamedTuple, Set

from ..formats.reading import Bad
from .checking import FUNCTION
from .emission import MOST_CALLS, counts_depth

RETURN = 8  # bytes of a return address
SYSTEM = 16384  # for the C library, and for the loader, which looks longjmp up when it is first called


class Frames(NamedTuple):
    """The bytes of each function's frames, and of the largest other one."""

    functions: Dict[int, int]
    other: int


def frames_in(path: str) -> Frames:
    """What -fstack-usage writes into a file. The copies and the parts of a function may be open at once, so
    their frames are added."""
    functions: Dict[int, int] = {}
    other = 0
    with open(path, encoding="utf-8", errors="replace") as file:
        for line in file:
            place, size, kind = line.rstrip("\n").rsplit("\t", 2)
            if kind != "static":
                raise Bad(f"{place}: a frame whose size isn't known")
            name, bytes_ = FUNCTION.match(place.rpartition(":")[2]), int(size) + RETURN
            if name:
                functions[int(name[1])] = functions.get(int(name[1]), 0) + bytes_
            else:
                other = max(other, bytes_)
    return Frames(functions, other)


def most_of_functions(calls: List[Set[int]], frames: Dict[int, int]) -> int:
    """The most bytes of the functions' frames that are open at once; a function without a frame was inlined
    or left out."""
    if counts_depth(calls):
        return MOST_CALLS * max(frames.values(), default=0)
    most: Dict[int, int] = {}
    for function in range(len(calls)):
        waiting = [function]
        while waiting:  # callees first, without calls of Python, which may go less deep
            unknown = next((callee for callee in calls[waiting[-1]] if callee not in most), None)
            if unknown is not None:
                waiting.append(unknown)
                continue
            done = waiting.pop()
            most[done] = frames.get(done, 0) + max((most[callee] for callee in calls[done]), default=0)
    return max(most.values(), default=0)


def most_bytes(calls: List[Set[int]], frames: Frames) -> int:
    """The most bytes that a call of an export takes: its frames, those of the export and of a trap, and room
    for the system."""
    return most_of_functions(calls, frames.functions) + 2 * frames.other + SYSTEM
