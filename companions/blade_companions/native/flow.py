"""The control flow of one function of an image. Licence: public domain (CC0)."""
from __future__ import annotations

from typing import Dict, List, Set

from ..formats.image import LEAVING, TRAPS, Image


def next_positions(image: Image, position: int) -> List[int]:
    """Where a run may go on in the same function."""
    command = image.commands[position]
    following = command.targets if command.kind in LEAVING else [position + 1]
    return [target for target in following if target >= TRAPS]


def reachable(image: Image, entry: int) -> Set[int]:
    """The positions that some way from the entry leads to."""
    found, waiting = {entry}, [entry]
    while waiting:
        for target in next_positions(image, waiting.pop()):
            if target not in found:
                found.add(target)
                waiting.append(target)
    return found


class Blocks:
    """A function's reachable commands in blocks, each entered at its first command alone."""

    def __init__(self, image: Image, entry: int) -> None:
        self.image, self.entry, self.reached = image, entry, reachable(image, entry)
        self.labels = {  # the positions that a Test or a Jump names
            target
            for position in self.reached
            if image.commands[position].kind in LEAVING
            for target in next_positions(image, position)
        }
        firsts = sorted({entry} | self.labels)
        self.members: Dict[int, List[int]] = {first: self.block(first) for first in firsts}

    def block(self, first: int) -> List[int]:
        """The commands of a block that begins there."""
        found = [first]
        while self.image.commands[found[-1]].kind not in LEAVING and found[-1] + 1 not in self.labels:
            found.append(found[-1] + 1)
        return found

    def following(self, first: int) -> List[int]:
        """The blocks that a block leads to."""
        return next_positions(self.image, self.members[first][-1])
