"""Which command each directive of a trace is about, by what the program says was observed. Licence: public
domain (CC0)."""
from __future__ import annotations

from typing import List, NamedTuple, Optional, Sequence, Tuple

from ..formats.image import Image


class Entry(NamedTuple):
    """An entry of the buffer: its position, what is guessed of a test that isn't executed yet, and where a
    wrong guess leads back to."""

    position: int
    guess: Optional[bool]
    other: int
    chain: tuple


class Buffer:
    """The entries of the buffer along a trace, and where the next command is fetched."""

    def __init__(self, image: Image, function: int) -> None:
        self.image = image
        self.entries: List[Entry] = []
        self.front, self.chain = image.functions[function].entry, ()

    def take(self, directive: str, observed: str) -> None:
        """One directive."""
        word, _, rest = directive.partition(" ")
        if word == "fetch":
            self.fetch(rest)
        elif word == "retire":
            self.entries.pop(0)
        else:
            entry = self.entries[int(rest)]
            self.entries[int(rest)] = entry._replace(guess=None)
            if observed.startswith("rollback"):
                del self.entries[int(rest) + 1 :]
                self.front, self.chain = entry.other, entry.chain

    def fetch(self, guess: str) -> None:
        """The next command becomes an entry."""
        position, command, chain, other = self.front, self.image.commands[self.front], self.chain, 0
        if command.kind == "Test":
            self.front, other = command.targets if guess == "1" else command.targets[::-1]
        elif command.kind == "Jump":
            self.front = command.targets[0]
        elif command.kind == "Call":
            self.front, self.chain = command.targets[0], (position + 1, chain)
        elif command.kind == "Ret" and chain:
            self.front, self.chain = chain
        else:
            self.front += 1
        self.entries.append(Entry(position, guess == "1" if guess else None, other, chain))


def last_of(image: Image, function: int, trace: Sequence[str],
            observed: Sequence[str]) -> Tuple[int, List[Entry]]:
    """The position that the last directive of a trace is about, and the buffer before it."""
    buffer = Buffer(image, function)
    for directive, seen in zip(trace[:-1], observed):
        buffer.take(directive, seen)
    word, _, rest = trace[-1].partition(" ")
    if word == "fetch":
        return buffer.front, buffer.entries
    number = int(rest) if word == "exec" else 0
    return (buffer.entries[number].position if number < len(buffer.entries) else buffer.front), buffer.entries
