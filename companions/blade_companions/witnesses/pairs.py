"""Starts that agree in public: what may change in a start file, and ways to change it. Licence: public domain
(CC0)."""
from __future__ import annotations

import random
from bisect import bisect_right
from typing import Dict, Iterator, List, NamedTuple, Optional, Sequence, Tuple

from ..formats.image import Image
from ..formats.reading import Bad
from ..formats.running import PAGE, Start, fits, start_text

WIDE = 0x7E  # i64
MOST_BYTES, MOST_RANGES = 262_144, 4_096  # that change
Pair = Tuple[bytes, bytes]


class Range(NamedTuple):
    """Bytes of a memory; or, without one, those of the parameter that offset numbers."""

    memory: Optional[int]
    offset: int
    size: int


def is_wide(image: Image, function: int, index: int) -> bool:
    return image.functions[function].types[index] == WIDE


def ranges_of(words: Sequence[str]) -> List[Range]:
    """Those that words spell: M:OFFSET:SIZE."""
    found = []
    for word in words:
        parts = word.split(":")
        if len(parts) != 3 or not all(part.isdigit() for part in parts) or not int(parts[2]):
            raise Bad(f"{word}: M:OFFSET:SIZE is a memory and bytes of it")
        found.append(Range(*map(int, parts)))
    return found


def places_of(image: Image, ranges: Sequence[Range]) -> Dict[int, List[Range]]:
    """The bytes of each memory in some ranges, which have to be there at first."""
    places: Dict[int, List[Range]] = {}
    for one in ranges:
        if (one.memory >= len(image.memories)
            or one.offset + one.size > image.memories[one.memory].pages * PAGE):
            raise Bad(f"{one.memory}:{one.offset}:{one.size}: there are no such bytes at first")
        places.setdefault(one.memory, []).append(one)
    return {memory: joined(some) for memory, some in places.items()}


def joined(ranges: Sequence[Range]) -> List[Range]:
    """Ranges of one memory in their order, those that meet as one."""
    found: List[Range] = []
    for one in sorted(ranges):
        if found and one.offset <= found[-1].offset + found[-1].size:
            last = found.pop()
            end = max(last.offset + last.size, one.offset + one.size)
            one = Range(last.memory, last.offset, end - last.offset)
        found.append(one)
    return found


def without(ranges: Sequence[Range], kept: Sequence[Range]) -> Iterator[Range]:
    """What is in some joined ranges and not in others."""
    begins = [one.offset for one in kept]
    for one in ranges:
        begin, end = one.offset, one.offset + one.size
        number = max(0, bisect_right(begins, begin) - 1)
        while number < len(kept) and begins[number] < end:
            if begins[number] > begin:
                yield Range(one.memory, begin, begins[number] - begin)
            begin = max(begin, begins[number] + kept[number].size)
            number += 1
        if begin < end:
            yield Range(one.memory, begin, end - begin)


def what_changes(image: Image, function: int, start: Start, asked: Sequence[Range],
                 kept: Sequence[Range]) -> List[Range]:
    """Secret parameters, and of secret memories the bytes that are asked for, else those that the start file
    gives; but for what is kept."""
    fits(image, function, start)
    for one in asked:
        if one.memory < len(image.memories) and not image.memories[one.memory].is_secret:
            raise Bad(f"memory {one.memory} isn't declared secret: starts that differ there "
                      "don't agree in public")
    given = [Range(number, offset, len(data)) for number, offset,
             data in start.contents if image.memories[number].is_secret]
    staying = places_of(image, kept)
    found = [Range(None, index, 8 if is_wide(image, function, index) else 4) for index,
             secret in enumerate(image.functions[function].secret_params) if secret]
    for memory, places in sorted(places_of(image, asked or given).items()):
        found += without(places, staying.get(memory, []))
    return not_many(found)


def not_many(ranges: List[Range]) -> List[Range]:
    """Ranges of as many bytes as a search can change."""
    size, remedy = sum(one.size for one in ranges), "say which of them do by --secret M:OFFSET:SIZE"
    if size > MOST_BYTES:
        raise Bad(f"limit: {size:,} secret bytes would change, and at most {MOST_BYTES:,} can: {remedy}")
    if len(ranges) > MOST_RANGES:
        raise Bad(f"limit: {len(ranges):,} ranges of secret bytes would change, and at most {MOST_RANGES:,} "
                  f"can: {remedy}")
    return ranges


class Secret:
    """The bytes of starts that change, as one string of bytes; all else stays."""

    def __init__(self, image: Image, start: Start, ranges: Sequence[Range]) -> None:
        self.start, self.ranges = start, list(ranges)
        memories = {one.memory for one in ranges if one.memory is not None}
        spaces = {memory: contents(image, memory, start) for memory in memories}
        inside = sorted(one for one in ranges if one.memory is not None)
        self.kept = [(number, offset, data) for number, offset, data in start.contents
                     if not is_covered(inside, number, offset, len(data))]
        self.first = b"".join(
            start.arguments[one.offset].to_bytes(8, "little")[: one.size] if one.memory is None
            else bytes(spaces[one.memory][one.offset : one.offset + one.size]) for one in ranges)

    def pieces(self, secret: bytes) -> Iterator[Tuple[Range, int, bytes]]:
        """Each range with where it begins in the string, and its bytes."""
        at = 0
        for one in self.ranges:
            yield one, at, secret[at : at + one.size]
            at += one.size

    def text(self, secret: bytes, arguments: Optional[Sequence[int]] = None) -> str:
        """The start file with these bytes."""
        values, changed = list(arguments or self.start.arguments), []
        for one, _, data in self.pieces(secret):
            if one.memory is None:
                values[one.offset] = int.from_bytes(data, "little")
            else:
                changed.append((one.memory, one.offset, data))
        return start_text(values, self.kept + changed)

    def name(self, place: int) -> str:
        """What a byte of the string is."""
        one, at, _ = next(piece for piece in self.pieces(self.first) if place < piece[1] + piece[0].size)
        return (f"parameter {one.offset}" if one.memory is None
                else f"memory {one.memory}, byte {one.offset + place - at}")

    def pairs(self, chance: random.Random) -> Iterator[Pair]:
        """Pairs of secrets, without end: those with that of the start file first."""
        first, size = self.first, len(self.first)
        yield first, turned(first)
        yield first, drawn(chance, size)
        yield first, b"\xff" * size
        yield first, bytes(size)
        yield first, flipped(first, chance.randrange(8 * size))
        for _, at, data in self.pieces(first):
            yield first, first[:at] + drawn(chance, len(data)) + first[at + len(data) :]
        yield from self.alike(chance)
        while True:
            other = drawn(chance, size)
            yield other, drawn(chance, size)
            yield first, flipped(first, chance.randrange(8 * size))
            yield other, flipped(other, chance.randrange(8 * size))
            small = bytes(chance.choice((0, 0, 0, 1, 2, 0x7F, 0x80, 0xFF)) for _ in range(size))
            yield small, bytes(chance.choice((0, 1, 0xFE, 0xFF)) for _ in range(size))
            yield first, drawn(chance, size)

    def alike(self, chance: random.Random) -> Iterator[Pair]:
        """Pieces of one size made equal, and one byte of one of them changed: what compares them goes
        further."""
        pieces = list(self.pieces(self.first))
        for number, (_, _, data) in enumerate(pieces):
            for _, to, other in pieces[number + 1 :]:
                if len(other) == len(data):
                    made = self.first[:to] + data + self.first[to + len(data) :]
                    yield made, flipped(made, 8 * to + chance.randrange(8 * len(data)))


def is_covered(ranges: Sequence[Range], memory: int, offset: int, size: int) -> bool:
    """Whether one of the ranges, which rise and don't meet, has all these bytes."""
    number = bisect_right(ranges, Range(memory, offset, 1 << 64)) - 1
    return number >= 0 and ranges[number].memory == memory and (
        offset + size <= ranges[number].offset + ranges[number].size)


def contents(image: Image, memory: int, start: Start) -> bytearray:
    """The first contents of a memory, after the lines of a start file."""
    space = bytearray(image.memories[memory].pages * PAGE)
    for number, row in image.memories[memory].rows:
        space[number * 16 : number * 16 + 16] = row
    for number, offset, data in start.contents:
        if number == memory:
            space[offset : offset + len(data)] = data
    return space


def drawn(chance: random.Random, size: int) -> bytes:
    """Bytes by chance. (Random.randbytes, which gives the same, isn't in Python 3.8.)"""
    return chance.getrandbits(8 * size).to_bytes(size, "little") if size else b""


def turned(data: bytes) -> bytes:
    """With all bits changed."""
    return bytes(255 - byte for byte in data)


def flipped(data: bytes, bit: int) -> bytes:
    """With one bit changed."""
    changed = bytearray(data)
    changed[bit // 8] ^= 1 << bit % 8
    return bytes(changed)
