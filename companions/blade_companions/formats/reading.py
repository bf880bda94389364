"""Bytes and a place in them, and the program's limits. Licence: public domain (CC0)."""
from __future__ import annotations

import sys
from typing import BinaryIO, Callable, List, TypeVar

from ..statuses import GAVE_UP, INPUT, LOST

Item = TypeVar("Item")
# The limits of docs/CLI.md: bytes of files, then numbers.
LIMITS = {
    "module": 4_194_304, "image": 134_217_728, "certificate": 268_435_456, "start": 16_777_216,
    "report": 268_435_456, "interface": 1_048_576, "modules": 8, "functions": 10_000, "results": 1_024,
    "table": 1_024, "memory": 256, "reserve": 1_024, "locals": 4_096, "nesting": 256, "targets": 1_024,
    "commands": 1_048_576, "variables": 2_147_483_647}
MOST_CALLS = 1_024


class Bad(Exception):
    """A file, or a word, that isn't as it should be. A tool that can't go on ends with its status."""

    status = INPUT


class GaveUp(Bad):
    """There is no answer, and the files aren't the reason."""

    status = GAVE_UP


class LostLabel(Bad):
    """A label doesn't speak of the code any more."""

    status = LOST


def limited(what: str, number: int) -> int:
    """The number, where it is within its limit."""
    if number > LIMITS[what]:
        raise Bad(f"limit: {what} {number}")
    return number


class Reader:
    """Reads bytes from a place on."""

    __slots__ = ("data", "place", "end")

    def __init__(self, data: bytes, place: int = 0, end: int = -1) -> None:
        self.data, self.place = data, place
        self.end = len(data) if end < 0 else min(end, len(data))

    def byte(self) -> int:
        if self.place >= self.end:
            raise Bad("it is cut off")
        self.place += 1
        return self.data[self.place - 1]

    def bit(self) -> bool:
        """A byte that is 0 or 1."""
        value = self.byte()
        if value > 1:
            raise Bad(f"a byte that is 0 or 1 is {value}")
        return bool(value)

    def number(self) -> int:
        """A number in unsigned LEB128."""
        value = shift = 0
        while True:
            byte = self.byte()
            value |= (byte & 0x7F) << shift
            if byte < 0x80:
                return value
            shift += 7
            if shift > 63:
                raise Bad("a number is too long")

    def signed(self) -> int:
        """A number in signed LEB128."""
        value = shift = 0
        while True:
            byte = self.byte()
            value, shift = value | (byte & 0x7F) << shift, shift + 7
            if byte < 0x80:
                return value - (1 << shift) if byte & 0x40 else value
            if shift > 63:
                raise Bad("a number is too long")

    def take(self, size: int) -> bytes:
        if self.place + size > self.end:
            raise Bad("it is cut off")
        self.place += size
        return self.data[self.place - size : self.place]

    def block(self) -> bytes:
        """As many bytes as a number in front of them says."""
        return self.take(self.number())

    def text(self) -> str:
        return self.block().decode("utf-8", "replace")

    def many(self, one: Callable[[], Item]) -> List[Item]:
        """As many things as a number in front of them says, each of a byte or more."""
        count = self.number()
        if count > self.end - self.place:
            raise Bad("it is cut off")
        return [one() for _ in range(count)]


def read_file(path: str, what: str = "certificate") -> bytes:
    """The bytes of a file, within the limit of what it is."""
    with open(path, "rb") as file:
        return whole(file, what)


def whole(file: BinaryIO, what: str) -> bytes:
    data = file.read(LIMITS[what] + 1)
    limited(what, len(data))
    return data


def read_text(path: str, what: str) -> str:
    """A text in a file, or in the standard input (-)."""
    return (whole(sys.stdin.buffer, what) if path == "-"
            else read_file(path, what)).decode("utf-8", "replace")
