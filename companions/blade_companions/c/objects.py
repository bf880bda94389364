"""Objects of WebAssembly, before they are linked: the functions that they give to others.
Licence: public domain (CC0)."""
from __future__ import annotations

import re
from typing import Iterable, List, NamedTuple, Optional

from ..formats.reading import Reader
from ..formats.module import FUNCTION, sections_of
from .inputs import Input

SYMBOLS = 8  # the part of the section `linking` that lists symbols
DATA, SECTIONS = 1, 3  # kinds of symbols beside those of modules
LOCAL, HIDDEN, UNDEFINED, NAMED = 2, 4, 0x10, 0x40  # their flags
# Functions that LLVM itself makes of others.
MADE = re.compile(r"__original_main|__main_void|__main_argc_argv|(register_)?call_dtors.*|\..*_bitcast.*")


def given_by(path: str) -> Optional[List[str]]:
    """The functions that an object defines for others, by name; None where it is no object of WebAssembly,
    such as LLVM's bitcode or an archive."""
    with open(path, "rb") as file:
        data = file.read()
    return given_in(data, path) if data.startswith(b"\0asm") else None


class Symbol(NamedTuple):
    """A function of an object's list of symbols."""

    name: str
    flags: int

    @property
    def is_defined(self) -> bool:
        return not self.flags & UNDEFINED


def given_in(data: bytes, path: str) -> List[str]:
    return [one.name for one in functions_in(data) if not one.flags & (LOCAL | HIDDEN | UNDEFINED)]


def functions_in(data: bytes) -> List[Symbol]:
    """All functions of an object, those of others that it calls included."""
    for section in sections_of(data):
        if section.name == "linking":
            reader = Reader(data, section.contents, section.end)
            reader.text(), reader.number()
            return parts(reader)
    return []


def plain_functions(one: Input, recorded: Iterable[str]) -> List[str]:
    """The functions of an object that blade-cc didn't compile, given those that its record has."""
    known = set(recorded)
    return [told.name for told in functions_in(one.data) if told.is_defined and told.name not in known
            and not MADE.fullmatch(told.name) and told.name.partition(".")[0] not in known]


def parts(reader: Reader) -> List[Symbol]:
    while reader.place < reader.end:
        kind, size = reader.byte(), reader.number()
        part = Reader(reader.data, reader.place, reader.place + size)
        reader.take(size)
        if kind == SYMBOLS:
            return [one for _ in range(part.number()) for one in symbol(part)]
    return []


def symbol(reader: Reader) -> List[Symbol]:
    """A symbol that is a function, else none."""
    kind, flags = reader.byte(), reader.number()
    if kind == DATA:
        reader.text()
        if not flags & UNDEFINED:
            reader.number(), reader.number(), reader.number()
        return []
    reader.number()
    if kind == SECTIONS or flags & UNDEFINED and not flags & NAMED:
        return []
    name = reader.text()
    return [Symbol(name, flags)] if kind == FUNCTION else []
