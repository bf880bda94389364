"""How many pages a module's memory has, and where in it C has its stack and data. Licence: public domain
(CC0)."""
from __future__ import annotations

import re
from typing import NamedTuple, Optional, Tuple

from .encoding import MAGIC, custom, leb, section
from .reading import Bad, Reader
from .module import GLOBAL, Module

MEMORIES, DATA = 5, 11  # the sections' numbers
PAGE = 65536
# A custom section that says where C's stack and data end, and the linker's symbol for that.
FREE, HEAP_BASE = "blade.free", "__heap_base"


class Layout(NamedTuple):
    """The bytes of a module's memory: those from free on are none of C's stack and data. It is known if the
    module says so, else guessed by its segments and its stack pointer."""

    free: int
    end: int
    is_known: bool


def with_free(data: bytes, linked: Module) -> bytes:
    """The bytes of a module, which says then what the linked one says of the first free address."""
    free = said_free(linked)
    return data if free is None else data + custom(FREE, f"{free}\n".encode())


def layout_of(module: Module) -> Layout:
    """Of a memory that the module defines."""
    end = pages_of(module)[0] * PAGE
    said = said_free(module)
    free = guessed_free(module) if said is None else said
    if free > end:
        raise Bad(f"{module.path}: its memory has {end} bytes, and its data ends at {free}")
    return Layout(free, end, said is not None)


def said_free(module: Module) -> Optional[int]:
    """What the module says: by its section, or by the linker's symbol."""
    for one in module.sections:
        if one.number == 0 and one.name == FREE:
            reader = Reader(module.data, one.contents, one.end)
            reader.text()
            found = re.fullmatch(rb"([0-9]{1,10})\n", module.data[reader.place : one.end])
            if not found:
                raise Bad(f"{module.path}: its section {FREE} can't be read")
            return int(found[1])
    index = module.exports.get((GLOBAL, HEAP_BASE))
    return module.globals[index] if index is not None and index < len(module.globals) else None


def guessed_free(module: Module) -> int:
    """Behind the segments and the stack. Variables that are 0 at first are in no segment."""
    ends = [value for value in module.globals[:1] if value is not None and value > 0]
    for one in module.sections:
        if one.number == DATA:
            reader = Reader(module.data, one.contents, one.end)
            ends += reader.many(lambda: segment_end(reader))
    return max(ends, default=0)


def segment_end(reader: Reader) -> int:
    """Where a data segment ends; 0 if only another module knows."""
    if reader.number():
        raise Bad("a data segment that isn't read here")
    code = reader.byte()
    offset = reader.number() if code == 0x23 else reader.signed()
    reader.byte()
    size = len(reader.block())
    return 0 if code == 0x23 else (offset & 0xFFFFFFFF) + size


def pages_of(module: Module) -> Tuple[int, Optional[int]]:
    """The first and the most pages of the memory that a module defines."""
    for one in module.sections:
        if one.number == MEMORIES:
            reader = Reader(module.data, one.contents, one.end)
            if reader.number():
                flag, least = reader.byte(), reader.number()
                return least, reader.number() if flag & 1 else None
    raise Bad(f"{module.path} has no memory of its own")


def with_pages(module: Module, pages: Tuple[int, Optional[int]]) -> bytes:
    """The module with so many pages in its one memory."""
    pages_of(module)
    least, most = pages
    contents = b"\1" + (b"\0" if most is None else b"\1") + leb(least) + (b"" if most is None else leb(most))
    made = section(MEMORIES, contents)
    return MAGIC + b"".join(made if one.number == MEMORIES else module.data[one.start : one.end]
                            for one in module.sections)
