"""Small modules whose DWARF, or whose lines of blade.h, name much more than the file holds. Each takes memory
and time without end where a reader follows what is named each time. Licence: public domain (CC0)."""
from typing import Callable, Dict, List, Optional

import harness
from blade_companions.formats.encoding import I32, custom, func_type, leb, section, string, vector
from blade_companions.formats.encoding import of_functions

assert harness.COMPANIONS  # by which blade_companions is found
LOADING = b"\0\x20\0\x28\2\0\x0b"  # local.get 0, i32.load
UNIT_ROW = b"\1\x11\1\0\0"  # an abbreviation: a unit, with entries inside, no attributes
FORM_STRP, FORM_PRESENT, FORM_STRING, FORM_REF, FORM_ADDRESS = b"\x0e", b"\x19", b"\x08", b"\x13", b"\1"


def word(number: int) -> bytes:
    return number.to_bytes(4, "little")


def unit(body: bytes) -> bytes:
    """A unit of version 4, by the table at 0."""
    head = b"\4\0" + word(0) + b"\4"
    return word(len(head + body)) + head + body


def dwarf(info: bytes, table: bytes, strings: bytes = b"\0") -> bytes:
    return (custom(".debug_info", info) + custom(".debug_abbrev", table) + custom(".debug_str", strings)
            + custom(".debug_line", b""))


def made(tail: bytes, functions: int = 1, params: int = 1, names: Optional[List[bytes]] = None) -> bytes:
    """A module of functions that load from their first parameter, and more sections behind them."""
    called = names or [b"f%d" % at for at in range(functions)]
    exports = vector([string(name) + b"\0" + leb(at) for at, name in enumerate(called)])
    return of_functions([func_type([I32] * params, [I32])], [0] * len(called), [LOADING] * len(called),
                        section(5, b"\1\0\1") + section(7, exports)) + tail


def declared(names: int, params: int = 1) -> bytes:
    """Lines of blade.h."""
    lines = [b"secret-param\tf%d\t%d\ta.c:%d\ta.c\n" % (at, param, at)
             for param in range(params) for at in range(names)]
    return custom("blade.secrets", b"".join(lines))


def long_string_often() -> bytes:
    """Entries that each name one string of 2 MB."""
    row = b"\2\x34\0\x03" + FORM_STRP + b"\0\0\0"
    return made(dwarf(unit(b"\1" + (b"\2" + word(0)) * 200_000 + b"\0"), UNIT_ROW + row,
                      b"A" * 2_000_000 + b"\0"))


def many_attributes() -> bytes:
    """Attributes that take no bytes, 300,000 in each of a million entries of one byte."""
    row = b"\2\x34\0" + b"".join(leb(0x2000 + at) + FORM_PRESENT for at in range(300_000)) + b"\0\0\0"
    return made(dwarf(unit(b"\1" + b"\2" * 1_000_000 + b"\0"), UNIT_ROW + row))


def many_units_one_table() -> bytes:
    """Units of 12 bytes, each with a table of 2 MB."""
    table = UNIT_ROW + b"".join(leb(2 + at) + b"\x34\0\0\0" for at in range(300_000)) + b"\0"
    return made(dwarf(unit(b"\1\0") * 100_000, table))


def deep_nesting() -> bytes:
    return made(dwarf(unit(b"\1" * 2_000_000), UNIT_ROW + b"\0"))


def deep_subprograms() -> bytes:
    return made(dwarf(unit(b"\1" + b"\2" * 1_500_000), UNIT_ROW + b"\2\x1d\1\0\0\0"))


def cycle_of_origins() -> bytes:
    """Functions whose origin is the first one."""
    row = b"\2\x2e\1\x31" + FORM_REF + b"\0\0\0"
    return made(dwarf(unit(b"\1" + (b"\2" + word(12)) * 100_000 + b"\0"), UNIT_ROW + row))


def unit_of_4_gigabytes() -> bytes:
    return made(dwarf(b"\xf0\xff\xff\xff\4\0\0\0\0\0\4\1" + bytes(1000), UNIT_ROW + b"\0"))


def unknown_versions() -> bytes:
    return made(dwarf(b"\2\0\0\0\x09\0" * 600_000, UNIT_ROW + b"\0"))


def many_lines() -> bytes:
    """Lines of blade.h, many more than functions."""
    return made(declared(60_000), 10_000)


def many_lines_that_are_there() -> bytes:
    row = b"\2\x2e\0\x03" + FORM_STRING + b"\x11" + FORM_ADDRESS + b"\0\0\0"
    info = unit(b"\1a.c\0\2f0\0" + word(0) + b"\0")
    return made(declared(10_000, 9) + dwarf(info, b"\1\x11\1\x03" + FORM_STRING + b"\0\0" + row), 10_000, 9)


def long_names_near() -> bytes:
    """A line of a name that is long, and functions whose names nearly are that."""
    names = [b"ab" * 150_000 + b"%d" % at for at in range(10)]
    line = b"secret-param\t" + b"ab" * 150_000 + b"c\t0\ta.c:1\ta.c\n"
    return made(custom("blade.secrets", line), names=names)


def many_subprograms() -> bytes:
    """200,000 functions in DWARF, and 4,000 lines."""
    named = b"".join(b"\2%06d\0" % at for at in range(200_000))
    row = b"\2\x2e\0\x03" + FORM_STRING + b"\0\0\0"
    return made(dwarf(unit(b"\1" + named + b"\0"), UNIT_ROW + row) + declared(4_000))


BOMBS: Dict[str, Callable[[], bytes]] = {
    "one string of 2 MB, named 200,000 times": long_string_often,
    "300,000 attributes without bytes in 1,000,000 entries": many_attributes,
    "100,000 units over one table of 300,000 rows": many_units_one_table,
    "2,000,000 entries inside of each other": deep_nesting,
    "1,500,000 inlined functions inside of each other": deep_subprograms,
    "functions whose origins go round": cycle_of_origins,
    "a unit of 4 GB": unit_of_4_gigabytes,
    "600,000 units of another version": unknown_versions,
    "60,000 lines of blade.h": many_lines,
    "90,000 lines of blade.h for functions that are there": many_lines_that_are_there,
    "names of 300,000 letters": long_names_near,
    "200,000 functions in DWARF": many_subprograms,
}
