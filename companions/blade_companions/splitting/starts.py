"""Start files of a module, and of what it is split into: there memory 0 is the shadow, and memory 1 is C's.
Licence: public domain (CC0)."""
from __future__ import annotations

from typing import List, Tuple

from .profile import Call
from .terms import ranges


def split_start(call: Call, base: int) -> str:
    """The start file of the split modules. The bytes go to C's memory; the shadow gets the public ones, too,
    and forgets what it knew of the others."""
    lines = [f"arg {value}" for value in call.arguments]
    for at, data in call.contents:
        lines += [f"memory 1 {at} {data.hex()}"] * bool(data)
        for is_public, first, end in parts_of(call, at, at + len(data)):
            if is_public:
                lines.append(f"memory 0 {first} {data[first - at : end - at].hex()}")
            lines.append(f"memory 0 {base + first} {('ff' if is_public else '00') * (end - first)}")
    return "\n".join(lines) + "\n"


def parts_of(call: Call, first: int, end: int) -> List[Tuple[bool, int, int]]:
    """Which bytes are public, and which are not, in rows."""
    public = {byte for byte in range(first, end) if call.is_public(byte)}
    rest = set(range(first, end)) - public
    return [
        (is_public, *one) for is_public, places in ((True, public), (False, rest)) for one in ranges(places)
    ]
