"""How modules of WebAssembly are spelled: numbers, vectors, names, sections. Licence: public domain (CC0)."""
from __future__ import annotations

from typing import Iterable, Sequence, Union

MAGIC = b"\0asm\1\0\0\0"
I32, I64 = 0x7F, 0x7E


def leb(number: int, longer: int = 0) -> bytes:
    """A number in unsigned LEB128: its shortest spelling, or one with so many bytes more."""
    count = max(1, -(-number.bit_length() // 7)) + longer
    return bytes((number >> 7 * at & 0x7F) | (0x80 if at + 1 < count else 0) for at in range(count))


def signed_leb(number: int) -> bytes:
    """A number in signed LEB128, in its shortest spelling."""
    low, rest = number & 0x7F, number >> 7
    if rest == (-1 if low & 0x40 else 0):
        return bytes([low])
    return bytes([low | 0x80]) + signed_leb(rest)


def vector(parts: Sequence[bytes]) -> bytes:
    """Parts behind their number."""
    return leb(len(parts)) + b"".join(parts)


def sized(contents: bytes) -> bytes:
    """Bytes behind their size."""
    return leb(len(contents)) + contents


def string(name: Union[str, bytes]) -> bytes:
    return sized(name if isinstance(name, bytes) else name.encode())


def section(number: int, contents: bytes) -> bytes:
    return bytes([number]) + sized(contents)


def custom(name: Union[str, bytes], contents: bytes) -> bytes:
    return section(0, string(name) + contents)


def func_type(params: Iterable[int], results: Iterable[int]) -> bytes:
    return b"\x60" + sized(bytes(params)) + sized(bytes(results))


def module(*sections: bytes) -> bytes:
    return MAGIC + b"".join(sections)


def of_functions(types: Sequence[bytes], functions: Sequence[int], bodies: Sequence[bytes], more: bytes = b"",
                 imports: Sequence[bytes] = ()) -> bytes:
    """A module of types, imports, functions by their types, and their bodies; more sections are in front of
    the code."""
    imported = section(2, vector(imports)) if imports else b""
    defined = section(3, vector([leb(one) for one in functions]))
    return module(section(1, vector(types)), imported, defined, more,
                  section(10, vector([sized(body) for body in bodies])))
