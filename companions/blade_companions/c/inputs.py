"""Every file that the linker opened, members of archives included whether they are linked or not, by its own
copy of what it was given. Licence: public domain (CC0)."""
from __future__ import annotations

import os
import tarfile
from typing import Dict, Iterator, List, NamedTuple, Tuple

from ..formats.reading import LIMITS, Bad
from ..writing import write_file as written_to
from .arguments import LABELS, Stop
from .ir import secrets_in
from .tools import Runner, found

PLAIN, THIN = b"!<arch>\n", b"!<thin>\n"
BITCODE = (b"BC\xc0\xde", b"\xde\xc0\x17\x0b")
HEAD = 60  # bytes in front of a member
MOST = 64 * LIMITS["module"]  # bytes of all that is linked


class Input(NamedTuple):
    """A file or a member of an archive: its path, and what stands in it."""

    path: str
    data: bytes

    @property
    def is_object(self) -> bool:
        return self.data.startswith(b"\0asm")

    @property
    def is_bitcode(self) -> bool:
        return self.data.startswith(BITCODE)


def copied(tar: str) -> Iterator[Input]:
    """The files of the linker's copy, by the paths that they had."""
    rest = MOST
    with tarfile.open(tar) as packed:
        for member in packed:
            parts = member.name.split("/", 1)
            if member.isfile() and len(parts) == 2 and parts[1] not in ("response.txt", "version.txt"):
                rest -= member.size
                if rest < 0:
                    raise Bad(f"all that is linked has more than {MOST} bytes")
                yield Input(f"/{parts[1]}", packed.extractfile(member).read())


def inputs_in(tar: str) -> List[Input]:
    """All objects: files, and members of archives."""
    found_all: Dict[Tuple[str, int], Input] = {}
    for one in copied(tar):
        # Two members of an archive may have one name.
        for number, other in enumerate(members(one) if one.data.startswith((PLAIN, THIN)) else [one]):
            found_all.setdefault((one.path, number), other)
    return list(found_all.values())


def members(archive: Input) -> Iterator[Input]:
    is_thin, data, place, names = archive.data.startswith(THIN), archive.data, len(PLAIN), b""
    while place + HEAD <= len(data):
        name, size = data[place : place + 16].rstrip(b" "), number(archive, data[place + 48 : place + 58])
        place += HEAD
        is_inside = not is_thin or name in (b"/", b"//", b"/SYM64/")
        body = data[place : place + size] if is_inside else b""
        place += size + size % 2 if is_inside else 0
        if name == b"//":
            names = body
        elif name not in (b"/", b"/SYM64/"):
            told, body = called(archive, name, names, body)
            yield Input(f"{archive.path}({told})", beside(archive, told) if is_thin else body)


def number(archive: Input, text: bytes) -> int:
    if not text.strip().isdigit():
        raise Bad(f"{archive.path}: this archive can't be read")
    return int(text)


def called(archive: Input, name: bytes, names: bytes, body: bytes) -> Tuple[str, bytes]:
    """A member's name, and what stands behind it."""
    if name.startswith(b"#1/"):
        size = number(archive, name[3:])
        name, body = body[:size].rstrip(b"\0"), body[size:]
    elif name.startswith(b"/") and name[1:].isdigit():
        start = int(name[1:])
        end = min(at for at in (names.find(b"/\n", start), names.find(b"\n", start), len(names)) if at >= 0)
        name = names[start:end]
    return os.fsdecode(name.rstrip(b"/")), body


def beside(archive: Input, name: str) -> bytes:
    """What stands in a member of a thin archive, which is a file beside it."""
    path = os.path.join(os.path.dirname(archive.path), name)
    try:
        with open(path, "rb") as file:
            return file.read(MOST)
    except OSError as fault:
        raise Bad(f"{archive.path}({name}): {fault.strerror}, "
                  "so nobody can tell whether it has labels") from None


def lines_of(one: Input, runner: Runner, folder: str) -> List[str]:
    """The lines of blade.h in LLVM's bitcode."""
    return secrets_in(text_of(one, runner, folder).split("\n"))


def text_of(one: Input, runner: Runner, folder: str) -> str:
    """LLVM's bitcode as text, which clang has to spell."""
    path = f"{folder}/bitcode.bc"
    written_to(path, one.data)
    done = runner.run([found("clang"), "-x", "ir", "-S", "-emit-llvm", "-o", "-", path], given="")
    if done.status:
        raise Stop(LABELS, f"blade-cc: error: {one.path}: LLVM's bitcode that clang can't read, "
                   "so nobody can tell whether it has labels [blade-label]")
    return done.out
