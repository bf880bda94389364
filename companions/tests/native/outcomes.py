"""Runs an image natively as `blade run` does, and tells the outcome in the same words. Licence: public domain
(CC0)."""
from __future__ import annotations

import ctypes
import os
import subprocess
import sys
import threading
import unittest
from typing import Any, Callable, Dict, List, Optional, Sequence, Tuple

COMPANIONS = os.path.dirname(os.path.dirname(os.path.dirname(os.path.realpath(__file__))))
sys.path.insert(0, COMPANIONS)

from blade_companions.native.building import build  # noqa: E402
from blade_companions.native.header import Export  # noqa: E402
from blade_companions.native.names import export_names  # noqa: E402
from blade_companions.native.reading import I32, image_of  # noqa: E402
from blade_companions.native.translation import translate  # noqa: E402
from blade_companions.formats.image import Image  # noqa: E402
from blade_companions.formats.running import Start, read_start  # noqa: E402
from blade_companions.programs import TOP, ready_program  # noqa: E402

PAGE, ROW = 65536, 16
STACK, STACK_SIZE = threading.Lock(), 128 << 20
TYPES = {I32: ("i32", ctypes.c_uint32)}


def program() -> str:
    """The blade to compare with: that of BLADE, or the one of this clone."""
    found = os.environ.get("BLADE") or ready_program()
    if not found:
        raise unittest.SkipTest("there is no blade that is built: give one by BLADE")
    return found


def blade(*words: str, expected: Sequence[int] = (0,)) -> str:
    """The output of blade."""
    environment = {**os.environ, "ASAN_OPTIONS": "abort_on_error=1:allocator_may_return_null=1:symbolize=0"}
    done = subprocess.run([program(), *words], capture_output=True, text=True, check=False, env=environment)
    if done.returncode not in expected:
        raise AssertionError(
            f"blade {' '.join(words)}: status {done.returncode}: {done.stdout[-300:]}{done.stderr[-300:]}"
        )
    return done.stdout


def kind_of(code: int) -> Tuple[str, Any]:
    return TYPES.get(code, ("i64", ctypes.c_uint64))


def on_large_stack(work: Callable[[], int]) -> int:
    """What a call gives on a stack for 1,024 calls of any frame that is met here."""
    ends: List[int] = []
    with STACK:
        former = threading.stack_size(STACK_SIZE)
        thread = threading.Thread(target=lambda: ends.append(work()))
        thread.start()
        threading.stack_size(former)
    thread.join()
    return ends[0]


class Native:
    """An image as a shared library."""

    def __init__(
        self,
        data: bytes,
        folder: str,
        name: str = "tried",
        compiler: str = "clang",
        level: str = "-O2",
        more: Optional[List[str]] = None,
        image: Optional[Image] = None,
    ) -> None:
        self.image = image or image_of(data)
        self.name = name
        translation = translate(self.image, name)
        for ending, text in ((".c", translation.source), (".h", translation.header)):
            with open(f"{folder}/{name}{ending}", "w", encoding="ascii") as file:
                file.write(text)
        self.path = f"{folder}/{name}.so"
        build(compiler, f"{folder}/{name}.c", self.path, level, ["-shared", "-fPIC", *(more or [])])
        self.library = ctypes.CDLL(self.path)
        self.exports: Dict[bytes, Export] = {}
        for (origin, _), one in zip(self.image.names, export_names(self.image.names)):
            self.exports[origin] = Export(*one)
        self.function("new").restype = ctypes.c_void_p
        self.function("end_text").restype = ctypes.c_char_p

    def function(self, word: str) -> Any:
        return getattr(self.library, f"{self.name}_{word}")

    def memory(self, instance: int, number: int) -> bytes:
        pages = self.function("pages")(ctypes.c_void_p(instance), ctypes.c_uint32(number))
        space = ctypes.create_string_buffer(pages * PAGE or 1)
        assert self.function("read")(
            ctypes.c_void_p(instance),
            ctypes.c_uint32(number),
            ctypes.c_uint32(0),
            space,
            ctypes.c_uint32(pages * PAGE),
        ), "a memory can't be read"
        return space.raw[: pages * PAGE]

    def write(self, instance: int, number: int, offset: int, contents: bytes) -> int:
        return self.function("write")(
            ctypes.c_void_p(instance),
            ctypes.c_uint32(number),
            ctypes.c_uint32(offset),
            contents,
            ctypes.c_uint32(len(contents)),
        )

    def call(self, instance: int, export: bytes, arguments: List[int]) -> Tuple[int, List[str]]:
        """How a call ends, and its results."""
        one = self.exports[export]
        function = self.image.functions[one.number]
        results = [kind_of(code) for code in function.result_types]
        given = [kind_of(code)[1](value) for code, value in zip(function.types, arguments)]
        places = [holder(0) for _, holder in results]
        end = on_large_stack(
            lambda: self.function(one.word)(ctypes.c_void_p(instance), *given, *map(ctypes.byref, places))
        )
        return end, [f"{name} {place.value}" for (name, _), place in zip(results, places)]

    def outcome(self, export: bytes, start: Start) -> str:
        """What `blade run` prints of this run."""
        instance = self.function("new")()
        assert instance, "no instance"
        for number, offset, contents in start.contents:
            assert self.write(instance, number, offset, contents)
        memories = range(len(self.image.memories))
        before = [self.memory(instance, number) for number in memories]
        end, results = self.call(instance, export, start.arguments)
        text = "returned" if end == 0 else "trapped " + self.function("end_text")(end).decode()
        lines = [" ".join([text, *results]) if end == 0 else text]
        for number in memories:
            lines += changed(number, before[number], self.memory(instance, number))
        self.function("free")(ctypes.c_void_p(instance))
        return "\n".join(lines) + "\n"


def changed(number: int, before: bytes, after: bytes) -> List[str]:
    """A memory's pages and the rows that differ."""
    lines = [f"memory {number} pages {len(after) // PAGE}"]
    before = before.ljust(len(after), b"\0")
    for page in range(0, len(after), PAGE):
        if before[page : page + PAGE] != after[page : page + PAGE]:
            lines += [
                f"row {number} {at} {after[at:at + ROW].hex()}"
                for at in range(page, page + PAGE, ROW)
                if before[at : at + ROW] != after[at : at + ROW]
            ]
    return lines


__all__ = ["TOP", "Native", "Start", "blade", "program", "read_start"]
