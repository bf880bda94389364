"""The worked routines of examples/routines, built once by blade-cc. Licence: public domain (CC0)."""
from __future__ import annotations

import functools
import os
import sys
import tempfile
from typing import NamedTuple

from outcomes import TOP, Start, program, read_start


sys.path.append(f"{TOP}/bench")
import routines as measure  # noqa: E402

CASES, WAYS = measure.CASES, tuple(measure.WAYS)
KEPT = os.environ.get("BUILT") or tempfile.mkdtemp(prefix="blade-native-")


class Routine(NamedTuple):
    """A routine as it was built in one way: its image, its modules, the function and the start of its
    published vector."""

    name: str
    way: str
    image: str
    modules: list
    export: str
    start: str

    @property
    def data(self) -> bytes:
        with open(self.image, "rb") as file:
            return file.read()

    @property
    def begin(self) -> Start:
        return read_start(self.start)

    def result(self, outcome: str) -> bytes:
        """What stands where the published result is expected."""
        return measure.bytes_of(CASES[self.name], memory_of(self.way), outcome)

    @property
    def expected(self) -> bytes:
        return CASES[self.name].result


def memory_of(way: str) -> int:
    """The memory in which a routine's buffers are."""
    return 1 if way == "ledger" else 0


@functools.lru_cache(None)
def modules_of(source: str, way: str) -> tuple:
    folder = f"{KEPT}/{way}/{source}"
    kept = [f"{folder}/{way}.wasm"] * (way != "one") + [f"{folder}/{source}.wasm"]
    if os.path.exists(f"{folder}/{source}.img") and all(map(os.path.exists, kept)):
        return tuple(kept)
    os.makedirs(folder, exist_ok=True)
    os.environ.setdefault("ASAN_OPTIONS", "abort_on_error=1:allocator_may_return_null=1:symbolize=0")
    return tuple(measure.built(program(), source, way, folder))


def routine(name: str, way: str) -> Routine:
    """A routine, which is built the first time; BUILT names a folder that keeps it."""
    case = CASES[name]
    modules = modules_of(case.source, way)
    return Routine(
        name,
        way,
        f"{KEPT}/{way}/{case.source}/{case.source}.img",
        list(modules),
        f"{case.source}/{case.export}",
        measure.start_of(case, memory_of(way), False),
    )
