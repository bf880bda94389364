"""Stubs, over which the users of a library are hardened apart: made of the library and its interface, and
checked with the users. Licence: public domain (CC0)."""
from __future__ import annotations

import re
from typing import Dict, List, NamedTuple, Optional, Sequence, Set, Tuple

from .encoding import func_type, leb, of_functions, section, signed_leb, string, vector
from .reading import LIMITS, Bad, read_file
from .module import FUNCTION, FuncType, Import, Module

LINE = re.compile("function (-|[st]+) (-|[st]+) (.*)", re.S)
SORTS = ("function", "table", "memory", "global")
UNREACHABLE, END = b"\x00", b"\x0b"


class Line(NamedTuple):
    """A function of an interface: how many parameters and results it has, and its name, as lib/f."""

    params: int
    results: int
    name: str

    @property
    def parts(self) -> Tuple[str, Optional[str]]:
        """The module's name, and that of the export; None where the name has no solidus, and so names
        nothing."""
        module, solidus, export = self.name.partition("/")
        return module, export if solidus else None


class Defined(NamedTuple):
    """A function: the module that defines it, and its number there."""

    module: Module
    index: int

    @property
    def key(self) -> Tuple[str, int]:
        return self.module.name, self.index


def interface_in(text: str) -> List[Line]:
    lines, found = text.split("\n"), []
    for number, line in enumerate(lines[:-1] if lines[-1] == "" else lines, 1):
        parts = LINE.fullmatch(line)
        if not parts:
            raise Bad(f"line {number} is none of an interface")
        found.append(Line(len(parts[1].strip("-")), len(parts[2].strip("-")), parts[3]))
    if len({line.name for line in found}) < len(found):
        raise Bad("a name stands there twice")
    return found


def read_interface(path: str) -> List[Line]:
    try:
        return interface_in(read_file(path, "interface").decode("utf-8"))
    except (Bad, UnicodeDecodeError) as fault:
        raise Bad(f"{path}: {fault if isinstance(fault, Bad) else 'its names are no UTF-8'}") from None


class Linked:
    """Modules, each of which imports from those before it."""

    def __init__(self, modules: Sequence[Module]) -> None:
        self.modules = modules
        self.places = {module.name: place for place, module in enumerate(modules)}

    def function(self, module: str, export: Optional[str]) -> Optional[Defined]:
        """The function that a module exports under a name, where it is defined."""
        end = len(self.modules)
        while self.places.get(module, end) < end:
            end = self.places[module]
            index = self.modules[end].exports.get((FUNCTION, export))
            imported = self.modules[end].imported(FUNCTION)
            if index is None or index >= len(imported):
                return None if index is None else Defined(self.modules[end], index)
            module, export = imported[index].module, imported[index].name
        return None

    def type_of(self, line: Line) -> Optional[FuncType]:
        found = self.function(*line.parts)
        return found and found.module.type_of(found.index)


# ---- made

def body(earlier: int) -> bytes:
    """A body of its own behind so many functions of the type: it divides their number by 0, which wasm-opt
    doesn't take for the division of another."""
    own = b"\x41" + signed_leb(earlier) + b"\x41\x00\x6e" if earlier else b""
    return leb(0) + own + UNREACHABLE + END


def stub_of(name: str, lines: Sequence[Line], library: Linked) -> bytes:
    """The stub of one module of the library: a function for each line that names one of it."""
    counts: Dict[FuncType, int] = {}
    places: Dict[FuncType, int] = {}
    functions, exports, bodies = [], [], []
    for line in lines:
        kind = library.type_of(line)
        if line.parts[0] != name or kind is None:
            continue
        functions.append(places.setdefault(kind, len(places)))
        bodies.append(body(counts.get(kind, 0)))
        counts[kind] = counts.get(kind, 0) + 1
        exports.append(string(line.parts[1]) + bytes([FUNCTION]) + leb(len(exports)))
    return of_functions([func_type(*kind) for kind in places], functions, bodies, section(7, vector(exports)))


# ---- checked

def unfit(lines: Sequence[Line], library: Linked) -> List[str]:
    """What of the interface isn't in the library as it says."""
    told = []
    for line in lines:
        kind = library.type_of(line)
        if kind is None:
            told.append(f"the library exports no function {line.name}, which the interface names")
        elif (len(kind.params), len(kind.results)) != line[:2]:
            told.append(f"{line.name} has {len(kind.params)} parameters and {len(kind.results)} results in "
                        f"the library, and {line.params} and {line.results} in the interface")
    return told


def unlike(lines: Sequence[Line], stub: Linked, library: Linked) -> List[str]:
    """Where the stub's functions aren't those of the interface, with the library's types."""
    told, named = [], {line.parts for line in lines}
    for line in lines:
        kind = stub.type_of(line)
        if kind is None:
            told.append(f"the stub exports no function {line.name}, which the interface names")
        elif library.type_of(line) not in (None, kind):
            told.append(f"{line.name} has another type in the stub than in the library")
    for module in stub.modules:
        for sort, export in module.exports:
            if sort == FUNCTION and (module.name, export) not in named:
                where = ("isn't in the interface" if library.function(module.name, export)
                         else "neither the interface nor the library has")
                told.append(f"the stub exports {module.name}/{export}, which {where}: who calls "
                            "it runs the stub's body")
    return told


def merged(lines: Sequence[Line], stub: Linked, library: Linked) -> List[str]:
    """Names that stand for one function of the stub, and for two of the library."""
    first: Dict[Tuple[str, int], Line] = {}
    told = []
    for line in lines:
        here, there = stub.function(*line.parts), library.function(*line.parts)
        if here is None or there is None:
            continue
        other = first.setdefault(here.key, line)
        known = library.function(*other.parts)
        if known is None or known.key != there.key:
            told.append(f"{other.name} and {line.name} are one function of the stub, and two of the library: "
                        f"calls of both go to {other.name}")
    return told


def kept_from(one: Import, named: Set[Tuple[str, Optional[str]]], stub: Linked, users: Set[str]) -> str:
    """What is wrong with an import of a user; nothing where it is of a user, or of a name of the
    interface."""
    if one.module in users or (one.module, one.name) in named:
        return ""
    told = f"imports {SORTS[one.sort]} {one.module}/{one.name}"
    if one.module not in stub.places:
        return f"{told}, and no module of the stub or of a client is called {one.module}"
    if one.sort == FUNCTION:
        return f"{told}, which isn't in the interface: the stub's body runs"
    return f"{told} of the stub: it stays the stub's, apart from what the library has"


def handed_on(user: Module, client: Linked, stub: Linked) -> List[str]:
    """The functions of the stub that a user exports again."""
    told = []
    for sort, export in user.exports:
        found = client.function(user.name, export) if sort == FUNCTION else None
        if found and found.module.name in stub.places:
            told.append(f"{user.path}: exports {user.name}/{export}, a function of the stub: under that "
                        "name the stub's body runs")
    return told


def crowded(modules: Sequence[Module], what: str) -> List[str]:
    """Modules that no call takes together."""
    names = [module.name for module in modules]
    told = [f"two modules of {what} are called {name}"
            for name in sorted(set(names)) if names.count(name) > 1]
    return told + [f"{what} are {len(names)} modules, and a call takes "
                   f"{LIMITS['modules']}"] * (len(names) > LIMITS["modules"])


def faults(lines: Sequence[Line], stubs: Sequence[Module], libraries: Sequence[Module],
           users: Sequence[Module]) -> List[str]:
    """What of the law on joined images doesn't hold: each premise on modules that is broken, in a line."""
    told = crowded([*stubs, *users],
                   "the stub and the clients") + crowded([*libraries, *users], "the library and the clients")
    stub, library, client = Linked(stubs), Linked(libraries), Linked([*stubs, *users])
    told += unfit(lines, library) + unlike(lines, stub, library) + merged(lines, stub, library)
    named, called = {line.parts for line in lines}, {user.name for user in users}
    for user in users:
        wrong = filter(None, (kept_from(one, named, stub, called) for one in user.imports))
        told += [f"{user.path}: {one}" for one in wrong] + handed_on(user, client, stub)
    return told
