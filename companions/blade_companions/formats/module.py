"""Modules of WebAssembly: what they define, import and export, and what their functions are called. Licence:
public domain (CC0)."""
from __future__ import annotations

import os
from dataclasses import dataclass, field
from typing import Dict, List, NamedTuple, Optional, Tuple

from .encoding import MAGIC
from .reading import Bad, Reader, limited, read_file
from ..printing import called

FUNCTION, TABLE, MEMORY, GLOBAL = range(4)


class FuncType(NamedTuple):
    params: bytes
    results: bytes


class Import(NamedTuple):
    module: str
    name: str
    sort: int
    type_index: int  # of a function


class Element(NamedTuple):
    """Functions that stand in the table from an offset on: a constant, or a global's value."""

    is_global: bool
    offset: int
    functions: Tuple[int, ...]


class Section(NamedTuple):
    """A section: its number, where it begins and where its contents do, its end, and its name where it is a
    custom one."""

    number: int
    start: int
    contents: int
    end: int
    name: str


@dataclass
class Module:
    """A module by its index spaces, imports first."""

    name: str
    path: str
    data: bytes
    types: List[FuncType] = field(default_factory=list)
    imports: List[Import] = field(default_factory=list)
    functions: List[int] = field(default_factory=list)  # the index of each one's type
    tables: List[int] = field(default_factory=list)  # the slots of each; -1 where it is imported
    memories: int = 0
    # the first value of each; None where it is imported
    globals: List[Optional[int]] = field(default_factory=list)
    exports: Dict[Tuple[int, str], int] = field(default_factory=dict)
    elements: List[Element] = field(default_factory=list)
    code: int = 0  # where the contents of the code section begin
    bodies: List[Tuple[int, int]] = field(default_factory=list)
    names: Dict[int, str] = field(default_factory=dict)
    global_names: Dict[int, str] = field(default_factory=dict)
    sections: List[Section] = field(default_factory=list)
    has_lines: bool = False
    called: Dict[int, str] = field(default_factory=dict)  # functions as they are told
    by_sort: Dict[int, List[Import]] = field(default_factory=dict)

    def imported(self, sort: int) -> List[Import]:
        return self.by_sort.get(sort, [])

    def type_of(self, function: int) -> FuncType:
        return self.types[self.functions[function]]

    def function_name(self, function: int) -> str:
        """By the name section, else by an export, else by its number."""
        return self.called.get(function) or f"function {function}"


def name_of_file(path: str) -> str:
    """The name of the module in a file, by which others import from it."""
    base = path.rsplit("/", 1)[-1]
    return base[:-5] if base.endswith(".wasm") else base


def sections_of(data: bytes) -> List[Section]:
    if not data.startswith(MAGIC):
        raise Bad("this is no module: it doesn't begin as one")
    reader, found = Reader(data, len(MAGIC)), []
    while reader.place < len(data):
        start, number = reader.place, reader.byte()
        size = reader.number()
        contents = reader.place
        reader.take(size)
        name = Reader(data, contents, reader.place).text() if number == 0 else ""
        found.append(Section(number, start, contents, reader.place, name))
    return found


def limits(reader: Reader) -> int:
    """The first size of a table or a memory."""
    flag, first = reader.byte(), reader.number()
    if flag & 1:
        reader.number()
    return first


class ModuleReader:
    """Reads the sections of a module."""

    def __init__(self, module: Module) -> None:
        self.module = module
        self.parts = {1: self.types, 2: self.imports, 3: self.functions, 4: self.tables, 5: self.memories}
        self.parts.update({6: self.globals, 7: self.exports, 9: self.elements, 10: self.codes})

    def read(self) -> None:
        module = self.module
        limited("module", len(module.data))
        module.sections = sections_of(module.data)
        numbers = [section.number for section in module.sections if section.number]
        if len(set(numbers)) != len(numbers):
            raise Bad("a section stands there twice")
        for section in module.sections:
            reader = Reader(module.data, section.contents, section.end)
            if section.number in self.parts:
                self.parts[section.number](reader)
            elif section.name == ".debug_line":
                module.has_lines = True
        self.check()
        self.call()

    def check(self) -> None:
        """What others take for granted: each function has a type and, where it is defined, code; what is
        exported and listed exists."""
        module = self.module
        limited("functions", len(module.functions))
        for kind in module.types:
            limited("results", len(kind.results))
        for one in module.imports:
            module.by_sort.setdefault(one.sort, []).append(one)
        counts = (len(module.functions), len(module.tables), module.memories, len(module.globals))
        if any(index >= len(module.types) for index in module.functions):
            raise Bad("a function's type isn't there")
        if len(module.bodies) != len(module.functions) - len(module.imported(FUNCTION)):
            raise Bad("functions and their code differ in number")
        if any(sort > GLOBAL or index >= counts[sort] for (sort, _), index in module.exports.items()):
            raise Bad("what is exported isn't there")
        if any(index >= counts[FUNCTION] for element in module.elements for index in element.functions):
            raise Bad("a function of the table isn't there")

    def call(self) -> None:
        """Names for what is told: a name section that can't be read has none."""
        module = self.module
        for section in module.sections:
            if section.name == "name":
                try:
                    reader = Reader(module.data, section.contents, section.end)
                    reader.text()
                    self.names(reader)
                except Bad:
                    continue
        for (sort, name), index in module.exports.items():
            if sort == FUNCTION:
                module.called.setdefault(index, called(name))
        module.called.update({index: called(name) for index, name in module.names.items() if name})

    def types(self, reader: Reader) -> None:
        self.module.types = reader.many(lambda: (reader.byte(), FuncType(reader.block(), reader.block()))[1])

    def imports(self, reader: Reader) -> None:
        module = self.module
        for _ in range(reader.number()):
            one = Import(reader.text(), reader.text(), reader.byte(), -1)
            if one.sort > GLOBAL:
                raise Bad(f"an import of sort {one.sort}")
            if one.sort == FUNCTION:
                one = one._replace(type_index=reader.number())
                module.functions.append(one.type_index)
            elif one.sort == TABLE:
                reader.byte(), limits(reader)
                module.tables.append(-1)
            elif one.sort == MEMORY:
                limits(reader)
                module.memories += 1
            else:
                reader.byte(), reader.byte()
                module.globals.append(None)
            module.imports.append(one)

    def functions(self, reader: Reader) -> None:
        self.module.functions += reader.many(reader.number)

    def tables(self, reader: Reader) -> None:
        self.module.tables += reader.many(lambda: (reader.byte(), limited("table", limits(reader)))[1])

    def memories(self, reader: Reader) -> None:
        self.module.memories += len(reader.many(lambda: limits(reader)))

    def constant(self, reader: Reader) -> Tuple[bool, int]:
        """A constant expression: whether it is a global, and its value or the global's number."""
        code = reader.byte()
        if code not in (0x23, 0x41, 0x42):
            raise Bad("a constant that isn't read here")
        value = reader.number() if code == 0x23 else reader.signed()
        reader.byte()
        return code == 0x23, value

    def globals(self, reader: Reader) -> None:
        for _ in range(reader.number()):
            reader.byte(), reader.byte()
            is_global, value = self.constant(reader)
            self.module.globals.append(None if is_global else value)

    def exports(self, reader: Reader) -> None:
        for _ in range(reader.number()):
            name, sort, index = reader.text(), reader.byte(), reader.number()
            self.module.exports[sort, name] = index

    def elements(self, reader: Reader) -> None:
        for _ in range(reader.number()):
            reader.number()
            is_global, offset = self.constant(reader)
            self.module.elements.append(Element(is_global, offset, tuple(reader.many(reader.number))))

    def codes(self, reader: Reader) -> None:
        self.module.code = reader.place
        for _ in range(reader.number()):
            size = reader.number()
            self.module.bodies.append((reader.place, reader.place + size))
            reader.take(size)

    def names(self, reader: Reader) -> None:
        while reader.place < reader.end:
            kind, size = reader.byte(), reader.number()
            part = Reader(reader.data, reader.place, reader.place + size)
            reader.take(size)
            if kind == 1:
                self.module.names = dict(part.many(lambda: (part.number(), part.text())))
            elif kind == 7:
                self.module.global_names = dict(part.many(lambda: (part.number(), part.text())))


def module_of(data: bytes, path: str) -> Module:
    module = Module(name_of_file(path), path, data)
    try:
        ModuleReader(module).read()
    except Bad as bad:
        raise Bad(f"{os.path.basename(path)}: {bad}") from None
    return module


def read_module(path: str) -> Module:
    return module_of(read_file(path, "module"), path)
