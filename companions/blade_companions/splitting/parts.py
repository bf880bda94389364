"""The parts of a module that a split changes, or needs to know: read from the module, and put into one again.
Licence: public domain (CC0)."""
from __future__ import annotations

from dataclasses import dataclass, field
from typing import Dict, List, NamedTuple, Sequence, Tuple

from . import codes as op
from ..formats.encoding import MAGIC, custom, func_type, leb, section, sized, string, vector
from ..formats.instructions import Instruction, read_instruction, read_locals, spelled
from ..formats.labels import Entry, entries_of, refuse_changed
from ..formats.memories import pages_of
from ..formats.module import FUNCTION, FuncType, Module
from ..formats.places import NOWHERE, Places, places_of, section_of as places_section
from ..formats.reading import Bad, Reader

PAGE = 65536
TYPES, IMPORTS, FUNCTIONS, TABLES, MEMORIES, GLOBALS, EXPORTS, START, ELEMENTS, CODE, DATA = range(1, 12)
FUNCTION_NAMES, LOCAL_NAMES, DATA_NAMES = 1, 2, 9  # subsections of the section name
KNOWN = frozenset(
    [
        *op.OPERATORS,
        *op.ACCESSES,
        *range(0x02, 0x06),
        *range(0x0B, 0x12),
        *range(0x20, 0x25),
        op.UNREACHABLE,
        op.NOP,
        op.DROP,
        op.SELECT,
        op.MEMORY_SIZE,
        op.MEMORY_GROW,
        0x41,
        0x42,
    ]
)
SORTS = ("function", "table", "memory", "global")


class Global(NamedTuple):
    type: int
    is_mutable: bool
    first: int


class Data(NamedTuple):
    """First contents of a memory, with the name of their segment, if it has one."""

    offset: int
    bytes: bytes
    name: str = ""


@dataclass
class Body:
    """What a function has beside its type: the types of its own locals, and its instructions, the last `end`
    among them. An instruction's place is the one that it has, or comes from, in the file that was read."""

    locals: List[int]
    code: List[Instruction]
    place: int = -1  # where its locals begin, in the file that was read


@dataclass
class Parts:
    """A module that imports functions only, and has one memory."""

    module: Module
    types: List[FuncType]  # the module's list of types
    functions: List[int]  # the type of each function, imported ones first, by its number in that list
    bodies: List[Body]
    memory: Tuple[int, int]  # the first and the most pages
    globals: List[Global]
    data: List[Data]
    labels: List[Entry]
    imports: List[Tuple[str, str, FuncType]]
    exports: Dict[Tuple[int, str], int] = field(default_factory=dict)
    elements: List[Tuple[int, Tuple[int, ...]]] = field(default_factory=list)
    names: Dict[int, str] = field(default_factory=dict)

    def type_of(self, function: int) -> FuncType:
        return self.types[self.functions[function]]

    def body_of(self, function: int) -> Body:
        return self.bodies[function - len(self.imports)]

    def type_index(self, kind: FuncType) -> int:
        if kind not in self.types:
            self.types.append(kind)
        return self.types.index(kind)

    def name_of(self, function: int) -> str:
        return self.module.function_name(function)


def contents(module: Module, number: int) -> Reader:
    """The contents of a section, or nothing but the number 0."""
    for one in module.sections:
        if one.number == number:
            return Reader(module.data, one.contents, one.end)
    return Reader(b"\0")


def whole_parts_of(module: Module) -> Parts:
    """The parts of a module that is to be split; refuses what can't be, with a reason."""
    refuse_changed(module)
    for one in module.imports:
        raise Bad(
            f"{one.module}.{one.name} is imported, a {SORTS[one.sort]}: a module that is split may import "
            "nothing, so link all of C into one module"
        )
    if places_of(module) is not None:
        raise Bad("this module was split already")
    return parts_of(module)


def parts_of(module: Module) -> Parts:
    if any(one.sort != FUNCTION for one in module.imports):
        raise Bad("the module imports more than functions")
    if any(one.number == START for one in module.sections):
        raise Bad("a start function, which Blade doesn't take")
    if any(element.is_global for element in module.elements):
        raise Bad("an element stands at a place that a global gives")
    return Parts(
        module,
        list(module.types),
        list(module.functions),
        [body_of(module, *one) for one in module.bodies],
        memory_of(module),
        globals_of(module),
        data_of(module),
        entries_of(module),
        [(one.module, one.name, module.types[one.type_index]) for one in module.imports],
        dict(module.exports),
        [(one.offset, one.functions) for one in module.elements],
        dict(module.names),
    )


def memory_of(module: Module) -> Tuple[int, int]:
    """The memory's pages. One without a most may grow as far as Blade lets a memory grow."""
    least, most = pages_of(module)
    if module.memories != 1:
        raise Bad("the module has several memories")
    return least, most if most is not None else 1024


def globals_of(module: Module) -> List[Global]:
    reader = contents(module, GLOBALS)
    found = []
    for _ in range(reader.number()):
        kind, is_mutable, code = reader.byte(), reader.bit(), reader.byte()
        if code not in op.CONST.values() or kind not in op.BITS:
            raise Bad("a global's first value isn't a constant number")
        value = reader.signed()
        reader.byte()
        found.append(Global(kind, is_mutable, value & ((1 << op.BITS[kind]) - 1)))
    return found


def data_of(module: Module) -> List[Data]:
    names, reader, found = segment_names(module), contents(module, DATA), []
    size = pages_of(module)[0] * PAGE
    for number in range(reader.number()):
        if reader.number() != 0 or reader.byte() != op.I32_CONST:
            raise Bad("a data segment whose place isn't a constant")
        offset = reader.signed() & 0xFFFFFFFF
        reader.byte()
        found.append(Data(offset, reader.block(), names.get(number, "")))
        if offset + len(found[-1].bytes) > size:
            raise Bad("a data segment stands outside of the memory")
    return found


def subsections(module: Module) -> List[Tuple[int, bytes]]:
    """The subsections of the section name; none where it can't be read."""
    found: List[Tuple[int, bytes]] = []
    for one in module.sections:
        if one.name == "name":
            reader = Reader(module.data, one.contents, one.end)
            reader.text()
            while reader.place < reader.end:
                found.append((reader.byte(), reader.block()))
    return found


def segment_names(module: Module) -> Dict[int, str]:
    """The names of data segments. Two names for one are none."""
    found: Dict[int, str] = {}
    for kind, data in subsections(module):
        if kind == DATA_NAMES:
            reader = Reader(data)
            for number, name in reader.many(lambda: (reader.number(), reader.text())):
                found[number] = name if number not in found else ""
    return found


def body_of(module: Module, start: int, end: int) -> Body:
    reader = Reader(module.data, start, end)
    kinds = [kind for count, kind in bounded(list(read_locals(reader))) for _ in range(count)]
    code = []
    while reader.place < end:
        one = read_instruction(reader)
        if one.code not in KNOWN:
            raise Bad(f"an instruction of code {one.code:#04x} at {one.place:#x}, which isn't read here")
        if one.code in op.OPENING and one.numbers[0] >= 0:
            raise Bad(
                f"a block at {one.place:#x} has a type with parameters or several results: such "
                "functions aren't split"
            )
        code.append(one)
    return Body(kinds, code, start)


def bounded(counted: Sequence[Tuple[int, int]]) -> Sequence[Tuple[int, int]]:
    if sum(count for count, _ in counted) > 4_096 or any(kind not in op.BITS for _, kind in counted):
        raise Bad("locals that Blade doesn't take")
    return counted


# Writing.


def locals_bytes(kinds: Sequence[int]) -> bytes:
    runs: List[List[int]] = []
    for kind in kinds:
        if runs and runs[-1][1] == kind:
            runs[-1][0] += 1
        else:
            runs.append([1, kind])
    return vector([leb(count) + bytes([kind]) for count, kind in runs])


def written(bodies: Sequence[Body], places: Places, code: int = 0) -> bytes:
    """The contents of a code section. `places` takes of each instruction its place there, and the place in
    the code of the module that was read, where it has one."""
    parts, at = [leb(len(bodies))], len(leb(len(bodies)))
    for body in bodies:
        inside = locals_bytes(body.locals)
        spots = [(0, body.place)]
        pieces = [inside]
        place = len(inside)
        for one in body.code:
            data = spelled(one.code, one.numbers)
            spots.append((place, one.place))
            pieces.append(data)
            place += len(data)
        whole = sized(b"".join(pieces))
        begin = at + len(whole) - place
        places += [(begin + spot, origin - code if origin >= 0 else NOWHERE) for spot, origin in spots]
        parts.append(whole)
        at += len(whole)
    return b"".join(parts)


def constant(kind: int, value: int) -> bytes:
    return spelled(op.CONST[kind], (value,)) + bytes([op.END])


def function_names(names: Dict[int, str]) -> bytes:
    return bytes([FUNCTION_NAMES]) + sized(
        vector([leb(at) + string(name) for at, name in sorted(names.items())])
    )


def module_bytes(parts: Parts) -> bytes:
    """The module, with all its sections but those of labels: what isn't changed is as it was."""
    module = parts.module
    places: Places = []
    sections = {one.number: module.data[one.contents : one.end] for one in module.sections if one.number}
    sections[IMPORTS] = vector(
        [
            string(one) + string(name) + b"\0" + leb(parts.type_index(kind))
            for one, name, kind in parts.imports
        ]
    )
    sections[CODE] = written(parts.bodies, places, module.code)
    sections[TYPES] = vector([func_type(kind.params, kind.results) for kind in parts.types])
    sections[FUNCTIONS] = vector(list(map(leb, parts.functions[len(parts.imports) :])))
    sections[GLOBALS] = vector(
        [bytes([one.type, one.is_mutable]) + constant(one.type, one.first) for one in parts.globals]
    )
    sections[EXPORTS] = vector(
        [string(name) + bytes([sort]) + leb(at) for (sort, name), at in parts.exports.items()]
    )
    sections[ELEMENTS] = vector(
        [
            b"\0" + constant(op.I32, offset) + vector(list(map(leb, functions)))
            for offset, functions in parts.elements
        ]
    )
    made = b"".join(
        section(number, sections[number]) for number in sorted(sections) if sections[number] != b"\0"
    )
    return MAGIC + made + customs(parts) + places_section(places)


def customs(parts: Parts) -> bytes:
    """The custom sections of tools: names of functions as they are numbered now, and DWARF, whose places are
    those of the module that was split. What speaks of labels, or of places of instructions, is left out."""
    module, found = parts.module, b""
    for one in module.sections:
        if one.number == 0 and one.name != "name" and not one.name.startswith(("blade.", "metadata.code.")):
            found += module.data[one.start : one.end]
    kept = b"".join(
        bytes([kind]) + sized(data)
        for kind, data in subsections(module)
        if kind not in (FUNCTION_NAMES, LOCAL_NAMES, 0) and kind > LOCAL_NAMES
    )
    return custom("name", function_names(parts.names) + kept) + found
