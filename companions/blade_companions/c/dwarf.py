"""What DWARF says of a module's functions: their parameters, and where they were inlined. Versions 4 and 5,
32 bits. Licence: public domain (CC0)."""
from __future__ import annotations

from dataclasses import dataclass, field
from typing import Any, Dict, List, NamedTuple, Optional, Set, Tuple

from ..formats.reading import Bad, Reader
from ..formats.module import FUNCTION, Module
from ..formats.places import NOWHERE, Origins

COMPILE_UNIT, SUBPROGRAM, PARAMETER, INLINED, VARIABLE = 0x11, 0x2E, 0x05, 0x1D, 0x34
POINTERS, AGGREGATES = frozenset([0x0F, 0x10, 0x42, 0x01]), frozenset([0x13, 0x17, 0x02])
PASSING = frozenset([0x16, 0x26, 0x35, 0x37, 0x47])
NAME, LOW_PC, LINKAGE, ORIGIN, SPECIFICATION, LOCATION = 0x03, 0x11, 0x6E, 0x31, 0x47, 0x02
LINE, CALL_LINE, CALL_COLUMN, FOLDER, STR_BASE, ADDR_BASE, TYPE = 0x3B, 0x59, 0x57, 0x1B, 0x72, 0x73, 0x49
WANTED = frozenset([NAME, LOW_PC, LINKAGE, ORIGIN, SPECIFICATION, LOCATION, LINE, CALL_LINE, CALL_COLUMN,
                    FOLDER, STR_BASE, ADDR_BASE, TYPE])
# The most entries, attributes and letters of strings, beside as many as the bytes of the file allow: a small
# file could name much more.
ENTRIES, BYTES_OF_ENTRY, WORK, WORK_OF_BYTE = 50_000, 20, 500_000, 2
GONE = 0xFFFFFFF0  # the linker's addresses of what it dropped are above
FIXED = {0x01: 4, 0x0B: 1, 0x05: 2, 0x06: 4, 0x07: 8, 0x0C: 1, 0x11: 1, 0x12: 2, 0x13: 4, 0x14: 8, 0x17: 4,
         0x1E: 16, 0x20: 8, 0x25: 1, 0x26: 2, 0x27: 3, 0x28: 4, 0x29: 1, 0x2A: 2, 0x2B: 3, 0x2C: 4}
STRINGS, ADDRESSES = frozenset([0x1A, 0x25, 0x26, 0x27, 0x28]), frozenset([0x1B, 0x29, 0x2A, 0x2B, 0x2C])


class Call(NamedTuple):
    """Where a function was inlined: the unit's file, line, column, and the function that it stands in."""

    path: str
    line: int
    column: int
    caller: str


class Param(NamedTuple):
    """A parameter of C: its name, the local that it stands in where DWARF says so, whether it is a pointer
    (or an array), and whether a struct."""

    name: str
    local: Optional[int]
    is_pointer: bool
    is_struct: bool


class Entry:
    """An entry of .debug_info, with those of its attributes that are of use here."""

    __slots__ = ("tag", "values", "children")

    def __init__(self, tag: int) -> None:
        self.tag = tag
        self.values: Dict[int, object] = {}
        self.children: List["Entry"] = []


@dataclass
class Subprogram:
    """A function of C: the index of its code where it has some, its parameters, and where it was inlined."""

    name: str
    linkage: str
    path: str
    line: int
    unit: str = ""  # the unit's file as the compiler was given it
    # where to is the module's first parameter, then, but for a struct of one number
    gives_struct: bool = False
    function: Optional[int] = None
    params: List[Param] = field(default_factory=list)
    inlined: List[Call] = field(default_factory=list)


def all_contents(module: Module, name: str) -> List[bytes]:
    """What stands behind the name in each custom section of that name."""
    found = []
    for section in module.sections:
        if section.number == 0 and section.name == name:
            reader = Reader(module.data, section.contents, section.end)
            reader.text()
            found.append(module.data[reader.place : section.end])
    return found


def contents(module: Module, name: str) -> Optional[Reader]:
    found = all_contents(module, name)
    return Reader(found[0]) if found else None


def text_at(reader: Optional[Reader], place: int) -> str:
    if reader is None:
        return ""
    return reader.data[place : reader.data.index(b"\0", place)].decode("utf-8", "replace")


class Units:
    """Reads the units of .debug_info."""

    def __init__(self, module: Module) -> None:
        self.info, self.abbreviations = contents(module, ".debug_info"), contents(module, ".debug_abbrev")
        self.strings, self.line_strings = contents(module, ".debug_str"), contents(module, ".debug_line_str")
        self.offsets, self.addresses = contents(module, ".debug_str_offsets"), contents(module, ".debug_addr")
        self.by_offset: Dict[int, Entry] = {}
        self.name = module.name
        self.base, self.address_base = 8, 8
        self.entries = ENTRIES + len(module.data) // BYTES_OF_ENTRY
        self.work = WORK + len(module.data) * WORK_OF_BYTE
        self.tables: Dict[int, Dict[int, Tuple[int, bool, list]]] = {}
        self.texts: Dict[Tuple[int, int], str] = {}

    def spend(self, work: int, entries: int = 0) -> None:
        """Counts what is read: it has to be in proportion to the file."""
        self.work -= work
        self.entries -= entries
        if self.work < 0 or self.entries < 0:
            raise Bad(f"{self.name}: its DWARF names more than a file of its size should: leave it out (-g0, "
                      "or llvm-strip --strip-debug)")

    def text(self, reader: Optional[Reader], place: int) -> str:
        """A string by its place, each read once."""
        key = id(reader), place
        if key not in self.texts:
            found = text_at(reader, place)
            self.spend(len(found))
            self.texts[key] = found
        return self.texts[key]

    def all(self) -> List[Entry]:
        found: List[Entry] = []
        while self.info and self.abbreviations and self.info.place < self.info.end:
            found += self.unit()
        return found

    def read(self) -> List[Entry]:
        try:
            return self.all()
        except (KeyError, IndexError, ValueError, AttributeError):
            raise Bad(f"{self.name}: its DWARF can't be read") from None

    def fixed(self, size: int) -> int:
        return int.from_bytes(self.info.take(size), "little")

    def unit(self) -> List[Entry]:
        start = self.info.place
        end = self.fixed(4) + start + 4
        version = self.fixed(2)
        if version == 4:
            table, size = self.fixed(4), self.fixed(1)
        elif version == 5:
            _, size, table = self.fixed(1), self.fixed(1), self.fixed(4)
        else:
            self.info.place = end
            return []
        listed, open_entries, roots = self.table(table), [], []
        while self.info.place < end:
            offset, code = self.info.place, self.info.number()
            if code == 0:
                if open_entries:
                    open_entries.pop()
                continue
            tag, nests, pairs = listed[code]
            entry = Entry(tag)
            self.spend(1 + len(pairs), 1)
            for attribute, form, constant in pairs:
                value = self.value(form, constant, size, start)
                if attribute in WANTED:
                    entry.values[attribute] = value
            if tag == COMPILE_UNIT:
                self.base = entry.values.get(STR_BASE, 8)
                self.address_base = entry.values.get(ADDR_BASE, 8)
            self.by_offset[offset] = entry
            (open_entries[-1].children if open_entries else roots).append(entry)
            if nests:
                open_entries.append(entry)
        self.settle(roots)
        return roots

    def settle(self, entries: List[Entry]) -> None:
        """Strings and addresses by their numbers, now that the bases are known."""
        work = list(entries)
        for entry in work:
            work += entry.children
            for attribute, value in entry.values.items():
                if isinstance(value, tuple) and value[0] == "string":
                    place = self.base + 4 * value[1]
                    offset = int.from_bytes(self.offsets.data[place : place + 4], "little")
                    entry.values[attribute] = self.text(self.strings, offset)
                elif isinstance(value, tuple) and value[0] == "address":
                    place = self.address_base + 4 * value[1]
                    entry.values[attribute] = int.from_bytes(self.addresses.data[place : place + 4], "little")

    def table(self, place: int) -> Dict[int, Tuple[int, bool, list]]:
        if place not in self.tables:
            self.tables[place] = self.read_table(place)
        return self.tables[place]

    def read_table(self, place: int) -> Dict[int, Tuple[int, bool, list]]:
        reader, found = Reader(self.abbreviations.data, place), {}
        while True:
            code = reader.number()
            if code == 0:
                return found
            tag, nests, pairs = reader.number(), bool(reader.byte()), []
            while True:
                attribute, form = reader.number(), reader.number()
                constant = reader.signed() if form == 0x21 else 0
                self.spend(1)
                if not attribute:
                    break
                pairs.append((attribute, form, constant))
            found[code] = (tag, nests, pairs)

    def value(self, form: int, constant: int, size: int, unit: int) -> Any:
        info = self.info
        if form in STRINGS or form in ADDRESSES:
            number = info.number() if form in (0x1A, 0x1B) else self.fixed(FIXED[form])
            return ("string" if form in STRINGS else "address", number)
        if form == 0x01:
            return self.fixed(size)
        if form in (0x11, 0x12, 0x13, 0x14):
            return unit + self.fixed(FIXED[form])
        if form in FIXED:
            return self.fixed(FIXED[form])
        if form in (0x0E, 0x1F):
            return self.text(self.strings if form == 0x0E else self.line_strings, self.fixed(4))
        if form == 0x08:
            start = info.place
            info.place = info.data.index(b"\0", start) + 1
            return info.data[start : info.place - 1].decode("utf-8", "replace")
        if form in (0x0A, 0x03, 0x04):
            return bytes(info.take(self.fixed({0x0A: 1, 0x03: 2, 0x04: 4}[form])))
        if form in (0x18, 0x09):
            return bytes(info.block())
        if form == 0x0D:
            return info.signed()
        if form in (0x0F, 0x22, 0x23):
            return info.number()
        if form == 0x15:
            return unit + info.number()
        if form == 0x10:
            return self.fixed(4)
        if form == 0x19:
            return 1
        if form == 0x21:
            return constant
        raise Bad(f"DWARF has the form {form:#x}, which isn't read here")


def local_of(value: object) -> Optional[int]:
    """The local of a location: DW_OP_WASM_location 0 N as a value; by itself it has the address."""
    if isinstance(value, bytes) and value[:2] == b"\xed\x00":
        reader = Reader(value, 2)
        number = reader.number()
        if value[reader.place :] == b"\x9f":
            return number
    return None


class Walk:
    """Goes through the units of a module for its functions; code that the linker dropped is none."""

    def __init__(self, module: Module) -> None:
        self.units = Units(module)
        self.roots = self.units.read()
        imported = len(module.imported(FUNCTION))
        origins = Origins()
        self.starts = {origins.of(module, start - module.code): imported + at
                       for at, (start, _) in enumerate(module.bodies)}
        self.starts.pop(NOWHERE, None)
        self.found: Dict[int, Subprogram] = {}
        self.folders: Dict[str, str] = {}  # where each unit was compiled
        self.path = self.unit = ""

    def run(self) -> List[Subprogram]:
        for root in self.roots:
            folder, self.unit = str(root.values.get(FOLDER, "")), str(root.values.get(NAME, ""))
            self.folders[self.unit] = folder
            self.path = self.unit if self.unit.startswith("/") or not folder else f"{folder}/{self.unit}"
            try:
                self.visit(root)
            except RecursionError:
                raise Bad(f"{self.units.name}: its DWARF nests too deeply") from None
        return list(self.found.values())

    def origin(self, entry: Entry) -> Entry:
        """The entry that has the name, of one that stands for a copy or a definition."""
        for _ in range(8):
            other = entry.values.get(ORIGIN, entry.values.get(SPECIFICATION))
            if other not in self.units.by_offset:
                break
            entry = self.units.by_offset[other]
        return entry

    def type_of(self, entry: Entry) -> int:
        """The tag of a type behind its names and qualifiers."""
        for _ in range(64):
            entry = self.units.by_offset.get(entry.values.get(TYPE))
            if entry is None:
                return 0
            if entry.tag not in PASSING:
                return entry.tag
        return 0

    def told(self, entry: Entry) -> Subprogram:
        base = self.origin(entry)
        if id(base) not in self.found:
            values = base.values
            self.found[id(base)] = Subprogram(
                values.get(NAME, ""), values.get(LINKAGE, ""), self.path, values.get(LINE, 0), self.unit,
                self.type_of(base) in AGGREGATES)
        return self.found[id(base)]

    def param(self, entry: Entry) -> Param:
        base = self.origin(entry)
        tag = self.type_of(base)
        return Param(base.values.get(NAME, ""), local_of(entry.values.get(LOCATION)), tag in POINTERS,
                     tag in AGGREGATES)

    def inside(self, entry: Entry, caller: str) -> None:
        """What was inlined into a function."""
        for child in entry.children:
            if child.tag == INLINED:
                values = child.values
                self.told(child).inlined.append(Call(self.path, values.get(CALL_LINE, 0),
                                                     values.get(CALL_COLUMN, 0), caller))
            if child.tag != SUBPROGRAM:
                self.inside(child, caller)

    def visit(self, entry: Entry) -> None:
        if entry.tag != SUBPROGRAM:
            for child in entry.children:
                self.visit(child)
            return
        one, low = self.told(entry), entry.values.get(LOW_PC)
        if isinstance(low, int) and low in self.starts and low < GONE:
            one.function = self.starts[low]
            one.params = [self.param(child) for child in entry.children if child.tag == PARAMETER]
            self.inside(entry, one.name)


def subprograms(module: Module) -> List[Subprogram]:
    """The functions that DWARF tells of."""
    return Walk(module).run()


def variables(module: Module) -> Set[str]:
    """The names of C's variables at file scope."""
    return {str(entry.values.get(NAME, "")) for root in Units(module).read() for entry in root.children
            if entry.tag == VARIABLE}
