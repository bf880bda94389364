"""The units of a linked module, as the section blade.units records them, and the labels of functions that
come of that. Licence: public domain (CC0)."""
from __future__ import annotations

import os
from dataclasses import dataclass, field
from typing import Dict, List, NamedTuple, Sequence, Set, Tuple

from ..formats.labels import Entry
from ..formats.module import FUNCTION, Module
from ..formats.reading import Bad, Reader
from .dwarf import all_contents
from .ir import is_symbol_of
from .opaque import BY_WORDS, NAME, Named, of_words
from .paths import shown

WHERE_WORDS = "blade-cc"  # what is wrong with words stands in no file


class Has(NamedTuple):
    """A function that a unit defines: its symbol, its name in C, where it stands in the source, its sort
    (local, inline or one), and whether it is kept."""

    symbol: str
    name: str
    place: str
    sort: str
    is_kept: bool


class Label(NamedTuple):
    """A label at a function that a unit defines: the function's place in the code (0 where the linker dropped
    it), its symbol and sort, the number of the parameter in the module or ! and why there is none, how many
    it has, and the parameter's name in C."""

    named: Named
    symbol: str
    sort: str
    number: str
    count: str
    name: str
    place: int


@dataclass
class Unit:
    """A unit: its source, the folder that it was compiled in, the labels that it knows, and what it has."""

    path: str
    folder: str
    sees: List[Named] = field(default_factory=list)
    words: List[str] = field(default_factory=list)  # those of --label that name no function
    has_marks: bool = False  # whether it uses BLADE_SECRET
    is_strict: bool = False  # whether the compiler could assume nothing
    has: List[Has] = field(default_factory=list)
    labels: List[Label] = field(default_factory=list)
    # a labelled function, and the place in the code of one that leads to it
    calls: List[Tuple[str, int]] = field(default_factory=list)


def row_of(reader: Reader) -> List[str]:
    end = reader.data.find(b"\n", reader.place, reader.end)
    if end < 0:
        raise Bad(f"{NAME}: it is cut off")
    parts = reader.data[reader.place : end].decode("utf-8", "replace").split("\t")
    reader.place = end + 1
    return parts


def units_of(module: Module) -> List[Unit]:
    """What the section says; modules that blade-cc didn't compile have none."""
    return units_in(all_contents(module, NAME))


def units_in(parts: Sequence[bytes]) -> List[Unit]:
    found: List[Unit] = []
    for part in parts:
        reader = Reader(part)
        while reader.place < reader.end:
            read_row(reader, found)
    return found


def read_row(reader: Reader, found: List[Unit]) -> None:
    kind, *parts = row_of(reader)
    try:
        if kind == "unit":
            found.append(Unit(*parts))
        elif kind == "sees":
            found[-1].sees.append(Named(*parts))
        elif kind == "marks":
            found[-1].has_marks = True
        elif kind == "strict":
            found[-1].is_strict = True
        elif kind == "words":
            found[-1].words += parts
        elif kind == "has":
            found[-1].has.append(Has(*parts[:4], is_kept=parts[4] == "kept"))
        elif kind == "label":
            found[-1].labels.append(Label(Named(*parts[:4]), *parts[4:],
                                          place=int.from_bytes(reader.take(4), "little")))
        elif kind == "calls":
            found[-1].calls.append((parts[0], int.from_bytes(reader.take(4), "little")))
        else:
            raise Bad(f"{NAME}: a row of another blade-cc")
    except (TypeError, IndexError):
        raise Bad(f"{NAME}: a row of another blade-cc") from None


def starts_of(module: Module) -> Dict[int, int]:
    """The functions by where their code begins in the code section."""
    imported = len(module.imported(FUNCTION))
    return {start - module.code: imported + at for at, (start, _) in enumerate(module.bodies)}


@dataclass
class Resolved:
    """Labels of functions with where they were declared; what is wrong; and which lines and words are
    answered by that."""

    entries: List[Tuple[Entry, str]] = field(default_factory=list)
    errors: List[str] = field(default_factory=list)
    answered: Set[Named] = field(default_factory=set)
    words: List[str] = field(default_factory=list)  # labels of no function that units were compiled with
    called: Dict[Entry, str] = field(default_factory=dict)  # the parameters as C calls them
    marked: List[str] = field(default_factory=list)  # units that use BLADE_SECRET


class Resolver:
    """Finds the functions and parameters of labels by the records of the units."""

    def __init__(self, linked: Module, words: Sequence[str]) -> None:
        self.module, self.units, self.found = linked, units_of(linked), Resolved()
        self.starts = starts_of(linked)
        self.labels = [label for unit in self.units for label in unit.labels]
        self.found.marked = [unit.path for unit in self.units if unit.has_marks]
        self.found.words = [word for unit in self.units for word in unit.words]
        for named in dict.fromkeys([named for unit in self.units for named in unit.sees] + of_words(words)):
            if named.name.isdigit() and self.units:
                raise Bad(f"{' '.join(named[:3])}: name the function, "
                          "since its number isn't known before all is linked")
            self.resolve(named)

    def fail(self, named: Named, why: str) -> None:
        place = WHERE_WORDS if named.where == BY_WORDS else self.place(named)
        line = f"{place}: error: {why} [blade-label]"
        if line not in self.found.errors:
            self.found.errors.append(line)

    def place(self, named: Named) -> str:
        return shown_place(named.where, [unit.folder for unit in self.units if named in unit.sees])

    def resolve(self, named: Named) -> None:
        """The entry of a line or of words, or what is wrong."""
        own = [label for label in self.labels if label.named == named]
        if not own and named.where == BY_WORDS:
            # Words at the link alone: what they say stands in the source as well, or the unit was compiled
            # without it.
            own = [label for label in self.labels if label.named[:3] == named[:3]
                   or (label.named.kind, label.named.which) == (named.kind, named.which)
                   and label.symbol == named.name]
        if not own:
            own = [label for label in self.labels if label.named[:3] == named[:3] and label.sort == "one"
                   and label.named.where != BY_WORDS]
            elsewhere = True
        else:
            elsewhere = False  # whether the line stands in units that don't define the function
        copies = [unit for unit in self.units
                  if any((self.is_copy(one, named, own, unit) or elsewhere and self.is_called(one, named))
                         and not one.is_kept for one in unit.has)]
        if not own and not copies and not any(self.is_called(one, named) for unit in self.units
                                              for one in unit.has):
            return  # nothing that was compiled by blade-cc has it
        self.found.answered.add(named)
        if copies:
            self.fail(named, self.why_copy(named, copies[0]))
        elif not own:
            self.fail(named, f"{named.name} was compiled without this label: "
                      f"give {' '.join(named[:3])!r} to blade-cc -c as well, by --label, or declare it "
                             "in the source")
        else:
            self.settle(named, own)

    def is_called(self, one: Has, named: Named) -> bool:
        if named.name in (one.symbol, one.name):
            return True
        # Without DWARF nothing but the symbol tells the name.
        return one.symbol == one.name and is_symbol_of(one.symbol, named.name.rpartition("::")[2])

    def is_copy(self, one: Has, named: Named, own: Sequence[Label], unit: Unit) -> bool:
        """Whether a function of a unit is, by its symbol or its place in the source, the one that a label
        means."""
        if not own:
            return self.is_called(one, named)
        symbols = {label.symbol for label in own if label.sort != "local"}
        if one.sort != "local" and one.symbol in symbols:
            return True
        # One header may have two paths, and what was preprocessed has none.
        places = {os.path.basename(place) for place in self.places(own)}
        is_unknown = (named.where == BY_WORDS or not one.place or "" in places
                      or unit.path.endswith((".i", ".ii")))
        return self.is_called(one, named) and (is_unknown or os.path.basename(one.place) in places)

    def places(self, own: Sequence[Label]) -> Set[str]:
        symbols = {label.symbol for label in own}
        return {one.place for unit in self.units for one in unit.has if one.symbol in symbols and one.is_kept}

    def why_copy(self, named: Named, unit: Unit) -> str:
        what = "label" if named.where == BY_WORDS else "line"
        remedy = (f"give --label {' '.join(named[:3])!r} to blade-cc -c, too" if named.where == BY_WORDS else
                  "have that unit include it (-include FILE.h does without a change)")
        return (f"{named.name} is defined in {shown(unit.path)}, which doesn't have this {what}, "
                "so it may be inlined there, where nothing is declared: "
                f"{remedy}")

    def settle(self, named: Named, own: Sequence[Label]) -> None:
        """The entries of labels whose functions are there."""
        alive = [label for label in own if label.place in self.starts]
        if not alive:
            self.fail(named, f"{named.name} isn't in the module: nothing uses it, "
                      "so the linker or clang dropped it; export it, or drop the line")
        if named.where == BY_WORDS and len({label.place for label in alive}) > 1:
            places = ", ".join(sorted(shown_place(one) for one in self.places(own) if one))
            self.fail(named, f"{len({label.place for label in alive})} functions are called {named.name} "
                      f"({places}): give one of them another name")
            return
        for label in alive:
            self.add(named, label)

    def add(self, named: Named, label: Label) -> None:
        function = self.starts[label.place]
        count = len(self.module.type_of(function).params)
        name = self.module.names.get(function, "")
        if name.startswith("__wrap_") and not label.symbol.startswith("__wrap_"):
            self.fail(named, f"the linker has {name} called in place of {named.name} (--wrap): "
                      "label that one")
        elif label.number.startswith("!"):
            self.fail(named, label.number[1:])
        elif label.count != str(count):
            self.fail(named, f"{named.name} has {count} parameters in the module and {label.count} by its "
                      "source, so nobody can tell which one is "
                             f"{named.which}: declare a caller's parameter")
        else:
            for one in [function, *self.wrappers(function)]:
                self.enter((named.kind, (one, int(label.number))), named, label)

    def enter(self, entry: Entry, named: Named, label: Label) -> None:
        if entry not in [other for other, _ in self.found.entries]:
            self.found.entries.append((entry, "" if named.where == BY_WORDS else self.place(named)))
        if label.name:
            self.found.called.setdefault(entry, label.name)

    def wrappers(self, function: int) -> List[int]:
        """What the linker exports in place of a function, where constructors run first."""
        wanted = f"{self.module.names.get(function, '')}.command_export"
        return [index for index, name in self.module.names.items() if name == wanted
                and self.module.functions[index] == self.module.functions[function]]


def shown_place(where: str, folders: Sequence[str] = ()) -> str:
    """A line of a source, whose file was named from the folder that its unit was compiled in."""
    path, _, line = where.rpartition(":")
    tried = [path] + [os.path.join(folder, path) for folder in folders]
    return f"{shown(next((it for it in tried if os.path.exists(it)), path))}:{line}"
