"""The section blade.labels of a module: what is secret there, and what has to stay public.
Licence: public domain (CC0)."""
from __future__ import annotations

import hashlib
from dataclasses import dataclass
from typing import Dict, List, Sequence, Tuple

from . import encoding
from .encoding import custom, leb, vector
from .reading import Bad, LostLabel, Reader
from .module import FUNCTION, GLOBAL, MEMORY, Module
from ..printing import called

NAME = "blade.labels"
SUM = "blade.sum"  # the section that says for which code the labels were made
SUMMED = (1, 2, 3, 6, 10)  # types, imports, functions, globals and code: what labels speak of by numbers
UNITS = "blade.units"  # of use for a linked module alone


@dataclass(frozen=True)
class Kind:
    """A kind of entry: its byte, what its numbers name, and whether it needs version 2."""

    code: int
    names: Tuple[str, ...]
    is_demand: bool


KINDS: Dict[str, Kind] = {
    "secret-param": Kind(0, ("function", "parameter"), False),
    "secret-global": Kind(1, ("global",), False),
    "secret-memory": Kind(2, ("memory",), False),
    "public-result": Kind(3, ("function", "result"), True),
    "public-global": Kind(4, ("global",), True),
}
Entry = Tuple[str, Tuple[int, ...]]
# How help texts call what the numbers of an entry name.
LETTERS = {"function": "F", "parameter": "I", "result": "I", "global": "G", "memory": "M"}


def section_of(entries: Sequence[Entry]) -> bytes:
    """The custom section of entries."""
    version = 2 if any(KINDS[kind].is_demand for kind, _ in entries) else 1
    spelled = [bytes([KINDS[kind].code, *b"".join(map(leb, numbers))]) for kind, numbers in entries]
    return custom(NAME, bytes([version]) + vector(spelled))


def sum_of(module: Module) -> bytes:
    """A sum over all that labels speak of."""
    told = hashlib.sha256()
    for section in module.sections:
        if section.number in SUMMED:
            told.update(encoding.section(section.number, module.data[section.contents : section.end]))
    return told.digest()


def sum_section(module: Module) -> bytes:
    return custom(SUM, b"\1" + sum_of(module))


def is_changed(module: Module) -> bool:
    """Whether the module isn't the one any more that its labels were made for. One without a sum was labelled
    by another tool."""
    sums = [section for section in module.sections if section.name == SUM]
    return any(module.data[section.start : section.end] != sum_section(module) for section in sums)


def refuse_changed(module: Module) -> None:
    if is_changed(module):
        raise LostLabel(f"{module.name}: its code isn't what its labels were made for: "
                        "another tool has changed it since, so label what it makes "
                        "(blade-label --replace)")


def is_labelled(module: Module) -> bool:
    return any(section.name == NAME for section in module.sections)


def without_labels(module: Module) -> bytes:
    """The bytes of the module without labels and what speaks of them."""
    kept = [module.data[section.start : section.end] for section in module.sections
            if section.name not in (NAME, SUM, UNITS)]
    return module.data[:8] + b"".join(kept)


def entries_of(module: Module) -> List[Entry]:
    """The entries that stand in the module."""
    found: List[Entry] = []
    for section in module.sections:
        if section.name == NAME:
            reader = Reader(module.data, section.contents, section.end)
            reader.text(), reader.byte()
            found += reader.many(lambda: read_entry(reader))
    return found


def read_entry(reader: Reader) -> Entry:
    code = reader.byte()
    kind = next((name for name, kind in KINDS.items() if kind.code == code), None)
    if kind is None:
        raise Bad(f"the labels have an entry of kind {code}")
    return kind, tuple(reader.number() for _ in KINDS[kind].names)


def number_of(module: Module, what: str, word: str) -> int:
    """The index that a word spells, or that a name has."""
    if word.isascii() and word.isdigit():
        return int(word)
    named = {"function": (module.names, FUNCTION), "global": (module.global_names, GLOBAL),
             "memory": ({}, MEMORY)}
    if what not in named:
        raise Bad(f"no number: {word}")
    names, sort = named[what]
    found = {index for index, name in names.items() if name == word}
    found |= {index for (other, name), index in module.exports.items() if (other, name) == (sort, word)}
    if len(found) != 1:
        raise Bad(f"{'no' if not found else 'more than one'} {what} is called {word}")
    return found.pop()


def counts_of(module: Module, kind: str, numbers: Sequence[int]) -> List[Tuple[int, int]]:
    """Of each number of an entry the least one that it may be, and the one behind the last."""
    first = KINDS[kind].names[0]
    sort, count = {"function": (FUNCTION, len(module.functions)), "global": (GLOBAL, len(module.globals)),
                   "memory": (MEMORY, module.memories)}[first]
    ranges = [(len(module.imported(sort)), count)]
    if first == "function" and numbers[0] < count:
        listed = module.type_of(numbers[0])
        ranges.append((0, len(listed.params if kind == "secret-param" else listed.results)))
    return ranges


def name_of(module: Module, kind: str, number: int) -> str:
    """The name of a function or a global, where it has one; else its number."""
    if KINDS[kind].names[0] == "function" and number < len(module.functions):
        return called(module.function_name(number))
    return called(module.global_names.get(number, str(number)) if KINDS[kind].names == ("global",)
                  else str(number))


def count_text(number: int, what: str) -> str:
    """A number of things, as in: 3 parameters, 1 memory, no global."""
    plural = f"{what[:-1]}ies" if what.endswith("y") else f"{what}s"
    return f"{number or 'no'} {what if number < 2 else plural}"


def check(module: Module, entries: Sequence[Entry]) -> None:
    """Refuses what the program would refuse: what doesn't exist, is imported, or is named twice."""
    seen: Dict[Entry, str] = {}
    for kind, numbers in entries:
        name = name_of(module, kind, numbers[0])
        told = " ".join([kind, name, *map(str, numbers[1:])])
        for what, number, (least, end), owner in zip(KINDS[kind].names, numbers,
                                                     counts_of(module, kind, numbers), ("the module", name)):
            if number >= end:
                raise Bad(f"{told}: {owner} has {count_text(end, what)}"
                          + (" (counted from 0)" if 0 < end == number else ""))
            if number < least:
                raise Bad(f"{told}: {what} {number} is imported; label it in its own module")
        key = ("global" if KINDS[kind].names == ("global",) else kind, numbers)
        if key in seen:
            raise Bad(f"{told}: named before, by {seen[key]}")
        seen[key] = told


def kinds_text() -> str:
    """The kinds, with what stands behind each."""
    *others, last = (" ".join([kind, *(LETTERS[name] for name in one.names)]) for kind, one in KINDS.items())
    return f"the kinds are {', '.join(others)} and {last}"


def entries_in(module: Module, words: Sequence[str]) -> List[Entry]:
    """The entries that words ask for."""
    found: List[Entry] = []
    place = 0
    while place < len(words):
        kind = words[place]
        if kind not in KINDS:
            raise Bad(f"{kind} is no kind of label: {kinds_text()}")
        names = KINDS[kind].names
        given = words[place + 1 : place + 1 + len(names)]
        if len(given) < len(names):
            raise Bad(f"too few words behind {kind}: {kinds_text()}")
        found.append((kind, tuple(number_of(module, what, word) for what, word in zip(names, given))))
        place += 1 + len(names)
    return found


def labelled(module: Module, words: Sequence[str], replace: bool = False) -> bytes:
    """The module with the section that words ask for."""
    if is_labelled(module) and not replace:
        raise Bad("the module has a section blade.labels already: --replace, or --remove it")
    entries = entries_in(module, words)
    check(module, entries)
    return with_labels(module, entries)


def with_labels(module: Module, entries: Sequence[Entry]) -> bytes:
    """The module with a section of these entries, and one that says for which code they were made."""
    return without_labels(module) + section_of(entries) + (sum_section(module) if entries else b"")


def listing(module: Module) -> List[str]:
    """What can be labelled in a module, and what is."""
    entries = entries_of(module)
    told = [f"{kind} {' '.join(map(str, numbers))}" for kind, numbers in entries]
    lines = []
    for index in range(len(module.imported(FUNCTION)), len(module.functions)):
        kind = module.type_of(index)
        lines.append(f"function {index} {module.function_name(index)}: parameters {len(kind.params)}, "
                     f"results {len(kind.results)}")
    for index in range(len(module.imported(GLOBAL)), len(module.globals)):
        lines.append(f"global {index} {module.global_names.get(index, '')}".rstrip())
    lines += [f"memory {index}" for index in range(len(module.imported(MEMORY)), module.memories)]
    lines += ["changed since it was labelled"] * is_changed(module)
    return lines + [f"labelled {one}" for one in told] + ([] if told else ["labelled nothing"])
