"""Code in a linked module that blade-cc didn't compile, or in which clang may compute a labelled function by
itself: nothing there keeps the label. Licence: public domain (CC0)."""
from __future__ import annotations

import re
from typing import Iterator, List, Optional, Sequence, Set, Tuple

from ..formats.labels import KINDS
from ..formats.module import Module, sections_of
from ..formats.reading import Reader
from .declarations import MASK, lines_in, split
from .inputs import Input
from .ir import DEFINED, asm_text, is_symbol_of, plain, secrets_in, unescaped
from .objects import plain_functions
from .opaque import NAME
from .paths import shown
from .units import Unit, units_in, units_of

HAS = re.compile(r'\s*\.ascii "(has\\.*)"$')
MARK = b"blade_secret_mask_"
# Functions whose calls LLVM computes or replaces, beside those that clang knows itself.
REPLACED = frozenset(
    "abs labs llabs ffs ffsl ffsll isascii isdigit toascii atoi atol atoll strlen strnlen strcmp strncmp "
    "strcpy strncpy stpcpy stpncpy strcat strncat strchr "
    "strrchr strstr strspn strcspn strpbrk strtol strtoll strtoul strtoull memcmp bcmp bcopy bzero memchr "
    "memrchr memcpy memmove memset mempcpy memccpy wcslen "
    "putchar puts printf fprintf sprintf snprintf malloc calloc realloc free".split())


def units_within(one: Input) -> List[Unit]:
    """The record in an object."""
    parts = []
    for section in sections_of(one.data):
        if section.number == 0 and section.name == NAME:
            reader = Reader(one.data, section.contents, section.end)
            reader.text()
            parts.append(one.data[reader.place : section.end])
    return units_in(parts)


def recorded_in(lines: Sequence[str]) -> Set[str]:
    """The same in LLVM's text."""
    told = [HAS.match(unescaped(line[len('module asm "') : -1])) for line in lines
            if line.startswith("module asm ")]
    return {asm_text(one[1]).split("\t")[1] for one in told if one}


def strange(one: Input, text: str) -> Tuple[List[str], bool]:
    """The functions of an input that blade-cc didn't compile; and whether it compiled others of it."""
    if text:
        lines = text.split("\n")
        known = recorded_in(lines)
        names = [plain(found[2]) for found in map(DEFINED.match, lines) if found]
        unknown = [name for name in names if name not in known and name.partition(".")[0] not in known]
        return unknown, bool(known)
    known = {has.symbol for unit in units_within(one) for has in unit.has} if one.is_object else set()
    return plain_functions(one, known) if one.is_object else [], bool(known)


def declares(one: Input, text: str) -> Set[str]:
    """The functions that an input declares by macros."""
    lines = secrets_in(text.split("\n")) if text else lines_in(one.data)
    return {line.split("\t")[1] for line in lines if KINDS[line.split("\t")[0]].names[0] == "function"}


def why(one: Input, text: str, names: Sequence[str], known: Sequence[str]) -> Optional[Tuple[str, str]]:
    """A labelled function of which an input may have a copy, and in what."""
    functions, is_mixed = strange(one, text)
    told = set() if is_mixed else declares(one, text)
    is_member = one.path.endswith(")")
    for name in names:
        more = [other for other in functions if not is_symbol_of(other, name)]
        has = any(is_symbol_of(other, name) for other in functions)
        if more and (has or name in told or name in known and not is_member):
            return name, more[0]
    return None


def of_inputs(linked: Module, inputs: Sequence[Tuple[Input, str]], names: Sequence[str],
              known: Sequence[str]) -> List[str]:
    """What is wrong, given the labelled functions and those of them that clang has code of its own for."""
    known = sorted({*known, *(REPLACED & set(names))})
    opened = [one for one, _ in inputs]
    return [*copies(inputs, names, known), *unseen(linked, known), *unmarked(linked, opened),
            *assumed(linked, opened)]


def copies(inputs: Sequence[Tuple[Input, str]], names: Sequence[str], known: Sequence[str]) -> Iterator[str]:
    for one, text in inputs:
        found = why(one, text, names, known)
        if found:
            yield (f"blade-cc: error: blade-cc didn't compile {shown(one.path)}, so a copy of {found[0]}, "
                   f"which is labelled, may stand in {found[1]}, where "
                   "nothing is declared: compile it by blade-cc -c, "
                   f"or say --public-callers={found[0]} if there is none [blade-caller]")


def unseen(linked: Module, known: Sequence[str]) -> Iterator[str]:
    """Units that may call what clang computes by itself where it doesn't know of a label."""
    for unit in units_of(linked):
        for name in known:
            if name not in {named.name for named in unit.sees}:
                yield (f"blade-cc: error: clang computes calls of {name} by itself, "
                       f"and {shown(unit.path)} is compiled without the label of {name}: give it "
                       "the line (-include FILE.h does without a change), call the function otherwise, "
                       f"or say --public-callers={name} [blade-label]")


def left_out_words(linked: Module, inputs: Sequence[Input], words: Sequence[str]) -> List[str]:
    """Labels of memories that words gave to units of libraries that aren't linked."""
    known = {" ".join(one) for told in [words, *(unit.words for unit in units_of(linked))]
             for one in split(told)}
    return [f"blade-cc: error: {shown(unit.path)} was compiled with --label {' '.join(label)!r}, "
            "and isn't linked: give the label to this call, too [blade-label]"
            for one in inputs if one.is_object for unit in units_within(one) for label in split(unit.words)
            if " ".join(label) not in known]


def unmarked(linked: Module, inputs: Sequence[Input]) -> Iterator[str]:
    if not any(MASK.fullmatch(name) for name in linked.global_names.values()):
        for one in inputs:
            if MARK in one.data and not one.path.endswith(")"):
                yield (f"blade-cc: error: {shown(one.path)} uses BLADE_SECRET, "
                       "and the module doesn't have its masks by name: link without -s, and drop "
                       "what nothing uses [blade-label]")


def assumed(linked: Module, inputs: Sequence[Input]) -> Iterator[str]:
    """Code beside marked values that lets the compiler take one for the unmarked value."""
    units = units_of(linked)
    marked = next((unit.path for unit in units if unit.has_marks), "")
    for one in inputs:
        is_known = one.is_object and any(unit.has_marks for unit in units_within(one))
        if MARK in one.data and not is_known:
            yield (f"blade-cc: error: blade-cc didn't compile {shown(one.path)}, which uses BLADE_SECRET, "
                   "so the compiler may have taken marked values for others: compile it by blade-cc -c "
                   "[blade-label]")
    for unit in units if marked else ():
        if not unit.is_strict:
            yield (f"blade-cc: error: {shown(marked)} uses BLADE_SECRET, and {shown(unit.path)} was compiled "
                   "with what clang assumes of C (no null pointer is used, __builtin_unreachable, ..), by "
                   "which it may take a marked value for the unmarked one: give --no-assumptions to "
                   "blade-cc -c there, too [blade-label]")
