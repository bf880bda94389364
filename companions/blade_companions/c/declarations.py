"""What C declares by the macros of blade.h, which stands in the section blade.secrets, turned into entries of
blade.labels. Licence: public domain (CC0)."""
from __future__ import annotations

import difflib
import functools
import os
import re
from dataclasses import dataclass, field
from typing import Dict, FrozenSet, List, NamedTuple, Optional, Sequence, Set, Tuple

from .dwarf import Call, Subprogram, Walk, all_contents, subprograms, variables
from ..formats.labels import KINDS, Entry, check, entries_in, is_labelled, number_of, with_labels
from .opaque import BY_WORDS, Named, of_words
from .paths import shown
from .units import Resolved
from .units import Resolver as ByUnits
from .units import units_of
from ..formats.reading import Bad
from ..formats.module import FUNCTION, GLOBAL, FuncType, Module

NAME = "blade.secrets"
MASK = re.compile(r"blade_secret_mask_(?:32|64)(?:[._]\d+)?")
MOST_LINES, MOST_ERRORS = 4096, 50
# what clang calls the unit in a file that is named by -include: that goes to all units
INCLUDED = "<built-in>"
NOTHING = ("nothing is declared secret: BLADE_SECRET_PARAM or BLADE_SECRET_MEMORY of blade.h, or words; "
           "--unlabelled where that is meant")
DROPPED = " (nothing uses it, so the linker or clang dropped it; export it, or drop the line)"
KEEP = "so keep it by __attribute__((noinline)), or declare the caller's parameter"


@dataclass(frozen=True)
class Declared:
    """What a line of C declares, the line, and the units that have it: a header may stand in several."""

    kind: str
    name: str
    which: str
    where: str
    units: FrozenSet[str] = field(default=frozenset(), compare=False)


class Labelled(NamedTuple):
    """Entries, each with where it was declared; what is wrong with the others; and what is to be known
    besides."""

    entries: List[Tuple[Entry, str]]
    errors: List[str]
    warnings: List[str]
    others: Tuple[str, ...] = ()  # the labelled functions, as lines and words name them
    called: Dict[Entry, str] = {}  # parameters as C calls them


def read_lines(lines: Sequence[str]) -> List[Declared]:
    found: Dict[Tuple[str, ...], Set[str]] = {}
    for line in lines:
        parts = line.split("\t")
        if len(found) > MOST_LINES:
            raise Bad(f"{NAME}: more than {MOST_LINES} lines")
        if len(parts) != 5 or parts[0] not in KINDS:
            raise Bad(f"{NAME}: a line that blade.h doesn't write: {line!r}")
        found.setdefault(tuple(parts[:4]), set()).add(parts[4])
    return [Declared(*parts, frozenset(units)) for parts, units in found.items()]


def declared(module: Module) -> List[Declared]:
    """The lines of the section, each once."""
    return read_lines(b"".join(all_contents(module, NAME)).decode("utf-8", "replace").splitlines())


def lines_in(data: bytes) -> List[str]:
    """The lines that stand in an object."""
    pattern = rb"(?:%s)\t[^\t\n]+\t[^\t\n]+\t[^\t\n]+:\d+\t[^\t\n]+\n" % "|".join(KINDS).encode()
    return [line.decode("utf-8", "replace").rstrip("\n") for line in re.findall(pattern, data)]


def left_out(module: Module, lines: Sequence[str]) -> List[str]:
    """What stands in units that the linker left out and yet speaks of the module: it would be public in
    silence. The lines are those of all units."""
    kept, told, names = set(declared(module)), [], names_of(module)
    for one in read_lines(lines):
        if one in kept:
            continue
        if one.kind == "secret-memory":
            told.append(f"{one.where}: error: the memory is declared secret here, "
                        "in a unit of a library that isn't linked: declare it beside "
                        "a function that is used, or by --label 'secret-memory 0' [blade-label]")
        elif KINDS[one.kind].names[0] == "function" and (names.get(one.name) or not module.names):
            told.append(f"{one.where}: error: {one.name} is labelled here, "
                        "in a unit of a library that isn't linked: have the unit that defines "
                        f"{one.name} include this line [blade-label]")
    return told


def base(name: str) -> str:
    """A function's name without what the linker shows of a C++ function's parameters."""
    return name.partition("(")[0]


def near(word: str, names: Sequence[str]) -> str:
    """Asks whether a name was meant that looks like the word."""
    found = difflib.get_close_matches(word, names, 1)
    return f": do you mean {found[0]}?" if found else ""


def names_of(module: Module) -> Dict[str, Set[int]]:
    """The functions by their names. wasm-opt calls the second of two static functions NAME.1."""
    found: Dict[str, Set[int]] = {}
    for index, told in module.names.items():
        for name in (told, base(told), re.sub(r"\.\d+$", "", told)):
            found.setdefault(name, set()).add(index)
    for (sort, told), index in module.exports.items():
        if sort == FUNCTION:
            found.setdefault(told, set()).add(index)
    return found


def by_name(told: Sequence[Subprogram]) -> Dict[str, List[Subprogram]]:
    found: Dict[str, List[Subprogram]] = {}
    for one in told:
        for name in dict.fromkeys((one.name, one.linkage)):
            found.setdefault(name, []).append(one)
    return found


class Resolver:
    """Finds what declared lines name: functions by DWARF, else by the name section and exports."""

    def __init__(self, module: Module) -> None:
        self.module = module

    @functools.cached_property
    def walked(self) -> Tuple[List[Subprogram], Dict[str, str]]:
        """What DWARF says of functions, and the folders of units."""
        walk = Walk(self.module)
        return walk.run(), walk.folders

    def read(self) -> List[Subprogram]:
        """Reads DWARF, once. A fault in it is one of the module, and not of a line."""
        return self.told

    @property
    def told(self) -> List[Subprogram]:
        return self.walked[0]

    @property
    def folders(self) -> Dict[str, str]:
        return self.walked[1]

    @functools.cached_property
    def names(self) -> Dict[str, Set[int]]:
        return names_of(self.module)

    @functools.cached_property
    def known(self) -> Dict[str, List[Subprogram]]:
        return by_name(self.told)

    def place(self, one: Declared) -> str:
        """Where a line stands: its file was named from the folder that its unit was compiled in."""
        path, _, number = one.where.rpartition(":")
        if os.path.exists(path):
            return f"{shown(path)}:{number}"
        tried = [path] + [os.path.join(self.folders[unit], path) for unit in sorted(one.units)
                          if unit in self.folders]
        return f"{shown(next((it for it in tried if os.path.exists(it)), path))}:{number}"

    def function(self, name: str, where: str) -> Tuple[int, List[Subprogram]]:
        """The function, and what DWARF says of those of its name."""
        if name.isdigit():
            return int(name), []
        known = self.known.get(name, [])
        found = {one.function for one in known if one.function is not None} | self.names.get(name, set())
        if len(found) > 1:
            # Static ones of several files: that of the file that the line stands in.
            file = "/" + where.rpartition(":")[0]
            here = {one.function for one in known if one.function in found
                    and ("/" + one.path).endswith(file)}
            found = here if len(here) == 1 else found
        if len(found) == 1:
            return found.pop(), known
        raise Bad(self.why_none(name, known, found))

    def why_none(self, name: str, known: Sequence[Subprogram], found: Set[int]) -> str:
        """Why a name isn't that of one function."""
        if found:
            places = ", ".join(f"{one.path}:{one.line}" for one in known if one.function in found)
            where = f" ({places})" if places else ""
            return f"{len(found)} functions are called {name}{where}: give one of them another name"
        at = next((one.inlined[0] for one in known if one.inlined), None)
        if at:
            return (f"{name} isn't in the module: clang inlined it, "
                    f"for one at {at.path}:{at.line} in {at.caller}, {KEEP}")
        if known:
            return f"{name} isn't in the module: nothing uses it. Export it, or drop the line"
        if name in variables(self.module):
            return (f"{name} is a variable of C, which stands in memory: "
                    "BLADE_SECRET_MEMORY declares all of that")
        asked = near(name, [base(told) for told in self.module.names.values()])
        return f"there is no function {name}{asked or DROPPED}"

    def parameter(self, function: int, one: Optional[Subprogram], word: str) -> int:
        """The number of a parameter that C calls so."""
        if word.isdigit():
            return int(word)
        name, count = self.module.function_name(function), len(self.module.type_of(function).params)
        if one is None or not one.params and count:
            raise Bad(f"parameter {word} of {name}: the module doesn't say how parameters are called; "
                      "compile with -g, or give its number")
        names = [told.name for told in one.params]
        if names.count(word) != 1:
            raise Bad(f"{name} has no parameter "
                      f"{word}{near(word, names) or ', but ' + (', '.join(names) or 'none')}")
        at, told = names.index(word), one.params[names.index(word)]
        local = told.local if told.local is not None and told.local < count else None
        if told.is_pointer:
            number = at if len(names) == count else "from 0"
            raise Bad(f"{word} of {name} is a pointer: this would declare the address secret, "
                      "not what stands there. For that: BLADE_SECRET_MEMORY "
                      f"(or give the number, {number}, where the address itself is secret)")
        if told.is_struct and local is None:
            # One of a single number is handed over as that.
            raise Bad(f"{word} of {name} is a struct by value, of which the module gets the address or "
                      "a part: give its members as parameters, "
                      "or declare the memory by BLADE_SECRET_MEMORY")
        return self.by_place(one, at, local, count)

    def by_place(self, one: Subprogram, at: int, local: Optional[int], count: int) -> int:
        """Which parameter of the module the one at a place in C is: by its local, else by order, where that
        can be told."""
        if len(one.params) == count and local in (None, at):
            return at
        if local is not None and len(one.params) != count:
            return local
        gives_none = not self.module.type_of(one.function).results
        if local is None and one.gives_struct and len(one.params) + 1 == count and gives_none:
            # Behind the address of the result.
            return at + 1
        raise Bad(f"which parameter of the module {one.params[at].name} of {one.name} is can't be told "
                  f"({len(one.params)} in C, {count} in the module: "
                  "a struct by value, or one that clang took apart): give its number")

    def has_line(self, defined: Subprogram, one: Declared) -> bool:
        """Whether the unit that defines a function has a line. clang may call the unit by a whole path where
        it was given a part."""
        folder = self.folders.get(defined.unit, "")
        units = {os.path.normpath(os.path.join(folder, unit)) for unit in one.units}
        return INCLUDED in one.units or os.path.normpath(defined.path) in units

    def entry(self, one: Declared) -> Entry:
        if KINDS[one.kind].names[0] != "function":
            return one.kind, (number_of(self.module, KINDS[one.kind].names[0], one.name),)
        function, known = self.function(one.name, one.where)
        defined = next((it for it in known if it.function == function), None)
        if defined is None:
            raise Bad(f"{self.module.function_name(function)} has no DWARF, "
                      "so nobody can tell whether the unit that defines it has this line: compile with -g")
        if not self.has_line(defined, one):
            raise Bad(f"{one.name} is defined in {defined.unit}, which doesn't have this line, "
                      "so it may be inlined there, where nothing is declared: "
                      "have that unit include it (-include FILE.h does without a change)")
        calls = copies(known, function)
        if one.kind == "secret-param" and calls:
            raise Bad(f"{one.name} is inlined at {calls[0].path}:{calls[0].line}, "
                      f"and what it is given there isn't declared secret, {KEEP}")
        is_param = one.kind == "secret-param"
        return one.kind, (function,
                          self.parameter(function, defined, one.which) if is_param else int(one.which))


def copies(told: Sequence[Subprogram], function: int) -> List[Call]:
    """Where a function was inlined, as far as DWARF shows it: of a copy of which no instruction is left it
    says nothing."""
    return list(dict.fromkeys(call for it in told if it.function == function for call in it.inlined))


def of_source(module: Module, answered: Set[Named]) -> Labelled:
    """What the source declares, but for what is answered already."""
    lines = [one for one in declared(module) if named_by(one) not in answered]
    found: List[Tuple[Entry, str]] = []
    errors: List[str] = []
    resolver = Resolver(module) if lines else None
    if any(KINDS[one.kind].names[0] == "function" for one in lines):
        resolver.read()
    seen: Set[Entry] = set()
    for one in lines:
        try:
            entry = resolver.entry(one)
            if entry not in seen:
                check(module, [entry])
                seen.add(entry)
                found.append((entry, resolver.place(one)))
        except Bad as bad:
            errors.append(f"{resolver.place(one)}: error: {bad} [blade-label]")
        if len(errors) > MOST_ERRORS:
            break
    check(module, [entry for entry, _ in found])
    return Labelled(found, errors, [],
                    tuple(one.name for one in lines if KINDS[one.kind].names[0] == "function"))


def masks_of(module: Module) -> List[Entry]:
    """The masks of BLADE_SECRET: globals whose first values are secret."""
    imported = len(module.imported(GLOBAL))
    return [("secret-global", (index,)) for index, name in sorted(module.global_names.items())
            if MASK.fullmatch(name) and index >= imported]


def named_by(one: Declared) -> Named:
    return Named(one.kind, one.name, one.which, one.where)


def numbered(module: Module, words: Sequence[str]) -> List[str]:
    """Words with the numbers of parameters in place of their names in C."""
    made, resolver = list(words), None
    for at in range(len(made) - 2):
        if made[at] == "secret-param" and not made[at + 2].isdigit():
            resolver = resolver or Resolver(module)
            function = number_of(module, "function", made[at + 1])
            defined = next((one for one in resolver.told if one.function == function), None)
            made[at + 2] = str(resolver.parameter(function, defined, made[at + 2]))
    return made


def without(words: Sequence[str], answered: Set[Named]) -> List[str]:
    """The words but for those of functions that are answered already."""
    return [word for label in split(words) if len(label) != 3 or Named(*label, BY_WORDS) not in answered
            for word in label]


def joined(words: Sequence[str], more: Sequence[str]) -> List[str]:
    """Words, and those of further labels that they don't have."""
    labels = [tuple(one) for one in split(words)]
    return [word for label in dict.fromkeys([*labels, *map(tuple, split(more))]) for word in label]


def split(words: Sequence[str]) -> List[List[str]]:
    """The words of each label."""
    found, at = [], 0
    while at < len(words):
        size = 1 + len(KINDS[words[at]].names) if words[at] in KINDS else 1
        found.append(list(words[at : at + size]))
        at += size
    return found


def types_of(module: Module) -> List[FuncType]:
    return [module.type_of(function) for function in range(len(module.functions))]


def labels_of(module: Module, words: Sequence[str] = (), linked: Optional[Module] = None) -> Labelled:
    """What the source declares, and what words declare besides. The units of the linked module know more than
    the module that is made of it."""
    known = ByUnits(linked, words).found if linked else Resolved()
    if linked and types_of(linked) != types_of(module):
        raise Bad(f"{module.name}: wasm-opt has changed which functions there are")
    source = of_source(module, known.answered)
    errors, others = source.errors, source.others
    rest = joined(without(words, known.answered), known.words)
    masks = [(entry, "") for entry in masks_of(module)]
    if known.marked and not masks:
        errors.append(f"blade-cc: error: {shown(known.marked[0])} uses BLADE_SECRET, "
                      "and the module doesn't have its masks by name: link without -s, and drop "
                      "what nothing uses [blade-label]")
    by_source = known.entries + masks + [one for one in source.entries
                                         if one[0] not in [entry for entry, _ in known.entries]]
    declared_before = [entry for entry, _ in by_source]
    by_words = [entry for entry in entries_in(module, numbered(module, rest)) if entry not in declared_before]
    check(module, declared_before + by_words)
    params = [numbers[0] for kind, numbers in by_words if kind == "secret-param"]
    told = subprograms(module) if params else []
    for function in dict.fromkeys(params):
        name = module.function_name(function)
        errors += [f"{call.path}:{call.line}:{call.column}: error: {name} is inlined here, in {call.caller}, "
                   f"and what it is given isn't declared secret, {KEEP} "
                   "[blade-inlined]" for call in copies(told, function)]
    others += tuple(named.name for named in [*of_words(rest), *known.answered])
    errors += other_names(linked, by_words) if linked else []
    return Labelled(by_source + [(entry, "") for entry in by_words], known.errors + errors, [], others,
                    known.called)


def other_names(linked: Module, entries: Sequence[Entry]) -> List[str]:
    """Words that name a function of a unit otherwise than the unit does: it was compiled without the
    label."""
    named = {name for unit in units_of(linked) for one in unit.has for name in (one.symbol, one.name)}
    found = []
    for kind, (function, *_) in entries:
        told = linked.names.get(function, "") if KINDS[kind].names[0] == "function" else ""
        called = {told, base(told), base(told).rpartition("::")[2], *called_as(linked, function)}
        names = called if told else set()
        if names & named:
            found.append(f"blade-cc: error: {kind}: the unit that defines {told} was compiled without this "
                         "label: give its name in C, "
                         f"{min(names & named)}, to blade-cc -c, too [blade-label]")
    return found


def called_as(module: Module, function: int) -> List[str]:
    return [name for (sort, name), index in module.exports.items() if (sort, index) == (FUNCTION, function)]


def with_source(module: Module, words: Sequence[str], replace: bool = False, unlabelled: bool = False,
                linked: Optional[Module] = None) -> Tuple[bytes, Labelled]:
    """The module with the labels of its source and of words, which stand where nothing is wrong."""
    if is_labelled(module) and not replace:
        raise Bad("the module has a section blade.labels already: --replace, or --remove it")
    found = labels_of(module, words, linked)
    if not found.entries and not found.errors and not unlabelled:
        raise Bad(NOTHING)
    return with_labels(module, [entry for entry, _ in found.entries]), found
