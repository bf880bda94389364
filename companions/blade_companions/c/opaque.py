"""Labelled functions that the compiler doesn't look through, and a record of each unit in the section
blade.units: what it defines, which labels it knows, where the labelled functions stand in the code.
Licence: public domain (CC0)."""
from __future__ import annotations

import os
import re
from typing import Dict, Iterable, List, NamedTuple, Optional, Sequence, Set, Tuple

from ..formats.labels import KINDS, count_text
from ..formats.reading import Bad
from .assumptions import without_assumptions
from .ir import INLINE_LINKAGE, Defined, Param, Text, is_symbol_of, mentions, size_inside, size_of

NAME = "blade.units"
MARK = "@blade_secret_mask_"  # what BLADE_SECRET reads
BY_WORDS = "--label"  # where the labels of words stand
RETURN = re.compile(r'(\s+)ret (.+) (%[-\w.$"]+|-?\d+|true|false|null|undef|poison|@\S+?)((?:, !.*)?)$')
# functions of these sorts may go from the object
REACHED = frozenset(["linkonce", "linkonce_odr", "available_externally"])


class Named(NamedTuple):
    """A label of a function as a macro or words give it: kind, function, parameter or result, and where it
    stands."""

    kind: str
    name: str
    which: str
    where: str


class Label(NamedTuple):
    """A label whose function the unit defines."""

    named: Named
    function: Defined
    number: str  # of the parameter in the module, or why there is none
    name: str  # of the parameter in C


def of_words(words: Sequence[str]) -> List[Named]:
    """The labels of functions that words give."""
    found, at = [], 0
    while at < len(words):
        names = KINDS[words[at]].names if words[at] in KINDS else ()
        if names[:1] == ("function",) and at + 2 < len(words):
            found.append(Named(words[at], words[at + 1], words[at + 2], BY_WORDS))
        at += 1 + len(names)
    return found


def beside(words: Sequence[str]) -> List[str]:
    """The words that label something else than functions."""
    found, at = [], 0
    while at < len(words):
        size = 1 + len(KINDS[words[at]].names) if words[at] in KINDS else 1
        found += (words[at : at + size] if words[at] not in KINDS or KINDS[words[at]].names[0] != "function"
                  else [])
        at += size
    return found


def of_line(line: str) -> Optional[Named]:
    """The label of a macro's line, where it speaks of a function."""
    parts = line.split("\t")
    if len(parts) != 5 or parts[0] not in KINDS:
        raise Bad("blade.secrets: a line that blade.h doesn't write: "
                  f"{line!r} (rename a file whose path has a tab, a line's end or a backslash)")
    return Named(*parts[:4]) if KINDS[parts[0]].names[0] == "function" else None


class Unit:
    """A unit's text with its labels."""

    def __init__(self, text: str, path: str, words: Sequence[str]) -> None:
        self.text, self.path, self.others = Text(text), path, beside(words)
        self.folder = os.getcwd()  # from which files are named
        told = list(dict.fromkeys(self.text.secrets()))
        lines = [named for named in map(of_line, told) if named]
        self.others += [word for line in told if of_line(line) is None for word in line.split("\t")[:2]]
        self.known = lines + of_words(words)
        for _, line in self.text.annotated():
            if line not in told:
                raise Bad(f"what blade.h writes for {line.split(chr(9))[1]} isn't in the unit's text: "
                          "is __asm__ a macro?")
        self.labels = [label for named in self.known for label in self.found(named)]
        self.functions = {label.function.symbol: label.function for label in self.labels}
        self.has_marks = any(MARK in line for one in self.text.defined
                             for line in self.text.lines[one.start : one.end])

    def found(self, named: Named) -> List[Label]:
        """The label at each function that it names here: for a macro the one that clang has noted, for words
        each one of that name."""
        if named.where == BY_WORDS:
            symbols = {one.symbol for one in self.text.defined if named.name in (one.symbol, one.name)}
        else:
            symbols = {symbol for symbol, line in self.text.annotated() if of_line(line) == named}
        return [Label(named, one, *number_of(one, named)) for one in self.text.defined
                if one.symbol in symbols]


def asked_name(one: Defined, which: str) -> str:
    """The name in C of the parameter that a label names."""
    if not which.isdigit():
        return which
    if int(which) not in one.numbered:
        count = len(one.numbered)
        raise Bad(f"secret-param {one.name} {which}: {one.name} has {count_text(count, 'parameter')} in C "
                  "(counted from 0)" if count else
                  f"parameter {which} of {one.name} can't be told: compile with -g, or give its name")
    if list(one.numbered.values()).count(one.numbered[int(which)]) > 1:
        raise Bad(f"several parameters of {one.name} are called {one.numbered[int(which)]}: "
                  "declare a caller's parameter")
    return one.numbered[int(which)]


def number_of(one: Defined, named: Named) -> Tuple[str, str]:
    """The number in the module of what a label names, or else ! and why there is none; and what C calls
    it."""
    if named.kind != "secret-param":
        return named.which if named.which.isdigit() else "!a result has a number", ""
    try:
        name = asked_name(one, named.which)
        return str(place_of(one, name, named.which)), name
    except Bad as bad:
        return f"!{bad}", ""


def place_of(one: Defined, name: str, which: str) -> int:
    found = [at for at, param in enumerate(one.params) if param.name in (name, f"{name}.coerce")]
    if not found:
        raise Bad(why_none(one, name))
    param = one.params[found[0]]
    if param.is_struct:
        raise Bad(f"{name} of {one.name} is a struct by value, of which the module gets the address or "
                  "a part: give its members as parameters, "
                  "or declare the memory by BLADE_SECRET_MEMORY")
    sizes = [hidden_result(one), *(other.size for other in one.params[: found[0]])]
    if None in sizes or param.size != 1:
        raise Bad(f"{name} of {one.name} isn't one parameter of the module{' alone' * (None in sizes)} "
                  f"({param.kind}): give it in parts of 64 bits or less")
    if param.is_pointer and not which.isdigit():
        raise Bad(f"{name} of {one.name} is a pointer: this would declare the address secret, "
                  "not what stands there. For that: BLADE_SECRET_MEMORY "
                  f"(or give the number, {number_in_c(one, name)}, where the address itself is secret)")
    return sum(size or 0 for size in sizes)


def number_in_c(one: Defined, name: str) -> str:
    return next((str(number) for number, told in one.numbered.items() if told == name), "from 0")


def why_none(one: Defined, name: str) -> str:
    from .declarations import near
    names = list(one.numbered.values()) or [param.name.partition(".")[0] for param in one.params
                                            if not param.name.isdigit()]
    if name in names:
        return (f"{name} of {one.name} is a struct by value or nothing at all in the module: "
                "give its members as parameters, or declare the memory by "
                "BLADE_SECRET_MEMORY")
    return f"{one.name} has no parameter {name}{near(name, names) or ', but ' + (', '.join(names) or 'none')}"


def hidden_result(one: Defined) -> Optional[int]:
    """How many parameters stand in front for a result that doesn't fit; None where that isn't known."""
    size = 0 if one.result == "void" else size_inside(one.result)
    return size and min(size, 2) - 1


def count_of(one: Defined) -> str:
    """How many parameters the function has in the module, where that is known."""
    sizes = [hidden_result(one), *(param.size for param in one.params)]
    return "?" if None in sizes else str(sum(size or 0 for size in sizes))


class Opaque:
    """Writes a unit's text in which nothing looks through its labelled functions."""

    def __init__(self, unit: Unit, is_linked_later: bool, is_strict: bool) -> None:
        self.unit, self.text, self.lines = unit, unit.text, list(unit.text.lines)
        self.is_strict = is_strict or unit.has_marks  # whether the compiler may assume nothing
        counts: Dict[str, int] = {}
        for one in mentions([line for line in self.lines
                             if not line.startswith(("define ", "@llvm.global.annotations "))]):
            counts[one] = counts.get(one, 0) + 1
        for one in unit.functions.values():
            self.keep(one)
            if is_linked_later and one.is_local:
                raise Bad(f"{one.name} is static, and with -flto another unit's function of that name may "
                          "get its label: drop static, or -flto")
            if is_linked_later or counts.get(one.symbol):
                self.hide(one)
        self.forbid_builtins()
        self.use([one for one in unit.functions.values() if one.is_local or one.linkage == "linkonce_odr"])

    def groups(self, line: str) -> str:
        """The attributes of the groups that a line names."""
        wanted = re.findall(r"#\d+", line)
        return " ".join(one for one in self.lines if one.startswith("attributes ")
                        and one.split()[1] in wanted)

    def keep(self, one: Defined) -> None:
        """Keeps a function from being inlined."""
        for line in [self.lines[one.start]] + [line for line in self.text.lines if " call " in line
                                               and one.symbol in mentions([line])]:
            if "alwaysinline" in self.groups(line):
                raise Bad(f"{one.name} is labelled, and yet it is to be inlined (always_inline, "
                          "or flatten at a caller): drop that, or declare the caller's "
                          "parameter")
        head = self.lines[one.start]
        with_group = re.sub(r" (#\d+)(?=[^()]*\{$)", r" noinline \1", head)
        self.lines[one.start] = with_group if with_group != head else head[: head.rindex("{")] + "noinline {"

    def hide(self, one: Defined) -> None:
        """Hides what a function does with its parameters, and what it gives back, and keeps LLVM from copies
        of it for some arguments."""
        self.lines[one.start] = self.lines[one.start].replace(" noinline ", " noinline noduplicate ", 1)
        wanted = [label.number for label in self.unit.labels if label.function is one
                  and label.named.kind == "secret-param"]
        body = self.lines[one.start + 1 : one.end]
        body = [hidden_return(line, at) for at, line in enumerate(body)]
        if body and re.match(r'("[^"]*"|[-\w.$]+):', body[0]):
            first, body = body[:1], body[1:]
        else:
            first = []
        uses = [use for at, param in enumerate(one.params) for use in hidden_use(param, at) if wanted
                and param.size == 1]
        self.lines[one.start + 1 : one.end] = (["\n".join(first + uses + body)]
                                               + [""] * (one.end - one.start - 2))

    def forbid_builtins(self) -> None:
        """Nothing that LLVM knows by name holds for a function that is labelled."""
        names = sorted({named.name for named in self.unit.known} | set(self.unit.functions))
        told = "".join(f' "no-builtin-{name}"' for name in names if re.fullmatch(r"[A-Za-z_]\w*", name))
        for at, line in enumerate(self.lines):
            if line.startswith("attributes #") and told:
                self.lines[at] = line[: line.rindex("}")].rstrip() + told + " }"

    def use(self, functions: Iterable[Defined]) -> None:
        """Has functions of this unit alone used by what LLVM doesn't know, so that they keep their
        parameters."""
        told = [self.pointer(one) for one in functions]
        if not told:
            return
        kind = "ptr" if self.text.has_plain_pointers else "i8*"
        at = next((at for at, line in enumerate(self.lines) if line.startswith("@llvm.compiler.used ")), None)
        if at is not None:
            old = self.lines[at]
            told += re.split(r",\s*(?=%s )" % re.escape(kind), old[old.index("] [") + 3 : old.rindex("]")])
            self.lines[at] = ""
        self.lines.append(f'@llvm.compiler.used = appending global [{len(told)} x {kind}] '
                          f'[{", ".join(told)}], section "llvm.metadata"')

    def pointer(self, one: Defined) -> str:
        symbol = re.search(r'@(?:"[^"]*"|[-\w.$]+)', self.lines[one.start])[0]
        if self.text.has_plain_pointers:
            return f"ptr {symbol}"
        kinds = ", ".join(param.kind for param in one.params)
        return f"i8* bitcast ({one.result} ({kinds})* {symbol} to i8*)"

    def written(self) -> str:
        lines = [line for part in self.lines for line in part.split("\n")]
        lines = without_assumptions(lines, self.text.has_plain_pointers) if self.is_strict else lines
        return "\n".join(lines + record(self.unit, self.is_strict)) + "\n"


def hidden_use(param: Param, at: int) -> List[str]:
    """A use of a parameter that LLVM knows nothing of."""
    name = param.text.split(" ")[-1]
    if param.kind == "i1":
        return [f"  %blade.bit{at} = zext i1 {name} to i32",
                f'  call void asm sideeffect "", "r"(i32 %blade.bit{at})']
    if param.kind in ("float", "double", "..."):
        return []
    return [f'  call void asm sideeffect "", "r"({param.kind} {name})']


def hidden_return(line: str, at: int) -> str:
    """A return whose value LLVM knows nothing of."""
    found = RETURN.match(line)
    if not found or size_of(found[2]) != 1 or found[2] in ("float", "double"):
        return line
    space, kind, value, place = found.groups()
    if kind != "i1":
        return (f'{space}%blade.given{at} = call {kind} asm "", "=r,0"({kind} {value}){place}\n'
                f"{space}ret {kind} %blade.given{at}{place}")
    return (f"{space}%blade.wide{at} = zext i1 {value} to i32\n"
            f'{space}%blade.same{at} = call i32 asm "", "=r,0"(i32 %blade.wide{at}){place}\n'
            f"{space}%blade.given{at} = trunc i32 %blade.same{at} to i1\n"
            f"{space}ret i1 %blade.given{at}{place}")


def spelled(data: bytes) -> str:
    """Bytes in an assembler's text, and that in LLVM's."""
    return "".join(chr(byte) if chr(byte).isalnum() and byte < 128 or chr(byte) in " ._-+:/()!,<>[]{}*&=;#@~$"
                   else f"\\5C{byte:03o}" for byte in data)


def row(*parts: str) -> str:
    """A row of the record, with nothing in its parts that would end one."""
    told = "\t".join(part.encode("unicode_escape").decode() if "\t" in part or "\n" in part else part
                     for part in parts)
    return f'module asm ".ascii \\22{spelled((told + chr(10)).encode("utf-8", "surrogateescape"))}\\22"'


def place_in_code(symbol: str) -> str:
    return f'module asm ".int32 \\22{spelled(symbol.encode("utf-8", "surrogateescape"))}\\22"'


def record(unit: Unit, is_strict: bool) -> List[str]:
    """The unit's part of the section."""
    lines = [f'module asm ".section .custom_section.{NAME},\\22\\22,@"', row("unit", unit.path, unit.folder)]
    lines += [row("sees", *named) for named in unit.known] + [row("words", *unit.others)] * bool(unit.others)
    lines += [row("marks")] * unit.has_marks
    lines += [row("strict")] * is_strict
    for one in unit.text.defined:
        sort = "local" if one.is_local else "inline" if one.linkage in INLINE_LINKAGE else "one"
        lines.append(row("has", one.symbol, one.name, one.place, sort, "kept" if one.symbol in unit.functions
                         else "plain"))
    for label in unit.labels:
        if label.function.linkage != "available_externally":
            sort = "local" if label.function.is_local else "one"
            lines += [row("label", *label.named, label.function.symbol, sort, label.number,
                          count_of(label.function), label.name), place_in_code(label.function.symbol)]
    for symbol, callers in sorted(calls(unit).items()):
        lines += [line for caller in callers for line in (row("calls", symbol), place_in_code(caller))]
    return lines + ['module asm ".text"']


def calls(unit: Unit) -> Dict[str, List[str]]:
    """Of each labelled function that the unit names, the functions for others whose code leads to it, as the
    source has it."""
    named: Dict[str, Set[str]] = {}
    for one in unit.text.defined:
        for symbol in mentions(unit.text.lines[one.start + 1 : one.end]):
            named.setdefault(symbol, set()).add(one.symbol)
    local = {one.symbol for one in unit.text.defined if one.is_local or one.linkage in REACHED}
    names = {known.name.rpartition("::")[2] for known in unit.known}
    wanted = [symbol for symbol in named if symbol in unit.functions
              or any(is_symbol_of(symbol, name) for name in names)]
    return {symbol: sorted(leading(symbol, named, local)) for symbol in wanted}


def leading(symbol: str, named: Dict[str, Set[str]], local: Set[str]) -> Set[str]:
    found, seen, work = set(), {symbol}, [symbol]
    for one in work:
        for caller in named.get(one, ()):
            if caller not in seen:
                seen.add(caller)
                if caller in local:
                    work.append(caller)
                else:
                    found.add(caller)
    return found - {symbol}


def opaque(text: str, path: str, words: Sequence[str], is_linked_later: bool, is_strict: bool = False) -> str:
    """LLVM's text of a unit with all that labels need."""
    return Opaque(Unit(text, path, words), is_linked_later, is_strict).written()
