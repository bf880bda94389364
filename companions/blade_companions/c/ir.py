"""LLVM's text of a unit before any optimisation: the functions that it defines, their parameters in C and in
the module, the lines of blade.h in it. Licence: public domain (CC0)."""
from __future__ import annotations

import os
import re
from dataclasses import dataclass, field
from typing import Dict, Iterator, List, NamedTuple, Optional, Sequence, Tuple

from ..formats.labels import KINDS
from ..formats.reading import Bad

SYMBOL = r'@(?:"[^"]*"|[-\w.$]+)'
DEFINED = re.compile(rf"define (.*?)({SYMBOL})\(")
MENTION = re.compile(SYMBOL)
PROMOTED = re.compile(r'\s+%([-\w.$]+) = trunc i32 %(\d+) to i(?:8|16)\b')
NODE = re.compile(r"(!\d+) = (?:distinct )?!(DISubprogram|DILocalVariable|DIFile)\((.*)\)$")
LOCAL_LINKAGE = frozenset(["internal", "private"])
INLINE_LINKAGE = frozenset(["linkonce", "linkonce_odr", "available_externally", "weak_odr"])
ONE_NUMBER = frozenset(["float", "double"])
OPENING, CLOSING = "([{<", ")]}>"


class Param(NamedTuple):
    """A parameter in LLVM's text: its name, how many of the module it is (None where that isn't known), and
    its whole text."""

    name: str
    size: Optional[int]
    text: str

    @property
    def kind(self) -> str:
        return first_type(self.text)

    @property
    def is_pointer(self) -> bool:
        return is_pointer(self.kind)

    @property
    def is_struct(self) -> bool:
        return "byval(" in self.text


@dataclass
class Defined:
    """A function that the unit defines: its symbol, its lines of the text, what it is called in C, and where
    it stands there."""

    symbol: str
    start: int
    end: int
    linkage: str
    result: str
    params: List[Param]
    name: str
    place: str = ""
    # the names of C's parameters by their numbers, from 0
    numbered: Dict[int, str] = field(default_factory=dict)

    @property
    def is_local(self) -> bool:
        return self.linkage in LOCAL_LINKAGE


def unescaped(text: str) -> str:
    """What LLVM spells by \\XX, and by two backslashes."""
    raw = re.sub(rb"\\(\\|[0-9A-Fa-f]{2})", lambda found: b"\\" if found[1] == b"\\"
                 else bytes([int(found[1], 16)]), text.encode("utf-8", "surrogateescape"))
    return raw.decode("utf-8", "surrogateescape")


def plain(symbol: str) -> str:
    """A symbol's name, without LLVM's sign and quotes."""
    return unescaped(symbol[1:].strip('"'))


def is_symbol_of(symbol: str, name: str) -> bool:
    """Whether a symbol may be that of a function, by its name in C or C++."""
    return (symbol == name or symbol.partition(".")[0] == name or symbol.startswith("_Z")
            and f"{len(name)}{name}" in symbol)


def first_type(text: str) -> str:
    """The type that a parameter's or a result's text begins with."""
    depth = 0
    for at, letter in enumerate(text):
        depth += (letter in OPENING) - (letter in CLOSING)
        if letter == " " and not depth and not text[at + 1 :].startswith(("(", "addrspace")):
            return text[:at]
    return text


def is_pointer(kind: str) -> bool:
    return kind.endswith("*") or kind.split(" ")[0] == "ptr"


def size_of(kind: str) -> Optional[int]:
    """How many parameters of the module a type becomes, where that is known."""
    bits = re.fullmatch(r"i(\d+)", kind)
    if bits:
        return -(-int(bits[1]) // 64) if int(bits[1]) <= 128 else None
    return 1 if is_pointer(kind) or kind in ONE_NUMBER or kind == "..." else None


def size_inside(kind: str) -> Optional[int]:
    """The same for the values in a struct or an array, which a result may be."""
    array = re.fullmatch(r"\[(\d+) x (.*)\]", kind)
    if array:
        size = size_inside(array[2])
        return None if size is None else int(array[1]) * size
    struct = re.fullmatch(r"<?\{(.*)\}>?", kind)
    if not struct:
        return size_of(kind)
    sizes = [size_inside(one) for one in split_at_commas(struct[1])]
    return None if None in sizes else sum(size or 0 for size in sizes)


def split_at_commas(text: str) -> List[str]:
    """The parts between the commas that stand in no bracket."""
    parts, depth, start = [], 0, 0
    for at, letter in enumerate(text):
        depth += (letter in OPENING) - (letter in CLOSING)
        if letter == "," and not depth:
            parts.append(text[start:at].strip())
            start = at + 1
    return [one for one in parts + [text[start:].strip()] if one]


def inside(text: str, start: int) -> str:
    """What stands between the bracket at a place and the one that closes it."""
    depth = 0
    for at in range(start, len(text)):
        depth += (text[at] == "(") - (text[at] == ")")
        if not depth:
            return text[start + 1 : at]
    raise Bad("LLVM's text has an open bracket")


def param_of(text: str) -> Param:
    name = re.search(r'%("[^"]*"|[-\w.$]+)$', text)
    return Param(unescaped(name[1].strip('"')) if name else "", size_of(first_type(text)), text)


def as_defined(params: Sequence[Param], body: Sequence[str]) -> List[Param]:
    """Parameters of an old definition, as `f(k) char k;`, which gets an int and makes it what it declares."""
    numbered = {param.name for param in params if param.name.isdigit()}
    told = filter(None, map(PROMOTED.match, body)) if numbered else ()
    names = {found[2]: found[1] for found in told if found[2] in numbered}
    return [param._replace(name=names.get(param.name, param.name)) for param in params]


def result_of(head: str) -> Tuple[str, str]:
    """The linkage and the type of the result, of what stands in front of a defined function's name."""
    words, linkage, at = head.strip(), "", 0
    known = LOCAL_LINKAGE | INLINE_LINKAGE | {"weak", "common", "external"}
    while True:
        word = first_type(words[at:])
        if re.fullmatch(r"void|i\d+|float|double|fp128|ptr.*|.*\*|[%<{\[].*", word):
            return linkage, word
        linkage = word if word in known else linkage
        at += len(word) + 1
        if at > len(words):
            raise Bad("LLVM's text defines a function without a result")


class Text:
    """LLVM's text of a unit."""

    def __init__(self, text: str) -> None:
        self.lines = text.split("\n")
        self.nodes = dict(self.read_nodes())
        self.strings: Dict[str, str] = {}
        self.defined: List[Defined] = []
        version = re.search(r"clang version (\d+)", text)
        self.has_plain_pointers = not version or int(version[1]) >= 15
        for at, line in enumerate(self.lines):
            if line.startswith("define "):
                self.defined.append(self.define(at, line))
            elif line.startswith("@") and ' c"' in line:
                name, _, rest = line.partition(" = ")
                self.strings[name] = unescaped(rest.partition(' c"')[2].partition('"')[0]).rstrip("\0")
        self.number_params()

    def read_nodes(self) -> Iterator[Tuple[str, Tuple[str, Dict[str, str]]]]:
        for line in self.lines:
            found = NODE.match(line) if line.startswith("!") else None
            if found:
                pairs = re.findall(r'(\w+): ("[^"]*"|[^,]+)', found[3])
                yield found[1], (found[2], {name: unescaped(value.strip('"')) for name, value in pairs})

    def values(self, node: str) -> Dict[str, str]:
        return self.nodes.get(node, ("", {}))[1]

    def define(self, at: int, line: str) -> Defined:
        found = DEFINED.match(line)
        if not found:
            raise Bad("LLVM's text defines a function that isn't read here")
        linkage, result = result_of(found[1])
        params = [param_of(one) for one in split_at_commas(inside(line, found.end() - 1))]
        end = self.lines.index("}", at)
        params = as_defined(params, self.lines[at + 1 : end])
        symbol, debug = plain(found[2]), re.search(r"!dbg (!\d+)", line)
        told = self.values(debug[1]) if debug else {}
        file = self.values(told.get("file", ""))
        place = (f"{os.path.normpath(os.path.join(file['directory'], file['filename']))}:{told['line']}"
                 if file and "line" in told else "")
        made = Defined(symbol, at, end, linkage, result, params, told.get("name", symbol), place)
        made.numbered = {-1: debug[1]} if debug else {}
        return made

    def number_params(self) -> None:
        """Gives each function the names of its parameters by their numbers in C."""
        by_scope: Dict[str, List[Dict[str, str]]] = {}
        for kind, values in self.nodes.values():
            if kind == "DILocalVariable" and "arg" in values:
                by_scope.setdefault(values.get("scope", ""), []).append(values)
        for one in self.defined:
            listed = sorted(by_scope.get(one.numbered.pop(-1, ""), ()), key=lambda values: int(values["arg"]))
            hidden = sum("DIFlagArtificial" in values.get("flags", "") for values in listed)
            one.numbered = {int(values["arg"]) - 1 - hidden: values["name"] for values in listed
                            if "name" in values and "DIFlagArtificial" not in values.get("flags", "")}

    def secrets(self) -> List[str]:
        """The lines of the section blade.secrets."""
        return secrets_in(self.lines)

    def annotated(self) -> List[Tuple[str, str]]:
        """The functions that the macros of blade.h name, each by its symbol, with the macro's line."""
        line = next((one for one in self.lines if one.startswith("@llvm.global.annotations ")), "")
        names = MENTION.findall(line)
        pairs = [(plain(name), self.strings.get(text, "")) for name, text in zip(names, names[1:])]
        return [(name, text) for name, text in pairs if text.split("\t")[0] in KINDS
                and text.count("\t") == 4]


def secrets_in(lines: Sequence[str]) -> List[str]:
    """The lines of the section blade.secrets in LLVM's text."""
    found = []
    for line in lines:
        if line.startswith("module asm "):
            text = re.match(r'\s*\.ascii "((?:%s)\\t.*)\\n"$' % "|".join(KINDS),
                            unescaped(line[len('module asm "') : -1]))
            if text:
                found.append(asm_text(text[1]))
    return found


def asm_text(text: str) -> str:
    """What an assembler makes of a text: \\t, \\n, octal numbers."""
    named = {"t": "\t", "n": "\n", "b": "\b", "f": "\f", "r": "\r"}
    return re.sub(r"\\([0-7]{1,3}|.)", lambda found: chr(int(found[1], 8)) if found[1][0] in "01234567"
                  else named.get(found[1], found[1]), text)


def mentions(lines: Sequence[str]) -> List[str]:
    """The symbols that lines name."""
    return [plain(one) for line in lines for one in MENTION.findall(line)]
