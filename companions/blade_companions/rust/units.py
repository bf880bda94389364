"""Labels in a crate's text for LLVM: found by the pointers of records, and kept as blade-cc keeps those of C.
Licence: public domain (CC0)."""
from __future__ import annotations

import os
import re
from typing import Dict, List, NamedTuple, Optional, Sequence

from ..c.ir import Defined, Param, Text
from ..c.opaque import Label, Opaque, Unit, number_of, spelled
from .demangling import told
from .records import Record, taken_out, with_plain_types, with_traps

STORE = re.compile(r"  store .* %(\d+), .* %([\w.]+)(?:,|$)")
ODD = re.compile(r"\{\{|\{closure|\{shim|call_once|reify")  # in names of functions that rustc makes by itself


class Crate(NamedTuple):
    """A unit of a crate: the file of its object, its text without records, and the records."""

    path: str
    text: Text
    records: List[Record]


def crate_of(path: str, text: str, has_plain_pointers: bool) -> Crate:
    """Reads LLVM's text of a crate."""
    lines = [line for line in with_plain_types(text).split("\n") if not line.startswith("^")]
    lines, records = taken_out(lines)
    told_by = Text("\n".join(lines))
    told_by.has_plain_pointers = has_plain_pointers
    return Crate(path, told_by, records)


def source_of(text: Text) -> Dict[str, str]:
    """The crate's own file and the folder that rustc ran in."""
    for kind, values in text.nodes.values():
        if kind == "DICompileUnit":
            file = text.values(values.get("file", ""))
            name = file.get("filename", "").partition("/@/")[0]
            return {"folder": file.get("directory", ""), "file": name}
    return {"folder": "", "file": ""}


class RustUnit(Unit):
    """A crate's text with its labels: those of records, wherever they stand."""

    def __init__(self, crate: Crate, records: Sequence[Record]) -> None:  # the base class reads C's macros
        source = source_of(crate.text)
        self.text, self.folder = crate.text, source["folder"] or os.getcwd()
        self.path = os.path.normpath(os.path.join(self.folder, source["file"] or crate.path))
        own = [one for one in crate.records if one.kind == "secret-memory"]
        self.others = [word for one in own for word in (one.kind, "0")]
        self.known = [one.named for one in records if one.symbol]
        self.lines = [one.line() for one in crate.records]
        by_symbol = {one.symbol: one for one in self.text.defined}
        self.labels = [self.label(by_symbol[one.symbol], one) for one in records if one.symbol in by_symbol]
        self.functions = {label.function.symbol: label.function for label in self.labels}
        self.has_marks = False

    def label(self, function: Defined, record: Record) -> Label:
        why = why_none(function, record)
        if why:
            return Label(record.named, function, f"!{why}", "")
        function.params = named_by_stores(function, self.text.lines[function.start : function.end])
        number, name = number_of(function, record.named)
        if number.isdigit() and record.kind == "secret-param":
            number = checked(function, number, name)
        return Label(record.named, function, number, name)


def why_none(function: Defined, record: Record) -> str:
    """Why a function can't have a label."""
    name = told(function.symbol)
    if ODD.search(name) or ODD.search(function.name):
        return (
            f"{record.path} leads to {name}, which rustc makes for calls by a pointer (#[track_caller], a "
            "closure or a method of a trait object): label a plain function"
        )
    if function.name != record.name:
        return f"{record.path} leads to {name}: label {function.name} by its own name"
    if function.params and not function.numbered and record.kind == "secret-param":
        return f"{record.path} has no parameters with names: it is no function that the source defines"
    return ""


def named_by_stores(function: Defined, lines: Sequence[str]) -> List[Param]:
    """The parameters with their names: one that stands in the frame from the first is named by its place
    there."""
    names = set(function.numbered.values())
    stores = [found.groups() for found in map(STORE.match, lines) if found]
    told = {given: place for given, place in stores if place in names}
    return [
        one._replace(name=told.get(one.name, one.name)) if one.name.isdigit() else one
        for one in function.params
    ]


def checked(function: Defined, number: str, name: str) -> str:
    """The number of a parameter: where Rust has as many parameters as the module, the name has to stand at
    the same place in both."""
    own = [one for one in function.params if " sret(" not in one.text]
    if len(own) != len(function.numbered) or any(one.size != 1 for one in own):
        return number
    at = next(place for place, one in sorted(function.numbered.items()) if one == name)
    hidden = int(number) - next(place for place, one in enumerate(own) if one.name == name)
    return (
        number
        if own[at].name == name
        else (
            f"!parameter {name} of {function.name} is number {at} in the source and {int(number) - hidden} in"
            " the module: give it another name"
        )
    )


def defined_in(crates: Sequence[Crate]) -> List[str]:
    return [one.symbol for crate in crates for one in crate.text.defined]


def kept(crate: Crate, records: Sequence[Record], defined: Sequence[str]) -> str:
    """The crate's text for clang."""
    unit = RustUnit(crate, records)
    opaque = Opaque(unit, False, False)
    opaque.lines = with_traps(opaque.lines, defined)
    section = (
        [
            'module asm ".section .custom_section.blade.secrets,\\22\\22,@"',
            *(f'module asm ".ascii \\22{line}\\22"' for line in map(spelled_line, unit.lines)),
            'module asm ".text"',
        ]
        if unit.lines
        else []
    )
    return "\n".join([opaque.written(), *section]) + "\n"


def spelled_line(line: str) -> str:
    return spelled(f"{line}\n".encode("utf-8", "surrogateescape"))


def lost(crates: Sequence[Crate], records: Sequence[Record]) -> Optional[str]:
    """A label of a function that no crate defines here."""
    known = set(defined_in(crates))
    for one in records:
        if one.symbol and one.symbol not in known:
            return (
                f"{one.where}: error: {told(one.symbol)} isn't defined in a crate that is compiled here (the "
                "standard library, or code of another language): label a function that calls it "
                "[blade-label]"
            )
    return None
