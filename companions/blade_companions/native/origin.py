"""What the modules of an image say of it: the names of parameters, and the lines of C. Licence: public domain
(CC0)."""
from __future__ import annotations

from typing import Dict, List, Sequence, Tuple

from ..c.dwarf import subprograms
from ..c.lines import Lines
from ..formats.image import Image
from ..formats.lowering import LinkedFunction, lower
from ..formats.memories import layout_of
from ..formats.module import MEMORY, Module, read_module
from ..formats.reading import Bad
from ..start import HEAP
from ..verdict.compare import positions_differ
from .names import is_parameter

# The modules of accessors, and what is in their memories.
ACCESSORS = {"ledger": "public numbers, each at its address in C's memory; the module itself writes them",
             "vault": "secrets, each at its address in C's memory"}


class Origin:
    """The modules of an image. Modules that would be lowered to other commands are refused."""

    def __init__(self, image: Image, paths: Sequence[str]) -> None:
        self.modules = [read_module(path) for path in paths]
        self.functions: List[LinkedFunction] = lower(self.modules) if paths else []
        differ = positions_differ(image, self.functions) if paths else []
        if differ:
            raise Bad(f"the image wasn't made from this module: {differ[0]}")
        self.lines = Lines(self.functions)
        self.described: Dict[str, list] = {}  # the functions that DWARF describes, by the module's file

    def line_of(self, position: int) -> str:
        """The line of C of a position, if it is known."""
        self.lines.ask([position])
        return self.lines.place(position)

    def memories(self) -> List[Tuple[str, str]]:
        """Of each memory the module's name and a sentence."""
        return [(module.name, sentence_of(module)) for module in self.modules
                for _ in range(module.memories - len(module.imported(MEMORY)))]

    def parameters(self, number: int, count: int) -> List[str]:
        """The names of a function's parameters: those of C, or p0, p1 and so on if there is no such name that
        C may have."""
        known = self.known(number) if self.functions else {}
        found: List[str] = []
        for index in range(count):
            name = known.get(index, "")
            is_good = is_parameter(name) and list(known.values()).count(name) == 1
            found.append(name if is_good else f"p{index}")
        return found

    def known(self, number: int) -> Dict[int, str]:
        """What DWARF calls a function's parameters, by their locals in the module."""
        linked = self.functions[number]
        if linked.module.path not in self.described:
            self.described[linked.module.path] = described(linked.module)
        functions = self.described[linked.module.path]
        params = next((one.params for one in functions if one.function == linked.index), [])
        types = linked.module.type_of(linked.index).params
        if all(param.local is None for param in params):  # they keep no place: C's order is the module's
            is_plain = len(params) == len(types) and not any(param.is_struct for param in params)
            return {index: param.name for index, param in enumerate(params)} if is_plain else {}
        return {param.local: param.name for param in params if param.local is not None}


def sentence_of(module: Module) -> str:
    """What is in a module's memory."""
    if module.name in ACCESSORS:
        return ACCESSORS[module.name]
    try:
        layout = layout_of(module)
    except Bad:
        return ""
    if not layout.is_known or not 0 < layout.free < layout.end or not HEAP.isdisjoint(module.names.values()):
        return ""
    return (f"C's stack and data are in the bytes 0 to {layout.free - 1:,}, and those from {layout.free:,} "
            f"to {layout.end - 1:,} are free")


def described(module: Module) -> list:
    """The functions that DWARF describes; nothing if it can't be read."""
    try:
        return subprograms(module)
    except (Bad, ValueError, IndexError, KeyError, TypeError):
        return []
