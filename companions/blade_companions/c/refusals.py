"""What clang, the linker and the program refuse, where it stands in C, and what to do about it.
Licence: public domain (CC0)."""
from __future__ import annotations

from typing import Dict, List, NamedTuple, Optional, Set

from .callers import called_in
from ..printing import called
from ..formats.instructions import BLOCKS, BR_TABLE, END, read_instruction, read_locals
from ..formats.reading import Reader
from ..formats.module import FUNCTION, GLOBAL, MEMORY, TABLE, Module

FLOAT_TYPES = (0x7C, 0x7D)
FLOATS = frozenset([0x2A, 0x2B, 0x38, 0x39, 0x43, 0x44, *range(0x5B, 0x67), *range(0x8B, 0xA7),
                    *range(0xA8, 0xAC), *range(0xAE, 0xC0)])
BULK, CONVERSIONS = 0xFC, 8  # behind the prefix stand first so many conversions of floats
OTHERS = {0xFD: "a vector", 0xFE: "an atomic access", 0x12: "a tail call", 0x13: "a tail call",
          0xD0: "a reference", 0xD1: "a reference", 0xD2: "a reference",
          0x25: "a table access", 0x26: "a table access", 0x1C: "a select with a type", 0x06: "an exception",
          0x07: "an exception", 0x08: "an exception"}
DENSE = 200  # a switch of more cases is the likely reason of deep nesting
AROUND, WRAPPED = ("__wasm_call_dtors", "__wasm_call_ctors"), ".command_export"  # the linker's own functions
NAMED = 4  # so many functions of a way are named
SORTS = {FUNCTION: "function", TABLE: "table", MEMORY: "memory", GLOBAL: "global"}


class Refusal(NamedTuple):
    """The function, the place in the file, and what is said; without a place -1."""

    function: int
    place: int
    text: str


class Body:
    """Of a function's code: how deep it nests and where, how many locals it has, its longest br_table, and
    its first refused instruction."""

    def __init__(self, module: Module, function: int, start: int, end: int) -> None:
        self.function, self.start = function, start
        self.deepest, self.depth, self.most_depth = start, 1, 1
        self.arms, self.switch = 0, start
        self.refused: Optional[Refusal] = None
        self.reader = Reader(module.data, start, end)
        kind = module.type_of(function)
        self.locals = len(kind.params)
        self.is_float = any(one in FLOAT_TYPES for one in kind.params + kind.results)
        for count, sort in read_locals(self.reader):
            self.locals += count
            self.is_float |= sort in FLOAT_TYPES
        while self.reader.place < end and not self.refused:
            self.instruction()
        if self.is_float and not self.refused:
            self.refuse(start, "a parameter, a result or a local that is a float")

    def refuse(self, place: int, text: str) -> None:
        self.refused = Refusal(self.function, place, text)

    def instruction(self) -> None:
        place, code, numbers = read_instruction(self.reader)
        if code in FLOATS:
            self.refuse(place, "an instruction of floats")
        elif code == BULK:
            is_float = self.reader.number() < CONVERSIONS
            self.refuse(place, "an instruction of floats" if is_float else "an operation on whole memories")
        elif code in OTHERS:
            self.refuse(place, OTHERS[code])
        elif code in BLOCKS:
            self.depth += 1
            if self.depth > self.most_depth:
                self.most_depth, self.deepest = self.depth, place
        elif code == END:
            self.depth -= 1
        elif code == BR_TABLE and len(numbers) - 1 > self.arms:
            self.arms, self.switch = len(numbers) - 1, place


def bodies_of(module: Module) -> List[Body]:
    imported = len(module.imported(FUNCTION))
    return [Body(module, imported + at, start, end) for at, (start, end) in enumerate(module.bodies)]


def refusal(module: Module, said: str) -> Refusal:
    """Where what the program said of a module stands, and what to do."""
    kind, _, rest = said.partition(": ")
    if kind in ("unsupported", "malformed"):
        return unsupported(module)
    if kind == "limit":
        return above(module, *rest.split()[:2])
    if kind == "link" and rest.endswith(("unknown", "mismatch")):
        return not_given(module, int(rest.split()[-2]), rest.endswith("mismatch"))
    return Refusal(-1, -1, "see docs/CLI.md, exit statuses [blade-refused]")


def unsupported(module: Module) -> Refusal:
    if any(section.number == 8 for section in module.sections):
        return Refusal(-1, -1, "the module has a start function, which blade doesn't take: "
                       "export it and have it called (constructors of C++ and shared "
                       "memories make one) [blade-start]")
    first = next((one.refused for one in bodies_of(module) if one.refused), None)
    if first is None:
        return Refusal(-1, -1,
                       "something of a later WebAssembly stands outside of the functions [blade-instruction]")
    if "float" in first.text:
        return first._replace(text=f"{first.text}, which blade doesn't take: "
                              "compute with integers [blade-float]")
    return first._replace(text=f"{first.text}, which blade doesn't take: compile all with -mcpu=mvp alone, "
                          "as blade-cc does [blade-instruction]")


def above(module: Module, quantity: str, value: str) -> Refusal:
    """What is above a limit."""
    bodies = bodies_of(module)
    if quantity == "nesting":
        deep = max(bodies, key=lambda one: one.most_depth)
        why = f"a switch of {deep.arms} cases" if deep.arms > DENSE else "deeply nested code"
        place = deep.switch if deep.arms > DENSE else deep.deepest
        return Refusal(deep.function, place, f"{why} opens {value} blocks at once, and 256 are the most: "
                       "use a table, or two switches [blade-nesting]")
    if quantity == "targets":
        wide = max(bodies, key=lambda one: one.arms)
        return Refusal(wide.function, wide.switch, f"a switch of {wide.arms} cases, and 1,024 are the most: "
                       "use a table, or two switches [blade-nesting]")
    if quantity == "locals":
        most = max(bodies, key=lambda one: one.locals)
        return Refusal(most.function, most.start, f"{most.locals} locals (behind wasm-opt --ssa), "
                       "and 4,096 are the most: split the function, or unroll "
                       "less [blade-locals]")
    remedy = {"memory": "give fewer pages by --memory", "reserve": "give fewer pages by --memory",
              "module": "leave out what isn't needed: -Os, fewer exports",
              "commands": "leave out what isn't needed: -Os, fewer exports",
              "functions": "export less by --export NAME"}.get(quantity, "docs/CLI.md, limits")
    return Refusal(-1, -1, f"{quantity} {value} is above the limit: {remedy} [blade-limit]")


def users_of(module: Module, number: int) -> str:
    """Who calls an imported function, and by which way an exported one comes to it."""
    one = module.imports[number]
    if one.sort != FUNCTION:
        return ""
    index = sum(other.sort == FUNCTION for other in module.imports[:number])
    callers: Dict[int, List[int]] = {}
    for caller, functions in called_in(module).items():
        for function in functions:
            callers.setdefault(function, []).append(caller)
    direct = [called(module.function_name(caller)) for caller in callers.get(index, [])]
    if not direct:
        return ""
    aside = {at for at in callers if module.function_name(at) in AROUND}
    found = way_to(module, index, callers, aside) or way_to(module, index, callers, set())
    way = [called(name) for name in map(module.function_name, found) if not name.endswith(WRAPPED)]
    short = [*way[:NAMED], "..", way[-1]] if len(way) > NAMED + 1 else way
    told = f", by the way {' > '.join(short)}" if len(way) > 2 else ""
    more = f" and {len(direct) - NAMED} more" if len(direct) > NAMED else ""
    return f" (called by {', '.join(direct[:NAMED])}{more}{told})"


def way_to(module: Module, index: int, callers: Dict[int, List[int]], aside: Set[int]) -> List[int]:
    """The shortest way of calls from an exported function, without some; nothing if there is none."""
    exported = {at for (sort, _), at in module.exports.items() if sort == FUNCTION}
    behind, work = {index: -1}, [index]
    for function in work:
        if function in exported:
            way = []
            while function >= 0:
                way.append(function)
                function = behind[function]
            return way
        for caller in callers.get(function, []):
            if caller not in behind and caller not in aside:
                behind[caller] = function
                work.append(caller)
    return []


def not_given(module: Module, number: int, is_mismatch: bool) -> Refusal:
    one = module.imports[number]
    if one.module in ("ledger", "vault"):
        return Refusal(-1, -1, f"the {SORTS[one.sort]} {one.name} is imported from {one.module}: "
                       f"compile and link with --{one.module} [blade-import]")
    why = "has another type there" if is_mismatch else "no module gives"
    more = (": wasi-libc asks the system for it, for input, output or the clock"
            if one.module.startswith("wasi") else "")
    users = users_of(module, number)
    return Refusal(-1, -1, f"the {SORTS[one.sort]} {one.name} is imported from {one.module}{users}, "
                   f"which {why}{more}: give a file that defines it, or leave out "
                   "what uses it [blade-import]")
