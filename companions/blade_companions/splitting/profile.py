"""Runs from start files that are recorded: first which stores feed which loads, then which values were known
whenever they were needed. Licence: public domain (CC0)."""
from __future__ import annotations

from array import array
from dataclasses import dataclass, field
from typing import Callable, Dict, FrozenSet, Iterable, List, Sequence, Set, Tuple

from . import codes as op
from .flow import Flow, Place, Step
from .kinds import Kinds, Recorded
from .knowledge import Known, result_of, wholly
from .numerics import Trap
from .parts import PAGE, Parts
from .running import FORMATS, MASKS, Hooks, Instance
from .terms import Var, python, word, zero
from ..formats.reading import Bad
from ..formats.running import Start

CONSTANTS = ".rodata"  # how the names of segments begin that hold what C declares const
IMAGE, INPUT = 0, 1  # writers of bytes that no store wrote: the module's first contents, and the start file


@dataclass
class Call:
    """A call whose run is recorded: its arguments, and bytes of C's memory; those of `public` may be
    known."""

    function: int
    arguments: List[int] = field(default_factory=list)
    contents: List[Tuple[int, bytes]] = field(default_factory=list)
    public: Sequence[Tuple[int, int]] = ()

    def is_public(self, at: int) -> bool:
        return any(first <= at < first + size for first, size in self.public)


def call_of(module: Parts, function: int, start: Start, public: Sequence[Tuple[int, int]] = ()) -> Call:
    """The call that a start file asks for; refuses one that isn't of this function and memory."""
    kind = module.type_of(function)
    if len(start.arguments) != len(kind.params):
        raise Bad(f"start: arguments {len(start.arguments)}, and the function has {len(kind.params)}")
    if any(value >> op.BITS[one] for value, one in zip(start.arguments, kind.params)):
        raise Bad("start: an argument is too great")
    for number, offset, data in start.contents:
        if number or offset + len(data) > module.memory[0] * PAGE:
            raise Bad(f"start: bytes outside of the memory {number}")
    return Call(function, start.arguments, [(at, data) for _, at, data in start.contents], public)


def room(module: Parts) -> int:
    """The bytes that the memory may grow to."""
    return module.memory[1] * PAGE


def first_masks(module: Parts, public: Sequence[Tuple[int, int]]) -> bytearray:
    """Which first contents are known: zeros, constants of C, and what --public names; no other data, since a
    key may be embedded there."""
    masks = bytearray(b"\xff" * room(module))
    for one in module.data:
        known = 0xFF if one.name.startswith(CONSTANTS) else 0
        masks[one.offset : one.offset + len(one.bytes)] = bytes([known]) * len(one.bytes)
    for first, size in public:
        end = min(first + size, len(masks))
        masks[first:end] = b"\xff" * max(0, end - first)
    return masks


class Writers(Hooks):
    """Notes of each byte which store wrote it, and of each load whose bytes it reads."""

    def __init__(self, flow: Flow) -> None:
        self.flow = flow
        self.numbers = {place: number for number, place in enumerate(flow.stores, INPUT + 1)}
        self.read: Dict[Place, Set[int]] = {place: set() for place in flow.loads}
        self.loads = list(flow.loads)
        self.sites = list(dict.fromkeys(sink.place for sink in flow.sinks))
        self.site = {place: number for number, place in enumerate(self.sites)}
        self.executed = bytearray(len(self.sites))
        self.index = {place: number for number, place in enumerate(self.loads)}
        self.writer = array("H" if len(self.numbers) < 65000 else "L", bytes(0))
        self.writer.extend([IMAGE] * room(flow.module))

    def names(self) -> Dict[str, object]:
        made = {
            f"W{number}_{width}": array(self.writer.typecode, [number] * width)
            for number in self.numbers.values()
            for width in (1, 2, 4, 8)
        }
        reads = {f"R{number}": self.read[place] for number, place in enumerate(self.loads)}
        return {"W": self.writer, "E": self.executed, **made, **reads}

    def before(self, place: Place, step: Step) -> List[str]:
        return [f"E[{self.site[place]}] = 1"] if place in self.site else []

    def after(self, place: Place, step: Step) -> List[str]:
        if place in self.flow.stores:
            width = op.ACCESSES[step.ins.code].width
            return [f"W[a:a+{width}] = W{self.numbers[place]}_{width}"]
        if place in self.flow.loads:
            return [f"R{self.index[place]}.update(W[a:a+{op.ACCESSES[step.ins.code].width}])"]
        return []

    def feeds(self) -> Dict[Place, Set[Place]]:
        stores = {number: place for place, number in self.numbers.items()}
        return {
            place: {stores[number] for number in read if number > INPUT} for place, read in self.read.items()
        }


class Origins:
    """Sets of loads and stores that known bits came through, each by a number: 0 is the empty one."""

    def __init__(self) -> None:
        self.sets: List[FrozenSet[int]] = [frozenset()]
        self.numbers: Dict[FrozenSet[int], int] = {frozenset(): 0}
        self.joined: Dict[Tuple[int, int], int] = {}

    def number(self, one: FrozenSet[int]) -> int:
        if one not in self.numbers:
            self.numbers[one] = len(self.sets)
            self.sets.append(one)
        return self.numbers[one]

    def join(self, a: int, b: int) -> int:
        if a == b or not b:
            return a
        found = self.joined.get((a, b))
        if found is None:
            found = self.joined[a, b] = self.number(self.sets[a] | self.sets[b])
        return found

    def all(self, numbers: Iterable[int], more: int) -> int:
        """Those of the bytes that a load reads, and what stands for the load itself."""
        for number in set(numbers):
            more = self.join(more, number)
        return more


class Knowing(Hooks):
    """Runs with the mask of known bits of each needed value and of each byte of memory, and with the loads
    and stores that the known ones came through. So a load or a store is found useful where what it moved was
    known at a sink."""

    def __init__(self, kinds: Kinds) -> None:
        self.flow, self.kinds, self.origins = kinds.flow, kinds, Origins()
        self.masks = bytearray(room(kinds.flow.module))
        self.from_ = array("L", [0]) * room(kinds.flow.module)
        self.is_open = {
            (sink.place, sink.node): number
            for number, sink in enumerate(self.flow.sinks)
            if sink.node in kinds.needed
        }
        self.sites: List[Place] = [*self.flow.loads, *self.flow.stores]
        self.index = {place: number for number, place in enumerate(self.sites)}
        self.reached: Set[Place] = set()
        self.used: Dict[int, Set[int]] = {number: set() for number in self.is_open.values()}
        self.seen: Dict[str, Set[int]] = {
            name: set() for name in ("reached", "met", "partly", "leaks", "some", "none", "fresh")
        }

    def names(self) -> Dict[str, object]:
        public = [node not in self.kinds.secret for node in self.flow.globals]
        masks = [int(MASKS[one.type], 16) * known for one, known in zip(self.flow.module.globals, public)]
        alone = {f"A{number}": self.origins.number(frozenset([number])) for number in range(len(self.sites))}
        filled = {f"U{number}": used.add for number, used in self.used.items()}
        return {
            "V": self.masks,
            "O": self.from_,
            "GV": masks,
            "GO": [0] * len(masks),
            "join": self.origins.join,
            "all_of": self.origins.all,
            "zeros": self.zeros,
            **alone,
            **filled,
            **{name: one.add for name, one in self.seen.items() if name != "fresh"},
        }

    def zeros(self, at: int, width: int) -> None:
        self.seen["fresh"].update(
            byte for byte in range(at, at + width) if not self.from_[byte] and self.masks[byte] == 0xFF
        )

    def full(self, node: int) -> str:
        return MASKS[self.flow.kind[node]]

    # What is tracked of a node: its mask and its origin.

    def tracks(self, node: int) -> List[str]:
        return [f"m{node}", f"o{node}"]

    def tracked(self, node: int) -> List[str]:
        if node not in self.kinds.secret:
            return [self.full(node), "0"]
        return [f"m{node}", f"o{node}"] if node in self.kinds.needed else ["0", "0"]

    def known(self, node: int) -> Known:
        bits = op.BITS[self.flow.kind[node]]
        if node not in self.kinds.secret:
            return wholly(Var(self.value(node), bits))
        mask = Var(f"m{node}", bits) if node in self.kinds.needed else zero(bits)
        return Known(word("and", Var(self.value(node), bits), mask), mask)

    def moved(self, source: int, target: int) -> List[str]:
        """What is tracked of one node goes to another."""
        if target not in self.kinds.needed:
            return []
        return [f"{name} = {text}" for name, text in zip(self.tracks(target), self.tracked(source))]

    # Lines.

    def before(self, place: Place, step: Step) -> List[str]:
        lines = []
        for node in (*step.operands, step.carried):
            number = self.is_open.get((place, node))
            if number is not None:
                mask, origin = self.tracked(node)
                lines += [
                    f"met({number})",
                    f"U{number}({origin})",
                    f"if {mask} != {self.full(node)}: leaks({number})",
                ]
        return lines

    def joined(self, node: int, join: int) -> List[str]:
        return self.moved(node, join)

    def after(self, place: Place, step: Step) -> List[str]:
        code, args = step.ins.code, step.ins.numbers
        if code in op.STORES:
            return self.store(place, step)
        if code in (op.LOCAL_SET, op.LOCAL_TEE):
            lines = self.moved(step.operands[0], self.flow.functions[place.function].locals[args[0]])
            return lines + (self.moved(step.operands[0], step.result) if code == op.LOCAL_TEE else [])
        if code == op.GLOBAL_SET:
            return [f"GV[{args[0]}], GO[{args[0]}] = {', '.join(self.tracked(step.operands[0]))}"]
        if step.result not in self.kinds.needed:
            return []
        return self.made(place, step) + [f"(some if m{step.result} else none)({step.result})"]

    def made(self, place: Place, step: Step) -> List[str]:
        """The lines for a needed result; of a call and of a block's end they are there already."""
        code, args = step.ins.code, step.ins.numbers
        name, origin = self.tracks(step.result)
        if code in op.LOADS:
            return self.load(place, step)
        if code == op.LOCAL_GET:
            return self.moved(self.flow.functions[place.function].locals[args[0]], step.result)
        if code == op.GLOBAL_GET:
            return [f"{name}, {origin} = GV[{args[0]}], GO[{args[0]}]"]
        if code == op.BR_IF:
            return self.moved(step.carried, step.result)
        if code in op.DIVISIONS:
            return [f"{name} = {origin} = 0"]
        if code in op.OPERATORS or code == op.SELECT:
            origins = [self.tracked(node)[1] for node in step.operands]
            united = origins[0]
            for one in origins[1:]:
                united = f"join({united}, {one})" if one != "0" else united
            return [
                f"{name} = {python(result_of(code, [self.known(node) for node in step.operands]).mask)}",
                f"{origin} = {united} if {name} else 0",
            ]
        return []

    def store(self, place: Place, step: Step) -> List[str]:
        access = op.ACCESSES[step.ins.code]
        width, narrow = access.width, (1 << 8 * access.width) - 1
        mask, origin = self.tracked(step.operands[1])
        if not self.kinds.has_public_address(place):
            mask = "0"
        site = f"A{self.index[place]}" if origin == "0" else f"join({origin}, A{self.index[place]})"
        marked = ["reached(A%d)" % self.index[place]] if origin != "0" else []
        return [
            f"store_{FORMATS[width, False]}(V, a, {mask} & {narrow})",
            f"for b in range(a, a + {width}): O[b] = {site}",
            *marked,
        ]

    def load(self, place: Place, step: Step) -> List[str]:
        access = op.ACCESSES[step.ins.code]
        full, (name, origin) = self.full(step.result), self.tracks(step.result)
        if not self.kinds.has_public_address(place):
            return [f"{name} = {origin} = 0"]
        above = int(full, 16) >> 8 * access.width << 8 * access.width
        read = f"load_{FORMATS[access.width, access.is_signed]}(V, a)[0]"
        line = f"{name} = {read} & {full}" if access.is_signed else f"{name} = {read} | {above}"
        number = self.index[place]
        return [
            line,
            f"{origin} = all_of(O[a:a+{access.width}], A{number}) if {read} else 0",
            f"if {read} and 0 in O[a:a+{access.width}]: zeros(a, {access.width})",
            f"reached(A{number})",
            f"if {name} != {full}: partly(A{number})",
        ]

    # What it found.

    def places(self, numbers: Iterable[int]) -> Set[Place]:
        return {self.sites[site] for number in numbers for site in self.origins.sets[number]}

    def add_to(self, recorded: Recorded) -> None:
        recorded.reached |= self.places(self.seen["reached"])
        recorded.partly |= self.places(self.seen["partly"])
        recorded.leaks |= self.seen["leaks"]
        recorded.met |= self.seen["met"]
        recorded.zeros |= self.seen["fresh"]
        for number, used in self.used.items():
            recorded.useful.setdefault(number, set()).update(self.places(used))


class Recorder:
    """Records runs of the functions that start files name."""

    def __init__(
        self,
        flow: Flow,
        calls: Sequence[Call],
        public: Sequence[Tuple[int, int]],
        told: Callable[[str], None],
    ) -> None:
        self.flow, self.calls, self.told = flow, calls, told
        self.masks = first_masks(flow.module, public)

    def run(self, instance: Instance, call: Call, more: Sequence[int] = ()) -> None:
        for at, data in call.contents:
            instance.memory[at : at + len(data)] = data
        try:
            instance.call(call.function, [*call.arguments, *more])
        except Trap as trap:
            self.told(f"a recorded run ends early: {trap}")

    def record(self) -> Recorded:
        """Each start is run three times: for the stores that feed loads; for the loads and stores that are
        useful, with all else tracked, too; and with these alone, which decides what is wholly known."""
        recorded = Recorded()
        for call in self.calls:
            self.note_writers(recorded, call)
        self.track(recorded)
        recorded.unknown, recorded.partly = recorded.partly, set()
        self.track(recorded)
        return recorded

    def track(self, recorded: Recorded) -> None:
        kinds = Kinds(self.flow, (), recorded)
        some: Set[int] = set()
        none: Set[int] = set()
        for call in self.calls:
            hooks = self.note_known(kinds, call)
            hooks.add_to(recorded)
            none |= hooks.seen["none"]
            some |= hooks.seen["some"]
        recorded.blank |= none - some

    def note_writers(self, recorded: Recorded, call: Call) -> None:
        hooks = Writers(self.flow)
        for at, data in call.contents:
            hooks.writer[at : at + len(data)] = array(hooks.writer.typecode, [INPUT] * len(data))
        self.run(Instance(self.flow.module, self.flow, hooks), call)
        for place, stores in hooks.feeds().items():
            recorded.feeds.setdefault(place, set()).update(stores)
        recorded.executed |= {place for place, number in hooks.site.items() if hooks.executed[number]}

    def note_known(self, kinds: Kinds, call: Call) -> Knowing:
        hooks = Knowing(kinds)
        instance = Instance(self.flow.module, self.flow, hooks)
        hooks.masks[:] = self.masks
        for at, data in call.contents:
            hooks.masks[at : at + len(data)] = bytes(
                0xFF * call.is_public(byte) for byte in range(at, at + len(data))
            )
        secret = {
            numbers[1]
            for kind, numbers in self.flow.module.labels
            if kind == "secret-param" and numbers[0] == call.function
        }
        params = self.flow.module.type_of(call.function).params
        tracked = [
            number
            for at, one in enumerate(params)
            for number in (0 if at in secret else int(MASKS[one], 16), 0)
        ]
        self.run(instance, call, tracked)
        return hooks
