"""When the masks of stored secrets are cleared: not at each store, but with those of neighbours, or behind a
loop, before anybody can read them. Licence: public domain (CC0)."""
from __future__ import annotations

from typing import TYPE_CHECKING, Dict, List, Optional, Sequence, Set, Tuple

from . import codes as op
from .addresses import WORD, Group, Sum, Sums, groups_of, straight_loop, twins_of
from .flow import NONE, Function, Place, Step
from .terms import ranges

if TYPE_CHECKING:
    from .functions import FunctionWriter

# A range costs some nine commands for eight bytes that it clears, and 15 for eight that it fills. A call for
# one store costs 10, and 16. These are the most bytes of a turn, and of a store, for which a range costs
# less.
CLEARED_IN_LOOP, FILLED_IN_LOOP = 8, 8
SETTING = frozenset([op.LOCAL_SET, op.LOCAL_TEE])
# Steps that go another way, or to other code: masks are cleared before.
LEAVING = frozenset(
    [
        op.LOOP,
        op.IF,
        op.ELSE,
        op.END,
        op.BR,
        op.BR_IF,
        op.BR_TABLE,
        op.RETURN,
        op.CALL,
        op.CALL_INDIRECT,
        op.MEMORY_GROW,
    ]
)


def begins_straight(step: Step) -> bool:
    """Whether other ways come together here, so that nothing that was seen before holds."""
    return step.ins.code in (op.LOOP, op.ELSE, op.END) and step.meets


class Clearing:
    """Keeps, along a function, which masks are still to be cleared. A mask that is cleared more, or sooner,
    does no harm but that less is known."""

    def __init__(self, writer: "FunctionWriter", function: Function) -> None:
        self.writer, self.flow, self.kinds, self.function = writer, writer.flow, writer.kinds, function
        self.twins = twins_of(self.flow, function)
        self.sums = Sums(self.flow, self.twins)
        self.deferred: Dict[int, Sum] = {}  # addresses of stores whose masks are cleared with others'
        self.unwiped: Dict[
            Tuple[Tuple[int, int], ...], Set[int]
        ] = {}  # bytes by sums of locals, whose masks are to be cleared
        self.grouped: Set[int] = set()  # stores whose masks are cleared behind the loop
        self.ending: Dict[
            int, List[Tuple[Group, int]]
        ] = {}  # by the end of a loop its groups, and locals with where they began

    def is_later(self, place: Place, step: Step) -> bool:
        """Whether a store needs no address of its own for its masks."""
        return step.operands[0] in self.deferred or place.step in self.grouped

    def defer(self, place: Place, step: Step) -> None:
        """Notes the address of a store of a secret, where it is a sum of locals that stay as they are until
        the store."""
        address = self.sums.nodes.get(step.result)
        after = self.flow.consumer.get(step.result)
        holders = self.sums.holders(address) if address is not None else None
        if address is None or after is None or holders is None or not self.clears(after, step.result):
            return
        held = {local for local, _ in holders.values()}
        between = self.function.steps[place.step + 1 : after.step]
        if not any(
            begins_straight(one) or (one.ins.code in SETTING and one.ins.numbers[0] in held)
            for one in between
        ):
            self.deferred[step.result] = address

    def clears(self, place: Place, address: int) -> bool:
        """Whether a step stores a secret at an address that a node is."""
        store = self.flow.step(place)
        is_store = store.ins.code in op.STORES and store.operands[0] == address
        return is_store and self.kinds.of(store.operands[1]) == "S" and self.writer.is_mirrored(place, store)

    def clear(self, place: Place, step: Step, leaks: bool) -> None:
        """The masks of what a store wrote: behind the loop, later, or now."""
        code, offset = step.ins.code, step.ins.numbers[1]
        address = step.operands[0]
        if place.step in self.grouped:
            return
        if address in self.deferred:
            found = self.deferred.pop(address)
            first = found.offset + offset
            self.unwiped.setdefault(found.locals, set()).update(range(first, first + op.ACCESSES[code].width))
        else:
            self.writer.push(self.writer.known_of(address).value)
            self.writer.access("clear", code, offset, leaks=leaks)

    def wipe(self) -> None:
        """Clears what is to be cleared."""
        for locals_, places in self.unwiped.items():
            for first, end in ranges(places):
                offset = self.push_sum(Sum(locals_, first % WORD))
                self.writer.access("wipe", 0x37, offset, end - first)
        self.unwiped = {}

    def push_sum(self, one: Sum) -> int:
        """The sum's value, by the locals that have its parts now, but for a part that an offset can be."""
        total = one.offset
        holders = self.sums.holders(one) or {}
        is_first = True
        for local, often in one.locals:
            index, more = holders[local]
            total -= more * often
            self.writer.emit(op.LOCAL_GET, self.writer.local(index))
            if often != 1:
                self.writer.emit(op.I32_CONST, often), self.writer.emit(op.CODE_OF["i32.mul"])
            if not is_first:
                self.writer.emit(op.CODE_OF["i32.add"])
            is_first = False
        if one.locals and 0 <= total < 1 << 16:
            return total
        self.writer.emit(op.I32_CONST, total % WORD)
        if one.locals:
            self.writer.emit(op.CODE_OF["i32.add"])
        return 0

    def settle(self, place: Place, step: Step) -> None:
        """Clears masks before a step that could read them, leave this way, or change an address."""
        code = step.ins.code
        if code in SETTING:
            held = {
                local
                for locals_ in self.unwiped
                for local, _ in (self.sums.holders(Sum(locals_, 0)) or {}).values()
            }
            is_open = step.ins.numbers[0] in held
        elif code in op.STORES:
            is_open = self.kinds.of(step.operands[1]) != "S"
        elif code in op.LOADS:
            is_open = self.reads(place, step)
        else:
            is_open = code in LEAVING and step.meets
        if is_open:
            self.wipe()
        if begins_straight(step):
            self.sums.begin()

    def reads(self, place: Place, step: Step) -> bool:
        """Whether a step reads the shadow."""
        return step.ins.code in op.LOADS and (
            place in self.kinds.checked or self.kinds.of(step.result) == "D"
        )

    def follow(self, place: Place, step: Step) -> None:
        """A step goes on."""
        if step.ins.code == op.LOOP:
            self.enter_loop(place)
        self.sums.follow(step)
        self.defer(place, step)

    # Loops whose stores lie in a row.

    def enter_loop(self, place: Place) -> None:
        """Keeps where such stores begin."""
        end = straight_loop(self.function, place.step)
        groups = self.groups(place.step, end) if end is not None else []
        if not groups:
            return
        starts = []
        for group in groups:
            starts.append(self.writer.borrow(NONE - 1 - end, op.I32))  # type: ignore[operator]
            self.push_start(group)
            self.writer.emit(op.LOCAL_SET, starts[-1])
            self.grouped |= group.stores
        self.ending[end] = list(zip(groups, starts))  # type: ignore[index]

    def groups(self, at: int, end: int) -> List[Group]:
        """The groups of a loop whose masks nobody reads there: of secrets, or, where no other store is in the
        loop, of one public byte."""
        function, kinds = self.function, self.kinds
        inside = {Place(function.index, number): function.steps[number] for number in range(at + 1, end)}
        stores = {place.step: step for place, step in inside.items() if step.ins.code in op.STORES}
        tells = all(
            self.writer.is_mirrored(place, step) for place, step in inside.items() if place.step in stores
        )
        if not tells or any(self.reads(place, step) for place, step in inside.items()):
            return []
        found = []
        for group in groups_of(self.flow, function, self.twins, at, end):
            values = {kinds.of(stores[number].operands[1]) for number in group.stores}
            if values == {"U"} and group.stores == set(stores):
                group.byte = self.same_byte(list(stores.values()), list(inside.values()))
            if (values == {"S"} and group.width <= CLEARED_IN_LOOP) or (
                group.byte and group.width < FILLED_IN_LOOP * len(group.stores)
            ):
                found.append(group)
        return found

    def same_byte(self, stores: Sequence[Step], inside: Sequence[Step]) -> Optional[Tuple[str, int]]:
        """The byte that all of these store in each turn, where it is a constant, or a local that isn't
        set."""
        found = set()
        for store in stores:
            made = next((step for step in inside if step.result == store.operands[1]), None)
            if made is None:
                return None
            code, args = made.ins.code, made.ins.numbers
            size = op.ACCESSES[store.ins.code].width
            if code in op.CONST.values():
                data = (args[0] % (1 << 8 * size)).to_bytes(size, "little")
                found |= {("const", byte) for byte in data}
            elif code == op.LOCAL_GET and size == 1 and self.flow.kind[made.result] == op.I32:
                found.add(("local", args[0]))
            else:
                return None
        is_set = {step.ins.numbers[0] for step in inside if step.ins.code in SETTING}
        one = next(iter(found)) if len(found) == 1 and len(stores) else None
        return None if one is None or (one[0] == "local" and one[1] in is_set) else one

    def push_start(self, group: Group) -> None:
        """Where the next turn's stores begin; behind the loop, where they would begin; of a descending one,
        where they end."""
        first = group.first + group.width * group.is_descending
        self.sums.begin()
        offset = self.push_sum(Sum(group.sum, first % WORD))
        if offset:
            self.writer.emit(op.I32_CONST, offset), self.writer.emit(op.CODE_OF["i32.add"])

    def leave_loop(self, place: Place) -> None:
        """Clears or fills from where the stores began to where they ended."""
        for group, start in self.ending.pop(place.step, []):
            if group.is_descending:
                self.push_start(group)
                self.writer.emit(op.LOCAL_GET, start)
            else:
                self.writer.emit(op.LOCAL_GET, start)
                self.push_start(group)
            if group.byte is None:
                self.writer.access("wipe_range", 0x37, 0)
            else:
                kind, value = group.byte
                self.writer.emit(
                    op.I32_CONST if kind == "const" else op.LOCAL_GET,
                    value if kind == "const" else self.writer.local(value),
                )
                self.writer.access("fill_range", 0x37, 0)
            self.grouped -= group.stores
        self.writer.release(NONE - 1 - place.step)
