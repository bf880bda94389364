"""Writes a function anew by the kinds of its values: the secret world stays as it is, and beside it stand the
public one's known bits. Licence: public domain (CC0)."""
from __future__ import annotations

from dataclasses import dataclass, field
from typing import Dict, List, Optional, Tuple

from . import codes as op
from .clearing import Clearing
from .flow import NONE, Function, Place, Step
from .kinds import Kinds
from .knowledge import Known, nothing, result_of, wholly
from .shadow import Accessor, Shadow
from .signatures import Signatures
from .terms import Const, Term, Var, code_of, is_ones, is_zero, ones
from .parts import Body, Parts
from ..formats.instructions import Instruction
from ..formats.module import FuncType


@dataclass
class Making:
    """What is made, and what it is made by."""

    kinds: Kinds
    shadow: Shadow
    signatures: Signatures
    made: Parts
    known_global: Dict[int, int] = field(
        default_factory=dict
    )  # the first of two globals beside one of kind D
    handed: Dict[int, int] = field(default_factory=dict)  # by type, the first of two that hand on results


class FunctionWriter:
    """Writes one function. Each value of the secret world stands on the stack as before; where the public
    world needs one wholly, it takes its place."""

    def __init__(self, making: Making, function: Function) -> None:
        kinds, signatures = making.kinds, making.signatures
        self.making, self.kinds, self.signatures, self.function = making, kinds, signatures, function
        self.flow, self.shadow = kinds.flow, making.shadow
        self.known_global, self.handed = making.known_global, making.handed
        self.params = len(function.type.params)
        self.sig = sorted(signatures.params[function.index])
        self.types: List[int] = list(function.type.params) + [
            function.type.params[at] for at in self.sig for _ in range(2)
        ]
        self.first_own = len(self.types)
        self.types += [self.flow.kind[node] for node in function.locals[self.params :]]
        self.pairs: Dict[
            int, Known
        ] = {}  # the locals of what is known of a local, or of a block's or the function's result
        for number, at in enumerate(self.sig):
            kind, first = op.BITS[function.type.params[at]], self.params + 2 * number
            self.pairs[function.locals[at]] = Known(Var(first, kind), Var(first + 1, kind))
        self.known: Dict[int, Known] = {}  # of a node on the stack, until it is popped
        self.owner: Dict[int, int] = {}  # of each local that is borrowed the node that it is borrowed for
        self.free: Dict[int, List[int]] = {op.I32: [], op.I64: []}
        self.copied: Dict[int, Term] = {}
        self.clearing = Clearing(self, function)
        self.code: List[Instruction] = []
        self.own_place = self.flow.module.body_of(function.index).place
        self.place = -1  # of the instruction that is written, in the module's file

    # Locals.

    def local(self, index: int) -> int:
        return index if index < self.params else index - self.params + self.first_own

    def new_local(self, kind: int) -> int:
        self.types.append(kind)
        return len(self.types) - 1

    def borrow(self, node: int, kind: int) -> int:
        """A local for as long as a node stands on the stack."""
        local = self.free[kind].pop() if self.free[kind] else self.new_local(kind)
        self.owner[local] = node
        return local

    def adopt(self, node: int, term: Term) -> None:
        """A borrowed local stays for a node that goes on with what is in it."""
        if isinstance(term, Var) and term.name in self.owner:
            self.owner[int(term.name)] = node

    def release(self, node: int) -> None:
        for local in [one for one, owner in self.owner.items() if owner == node]:
            del self.owner[local]
            self.free[self.types[local]].append(local)
        self.known.pop(node, None)

    def pair(self, node: int) -> Known:
        """The locals of what is known of a variable or of a block's result."""
        if node not in self.pairs:
            kind = self.flow.kind[node]
            bits = op.BITS[kind]
            self.pairs[node] = Known(Var(self.new_local(kind), bits), Var(self.new_local(kind), bits))
        return self.pairs[node]

    # What is known.

    def emit(self, code: int, *args: int) -> None:
        self.code.append(Instruction(self.place, code, args))

    def push(self, term: Term) -> None:
        self.code += [one._replace(place=self.place) for one in code_of(term)]

    def assign(self, pair: Known, known: Known) -> None:
        """Both terms are read before either local is set."""
        self.push(known.value)
        self.push(known.mask)
        self.emit(op.LOCAL_SET, int(pair.mask.name))  # type: ignore[union-attr]
        self.emit(op.LOCAL_SET, int(pair.value.name))  # type: ignore[union-attr]

    def settled(self, node: int, term: Term) -> Term:
        """The term in a local, unless it is plain."""
        self.adopt(node, term)
        return term if isinstance(term, Var) else self.held(node, term)

    def known_of(self, node: int) -> Known:
        """What is known of a node that stands on the stack."""
        return self.known.get(node) or nothing(op.BITS[self.flow.kind[node]])

    def is_kept(self, node: int) -> bool:
        """Whether the step that pops a node also needs it, or what is known of it, beside the stack."""
        place = self.flow.consumer.get(node)
        if place is None:
            return False
        step = self.flow.step(place)
        code, kinds = step.ins.code, self.kinds
        if code in op.STORES:
            return self.writes_shadow(step) and not self.clearing.is_later(place, step)
        if code in op.LOADS:
            return kinds.of(step.result) == "D" and place not in kinds.checked
        if code in (op.LOCAL_SET, op.LOCAL_TEE):
            return kinds.of(self.function.locals[step.ins.numbers[0]]) == "D" or (
                code == op.LOCAL_TEE and kinds.of(step.result) == "D"
            )
        if code == op.GLOBAL_SET:
            return step.ins.numbers[0] in self.known_global
        if code in (op.CALL, op.CALL_INDIRECT):
            callee = self.callee(step)
            return callee is not None and any(
                step.operands[at] == node for at in self.signatures.params[callee]
            )
        if step.carried == node:
            return (
                step.ins.code == op.BR_IF
                or any(kinds.of(join) == "D" for join in step.joins)
                or self.signatures.results[self.function.index]
            )
        return step.result != NONE and kinds.of(step.result) == "D"

    def callee(self, step: Step) -> Optional[int]:
        """The function whose signature a call follows."""
        if step.ins.code == op.CALL:
            return step.ins.numbers[0] if step.ins.numbers[0] in self.flow.functions else None
        return next(iter(self.flow.callees(self.flow.module.types[step.ins.numbers[0]])), None)

    def is_steady(self, place: Place, step: Step) -> bool:
        """Whether a local stays as it is until what was read from it, or left by a tee, is popped."""
        between = self.function.steps[place.step + 1 : self.flow.consumer[step.result].step]
        return not any(
            one.ins.code in (op.LOCAL_SET, op.LOCAL_TEE) and one.ins.numbers == step.ins.numbers
            for one in between
        )

    def check(self, mask: Term) -> None:
        """Traps unless all bits are known."""
        if is_ones(mask):
            return
        self.push(mask)
        self.push(ones(mask.bits))
        self.emit(op.CODE_OF[f"i{mask.bits}.ne"])
        self.emit(op.IF, op.EMPTY)
        self.emit(op.UNREACHABLE)
        self.emit(op.END)

    def access(self, what: str, code: int, offset: int, other: int = 0, leaks: bool = False) -> None:
        """A call of the shadow, whose arguments are there: which number it has is known at the end."""
        self.emit(op.CALL, -1 - self.shadow.number(Accessor(what, code, offset, other, leaks)))

    # Steps.

    def write(self) -> Tuple[FuncType, Body]:
        for at, step in enumerate(self.function.steps):
            self.step(Place(self.function.index, at), step)
        kind = self.signatures.widened(self.function.type, self.function.index)
        return kind, Body(self.types[len(kind.params) :], self.code, self.own_place)

    def step(self, place: Place, step: Step) -> None:
        code = step.ins.code
        self.place = step.ins.place
        self.clearing.settle(place, step)
        self.clearing.follow(place, step)
        if code in op.LOADS:
            self.load(place, step)
        elif code in op.STORES:
            self.store(place, step)
        elif op.LOCAL_GET <= code <= op.GLOBAL_SET:
            self.variable(place, step)
        elif code in (op.CALL, op.CALL_INDIRECT):
            self.call(step)
        else:
            self.plain(place, step)
        for node in (*step.operands, step.carried):
            self.release(node)
        if code == op.END:
            self.clearing.leave_loop(place)

    def plain(self, place: Place, step: Step) -> None:
        """An instruction that stays, and what is known of its result."""
        code, args = step.ins.code, step.ins.numbers
        known: Optional[Known] = None
        for join in step.joins:
            if join in self.function.results and self.signatures.results[self.function.index]:
                self.hand_on(join, self.known_of(step.carried))
            elif self.kinds.of(join) == "D":
                self.assign(self.pair(join), self.known_of(step.carried))
        self.code.append(step.ins)
        if step.result == NONE:
            return
        kind = self.kinds.of(step.result)
        if code == op.END:
            known = self.pair(step.result) if kind == "D" else None
        elif code == op.BR_IF:
            known = self.known_of(step.carried)
            known = Known(self.held(step.result, known.value), self.held(step.result, known.mask))
        elif code in op.CONST.values():
            known = wholly(
                Const(
                    args[0] & ((1 << op.BITS[self.flow.kind[step.result]]) - 1),
                    op.BITS[self.flow.kind[step.result]],
                )
            )
        elif kind == "D" and code not in op.DIVISIONS:
            known = result_of(code, [self.known_of(node) for node in step.operands])
        self.pushed(step.result, known)

    def hand_on(self, result: int, known: Known) -> None:
        """What is known of a result, in globals, where the caller takes it at once."""
        first = self.handed[self.flow.kind[result]]
        self.push(known.value)
        self.emit(op.GLOBAL_SET, first)
        self.push(known.mask)
        self.emit(op.GLOBAL_SET, first + 1)

    def held(self, node: int, term: Term) -> Term:
        """A copy that stays while a node does."""
        if isinstance(term, Const):
            return term
        self.push(term)
        return self.taken(node, self.flow.kind[node])

    def pushed(self, node: int, known: Optional[Known]) -> None:
        """A node has come onto the stack. What is known of it is kept where the step that pops it asks for
        it."""
        kind = self.kinds.of(node)
        bits = op.BITS[self.flow.kind[node]]
        if kind == "D":
            known = known or nothing(bits)
            known = Known(self.settled(node, known.value), self.settled(node, known.mask))
            self.known[node] = known
            if self.kinds.is_public_use(node):
                self.emit(op.DROP)
                self.check(known.mask)
                self.push(known.value)
                self.known[node] = wholly(known.value)
        elif self.is_kept(node):
            self.known[node] = self.kept(node, kind, known)

    def kept(self, node: int, kind: str, known: Optional[Known]) -> Known:
        """What is known of a node that is U, or S at an address that leaks."""
        bits = op.BITS[self.flow.kind[node]]
        if kind == "S" and not self.is_leak(node):
            return nothing(bits)
        if known and is_ones(known.mask) and isinstance(known.value, (Const, Var)):
            return known
        local = self.borrow(node, self.flow.kind[node])
        self.emit(op.LOCAL_TEE, local)
        return wholly(Var(local, bits))

    def is_leak(self, node: int) -> bool:
        place = self.flow.consumer.get(node)
        return place is not None and (place, node) in self.kinds.leaking

    # Memory.

    def load(self, place: Place, step: Step) -> None:
        code, offset = step.ins.code, step.ins.numbers[1]
        address = step.operands[0]
        if place in self.kinds.checked and self.shadow.is_inside(offset):
            self.access("public", code, offset)
            self.pushed(step.result, None)
            return
        self.code.append(step.ins)
        known: Optional[Known] = None
        if (
            self.kinds.of(step.result) == "D"
            and self.kinds.has_public_address(place)
            and self.shadow.is_inside(offset)
        ):
            if self.is_copy(place, step):
                self.copied[step.result] = self.known_of(address).value
                self.adopt(step.result, self.copied[step.result])
                return
            known = self.fetched(step, self.known_of(address).value)
        self.pushed(step.result, known)

    def fetched(self, step: Step, address: Term) -> Known:
        """The known bits of what a load read, in locals."""
        kind = self.flow.kind[step.result]
        found = []
        for what in ("bits", "mask"):
            self.push(address)
            self.access(what, step.ins.code, step.ins.numbers[1])
            found.append(self.taken(step.result, kind))
        return Known(*found)

    def taken(self, node: int, kind: int) -> Var:
        """What stands on top, in a local for as long as a node stays."""
        local = self.borrow(node, kind)
        self.emit(op.LOCAL_SET, local)
        return Var(local, op.BITS[kind])

    def from_globals(self, node: int, first: int) -> Known:
        """Two globals with what is known, in locals."""
        kind = self.flow.kind[node]
        self.emit(op.GLOBAL_GET, first)
        value = self.taken(node, kind)
        self.emit(op.GLOBAL_GET, first + 1)
        return Known(value, self.taken(node, kind))

    def is_copy(self, place: Place, step: Step) -> bool:
        """Whether the next step stores what is loaded, as many bytes."""
        after = self.flow.consumer[step.result]
        if after.step != place.step + 1:
            return False
        store = self.flow.step(after)
        return (
            store.ins.code in op.STORES
            and store.operands[1] == step.result
            and self.is_mirrored(after, store)
            and op.ACCESSES[store.ins.code].width == op.ACCESSES[step.ins.code].width
        )

    def is_mirrored(self, place: Place, step: Step) -> bool:
        return (place, step.operands[0]) not in self.kinds.leaking and self.writes_shadow(step)

    def writes_shadow(self, step: Step) -> bool:
        """Whether a store has to tell the shadow: where nobody reads it, or the store is outside of the
        memory in any case, it hasn't."""
        return self.kinds.reads_shadow and self.shadow.is_inside(step.ins.numbers[1])

    def store(self, place: Place, step: Step) -> None:
        """The store of the secret world, and behind it what the shadow is to know."""
        code, offset = step.ins.code, step.ins.numbers[1]
        self.code.append(step.ins)
        if not self.writes_shadow(step):
            return
        address, value = step.operands
        leaks = not self.is_mirrored(place, step)
        known = self.known_of(value)
        if value not in self.copied and (is_zero(known.mask) or leaks) or place.step in self.clearing.grouped:
            self.clearing.clear(place, step, leaks)
            return
        self.push(self.known_of(address).value)
        if value in self.copied:
            self.push(self.copied.pop(value))
            self.access("copy", code, offset, self.load_offset(place))
        elif is_ones(known.mask):
            self.push(known.value)
            self.access("mirror", code, offset)
        else:
            self.push(known.value), self.push(known.mask)
            self.access("put", code, offset)

    def load_offset(self, store: Place) -> int:
        return self.flow.step(Place(store.function, store.step - 1)).ins.numbers[1]

    # Variables.

    def variable(self, place: Place, step: Step) -> None:
        code, index = step.ins.code, step.ins.numbers[0]
        if code == op.GLOBAL_GET or code == op.GLOBAL_SET:
            self.global_variable(step, index)
        elif code == op.LOCAL_GET:
            self.get(place, step, index)
        else:
            node = self.function.locals[index]
            known = self.known_of(step.operands[0])
            self.emit(code, self.local(index))
            if self.kinds.of(node) == "D":
                self.assign(self.pair(node), known)
            if code == op.LOCAL_TEE:
                self.pushed(step.result, self.teed(place, step, known))

    def teed(self, place: Place, step: Step, known: Known) -> Optional[Known]:
        """What is known of what a tee leaves on the stack: if it is public, the local has all of it, unless
        the local is set before the step that pops it."""
        result, index = step.result, step.ins.numbers[0]
        kind = self.kinds.of(result)
        if kind == "D":
            return Known(self.held(result, known.value), self.held(result, known.mask))
        if kind == "U" and self.is_steady(place, step):
            return wholly(Var(self.local(index), op.BITS[self.flow.kind[result]]))
        return None

    def get(self, place: Place, step: Step, index: int) -> None:
        node, result = self.function.locals[index], step.result
        if self.kinds.of(node) == "U":
            self.emit(op.LOCAL_GET, self.local(index))
            self.pushed(
                result,
                wholly(Var(self.local(index), op.BITS[self.flow.kind[node]]))
                if self.is_steady(place, step)
                else None,
            )
            return
        known = self.pair(node) if self.kinds.of(node) == "D" and self.kinds.of(result) == "D" else None
        if known and self.kinds.is_public_use(result):
            self.check(known.mask)
            self.push(known.value)
            self.known[result] = wholly(
                known.value if self.is_steady(place, step) or not self.is_kept(result) else self.tee(result)
            )
            return
        self.emit(op.LOCAL_GET, self.local(index))
        if known and not self.is_steady(place, step):
            known = Known(self.held(result, known.value), self.held(result, known.mask))
        self.pushed(result, known)

    def tee(self, node: int) -> Term:
        local = self.borrow(node, self.flow.kind[node])
        self.emit(op.LOCAL_TEE, local)
        return Var(local, op.BITS[self.flow.kind[node]])

    def global_variable(self, step: Step, index: int) -> None:
        self.code.append(step.ins)
        first = self.known_global.get(index)
        if step.ins.code == op.GLOBAL_SET:
            if first is not None:
                known = self.known_of(step.operands[0])
                self.push(known.value), self.emit(op.GLOBAL_SET, first)
                self.push(known.mask), self.emit(op.GLOBAL_SET, first + 1)
            return
        is_known = first is not None and self.kinds.of(step.result) == "D"
        self.pushed(step.result, self.from_globals(step.result, first or 0) if is_known else None)

    # Calls.

    def call(self, step: Step) -> None:
        callee = self.callee(step)
        if callee is None:
            self.code.append(step.ins)
        else:
            self.known_call(step, callee)
        if step.result == NONE:
            return
        is_known = (
            callee is not None and self.signatures.results[callee] and self.kinds.of(step.result) == "D"
        )
        self.pushed(
            step.result,
            self.from_globals(step.result, self.handed[self.flow.kind[step.result]]) if is_known else None,
        )

    def known_call(self, step: Step, callee: int) -> None:
        """The call, with what is known of its arguments behind them; an index stands on top."""
        extra = sorted(self.signatures.params[callee])
        is_direct = step.ins.code == op.CALL
        index = NONE
        if extra and not is_direct:
            index = self.borrow(step.operands[-1], op.I32)
            self.emit(op.LOCAL_SET, index)
        for at in extra:
            known = self.known_of(step.operands[at])
            self.push(known.value), self.push(known.mask)
        if index != NONE:
            self.emit(op.LOCAL_GET, index)
        if is_direct:
            self.code.append(step.ins)
        else:
            kind = self.signatures.widened(self.flow.module.types[step.ins.numbers[0]], callee)
            self.emit(op.CALL_INDIRECT, self.making.made.type_index(kind), 0)
