"""Which values a module's instructions read and make. Each value that an instruction pushes is a node; so is
each local, global, function's result and block's result. A node is made of others; sinks are the places that
an observer learns of. Licence: public domain (CC0)."""
from __future__ import annotations

from dataclasses import dataclass, field
from typing import Any, Dict, Iterable, List, NamedTuple, Optional, Set, Tuple

from . import codes as op
from .parts import Parts
from ..formats.instructions import Instruction
from ..formats.module import FuncType
from ..formats.reading import Bad

NONE = -1


@dataclass
class Step:
    """A reached instruction: the nodes that it pops, the node that it hands to a label (a block's, or the
    function's), and the node it pushes."""

    ins: Instruction
    operands: Tuple[int, ...] = ()
    carried: int = NONE
    result: int = NONE
    joins: Tuple[int, ...] = ()  # where a carried node goes: results of blocks or of the function
    meets: bool = True  # whether an end is come to by other ways than from what stands before it


@dataclass
class Function:
    """A function by its steps."""

    index: int
    type: FuncType
    locals: List[int]  # the node of each local, parameters first
    results: List[int]
    steps: List[Step] = field(default_factory=list)


class Place(NamedTuple):
    """A step of a function."""

    function: int
    step: int


class Sink(NamedTuple):
    """A node whose value an observer learns."""

    place: Place
    node: int
    what: str


@dataclass
class Open:
    """A block that is open: its instruction, the node of its result, and whether its end is reached by a
    branch."""

    code: int
    result: int
    is_target: bool = False
    in_else: bool = False


class Flow:
    """The nodes of a module, and what each is made of."""

    def __init__(self, module: Parts) -> None:
        self.module = module
        self.kind: List[int] = []  # the type of each node
        self.made_of: List[List[int]] = []
        self.loads: Dict[Place, int] = {}  # the node that a load pushes
        self.stores: Dict[Place, int] = {}  # the node that a store writes
        self.sinks: List[Sink] = []
        self.consumer: Dict[int, Place] = {}  # the step that pops a node
        self.globals = [self.node(one.type) for one in module.globals]
        first = len(module.imports)
        self.functions = {index: self.shell(index) for index in range(first, len(module.functions))}
        self.in_table = sorted({index for _, functions in module.elements for index in functions})
        self.public_results = {numbers[0] for kind, numbers in module.labels if kind == "public-result"}
        self.public_globals = {numbers[0] for kind, numbers in module.labels if kind == "public-global"}
        for function in self.functions.values():
            BodyReader(self, function).read()

    def node(self, kind: int) -> int:
        self.kind.append(kind)
        self.made_of.append([])
        return len(self.kind) - 1

    def edge(self, source: int, target: int) -> None:
        self.made_of[target].append(source)

    def shell(self, index: int) -> Function:
        kind = self.module.type_of(index)
        if len(kind.results) > 1:
            raise Bad(f"{self.module.name_of(index)} has several results: such functions aren't split")
        own = self.module.body_of(index).locals
        return Function(
            index,
            kind,
            [self.node(one) for one in (*kind.params, *own)],
            [self.node(one) for one in kind.results],
        )

    def callees(self, kind: FuncType) -> List[int]:
        """The functions that an indirect call of a type may reach."""
        return [
            index for index in self.in_table if index in self.functions and self.module.type_of(index) == kind
        ]

    def step(self, place: Place) -> Step:
        return self.functions[place.function].steps[place.step]


class BodyReader:
    """Reads the body of one function: what stands behind a branch and is never reached is left out."""

    def __init__(self, flow: Flow, function: Function) -> None:
        self.flow, self.function = flow, function
        self.stack: List[int] = []
        result = function.results[0] if function.results else NONE
        self.open = [Open(op.BLOCK, result)]
        self.heights = [0]

    def read(self) -> None:
        dead = 0  # how many blocks are open in code that isn't reached
        reached = True
        for ins in self.flow.module.body_of(self.function.index).code:
            if not reached:
                if ins.code in op.OPENING:
                    dead += 1
                    continue
                if ins.code not in (op.END, op.ELSE) or dead:
                    dead -= ins.code == op.END
                    continue
            reached = self.instruction(ins, reached)

    @property
    def place(self) -> Place:
        return Place(self.function.index, len(self.function.steps))

    def pop(self) -> int:
        node = self.stack.pop()
        self.flow.consumer[node] = self.place
        return node

    def add(
        self,
        ins: Instruction,
        operands: Iterable[int] = (),
        kind: Optional[int] = None,
        made_of: Iterable[int] = (),
        **more: Any,
    ) -> int:
        """A step, and the node of what it pushes, if it pushes anything."""
        result = NONE if kind is None else self.flow.node(kind)
        for source in made_of:
            self.flow.edge(source, result)
        self.function.steps.append(Step(ins, tuple(operands), result=result, **more))
        if result != NONE:
            self.stack.append(result)
        return result

    def sink(self, node: int, what: str) -> None:
        self.flow.sinks.append(Sink(self.place, node, what))

    def instruction(self, ins: Instruction, reached: bool) -> bool:
        """Reads one, and says whether what follows it is reached."""
        code, flow = ins.code, self.flow
        if code in (op.END, op.ELSE):
            return self.close(ins, reached)
        if code in op.OPERATORS:
            self.operator(ins)
        elif code in (op.I32_CONST, op.I64_CONST):
            self.add(ins, (), op.I32 if code == op.I32_CONST else op.I64)
        elif op.LOCAL_GET <= code <= op.GLOBAL_SET:
            self.variable(ins)
        elif code in op.ACCESSES:
            self.access(ins)
        elif code in (op.DROP, op.NOP):
            self.add(ins, [self.pop()] if code == op.DROP else [])
        elif code == op.SELECT:
            c, b, a = self.pop(), self.pop(), self.pop()
            self.add(ins, (a, b, c), flow.kind[a], (a, b, c))
        elif code in op.OPENING:
            self.enter(ins)
        elif code in (op.BR, op.BR_IF, op.BR_TABLE, op.RETURN):
            return self.branch(ins)
        elif code in (op.CALL, op.CALL_INDIRECT):
            self.call(ins)
        elif code == op.MEMORY_SIZE:
            self.add(ins, (), op.I32)
        elif code == op.MEMORY_GROW:
            node = self.pop()
            self.sink(node, "a growth of memory")
            self.add(ins, (node,), op.I32)
        else:
            self.add(ins)
            return False
        return True

    def operator(self, ins: Instruction) -> None:
        one = op.OPERATORS[ins.code]
        operands = [self.pop() for _ in one.operands][::-1]
        if ins.code in op.DIVISIONS:
            for node in operands:
                self.sink(node, "an operand of a division")
        self.add(ins, operands, one.result, operands)

    def variable(self, ins: Instruction) -> None:
        nodes = self.flow.globals if ins.code in (op.GLOBAL_GET, op.GLOBAL_SET) else self.function.locals
        variable = nodes[ins.numbers[0]]
        if ins.code in (op.LOCAL_GET, op.GLOBAL_GET):
            self.add(ins, (), self.flow.kind[variable], (variable,))
            return
        value = self.pop()
        self.flow.edge(value, variable)
        if ins.code == op.GLOBAL_SET and ins.numbers[0] in self.flow.public_globals:
            self.sink(value, "a value that a public global takes")
        if ins.code == op.LOCAL_TEE:
            self.add(ins, (value,), self.flow.kind[variable], (value,))
        else:
            self.add(ins, (value,))

    def access(self, ins: Instruction) -> None:
        flow, place = self.flow, self.place
        if ins.code in op.STORES:
            value, address = self.pop(), self.pop()
            self.sink(address, "the address of a store")
            flow.stores[place] = value
            self.add(ins, (address, value))
        else:
            address = self.pop()
            self.sink(address, "the address of a load")
            flow.loads[place] = self.add(ins, (address,), op.ACCESSES[ins.code].type)

    def enter(self, ins: Instruction) -> None:
        operands = []
        if ins.code == op.IF:
            operands = [self.pop()]
            self.sink(operands[0], "a condition")
        self.add(ins, operands)
        kind = ins.numbers[0]
        self.open.append(Open(ins.code, NONE if kind == op.EMPTY else self.flow.node(kind & 0x7F)))
        self.heights.append(len(self.stack))

    def hand(self, node: int, joins: Iterable[int]) -> None:
        for join in joins:
            self.flow.edge(node, join)
            if self.function.index in self.flow.public_results and join in self.function.results:
                self.sink(node, "a public result")

    def close(self, ins: Instruction, reached: bool) -> bool:
        """An else or an end."""
        here = self.open[-1]
        carried = self.pop() if reached and here.result != NONE else NONE
        if carried != NONE:
            self.hand(carried, (here.result,))
        del self.stack[self.heights[-1] :]
        meets = here.is_target or here.code == op.IF or len(self.open) == 1
        here.is_target |= reached
        joins = (here.result,) if carried != NONE else ()
        if ins.code == op.ELSE:
            here.in_else = True
            self.add(ins, carried=carried, joins=joins)
            return True
        self.open.pop(), self.heights.pop()
        left = here.is_target or (here.code == op.IF and not here.in_else)
        pushed = here.result if left and self.open else NONE
        self.function.steps.append(Step(ins, carried=carried, joins=joins, result=pushed, meets=meets))
        if pushed != NONE:
            self.stack.append(pushed)
        if self.open and not left:
            self.function.steps.append(
                Step(op.ins(op.UNREACHABLE))
            )  # the rest is left out, and has to be valid all the same
        return bool(left)

    def label(self, depth: int) -> Optional[Open]:
        """The block that a branch leads to the end of; of a loop, which is begun again, none."""
        target = self.open[-1 - depth]
        if target.code == op.LOOP:
            return None
        target.is_target = True
        return target

    def branch(self, ins: Instruction) -> bool:
        code, args = ins.code, ins.numbers
        operands = []
        if code in (op.BR_IF, op.BR_TABLE):
            operands = [self.pop()]
            self.sink(operands[0], "a condition" if code == op.BR_IF else "the index of a br_table")
        depths = [len(self.open) - 1] if code == op.RETURN else list(args)
        joins = tuple(
            dict.fromkeys(one.result for one in map(self.label, depths) if one and one.result != NONE)
        )
        carried = self.pop() if joins else NONE
        if carried != NONE:
            self.hand(carried, joins)
        if code == op.BR_IF and carried != NONE:
            self.add(ins, operands, self.flow.kind[carried], (carried,), carried=carried, joins=joins)
        else:
            self.add(ins, operands, carried=carried, joins=joins)
        return code == op.BR_IF

    def call(self, ins: Instruction) -> None:
        flow = self.flow
        if ins.code == op.CALL_INDIRECT:
            index = self.pop()
            self.sink(index, "the index of an indirect call")
            kind = flow.module.types[ins.numbers[0]]
            callees, last = flow.callees(kind), [index]
        else:
            kind, callees, last = flow.module.type_of(ins.numbers[0]), [ins.numbers[0]], []
        operands = [self.pop() for _ in kind.params][::-1]
        results: Set[int] = set()
        for callee in callees:
            function = flow.functions.get(callee)
            if function:
                for node, param in zip(operands, function.locals):
                    flow.edge(node, param)
                results.update(function.results)
        self.add(ins, (*operands, *last), kind.results[0] if kind.results else None, results)
