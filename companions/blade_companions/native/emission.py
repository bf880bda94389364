"""The C of one function of an image after another. Licence: public domain (CC0).

A command is one line, and the compiler is told that the line has the number of its position in a file that is
called like the image. So debuggers, and the check of the object, say which command an instruction comes
of."""
from __future__ import annotations

from typing import Dict, Iterable, List, Set, Tuple

from ..formats.image import TRAPS, Command, Image, Operand

from .flow import Blocks
from .operators import ACCESS_TABLE, BITS, C_TYPES, MOVE, OUTSIDE, REACH, SELECT, TABLE, constant, loaded
from .reading import I32, I64, calls, growing, secret_variables, transient_variables
from .widths import Widths

MOST_CALLS = 1024
KINDS = (
    "unreachable",
    "divide_by_zero",
    "overflow",
    "out_of_bounds",
    "undefined_element",
    "uninitialized_element",
    "type_mismatch",
    "stack_exhausted",
)


def counts_depth(calls: List[Set[int]]) -> bool:
    """Whether some chain of calls may be too deep: one that goes round, or one of more functions than calls
    may be open."""
    heights: Dict[int, int] = {}
    for start in range(len(calls)):
        waiting: List[Tuple[int, bool]] = [(start, False)]
        open_: Set[int] = set()
        while waiting:
            function, is_done = waiting.pop()
            if is_done:
                open_.discard(function)
                heights[function] = 1 + max((heights[callee] for callee in calls[function]), default=0)
            elif function in open_:
                return True
            elif function not in heights:
                open_.add(function)
                waiting.append((function, True))
                for callee in calls[function]:
                    if callee in open_:
                        return True
                    waiting.append((callee, False))
    return max(heights.values(), default=0) > MOST_CALLS


class Emission:
    """What all functions of an image share: types, which variables are guarded, which memories grow, whether
    depth is counted."""

    def __init__(self, image: Image, widths: Widths, name: str) -> None:
        self.image, self.widths, self.name = image, widths, name
        self.guarded = secret_variables(image) | transient_variables(image)
        self.growing = growing(image)
        self.counts_depth = counts_depth(calls(image))
        self.exported = {function for _, function in image.names}

    def type_of(self, variable: int) -> str:
        return C_TYPES[self.widths.of(variable)]

    def parameters(self, number: int) -> range:
        return self.image.functions[number].parameter_variables

    def results(self, number: int) -> range:
        return self.image.functions[number].result_variables

    def returned(self, number: int) -> str:
        """The type in C of what a function returns."""
        results = self.results(number)
        return (
            "void"
            if not results
            else self.type_of(results[0])
            if len(results) == 1
            else f"struct results{number}"
        )

    def signature(self, number: int) -> str:
        """The head of a function in C."""
        words = ["instance *const m"] + ["uint32_t depth"] * self.counts_depth
        words += [f"{self.type_of(variable)} v{variable}" for variable in self.parameters(number)]
        kept = "__attribute__((noinline, used)) " if number in self.exported else ""
        return f"static {kept}{self.returned(number)} f{number}({', '.join(words)})"

    def declarations(self) -> List[str]:
        """The results that a function returns together, and all heads."""
        lines = []
        for number in range(len(self.image.functions)):
            if len(self.results(number)) > 1:
                fields = " ".join(
                    f"{self.type_of(variable)} r{variable};" for variable in self.results(number)
                )
                lines.append(f"struct results{number} {{ {fields} }};")
            lines.append(f"{self.signature(number)};")
        return lines


class FunctionEmission:
    """The C of one function."""

    def __init__(self, shared_: Emission, number: int) -> None:
        self.shared, self.image, self.number = shared_, shared_.image, number
        self.function, self.commands = self.image.functions[number], self.image.commands
        self.blocks = Blocks(self.image, self.function.entry)
        self.names = self.named_variables()
        self.returned = {
            number for name, number in self.names.items() if name[0] == "r"
        }  # results of calls that are read

    # ---- operands

    def variable(self, number: int) -> str:
        """A global, a size, a local, or what a call returned."""
        globals_ = len(self.image.first_globals)
        if number < globals_:
            return f"m->g{number}"
        if number < self.image.shared:
            memory = number - globals_
            return (
                f"m->pages[{memory}]"
                if memory in self.shared.growing
                else f"{self.image.memories[memory].pages}u"
            )
        return f"v{number}" if self.function.has_local(number) else f"r{number}"

    def operand(self, operand: Operand, kind: int) -> str:
        return self.variable(operand.value) if operand.is_variable else constant(operand.value, kind)

    def place(self, memory: int, offset: int, address: Operand) -> str:
        """The place of an access. Its address has 32 bits and its offset another 32: it can't leave the
        memory's reservation."""
        if not address.is_variable:
            return f"memory{memory} + {constant(address.value + offset, I64)}"
        return f"memory{memory} + address({self.variable(address.value)})" + (
            f" + {offset}u" if offset else ""
        )

    # ---- commands

    def value(self, command: Command) -> str:
        """The expression of a Set."""
        kind = self.shared.widths.of(command.writes)
        if command.operator == MOVE:
            return self.operand(command.operands[0], kind)
        if command.operator == SELECT:
            a, b, c = (self.operand(one, k) for one, k in zip(command.operands, (kind, kind, I32)))
            return f"select{BITS[kind]}({a}, {b}, {c})"
        if command.operator == OUTSIDE:
            a, pages, reach = command.operands
            return f"outside({self.operand(a, I32)}, {self.operand(pages, I32)}, {self.reach(reach)})"
        operator = TABLE[command.operator]
        operands = [self.operand(one, k) for one, k in zip(command.operands, operator.operands)]
        return operator.expression.format(a=operands[0], b=operands[-1])

    def reach(self, operand: Operand) -> str:
        """The low 34 bits of an operand."""
        if not operand.is_variable:
            return constant(operand.value & REACH, I64)
        return f"{self.variable(operand.value)} & {constant(REACH, I64)}"

    def written(self, to: str, value: str, position: int, command: Command, hides: bool) -> str:
        """Gives a variable a value, behind a barrier where the command is protected, hidden where it is
        guarded."""
        line = f"{to} = {value};"
        if command.is_protected:
            return f"{line} PROTECT({to}, {position});"
        return f"{line} HIDE({to});" if hides else line

    def set(self, position: int, command: Command) -> str:
        hides = command.operator != MOVE and command.writes in self.shared.guarded
        return self.written(self.variable(command.writes), self.value(command), position, command, hides)

    def load(self, position: int, command: Command) -> str:
        access = ACCESS_TABLE[command.operator]
        value = loaded(access, self.place(command.memory, command.offset, command.operands[0]))
        return self.written(self.variable(command.writes), value, position, command, False)

    def store(self, position: int, command: Command) -> str:
        access = ACCESS_TABLE[command.operator]
        address, value = command.operands
        place, given = self.place(command.memory, command.offset, address), self.operand(value, access.kind)
        cast = f"(uint{access.bits}_t)" if access.bits < BITS[access.kind] else ""
        return f"put{access.bits}({place}, {cast}{given});"

    def move(self, position: int, command: Command) -> str:
        """An Arg or an Out."""
        to = command.writes
        value = self.operand(command.operands[0], self.shared.widths.of(to))
        return self.written(f"{'a' if command.kind == 'Arg' else 'o'}{to}", value, position, command, False)

    def call(self, position: int, command: Command) -> str:
        callee = self.image.function_at(command.targets[0])
        words = ["m"] + ["depth + 1"] * self.shared.counts_depth
        words += [f"a{variable}" for variable in self.shared.parameters(callee)]
        called, results = f"f{callee}({', '.join(words)});", [
            x for x in self.shared.results(callee) if x in self.returned
        ]
        if results and len(self.shared.results(callee)) == 1:
            called = f"r{results[0]} = {called}"
        elif results:
            called = (
                f"{{ struct results{callee} r = {called} "
                + " ".join(f"r{x} = r.r{x};" for x in results)
                + " }"
            )
        return f"if (depth == {MOST_CALLS}) goto trap7; {called}" if self.shared.counts_depth else called

    def ret(self, _position: int, _command: Command) -> str:
        results = self.shared.results(self.number)
        if len(results) > 1:
            return f"return ({self.shared.returned(self.number)}){{ {', '.join(f'o{x}' for x in results)} }};"
        return f"return o{results[0]};" if results else "return;"

    def goto(self, target: int) -> str:
        return f"goto trap{target};" if target < TRAPS else f"goto p{target};"

    def test(self, _position: int, command: Command) -> str:
        yes, no = map(self.goto, command.targets)
        return f"if ({self.operand(command.operands[0], I32)}) {yes} else {no}"

    def jump(self, _position: int, command: Command) -> str:
        return self.goto(command.targets[0])

    def trap(self, _position: int, command: Command) -> str:
        return f"goto trap{command.trap};"

    STATEMENTS = {
        "Set": set,
        "Load": load,
        "Store": store,
        "Test": test,
        "Jump": jump,
        "Arg": move,
        "Call": call,
        "Out": move,
        "Ret": ret,
        "Trap": trap,
    }

    def line(self, position: int) -> str:
        """The line of a position; one that nothing leads to stays empty."""
        if position not in self.blocks.reached:
            return "/* nothing leads here */"
        command = self.commands[position]
        label = f"p{position}: " if position in self.blocks.labels else ""
        return label + self.STATEMENTS[command.kind](self, position, command)

    # ---- the whole

    def named_variables(self) -> Dict[str, int]:
        """The names in C that the commands use, but for parameters, each with its variable: v for a local, a
        for an argument of a call, r for a result of a call, o for a result to give."""
        known = range(self.image.shared)  # fields of the instance
        parameters = self.shared.parameters(self.number)
        names: Dict[str, int] = {}
        for position in self.blocks.reached:
            command = self.commands[position]
            used = [value for is_variable, value in command.operands if is_variable]
            used += [command.writes] if command.kind in ("Set", "Load") else []
            names.update(
                (self.variable(number), number)
                for number in used
                if number not in known and number not in parameters
            )
            if command.kind in ("Arg", "Out"):
                names[f"{'a' if command.kind == 'Arg' else 'o'}{command.writes}"] = command.writes
        return names

    def declared(self) -> List[str]:
        """The declarations of all names, by their types in C."""
        found: Dict[str, List[str]] = {}
        for name, number in self.names.items():
            found.setdefault(self.shared.type_of(number), []).append(name)
        return [f"    {kind} {', '.join(names)};" for kind, names in found.items()]

    def traps(self) -> Iterable[str]:
        """The ends that the function's commands lead to."""
        commands = [self.commands[position] for position in self.blocks.reached]
        kinds = {target for command in commands for target in command.targets if target < TRAPS}
        kinds |= {command.trap for command in commands if command.kind == "Trap"}
        if self.shared.counts_depth and any(command.kind == "Call" for command in commands):
            kinds.add(7)
        return [
            f"trap{kind}: trap(m, {self.shared.name.upper()}_{KINDS[kind].upper()});"
            for kind in sorted(kinds)
        ]

    def memories(self) -> List[int]:
        commands = (self.commands[position] for position in self.blocks.reached)
        return sorted({command.memory for command in commands if command.kind in ("Load", "Store")})

    def lines(self, first: int) -> List[str]:
        """All lines of the function, of which the first one has a number in the C file."""
        head = [self.shared.signature(self.number), "{"]
        head += [f"    uint8_t *const memory{number} = m->memory[{number}];" for number in self.memories()]
        head += self.declared()
        head.append("    (void)m;" + " (void)depth;" * self.shared.counts_depth)
        end = self.function.entry + self.function.length
        body = [f"    {self.line(position)}" for position in range(self.function.entry, end)]
        whole = head + [f'#line {self.function.entry} "{self.shared.name}.image"'] + body
        whole.append(f'#line {first + len(whole) + 1} "{self.shared.name}.c"')
        return whole + [f"    {line}" for line in self.traps()] + ["}", ""]
