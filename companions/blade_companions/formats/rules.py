"""The nine rules of programs, as formats/FORMATS.md has them. The reader of images checks some of them while
it reads; the others are here. Licence: public domain (CC0)."""
from __future__ import annotations

from collections import Counter
from typing import Callable, Dict, Sequence, Tuple

from .image import SITES, Command, Function, Image, Operand
from .operators import ACCESS_NAMES, MOVE, OUTSIDE, width_of
from .reading import Bad

I32, I64 = 0x7F, 0x7E
I32_GT_U, I32_ADD, I32_SUB = 0x4B, 0x6A, 0x6B
ZEROS = bytes(16)
MOST_WEIGHT = 1 << 63


def rule_1(image: Image) -> bool:
    """Rows of memories: none has only zeros. Numbers of rows have 32 bits."""
    rows = (row for memory in image.memories for row in memory.rows)
    return not any(contents == ZEROS or number >> 32 for number, contents in rows)


def rule_2(image: Image) -> bool:
    """The values of globals fit their types."""
    listed = zip(image.global_types, image.first_globals)
    return all(kind == I64 or value >> 32 == 0 for kind, value in listed)


def rule_3(image: Image) -> bool:
    """No two exports have one name."""
    return len({name for name, _ in image.names}) == len(image.names)


def rule_9(image: Image) -> bool:
    """Demands rise and name no secret global; weights are those of sites, and not too great together."""
    demands = [(1, index, 0) if function is None else (0, function, index)
               for function, index in image.demands]
    if not all(former < demand for former, demand in zip(demands, demands[1:])):
        return False
    if any(function is None and image.secret_globals[index] for function, index in image.demands):
        return False
    sites = [place for place, command in enumerate(image.commands) if command.kind in SITES]
    is_listed = image.weights.keys() <= set(sites) and 0 not in image.weights.values()
    return is_listed and sum(map(image.weight, sites)) < MOST_WEIGHT


class Rules:
    """The rules of commands: each `rule_N` says whether that rule holds of a function's command."""

    def __init__(self, image: Image) -> None:
        self.image, self.commands = image, image.commands
        jumps = (command.targets for command in image.commands if command.kind in ("Test", "Jump"))
        self.named: Dict[int, int] = Counter(target for targets in jumps for target in targets)

    def size(self, memory: int) -> Operand:
        """The operand that is a memory's size."""
        return Operand(True, len(self.image.first_globals) + memory)

    def may_read(self, function: Function, variable: int) -> bool:
        is_own = function.first <= variable < function.first + function.variables
        return (is_own or variable < self.image.shared
                or variable in self.image.function_of(variable).result_variables)

    def rule_4(self, function: Function, _position: int, command: Command) -> bool:
        """Operands are shared, the function's own, or results; what is written is shared, or a local."""
        if not all(self.may_read(function, value) for is_variable, value in command.operands if is_variable):
            return False
        is_shared = command.writes < self.image.shared
        return command.kind not in ("Set", "Load") or is_shared or function.has_local(command.writes)

    def rule_7(self, function: Function, position: int, command: Command) -> bool:
        """In front of an access stand the test of its bounds and the branch on it, and nothing else leads
        there."""
        if command.kind not in ("Load", "Store"):
            return True
        if not function.has_command(position - 2):
            return False
        outside, address = self.commands[position - 2], command.operands[0]
        end = Operand(False, command.offset + width_of(ACCESS_NAMES[command.operator]))
        return (is_set(outside, OUTSIDE, address, self.size(command.memory), end)
                and function.has_local(outside.writes)
                and address != Operand(True, outside.writes)
                and is_test(self.commands[position - 1], outside.writes, position)
                and self.named[position - 1] == 0 and self.named[position] == 1)

    def rule_8(self, function: Function, position: int, command: Command) -> bool:
        """In front of a Set of a memory's size stand the test of how far it may grow, the branch on it, and
        the copy of the former size."""
        memory = command.writes - len(self.image.first_globals)
        is_size = command.kind in ("Set", "Load") and 0 <= memory < len(self.image.memories)
        if not is_size:
            return True
        if command.kind == "Load" or not function.has_command(position - 4):
            return False
        room, above, test, old = self.commands[position - 4 : position]
        size, added = self.size(memory), command.operands[-1]
        reserve, written = Operand(False, self.image.memories[memory].reserve), (room, above, old)
        return (is_set(command, I32_ADD, size, added) and is_set(room, I32_SUB, reserve, size)
                and is_set(above, I32_GT_U, added, Operand(True, room.writes))
                and is_test(test, above.writes, position - 1) and is_set(old, MOVE, size)
                and all(function.has_local(one.writes) for one in written)
                and all(added != Operand(True, one.writes) for one in written)
                and not any(self.named[position - back] for back in (3, 2, 0))
                and self.named[position - 1] == 1)


def is_set(command: Command, operator: int, *operands: Operand) -> bool:
    return command.kind == "Set" and command.operator == operator and command.operands == operands


def is_test(command: Command, variable: int, no: int) -> bool:
    """Whether a command is a Test of a variable that goes on at a position if the variable is 0."""
    is_of_it = command.kind == "Test" and command.operands == (Operand(True, variable),)
    return is_of_it and command.targets[1] == no


OF_IMAGES: Sequence[Tuple[int, Callable[[Image], bool]]] = (
    (1, rule_1), (2, rule_2), (3, rule_3), (9, rule_9))


def check_rules(image: Image) -> None:
    """Refuses an image that breaks a rule, as `blade` does."""
    for number, rule in OF_IMAGES:
        if not rule(image):
            raise Bad(f"image: rule {number} at 0")
    rules = Rules(image)
    of_commands = ((4, rules.rule_4), (7, rules.rule_7), (8, rules.rule_8))
    for function in image.functions:
        for position in range(function.entry, function.entry + function.length):
            for number, holds in of_commands:
                if not holds(function, position, image.commands[position]):
                    raise Bad(f"image: rule {number} at {position}")
