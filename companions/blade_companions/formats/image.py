"""Images: the commands of a hardened program, and what it declares. The format is that of formats/FORMATS.md.
Licence: public domain (CC0)."""
from __future__ import annotations

import os
from dataclasses import dataclass, field
from typing import Callable, Container, Dict, List, NamedTuple, Optional, Tuple

from .operators import ARITIES, DIVISIONS, LOADS, STORES
from .reading import Bad, Reader, limited, read_file
from ..printing import called

TRAPS = 7  # the positions in front of the first function
VALUE_TYPES, DEPTHS, MOST_FUNCTIONS = (0x7F, 0x7E), 6, 80_000
SITES = frozenset(["Set", "Load", "Arg", "Out"])
LEAVING = frozenset(["Test", "Jump", "Ret", "Trap"])  # a function ends in one of them


class Operand(NamedTuple):
    """A variable, or else a constant."""

    is_variable: bool
    value: int


class Command(NamedTuple):
    """A command: what it makes its value of, what an observer learns of, the variable it writes, and where it
    leads."""

    kind: str
    operands: Tuple[Operand, ...] = ()
    reads: Tuple[int, ...] = ()  # variables that a Set, an Arg or an Out makes its value of
    sinks: Tuple[int, ...] = ()  # variables that an observer learns of
    writes: int = -1
    operator: int = -1
    memory: int = -1
    targets: Tuple[int, ...] = ()
    offset: int = 0  # of an access
    mark: int = 0  # the depth, and 8 where a protect stands
    trap: int = 0  # the kind of a Trap

    @property
    def is_protected(self) -> bool:
        return self.mark >= 8


@dataclass
class Function:
    secret_params: List[bool]
    results: int
    variables: int
    length: int
    first: int = 0  # its first variable
    entry: int = 0  # the position of its first command
    types: List[int] = field(default_factory=list)  # of its parameters, as they are spelled
    result_types: List[int] = field(default_factory=list)

    @property
    def params(self) -> int:
        return len(self.secret_params)

    @property
    def parameter_variables(self) -> range:
        return range(self.first, self.first + self.params)

    @property
    def result_variables(self) -> range:
        return range(self.first + self.params, self.first + self.params + self.results)

    def has_local(self, variable: int) -> bool:
        """Whether a variable is a parameter or a local of this function."""
        is_own = self.first <= variable < self.first + self.variables
        return is_own and variable not in self.result_variables

    def has_command(self, position: int) -> bool:
        return self.entry <= position < self.entry + self.length


@dataclass
class Memory:
    pages: int
    reserve: int
    is_secret: bool
    rows: List[Tuple[int, bytes]]


@dataclass
class Image:
    secret_globals: List[bool]
    first_globals: List[int]
    memories: List[Memory]
    functions: List[Function]
    exports: Dict[int, str]
    entries: Dict[str, int]  # the function of each name that is exported
    demands: List[Tuple[Optional[int], int]]
    weights: Dict[int, int]
    commands: List[Command] = field(default_factory=list)
    variables: int = 0  # how many there are
    global_types: List[int] = field(default_factory=list)
    names: List[Tuple[bytes, int]] = field(default_factory=list)  # of the exports, each with its function

    @property
    def shared(self) -> int:
        """How many variables are globals and sizes of memories."""
        return len(self.first_globals) + len(self.memories)

    @property
    def secret_memories(self) -> List[bool]:
        return [memory.is_secret for memory in self.memories]

    def last(self, begins: Callable[[Function], bool]) -> int:
        """The last function that begins early enough; -1 if none does."""
        low, high = 0, len(self.functions)
        while low < high:
            middle = (low + high) // 2
            if begins(self.functions[middle]):
                low = middle + 1
            else:
                high = middle
        return low - 1

    def function_at(self, position: int) -> int:
        """The function whose command stands at a position; -1 for a trap."""
        return self.last(lambda function: function.entry <= position)

    def function_of(self, variable: int) -> Function:
        """The function that a variable belongs to which isn't shared."""
        return self.functions[self.last(lambda function: function.first <= variable)]

    def weight(self, position: int) -> int:
        """The weight of a site: the listed one, else 10 to the power of its depth."""
        return self.weights.get(position, 10 ** (self.commands[position].mark & 7))

    def protects(self) -> List[int]:
        return [place for place, command in enumerate(self.commands) if command.mark >= 8]

    def sites(self) -> int:
        return sum(command.kind in SITES for command in self.commands)

    def variable_name(self, variable: int) -> str:
        """What a variable is: a global, a memory's size, or one of a function's."""
        if variable < len(self.secret_globals):
            return f"global {variable}"
        if variable < len(self.secret_globals) + len(self.memories):
            return f"size of memory {variable - len(self.secret_globals)}"
        function = self.function_of(variable)
        index = variable - function.first
        if index < function.params:
            return f"p{index}"
        if index < function.params + function.results:
            return f"r{index - function.params}"
        return f"v{index}"


def rising(reader: ImageReader, rest: int) -> List[Tuple[int, bytes]]:
    """Things whose numbers rise, each spelled by how far it is from the least one; rest is how many bytes
    follow, or -1 for a number."""
    found, least = [], 0
    for _ in range(reader.number()):
        number = least + reader.number()
        found.append((number, reader.take(rest) if rest >= 0 else reader.number(64)))
        least = number + 1
    return found


def value_type(reader: Reader) -> int:
    kind = reader.byte()
    if kind not in VALUE_TYPES:
        raise Bad("this is no image: a type")
    return kind


class ImageReader(Reader):
    """Reads the bytes of an image, whose numbers have their shortest spelling."""

    def number(self, bits: int = 32) -> int:
        begin = self.place
        value = super().number()
        if value >> bits or self.place - begin > 1 and not self.data[self.place - 1]:
            raise Bad("this is no image: a number")
        return value


def read_global(reader: ImageReader) -> Tuple[int, bool, int]:
    """A global's type, whether it is secret, and its first value."""
    return value_type(reader), reader.bit(), reader.number(64)


def read_memory(reader: ImageReader) -> Memory:
    memory = Memory(reader.number(), reader.number(), reader.bit(), rising(reader, 16))
    limited("memory", memory.reserve)
    if memory.pages > memory.reserve or memory.rows and (memory.rows[-1][0] + 1) * 16 > memory.pages * 65536:
        raise Bad("image: rule 1 at 0")
    return memory


def read_function(reader: Reader) -> Function:
    params = reader.many(lambda: (value_type(reader), reader.bit()))
    results = reader.many(lambda: value_type(reader))
    function = Function([secret for _, secret in params], len(results), reader.number(), reader.number(),
                        types=[kind for kind, _ in params], result_types=results)
    if not function.length or function.variables < function.params + function.results:
        raise Bad("image: rule 2 at 0")
    return function


def read_export(reader: Reader) -> Tuple[bytes, int]:
    name = reader.block()
    return name, reader.number()


def read_demand(reader: Reader) -> Tuple[Optional[int], int]:
    """A function's result that has to be public, or a global (without a function)."""
    return (reader.number(), reader.number()) if reader.byte() == 0 else (None, reader.number())


def read_head(reader: ImageReader) -> Image:
    """All that stands before the commands."""
    if reader.data[:4] != b"BLIM":
        raise Bad("this is no image")
    reader.place = 4
    version = reader.byte()
    if version not in (1, 2):
        raise Bad("this is no image: its version")
    listed = reader.many(lambda: read_global(reader))
    memories = reader.many(lambda: read_memory(reader))
    functions = reader.many(lambda: read_function(reader))
    exports: Dict[int, str] = {}
    names = reader.many(lambda: read_export(reader))
    entries = {name.decode("utf-8", "replace"): function for name, function in names}
    for name, function in entries.items():
        exports.setdefault(function, called(name))
    demands = reader.many(lambda: read_demand(reader)) if version == 2 else []
    weights = dict(rising(reader, -1)) if version == 2 else {}
    if version == 2 and not demands and not weights:
        raise Bad("this is no image: its version")
    return Image([secret for _, secret, _ in listed], [value for _, _, value in listed], memories, functions,
                 exports, entries, demands, weights, global_types=[kind for kind, _, _ in listed],
                 names=names)


def check_head(image: Image) -> None:
    """Rules 1 to 3 and 9 of programs, as far as others take them for granted."""
    limited("reserve", sum(memory.reserve for memory in image.memories))
    limited("commands", TRAPS + sum(function.length for function in image.functions))
    limited("variables", len(image.secret_globals) + len(image.memories)
            + sum(function.variables for function in image.functions))
    if len(image.functions) > MOST_FUNCTIONS:
        raise Bad("image: rule 2 at 0")
    if any(function >= len(image.functions) for function in image.entries.values()):
        raise Bad("image: rule 3 at 0")
    for function, index in image.demands:
        if function is None and index >= len(image.secret_globals):
            raise Bad("image: rule 9 at 0")
        if (function is not None
            and (function >= len(image.functions) or index >= image.functions[function].results)):
            raise Bad("image: rule 9 at 0")


def lay_out(image: Image) -> None:
    """Gives each function its first variable and its first position."""
    variable, position = len(image.secret_globals) + len(image.memories), TRAPS
    for function in image.functions:
        function.first, function.entry = variable, position
        variable, position = variable + function.variables, position + function.length
    image.variables = variable


def named(operands: Tuple[Operand, ...]) -> Tuple[int, ...]:
    return tuple(operand.value for operand in operands if operand.is_variable)


class CommandReader:
    """Reads the commands of one function after another, as far as rules 4 to 6 of programs hold."""

    def __init__(self, reader: ImageReader, image: Image) -> None:
        self.reader, self.image = reader, image
        self.readers = [self.set, self.load, self.store, self.test, self.jump, self.arg, self.call, self.out,
                        self.ret, self.trap]
        self.position = TRAPS

    def kept(self, rule: int, holds: bool) -> None:
        if not holds:
            raise Bad(f"image: rule {rule} at {self.position}")

    def variable(self) -> int:
        number = self.reader.number()
        self.kept(4, number < self.image.variables)
        return number

    def operand(self) -> Operand:
        return Operand(False, self.reader.number(64)) if self.reader.bit() else Operand(True, self.variable())

    def mark(self) -> int:
        """The depth, and 8 where a protect stands."""
        mark = self.reader.byte()
        self.kept(6, mark & 7 <= DEPTHS and mark < 16)
        return mark

    def code(self, codes: Container[int]) -> int:
        code = self.reader.byte()
        if code not in codes:
            raise Bad("this is no image: an operator or an access")
        return code

    def target(self, function: Function) -> int:
        position = self.reader.number()
        self.kept(5, position < TRAPS or function.entry <= position < function.entry + function.length)
        return position

    def number(self, most: int) -> int:
        """The number of a memory, of a function, or of a parameter or a result."""
        number = self.reader.number()
        self.kept(6, number < most)
        return number

    def set(self, _: Function) -> Command:
        mark, operator, to = self.mark(), self.code(ARITIES), self.variable()
        operands = tuple(self.operand() for _ in range(ARITIES[operator]))
        reads = named(operands)
        return Command("Set", operands, reads, reads if operator in DIVISIONS else (), to, operator,
                       mark=mark)

    def load(self, _: Function) -> Command:
        mark, access, memory, to = self.mark(), self.code(LOADS), self.number(
            len(self.image.memories)), self.variable()
        offset = self.reader.number()
        operands = (self.operand(),)
        return Command("Load", operands, (), named(operands), to, access, memory, offset=offset, mark=mark)

    def store(self, _: Function) -> Command:
        access, memory = self.code(STORES), self.number(len(self.image.memories))
        offset = self.reader.number()
        operands = (self.operand(), self.operand())
        return Command("Store", operands, (), named(operands[:1]), -1, access, memory, offset=offset)

    def test(self, function: Function) -> Command:
        operands = (self.operand(),)
        return Command("Test", operands, (), named(operands),
                       targets=(self.target(function), self.target(function)))

    def jump(self, function: Function) -> Command:
        return Command("Jump", targets=(self.target(function),))

    def arg(self, _: Function) -> Command:
        mark, callee = self.mark(), self.image.functions[self.number(len(self.image.functions))]
        index, operands = self.number(callee.params), (self.operand(),)
        return Command("Arg", operands, named(operands), (), callee.first + index, mark=mark)

    def call(self, _: Function) -> Command:
        return Command("Call", targets=(self.image.functions[self.number(len(self.image.functions))].entry,))

    def out(self, function: Function) -> Command:
        mark, index = self.mark(), self.number(function.results)
        operands = (self.operand(),)
        return Command("Out", operands, named(operands), (), function.first + function.params + index,
                       mark=mark)

    def ret(self, _: Function) -> Command:
        return Command("Ret")

    def trap(self, _: Function) -> Command:
        return Command("Trap", trap=self.code(range(8)))

    def all(self) -> List[Command]:
        commands = [Command("Trap", trap=kind) for kind in range(TRAPS)]
        for function in self.image.functions:
            for _ in range(function.length):
                self.position = len(commands)
                commands.append(self.readers[self.code(range(10))](function))
            self.kept(5, commands[-1].kind in LEAVING)
        return commands


def image_at(path: str) -> Image:
    """The image in a file."""
    data = read_file(path, "image")
    try:
        return read_image(data)
    except Bad as bad:
        raise Bad(f"{os.path.basename(path)}: {bad}") from None


def read_image(data: bytes) -> Image:
    reader = ImageReader(data)
    image = read_head(reader)
    check_head(image)
    lay_out(image)
    image.commands = CommandReader(reader, image).all()
    if reader.place != len(data):
        raise Bad("this is no image: it goes on behind its last command")
    return image
