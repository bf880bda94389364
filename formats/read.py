"""Reads a program's image and a certificate of it, and says what `verify` says of them.

    read.py IMAGE                what the image has: functions, commands, sites, protects
    read.py IMAGE CERTIFICATE    the verdicts: certificate, stable, constant-time, safe

It was written from FORMATS.md alone, by someone who saw nothing else of the project, to find out whether the
page suffices; only the limits of files came later, when the page said how they are told. It is a second
reading of the page and no judge: where it and the program differ, one of them is wrong, and what they agree
on is proved by the program alone. tools/checks/formats compares them.

"rule N" in a name is its number on the page. The order here: an image's bytes, the program that they spell,
the rules of programs, certificates, and which variables are transient or secret.
Licence: public domain (CC0).
"""
import json
import re
import sys
from bisect import bisect_right
from collections import Counter, defaultdict, namedtuple

SET, LOAD, STORE, TEST, JUMP, ARG, CALL, OUT, RET, TRAP = range(10)
MOVE, OUTSIDE, I32_GT_U, I32_ADD, I32_SUB, SELECT = 0x00, 0x01, 0x4B, 0x6A, 0x6B, 0x1B
QUOTIENTS = (*range(0x6D, 0x71), *range(0x7F, 0x83))
I64, VARIABLE, CONSTANT, TRAPS, ROW, PAGE, MOST_COMMANDS = 0x7E, 0, 1, 7, 16, 65536, 1048576
# the bit of a mark; the lower ones are the depth
PROTECTED = 8

FIELDS = {SET: "mark operator variable operands", LOAD: "mark load memory variable offset operand",
          STORE: "store memory offset operand operand", TEST: "operand target target", JUMP: "target",
          ARG: "mark function index operand", CALL: "function", OUT: "mark index operand", RET: "",
          TRAP: "kind"}
TWO = (*range(0x46, 0x50), *range(0x51, 0x5B), *range(0x6A, 0x79), *range(0x7C, 0x8B))
OPERATORS = dict.fromkeys(bytes.fromhex("00 45 50 67 68 69 79 7A 7B A7 AC AD C0 C1 C2 C3 C4"), 1)
OPERATORS.update(dict.fromkeys(TWO, 2))
OPERATORS.update({OUTSIDE: 3, SELECT: 3})                        # how many operands each takes
LOADS = {0x28: 4, 0x29: 8, 0x2C: 1, 0x2D: 1, 0x2E: 2, 0x2F: 2, 0x30: 1, 0x31: 1, 0x32: 2, 0x33: 2, 0x34: 4,
         0x35: 4}
STORES = {0x36: 4, 0x37: 8, 0x3A: 1, 0x3B: 2, 0x3C: 1, 0x3D: 2, 0x3E: 4}    # how many bytes each accesses
BYTES = {"version": (1, 2), "type": (0x7F, I64), "label": (0, 1), "demanded": (0, 1), "code": FIELDS,
         "spelling": (VARIABLE, CONSTANT), "mark": (*range(7), *range(8, 15)), "operator": OPERATORS,
         "load": LOADS, "store": STORES, "kind": range(8)}

Operand = namedtuple("Operand", "spelling number")
Global = namedtuple("Global", "type secret value")
Memory = namedtuple("Memory", "pages reserve secret rows")       # rows: pairs of the number and 16 bytes
Path = namedtuple("Path", "amount sink sites")


class Refused(Exception):
    """A file that is refused: the line to print, and the status."""


NOT_IMAGE = Refused("image: not an image", 12)
NOT_JSON = Refused("certificate: not JSON", 13)


class Bytes:
    """An image's bytes, read from front to back."""

    def __init__(self, contents):
        """Begins in front."""
        self.contents, self.place = contents, 0

    def some(self, count):
        """So many bytes."""
        if count > len(self.contents) - self.place:
            raise NOT_IMAGE
        self.place += count
        return self.contents[self.place - count:self.place]

    def number(self, bits=32):
        """A number below 2 to the power of `bits`, in its shortest spelling."""
        value, shift, byte = 0, 0, 0x80
        while byte >= 0x80 and shift < bits:
            byte = self.some(1)[0]
            value |= (byte & 0x7F) << shift
            shift += 7
        if byte >= 0x80 or value >> bits or (byte == 0 and shift > 7):
            raise NOT_IMAGE
        return value

    def field(self, name):
        """A byte of a table, an operand, or else a u32."""
        if name in BYTES:
            code = self.some(1)[0]
            if code not in BYTES[name]:
                raise NOT_IMAGE
            return code
        if name == "operand":
            spelling = self.field("spelling")
            return Operand(spelling, self.number(64 if spelling == CONSTANT else 32))
        return self.number()

    def fields(self, names):
        """Some fields in a row."""
        return [self.field(name) for name in names.split()]

    def demand(self):
        """A demand: (0, function, index) or (1, global)."""
        kind = self.field("demanded")
        return (kind, *self.fields("global" if kind == 1 else "function index"))

    def many(self, item, bits=32):
        """A count, and so many items."""
        return [item() for _ in range(self.number(bits))]

    def gaps(self, item):
        """A count, and so many gaps and items: pairs of the number that the gap gives and the item."""
        pairs, last = [], -1
        for _ in range(self.number()):
            last += 1 + self.number()
            if last >> 32:
                raise NOT_IMAGE
            pairs.append((last, item()))
        return pairs


class Function:
    """A function; Program says where its variables and its commands begin."""

    def __init__(self, image):
        """Reads one."""
        self.parameters = image.many(lambda: image.fields("type label")[1])     # of each whether it's secret
        self.results = len(image.many(lambda: image.field("type")))
        self.variables, self.length = image.fields("variables length")
        self.first = self.entry = 0

    def result(self, index):
        """The variable of a result."""
        return self.first + len(self.parameters) + index

    def has(self, variable):
        """Whether a variable is one of this function's."""
        return self.first <= variable < self.first + self.variables

    def has_result(self, variable):
        """Whether a variable is a result of this function."""
        return self.result(0) <= variable < self.result(self.results)

    def has_local(self, variable):
        """Whether a variable is a local in this function."""
        return self.has(variable) and not self.has_result(variable)

    def has_command(self, position):
        """Whether a position is one of this function's."""
        return self.entry <= position < self.entry + self.length


class Command:
    """A command: `code` says which of the fields it has, the others are 0."""
    __slots__ = ("code", "owner", "mark", "operator", "width", "memory", "variable", "offset", "function",
                 "index", "kind", "operands", "targets")

    def __init__(self, image, owner):
        """Reads one of a function. A field is an attribute, but for the operands and targets, and a width for
        load or store."""
        self.code, self.owner, self.operands, self.targets = image.field("code"), owner, [], []
        self.mark = self.operator = self.width = self.memory = 0
        self.variable = self.offset = self.function = self.index = 0
        for name in FIELDS[self.code].split():
            if name == "operands":
                self.operands = image.fields("operand " * OPERATORS[self.operator])
            elif name in ("operand", "target"):
                getattr(self, name + "s").append(image.field(name))
            elif name in ("load", "store"):
                self.width = BYTES[name][image.field(name)]
            else:
                setattr(self, name, image.field(name))

    def is_site(self):
        """Whether it's a site."""
        return self.code in (SET, LOAD, ARG, OUT)

    def is_protected(self):
        """Whether it's a protected site."""
        return self.mark >= PROTECTED

    def reads(self):
        """The variables that it reads, as a site."""
        return [number for spelling, number in self.operands if spelling == VARIABLE
                and self.code in (SET, ARG, OUT)]

    def sinks(self):
        """The variables that its sinks read."""
        counts = {SET: 2 * (self.operator in QUOTIENTS), TEST: 1, LOAD: 1, STORE: 1}
        operands = self.operands[:counts.get(self.code, 0)]
        return [number for spelling, number in operands if spelling == VARIABLE]

    def is_set(self, operator, *operands):
        """Whether it's a Set by this operator of these operands."""
        return self.code == SET and self.operator == operator and self.operands == list(operands)

    def is_test(self, variable, no):
        """Whether it's a Test of this variable with this `no`."""
        return self.code == TEST and self.operands == [Operand(VARIABLE, variable)] and self.targets[1] == no


class Program:
    """What an image says."""

    def __init__(self, contents):
        """Reads an image, and numbers variables and positions."""
        image = Bytes(contents)
        if image.some(4) != b"BLIM":
            raise NOT_IMAGE
        version = image.field("version")
        self.globals = image.many(lambda: Global(*image.fields("type label"), image.number(64)))
        self.memories = image.many(lambda: Memory(*image.fields("pages reserve label"),
                                                  image.gaps(lambda: image.some(ROW))))
        self.functions = image.many(lambda: Function(image))
        self.exports = image.many(lambda: (image.some(image.number(64)), image.number()), 64)
        self.demands = image.many(image.demand) if version == 2 else []
        self.weights = dict(image.gaps(lambda: image.number(64)) if version == 2 else [])
        self.shared = len(self.globals) + len(self.memories)        # how many globals and sizes there are
        self.variables, self.length, self.commands = self.shared, TRAPS, []
        for function in self.functions:
            function.first, function.entry = self.variables, self.length
            self.variables, self.length = self.variables + function.variables, self.length + function.length
            for _ in range(function.length):
                command = Command(image, function)
                if len(self.commands) < MOST_COMMANDS:              # with more it breaks rule 2: keep no more
                    self.commands.append(command)
        if image.place < len(contents) or (version == 2 and not self.demands and not self.weights):
            raise NOT_IMAGE
        self.sites = [(p, command) for p, command in enumerate(self.commands, TRAPS) if command.is_site()]

    def at(self, position):
        """The command at a position, or None."""
        return self.commands[position - TRAPS] if TRAPS <= position < self.length else None

    def weight(self, position):
        """What a site weighs."""
        return self.weights.get(position, 10 ** (self.at(position).mark % PROTECTED))

    def protects(self):
        """What each protected site weighs."""
        return [self.weight(position) for position, command in self.sites if command.is_protected()]

    def writes(self, command):
        """The variable that a site writes."""
        if command.code == ARG:
            return self.functions[command.function].first + command.index
        return command.owner.result(command.index) if command.code == OUT else command.variable

    def size(self, memory):
        """The operand that is a memory's size."""
        return Operand(VARIABLE, len(self.globals) + memory)


class Rules:
    """The rules of programs: each `rule_N` says whether that rule holds, of the program or of a command."""

    def __init__(self, program):
        """Counts how often Tests and Jumps name each position."""
        self.program = program
        self.named = Counter(target for command in program.commands for target in command.targets)
        self.firsts = [function.first for function in program.functions]

    def check(self):
        """Refuses a program that breaks a rule."""
        for number, rule in ((1, self.rule_1), (2, self.rule_2), (3, self.rule_3), (9, self.rule_9)):
            if not rule():
                raise Refused("image: rule %d at 0" % number, 12)
        rules = ((4, self.rule_4), (5, self.rule_5), (6, self.rule_6), (7, self.rule_7), (8, self.rule_8))
        for position, command in enumerate(self.program.commands, TRAPS):
            for number, rule in rules:
                if not rule(position, command):
                    raise Refused("image: rule %d at %d" % (number, position), 12)

    def rule_1(self):
        """Memories and their rows."""
        for memory in self.program.memories:
            if not memory.pages <= memory.reserve <= 256:
                return False
            if any(row == bytes(ROW) or number * ROW + ROW > memory.pages * PAGE
                   for number, row in memory.rows):
                return False
        return sum(memory.reserve for memory in self.program.memories) <= 1024

    def rule_2(self):
        """How much there is of all, and the globals' values."""
        program = self.program
        return (len(program.functions) <= 80000 and program.variables < 1 << 31
                and program.length <= MOST_COMMANDS
                and all(f.length >= 1 and f.variables >= len(f.parameters) + f.results
                        for f in program.functions)
                and all(global_.type == I64 or global_.value < 1 << 32 for global_ in program.globals))

    def rule_3(self):
        """Exports."""
        exports, functions = self.program.exports, len(self.program.functions)
        names = {name for name, _ in exports}
        return len(names) == len(exports) and all(number < functions for _, number in exports)

    def rule_9(self):
        """Demands and weights."""
        program, demands = self.program, self.program.demands
        sites = [position for position, _ in program.sites]
        return (all(former < demand for former, demand in zip(demands, demands[1:]))
                and all(self.may_demand(*demand) for demand in demands)
                and program.weights.keys() <= set(sites) and 0 not in program.weights.values()
                and sum(map(program.weight, sites)) < 1 << 63)

    def may_demand(self, kind, number, index=0):
        """Whether it's a result that exists, or a global that isn't secret."""
        globals_, functions = self.program.globals, self.program.functions
        if kind == 1:
            return number < len(globals_) and not globals_[number].secret
        return number < len(functions) and index < functions[number].results

    def may_read(self, owner, variable):
        """Whether a function's commands may have a variable among their operands."""
        return (variable < self.program.shared or owner.has(variable)
                or self.program.functions[bisect_right(self.firsts, variable) - 1].has_result(variable))

    def rule_4(self, _position, command):
        """Variables."""
        owner, written = command.owner, command.variable
        if not all(self.may_read(owner, number) for spelling, number in command.operands
                   if spelling == VARIABLE):
            return False
        return command.code not in (SET, LOAD) or written < self.program.shared or owner.has_local(written)

    def rule_5(self, position, command):
        """Where it goes on."""
        owner = command.owner
        if not owner.has_command(position + 1) and command.code not in (TEST, JUMP, RET, TRAP):
            return False
        return all(target < TRAPS or owner.has_command(target) for target in command.targets)

    def rule_6(self, _position, command):
        """Memories, functions and indices."""
        if command.code in (LOAD, STORE):
            return command.memory < len(self.program.memories)
        if command.code == OUT:
            return command.index < command.owner.results
        if command.code not in (ARG, CALL):
            return True
        functions = self.program.functions[command.function:command.function + 1]
        return bool(functions) and (command.code == CALL or command.index < len(functions[0].parameters))

    def rule_7(self, position, command):
        """The check in front of a Load or Store at p. That `yes` isn't p needs no look: p is named once."""
        if command.code not in (LOAD, STORE):
            return True
        if not command.owner.has_command(position - 2):
            return False
        outside, test = self.program.at(position - 2), self.program.at(position - 1)
        address, end = command.operands[0], Operand(CONSTANT, command.offset + command.width)
        return (outside.is_set(OUTSIDE, address, self.program.size(command.memory), end)
                and command.owner.has_local(outside.variable)
                and address != Operand(VARIABLE, outside.variable)
                and test.is_test(outside.variable, position)
                and self.named[position - 1] == 0 and self.named[position] == 1)

    def rule_8(self, position, command):
        """The check in front of a Set of a size at p. That `yes` isn't p - 1 needs no look: p - 1 is named
        once."""
        memory = command.variable - len(self.program.globals)
        if command.code not in (SET, LOAD) or not 0 <= memory < len(self.program.memories):
            return True
        if command.code == LOAD or not command.owner.has_command(position - 4):
            return False
        size, reserve = self.program.size(memory), Operand(CONSTANT, self.program.memories[memory].reserve)
        room, above, test, old = [self.program.at(position - back) for back in (4, 3, 2, 1)]
        added, written = command.operands[-1], [set_.variable for set_ in (room, above, old)]
        return (command.is_set(I32_ADD, size, added) and room.is_set(I32_SUB, reserve, size)
                and above.is_set(I32_GT_U, added, Operand(VARIABLE, room.variable))
                and test.is_test(above.variable, position - 1) and old.is_set(MOVE, size)
                and all(command.owner.has_local(v) and added != Operand(VARIABLE, v) for v in written)
                and not any(self.named[position - back] for back in (3, 2, 0))
                and self.named[position - 1] == 1)


# a surrogate pair: nothing to look at
TOKENS = re.compile(r"\\u[dD][89abAB][0-9a-fA-F]{2}\\u[dD][c-fC-F][0-9a-fA-F]{2}"
                    r"|(?P<half>\\u[dD][89a-fA-F])|\\.|[\"\[\]{}]", re.DOTALL)


def check_json(text):
    """Refuses what Python takes for JSON: arrays and objects too deep, halves of surrogate pairs."""
    deep, in_string = 0, False
    for token in TOKENS.finditer(text):
        in_string ^= token.group() == '"'
        if token.group("half"):
            raise NOT_JSON
        if not in_string:
            deep += {"[": 1, "{": 1, "]": -1, "}": -1}.get(token.group(), 0)
        if deep > 127:
            raise NOT_JSON


def json_number(text):
    """What a number in a JSON text says: an int, or None where it has another shape. So long ones are too
    large anyway."""
    if abs(float(text)) == float("inf"):
        raise NOT_JSON
    return int(text) if text.isdigit() and len(text) <= 20 else None


def not_json(_constant):
    """Refuses NaN and Infinity, which Python takes for JSON."""
    raise NOT_JSON


def fits(value, shape):
    """Whether a value has a shape: an object of just these keys, an array of such items, or a number of so
    many bits."""
    if type(shape) is dict:
        return (type(value) is dict and value.keys() == shape.keys()
                and all(fits(value[key], shape[key]) for key in shape))
    if type(shape) is list:
        return type(value) is list and all(fits(item, shape[0]) for item in value)
    return type(value) is int and value < 1 << shape


def read_certificate(contents):
    """The paths and the weight."""
    try:
        text = contents.decode("utf-8")
        check_json(text)
        value = json.loads(text, parse_int=json_number, parse_float=json_number, parse_constant=not_json)
    except ValueError:
        raise NOT_JSON
    if not fits(value, {"paths": [{"amount": 64, "sink": 32, "sites": [32]}], "weight": 64}):
        raise Refused("certificate: shape", 13)
    return [Path(**path) for path in value["paths"]], value["weight"]


def is_flow(program, path):
    """Certificate rule 1: whether a path goes from a load over sites to a sink."""
    written = None
    for number, position in enumerate(path.sites):
        command = program.at(position)
        if command is None or not command.is_site() or (command.code == LOAD) != (number == 0):
            return False
        if number > 0 and written not in command.reads():
            return False
        written = program.writes(command)
    sink = program.at(path.sink)
    return sink is not None and written in sink.sinks()


def broken_rule(program, paths, weight):
    """The first certificate rule that is broken, and where; else None."""
    flows = Counter()
    for index, path in enumerate(paths):
        if not is_flow(program, path):
            return 1, index
        if path.amount == 0:
            return 2, index
        if sum(program.at(position).is_protected() for position in path.sites) != 1:
            return 3, index
        for position in path.sites:
            flows[position] += path.amount
    above = [position for position in flows if flows[position] > program.weight(position)]
    if above:
        return 4, min(above)
    return None if sum(path.amount for path in paths) == weight == sum(program.protects()) else (5, 0)


def spread(program, begin, sites):
    """The variables that `begin` has, or that one of the sites writes that reads such a variable."""
    readers = defaultdict(list)
    for command in sites:
        for variable in command.reads():
            readers[variable].append(program.writes(command))
    found, waiting = set(begin), list(begin)
    while waiting:
        new = [variable for variable in readers.pop(waiting.pop(), ()) if variable not in found]
        found.update(new)
        waiting += new
    return found


def unstable(program):
    """The least position of a sink that reads a transient variable, else None."""
    sites = [command for _, command in program.sites if not command.is_protected()]
    transient = spread(program, [command.variable for command in sites if command.code == LOAD], sites)
    sinks = (p for p, command in enumerate(program.commands, TRAPS)
             if transient.intersection(command.sinks()))
    return next(sinks, None)


def is_constant_time(program):
    """Whether no sink, no value of a Store to a public memory, and nothing that is demanded is secret."""
    sites = [command for _, command in program.sites]
    begin = [number for number, global_ in enumerate(program.globals) if global_.secret]
    for function in program.functions:
        begin += [function.first + index for index, secret in enumerate(function.parameters) if secret]
    begin += [command.variable for command in sites if command.code == LOAD
              and program.memories[command.memory].secret]
    secret = spread(program, begin, sites)
    learnt = [index[0] if kind == 1 else program.functions[index[0]].result(index[1])
              for kind, *index in program.demands]
    for command in program.commands:
        learnt += command.sinks()
        if command.code == STORE and not program.memories[command.memory].secret:
            learnt += [number for spelling, number in command.operands[1:] if spelling == VARIABLE]
    return secret.isdisjoint(learnt)


def describe(program):
    """Prints what the image has; gives the status."""
    print("functions", len(program.functions))
    print("commands", program.length)
    print("sites", len(program.sites))
    print("protects", len(program.protects()), "weight", sum(program.protects()))
    return 0


def verify(program, paths, weight):
    """Prints the verdicts; gives the status."""
    broken, sink = broken_rule(program, paths, weight), unstable(program)
    constant_time = is_constant_time(program)
    print("certificate yes" if broken is None else "certificate no %d %d" % broken)
    print("stable yes" if sink is None else "stable no %d" % sink)
    print("constant-time", "yes" if constant_time else "no")
    print("safe", "yes" if sink is None and constant_time else "no")
    return 0 if broken is None and sink is None else 1


def read_file(name, kind, most):
    """A file's bytes; with more than `most` it's refused."""
    with open(name, "rb") as file:
        contents = file.read(most + 1)
    if len(contents) > most:
        raise Refused("limit: %s %d" % (kind, most + 1), 8)
    return contents


def main(arguments):
    """Reads the files and prints; gives the status."""
    if len(arguments) not in (1, 2):
        print("read.py IMAGE [CERTIFICATE]", file=sys.stderr)
        return 2
    try:
        files = [read_file(*one) for one in zip(arguments, ("image", "certificate"), (134217728, 268435456))]
        program = Program(files[0])
        Rules(program).check()
        if len(files) == 1:
            return describe(program)
        return verify(program, *read_certificate(files[1]))
    except Refused as refused:
        line, status = refused.args
        print(line)
        return status


if __name__ == "__main__":
    sys.exit(main(sys.argv[1:]))
