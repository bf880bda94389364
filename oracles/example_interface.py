#!/usr/bin/env python3
"""Writes the worked example of joined programs, the file of definitions Example of bl_iface: a client and a
library, as they are lowered from two small modules by the rules of lowering, worked by hand, the interface
between them, and the program that they are joined to. That one is made here by what docs/CLI.md and FORMATS
say of `join`. It shares no code with Blade. usage: python3 oracles/example_interface.py >
crates/bl_iface/specs/Example.antt"""
from dataclasses import dataclass, replace

# The client's `g x` is f(x), loaded, plus the global, given to f, by whose answer the memory grows; where
# that isn't 0 the global becomes 7; and f(x) is given. Its stub stands for both functions of the library. v0
# is the global, v1 the memory's size, v2 and v3 belong to the stub, v4 and v5 are g's parameter and result.
CLIENT = """
7 jump 8
8 trap Unreachable
9 jump 10
10 set v6 Move v4
11 arg 0 0 v6
12 call 0
13 set v7 Move v3 protected
14 set v8 Outside v7 v1 4
15 test v8 3 16
16 load v9 v7
17 set v10 Move v0
18 set v11 I32Add v9 v10
19 arg 0 0 v11
20 call 0
21 set v12 Move v3 protected
22 set v13 I32Sub 2 v1
23 set v14 I32GtU v12 v13
24 test v14 28 25
25 set v15 Move v1
26 set v1 I32Add v1 v12
27 jump 29
28 set v15 Move 4294967295
29 test v15 30 33
30 set v16 Move 7
31 set v0 Move v16
32 jump 34
33 jump 34
34 set v17 Move v4
35 arg 0 0 v17
36 call 0
37 set v18 Move v3
38 out 0 v18
39 ret
"""
# The library's `f x` loads at x, and `h x` gives f of x and its global together. v0 is the global, v1 the
# memory's size, v2 and v3 are f's parameter and result, v7 and v8 those of h.
LIBRARY = """
7 jump 8
8 set v4 Move v2 protected
9 set v5 Outside v4 v1 4
10 test v5 3 11
11 load v6 v4 protected
12 out 0 v6
13 ret
14 jump 15
15 set v9 Move v7
16 set v10 Move v0
17 set v11 I32Add v9 v10
18 arg 0 0 v11
19 call 0
20 set v12 Move v3
21 out 0 v12
22 ret
"""
TRAPS = ['Unreachable', 'DivideByZero', 'Overflow', 'OutOfBounds', 'UndefinedElement', 'UninitializedElement',
         'TypeMismatch']
# The functions of the interface: the name, what it asks of the parameter, and of the result.
IFACE = [('lib/f', 'Transient', 'Stable'), ('lib/h', 'Transient', 'Transient')]


@dataclass
class Program:
    """Globals are first values, memories (pages, reserve), functions (variables, commands), each from an i32
    to an i32; exports (name, function), demands (function, index) or (None, global), weights (position,
    weight); commands are their words."""
    globals: list
    memories: list
    functions: list
    exports: list
    demands: list
    weights: list
    commands: list

    def statics(self):
        return len(self.globals) + len(self.memories)

    def result(self, function):
        """The variable of a function's one result, behind its one parameter."""
        return self.statics() + sum(variables for variables, _ in self.functions[:function]) + 1


def listed(text):
    commands = []
    for position, line in enumerate(text.strip().splitlines(), 7):
        at, *words = line.split()
        assert int(at) == position, line
        commands.append(words)
    return commands


def parts():
    client = Program([5], [(1, 2)], [(2, 2), (15, 31)], [('lib/f', 0), ('lib/h', 0), ('main/g', 1)],
                     [(0, 0), (1, 0), (None, 0)], [(10, 3), (13, 4)], listed(CLIENT))
    library = Program([9], [(1, 256)], [(5, 7), (6, 9)], [('lib/f', 0), ('lib/h', 1)], [(1, 0), (None, 0)],
                      [(9, 2)], listed(LIBRARY))
    return client, library


# Which words of a command are positions, and which name a function; a word `vN` is a variable.
POSITIONS = {'jump': [1], 'test': [2, 3]}
FUNCTIONS = {'arg': 1, 'call': 1}


def renamed(commands, variable, position, function, memory):
    """Commands by other numbers; each load gets its memory as a word behind it."""
    out = []
    for words in commands:
        new = [f'v{variable(int(word[1:]))}' if word[0] == 'v' and word[1:].isdigit() else word
               for word in words]
        for at in POSITIONS.get(words[0], []):
            new[at] = str(position(int(words[at])))
        if words[0] in FUNCTIONS:
            new[1] = str(function(int(words[1])))
        if words[0] == 'load':
            new.insert(1, str(memory))
        out.append(new)
    return out


def joined(client, library):
    """The client's functions and the library's behind them. Globals come first, then sizes, then what belongs
    to functions. What the client calls by a name of the interface goes to the library's function of that
    name, the first name where it has several."""
    names = [name for name, _, _ in IFACE]
    of_library, leads = dict(library.exports), {}
    for name, function in client.exports:
        if name in names:
            leads.setdefault(function, of_library[name])
    whole = Program(client.globals + library.globals, client.memories + library.memories,
                    client.functions + library.functions, [], [], [], [])
    own = {client.result(function): len(client.functions) + to for function, to in leads.items()}

    def of_client(x):
        if x < len(client.globals):
            return x
        return (whole.result(own[x]) if x in own else x + library.statics() if x >= client.statics()
                else x + len(library.globals))

    def of_the_library(x):
        if x < len(library.globals):
            return x + len(client.globals)
        if x < library.statics():
            return x + len(client.globals) + len(client.memories)
        return x + client.statics() + sum(variables for variables, _ in client.functions)

    far = len(client.commands)
    whole.commands = renamed(client.commands, of_client, lambda p: p,
                             lambda f: len(client.functions) + leads[f] if f in leads else f, 0)
    whole.commands += renamed(library.commands, of_the_library, lambda p: p + far if p >= 7 else p,
                              lambda f: f + len(client.functions), len(client.memories))
    behind = [(name, function + len(client.functions)) for name, function in library.exports]
    whole.exports = [one for one in client.exports if one[0] not in names] + behind
    results = [one for one in client.demands if one[0] is not None]
    results += [(function + len(client.functions), index) for function,
                index in library.demands if function is not None]
    globals_ = [one for one in client.demands if one[0] is None]
    globals_ += [(None, index + len(client.globals)) for function,
                 index in library.demands if function is None]
    whole.demands = results + globals_
    whole.weights = client.weights + [(position + far, weight) for position, weight in library.weights]
    return whole


# ---- as definitions

def boxed(number):
    return f'(record {{ 0 = {number} }})'


def operand(word):
    return f'(Var {boxed(word[1:])})' if word[0] == 'v' else f'(Const {word})'


def command(words):
    name, *words = words
    mark = f'(record {{ depth = 0; protect = {"true" if words[-1:] == ["protected"] else "false"} }})'
    words = [word for word in words if word != 'protected']
    if name == 'set':
        to, operator, *operands = words
        operands = [operand(word) for word in operands] + ['(Const 0)'] * (3 - len(operands))
        return f'(Set {mark} op.{operator} {boxed(to[1:])} ' + ' '.join(operands) + ')'
    if name == 'load':
        memory, to, address = words
        return f'(Load {mark} kind.I32Load {memory} {boxed(to[1:])} 0 {operand(address)})'
    if name == 'test':
        return f'(Test {operand(words[0])} {boxed(words[1])} {boxed(words[2])})'
    if name == 'arg':
        return f'(Arg {mark} {words[0]} {words[1]} {operand(words[2])})'
    if name == 'out':
        return f'(Out {mark} {words[0]} {operand(words[1])})'
    return {'jump': lambda: f'(Jump {boxed(words[0])})', 'call': lambda: f'(Call {words[0]})',
            'ret': lambda: 'Ret',
            'trap': lambda: f'(Trap trap.{words[0]})'}[name]()


def bytes_of(name):
    return '(' + ''.join(f'{byte} ∷ ' for byte in name.encode()) + '[])'


def items(head, these):
    """A list behind a head, in lines of at most 150."""
    lines, line = [], f'  {head}('
    for word in [f'{one} ∷' for one in these] + ['[]);']:
        if len(line) + len(word) + (not line.endswith('(')) > 150:
            lines.append(line)
            line = ' ' * 6 + word
        else:
            line += word if line.endswith('(') else ' ' + word
    return lines + [line]


def definition(name, program):
    i32 = '((record { kind = value.I32; label = label.Public }) ∷ [])'
    lines = [f'abbrev pub {name} : Program', f'{name} = record {{']
    lines += items('globals = ', [f'(record {{ kind = value.I32; label = label.Public; first = {first} }})'
                                  for first in program.globals])
    lines += items('memories = ', [f'(record {{ pages = {pages}; reserve = {reserve}; label = label.Public; '
                                   f'rows = [] }})' for pages, reserve in program.memories])
    results = '(value.I32 ∷ [])'
    lines += items('functions = ', [f'(record {{ params = {i32}; results = {results}; vars = {count}; '
                                    f'length = {length} }})'
                                    for count, length in program.functions])
    lines += items('exports = ', [f'(record {{ name = {bytes_of(export)}; function = {function} }})'
                                  for export, function in program.exports])
    lines += items('commands = ',
                   [f'(Trap trap.{trap})' for trap in TRAPS] + [command(words) for words in program.commands])
    lines += items('demands = ',
                   [f'(demand.Global {index})' if function is None else f'(demand.Result {function} {index})'
                                  for function, index in program.demands])
    lines += items('weights = ', [f'(record {{ at = {boxed(position)}; weight = {weight} }})' for position,
                                  weight in program.weights])
    return lines + ['}', '']


HEAD = """-- Two small programs and the one that they are joined to, as an independent program makes it \
(`oracles/example_interface.py`).
use Rattle.std.specs.Prelude.{[], ◌∷◌, true, false}
use Rattle.bl_base.specs.declared.names.Flow.TheVariants as flow
use Rattle.bl_base.specs.declared.names.Label.TheVariants as label
use Rattle.bl_base.specs.declared.names.ValueType.TheVariants as value
use Rattle.bl_base.specs.declared.trap.Trap.TheVariants as trap
use Rattle.bl_ops.specs.declared.access.AccessKind.TheVariants as kind
use Rattle.bl_ops.specs.declared.op.Op.TheVariants as op
use Rattle.bl_program.specs.declared.command.Command.TheVariants.{Set, Load, Test, Jump, \
Arg, Call, Out, Ret, Trap}
use Rattle.bl_program.specs.declared.command.Operand.TheVariants.{Var, Const}
use Rattle.bl_program.specs.declared.definitions.Demand.TheVariants as demand
use Rattle.bl_program.specs.declared.definitions.ProgramParts.{ProgramParts as Program}
use Rattle.bl_iface.specs.declared.iface.Iface.{Iface}
"""


def alone(program):
    """A part as it stands by itself."""
    return replace(program, commands=renamed(program.commands, lambda x: x, lambda p: p, lambda f: f, 0))


if __name__ == '__main__':
    client, library = parts()
    print(HEAD)
    for name, program in (('client', alone(client)), ('library', alone(library)),
                          ('whole', joined(client, library))):
        print('\n'.join(definition(name, program)))
    print('abbrev pub iface : Iface\niface = record {')
    print('\n'.join(items('functions = ', [f'(record {{ name = {bytes_of(name)}; params = (flow.{params} ∷ '
                                           f'[]); results = (flow.{results} ∷ []) }})'
                                           for name, params, results in IFACE])))
    print('}')
