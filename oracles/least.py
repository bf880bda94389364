#!/usr/bin/env python3
"""Prints small programs as images, and what tests expect of them: the sites of the least protects and their
weight, found by trying every set of sites, and for a weight of 1 every certificate of one path. It knows the
rules of sites, sinks and transient variables, and the grammar of images, and shares no code with Blade.
usage: python3 oracles/least.py"""
import itertools
import random

import spell
from spell import leb, vector

MOVE, OUTSIDE, EQZ, ADD, DIV_U = 'move', 'outside', 'eqz', 'add', 'div_u'
I32 = 0x7F


class Const(int):
    pass


def word(x):
    """A word of a command: a constant or a variable."""
    return str(int(x)) if isinstance(x, Const) else f'v{x}'


class Function:
    """Commands are tuples: their word, the number of loops round them, and their fields."""

    def __init__(self, params, results, commands):
        self.params, self.results, self.commands = params, results, commands


class Program:
    """One memory of one page, whose size is variable 0, and functions one after another."""

    def __init__(self, functions, weights=()):
        self.functions, self.weights = functions, dict(weights)
        self.firsts, self.entries, self.commands = [], [], {}
        first, at = 1, 7
        for number, function in enumerate(functions):
            self.firsts.append(first)
            self.entries.append(at)
            used = [first + function.params + function.results]
            for command in function.commands:
                self.commands[at] = (number, command)
                if command[0] in ('set', 'load'):
                    used.append(command[3] + 1)
                at += 1
            function.vars = max(used) - first
            first += function.vars

    def image(self):
        functions = [vector([bytes([I32, 0])] * it.params) + vector([bytes([I32])] * it.results)
                     + leb(it.vars) + leb(len(it.commands))
                     for it in self.functions]
        head = b'\0\1' + leb(1) + leb(256) + b'\0\0' + vector(functions) + vector(
            [spell.name('m/f') + leb(len(functions) - 1)])
        listed, former = [], -1
        for at in sorted(self.weights):
            listed.append(leb(at - former - 1) + leb(self.weights[at]))
            former = at
        commands = b''.join(self.spelled(self.commands[at][1]) for at in sorted(self.commands))
        return b'BLIM' + (b'\2' + head + b'\0' + vector(listed) if listed else b'\1' + head) + commands

    def spelled(self, it):
        kind, depth, *rest = it
        words = {'set': lambda op, to, *operands: [word(to), op, *map(word, operands)],
                 'load': lambda _, to, address, offset: [word(to), word(address), offset],
                 'test': lambda cond, yes, no: [word(cond), yes, no],
                 'arg': lambda function, index, value: [function, index, word(value)],
                 'out': lambda index, value: [index, word(value)]}.get(kind, lambda *plain: plain)
        return spell.command([kind, *words(*rest), *['inside'] * depth])

    def writes(self, at):
        """The variable that the site there writes; None where no site stands there."""
        number, (word, _, *rest) = self.commands[at]
        if word in ('set', 'load'):
            return rest[1]
        if word == 'arg':
            return self.firsts[rest[0]] + rest[1]
        if word == 'out':
            return self.firsts[number] + self.functions[number].params + rest[0]
        return None

    def reads(self, at):
        """What a Set, Arg or Out reads."""
        word, _, *rest = self.commands[at][1]
        operands = {'set': rest[2:], 'arg': rest[2:], 'out': rest[1:]}.get(word, [])
        return {x for x in operands if not isinstance(x, Const)}

    def sinks(self, at):
        """What sinks read there."""
        word, _, *rest = self.commands[at][1]
        operands = []
        if word == 'set' and rest[0] == DIV_U:
            operands = rest[2:]
        if word == 'load':
            operands = [rest[2]]
        if word == 'test':
            operands = [rest[0]]
        return {x for x in operands if not isinstance(x, Const)}

    def sites(self):
        return [at for at in sorted(self.commands) if self.writes(at) is not None]

    def weight(self, at):
        return self.weights.get(at, 10 ** min(self.commands[at][1][1], 6))

    def transient(self, protects):
        """The least set of variables that the rules on sites ask for."""
        found = set()
        while True:
            more = {self.writes(at) for at in self.sites() if at not in protects
                    and (self.commands[at][1][0] == 'load' or self.reads(at) & found)} - found
            if not more:
                return frozenset(found)
            found |= more

    def passes(self, transient):
        return not any(self.sinks(at) & transient for at in self.commands)

    def least(self):
        """The lightest passing set whose transient variables lie in those of each other one of its weight."""
        sites, best, sets = self.sites(), None, []
        for size in range(len(sites) + 1):
            for chosen in itertools.combinations(sites, size):
                weight = sum(self.weight(at) for at in chosen)
                if best is not None and weight > best:
                    continue
                transient = self.transient(set(chosen))
                if self.passes(transient):
                    if best is None or weight < best:
                        best, sets = weight, []
                    sets.append((chosen, transient))
        nearest = [chosen for chosen, transient in sets if all(transient <= other for _, other in sets)]
        assert len(nearest) == 1
        return nearest[0], best

    def chains(self):
        """All chains of distinct sites from a load to a sink."""
        def on(chain):
            x = self.writes(chain[-1])
            for at in sorted(self.commands):
                if x in self.sinks(at):
                    yield chain, at
                if at not in chain and x in self.reads(at):
                    yield from on(chain + [at])
        for at in self.sites():
            if self.commands[at][1][0] == 'load':
                yield from on([at])

    def certificates(self):
        """The texts of the certificates of one path with an amount of 1."""
        protects, weight = self.least()
        assert weight == 1
        return ['{"paths":[{"amount":1,"sink":%d,"sites":[%s]}],"weight":1}' % (sink,
                                                                                ','.join(map(str, chain)))
                for chain, sink in self.chains() if sum(at in protects for at in chain) == 1]


def guarded(at, depth, test, to, address, offset=0):
    """The bounds test of an access at a position, and the load behind it."""
    return [('set', depth, OUTSIDE, test, address, 0, Const(offset + 4)), ('test', depth, test, 3, at + 2),
            ('load', depth, 'load', to, address, offset)]


def rows():
    load_of_load = [('jump', 0, 8), ('set', 0, MOVE, 3, 1), *guarded(9, 0, 4, 5, 3), *guarded(12, 0, 6, 7, 5),
                    ('out', 0, 0, 7), ('ret', 0)]
    yield 'LOADS', 'A load of a load', Program([Function(1, 1, load_of_load)])
    yield 'WEIGHTED', 'The same with weight 5 listed at 11', Program([Function(1, 1, load_of_load)], {11: 5})
    yield 'SUM', 'A load of the sum of two loads', Program([Function(2, 1, [
        ('jump', 0, 8), ('set', 0, MOVE, 4, 1), *guarded(9, 0, 5, 6, 4), ('set', 0, MOVE, 7, 2),
        *guarded(13, 0, 8, 9, 7), ('set', 0, ADD, 10, 6, 9), *guarded(17, 0, 11, 12, 10), ('out', 0, 0, 12),
        ('ret', 0)])])
    yield 'TWICE', 'Two loads by what one load gives', Program([Function(1, 1, [
        ('set', 0, MOVE, 3, Const(0)), ('jump', 0, 9), ('set', 0, MOVE, 4, 1), *guarded(10, 0, 5, 6, 4),
        ('set', 0, MOVE, 3, 6), *guarded(14, 0, 7, 8, 6), ('set', 0, MOVE, 9, 3),
        *guarded(18, 0, 10, 11, 9, 4), ('set', 0, ADD, 12, 8, 11), ('out', 0, 0, 12), ('ret', 0)])])
    yield 'BEFORE_LOOP', 'A load before a loop, in which a load reads what it gives', Program(
        [Function(1, 0, [
        ('set', 0, MOVE, 2, Const(0)), ('jump', 0, 9), ('set', 0, MOVE, 3, 1), *guarded(10, 0, 4, 5, 3),
        ('set', 0, MOVE, 2, 5), ('jump', 0, 15),
        ('set', 1, MOVE, 6, 2), *guarded(16, 1, 7, 8, 6), ('jump', 1, 20), ('jump', 1, 21), ('ret', 0)])])
    yield 'IN_LOOP', 'A load in a loop, behind which a load reads what it gives', Program([Function(1, 1, [
        ('set', 0, MOVE, 3, Const(0)), ('jump', 0, 9), ('jump', 0, 10), ('set', 1, MOVE, 4, 1),
        *guarded(11, 1, 5, 6, 4), ('set', 1, MOVE, 3, 6), ('jump', 1, 16), ('set', 0, MOVE, 7, 3),
        *guarded(17, 0, 8, 9, 7), ('out', 0, 0, 9), ('ret', 0)])])


    yield 'DOUBLED', 'What a load gives, doubled in a loop', Program([Function(1, 0, [
        ('set', 0, MOVE, 3, 1), *guarded(8, 1, 4, 5, 3), ('set', 1, MOVE, 2, 5), ('set', 1, ADD, 2, 2, 2),
        ('test', 1, 2, 12, 14), ('ret', 0)])])


def drawn(seed):
    """A program of two functions, of which the second calls the first, with a loop in either."""
    draw = random.Random(seed)
    functions, first, at = [], 1, 7
    for number in range(2):
        params, results = 1, 1
        x = first + params + results
        known = [first]
        commands = []

        def put(command):
            nonlocal at
            commands.append(command)
            at += 1

        loop = draw.randrange(1, 4)
        for step in range(4):
            depth = 1 if step >= loop else 0
            if step == loop:
                head = at
            kind = draw.choice(['move', 'add', 'add', 'load', 'load', 'divide', 'test'])
            if number == 1 and step == 2:
                kind = 'call'
            a, b = draw.choice(known), draw.choice(known)
            if kind == 'move':
                put(('set', depth, MOVE, x, a))
                known.append(x)
                x += 1
            elif kind == 'add':
                put(('set', depth, ADD, x, a, b))
                known.append(x)
                x += 1
            elif kind == 'divide':
                put(('set', depth, DIV_U, x, a, b))
                known.append(x)
                x += 1
            elif kind == 'load':
                for command in guarded(at, depth, x, x + 1, a):
                    put(command)
                known.append(x + 1)
                x += 2
            elif kind == 'test':
                put(('test', depth, a, 1, at + 1))
            else:
                put(('arg', depth, 0, 0, a))
                put(('call', depth, 0))
                put(('set', depth, MOVE, x, 2))
                known.append(x)
                x += 1
        put(('set', 1, MOVE, known[draw.randrange(1, len(known))] if len(known) > 1 else x, known[-1]))
        put(('test', 1, draw.choice(known), head, at + 1))
        put(('out', 0, 0, draw.choice(known)))
        put(('ret', 0))
        functions.append(Function(params, results, commands))
        first = max([x] + [c[3] + 1 for c in commands if c[0] in ('set', 'load')])
    return Program(functions)


def literal(image):
    return ''.join(chr(byte) if 0x20 <= byte < 0x7F and chr(byte) not in '"\\' else '\\x%02x' % byte
                   for byte in image)


def show(name, text, program):
    protects, weight = program.least()
    print('/// %s: %d commands, %d sites.' % (text, 7 + len(program.commands), len(program.sites())))
    print('pub(crate) const %s: &[u8] =\n    b"%s";' % (name, literal(program.image())))
    print('// protects %s weight %d' % (list(protects), weight))


if __name__ == '__main__':
    for name, text, program in rows():
        show(name, text, program)
        if program.least()[1] == 1:
            for certificate in program.certificates():
                print('// ' + certificate)
    seed, shown = 0, 0
    while shown < 20:
        program = drawn(seed)
        if len(program.sites()) <= 16 and program.least()[1] > 0:
            show('DRAWN_%d' % seed, 'Drawn from %d' % seed, program)
            shown += 1
        seed += 1
