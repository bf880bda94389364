#!/usr/bin/env python3
"""Prints the modules of the tests on interfaces as constants, from their sections as WebAssembly 1.0 has
them, what a function of them gives, by the few lines below that do what it does, and how long an image is, by
the grammar of images. Nothing here knows anything else of Blade. Positions that the tests expect were worked
by hand.

usage: python3 oracles/interfaces.py"""


import spell
from spell import leb, name, sized, vector


def kind(params, results):
    return b'\x60' + sized(bytes(params)) + sized(bytes(results))


I32, I64 = 0x7F, 0x7E


def module(types, imports=(), functions=(), memory=None, globals_=(), exports=(), codes=(), data=(),
           customs=()):
    """imports: (module, name, type); exports: (name, function); codes: (locals, body); data: (offset, bytes);
    customs: (name, bytes)"""
    bodies = [vector([leb(count) + bytes([t]) for count, t in local]) + body + b'\x0B' for local,
              body in codes]
    return spell.module([
        (1, vector([kind(*t) for t in types])),
        (2, imports and vector([name(m) + name(f) + b'\0' + leb(t) for m, f, t in imports])),
        (3, functions and vector([leb(t) for t in functions])),
        (5, memory and vector([b'\0' + leb(memory)])),
        (6, globals_ and vector([bytes([I32, 1, 0x41, first, 0x0B]) for first in globals_])),
        (7, exports and vector([name(n) + b'\0' + leb(f) for n, f in exports])),
        (10, codes and vector([sized(body) for body in bodies])),
        (11, data and vector([bytes([0, 0x41, at, 0x0B]) + sized(d) for at, d in data])),
        *((0, name(label) + body) for label, body in customs)])


def get(x):
    return bytes([0x20, x])


def put(x):
    return bytes([0x21, x])


LOAD = bytes([0x28, 2, 0])
STORE = bytes([0x36, 2, 0])
ADD = b'\x6A'
SUB = b'\x6B'

ONE = ([I32], [I32])

# the rows: a function that loads from its parameter; its stub; a function that calls it and loads from what
# it gives
LIB = module([ONE], functions=[0], memory=1, exports=[('f', 0)], codes=[([], get(0) + LOAD)])
STUB = module([ONE], functions=[0], exports=[('f', 0)], codes=[([], b'\0')])
MAIN = module([ONE], imports=[('lib', 'f', 0)], functions=[0], memory=1, exports=[('g', 1)],
              codes=[([], get(0) + b'\x10\0' + LOAD)])
# a stub of another type
WIDE = module([([I64], [I32])], functions=[0], exports=[('f', 0)], codes=[([], b'\0')])
# a client that calls it with a constant of that type
WIDE_MAIN = module([([I64], [I32]), ONE], imports=[('lib', 'f', 0)], functions=[1], exports=[('g', 1)],
                   codes=[([], b'\x42\0\x10\0')])

# a library with a global, which starts at 5, and a memory, whose word at 4 is 7: `f x` adds x to the global
# and gives the global with the word at 4; `h x` gives x + 1
COUNTS = module([ONE], functions=[0, 0], memory=1, globals_=[5], exports=[('f', 0), ('h', 1)],
                data=[(4, b'\7')], codes=[
    ([], b'\x23\0' + get(0) + ADD + b'\x24\0' + b'\x23\0' + b'\x41\4' + LOAD + ADD),
    ([], get(0) + b'\x41\1' + ADD),
])
# a stub with one function under both names
BOTH = module([ONE], functions=[0], exports=[('f', 0), ('h', 0)], codes=[([], b'\0')])
# stubs of both
EACH = module([ONE], functions=[0, 0], exports=[('f', 0), ('h', 1)], codes=[([], b'\0'), ([], b'\0')])
# a client with a global, which starts at 3, and a memory: `g n` sets a sum to 0 and n times adds f n to it
# and takes 1 of n, keeps the sum at 8 in the memory, and gives h of the sum and of the global together
LOOP = b'\x02\x40' + b'\x03\x40' + get(0) + b'\x45' + b'\x0D\1' + get(1) + get(0) + b'\x10\0' + ADD + put(
    1) + get(0) + b'\x41\1' + SUB + put(0) + b'\x0C\0' + b'\x0B' + b'\x0B'
SUMS = module([ONE], imports=[('lib', 'f', 0), ('lib', 'h', 0)], functions=[0], memory=1, globals_=[3],
              exports=[('g', 2)], codes=[
    ([(1, I32)], LOOP + b'\x41\x08' + get(1) + STORE + get(1) + b'\x23\0' + ADD + b'\x10\1'),
])

# a library whose `f x` sets a global to x and gives x; it demands that the result be public, or the global.
# Its client hands on a parameter that is secret
GIVES = dict(functions=[0], globals_=[5], exports=[('f', 0)], codes=[([], get(0) + b'\x24\0' + get(0))])
OWES_RESULT = module([ONE], customs=[('blade.labels', b'\2\1\3\0\0')], **GIVES)
OWES_GLOBAL = module([ONE], customs=[('blade.labels', b'\2\1\4\0')], **GIVES)
HANDS = dict(imports=[('lib', 'f', 0)], functions=[0], globals_=[3], exports=[('g', 1)],
             codes=[([], get(0) + b'\x10\0')])
TELLS = module([ONE], customs=[('blade.labels', b'\1\1\0\1\0')], **HANDS)
HIDES = module([ONE], **HANDS)


def sums(n, f, h):
    """what `g n` of SUMS gives, and what it keeps, with these functions of the library"""
    total = 0
    while n:
        total += f(n)
        n -= 1
    return h(total + 3), total


def library():
    state = {'global': 5}

    def f(x):
        state['global'] += x
        return state['global'] + 7

    return f, lambda x: x + 1


def named(*exports):
    """how many bytes the image of functions has that return at once, each exported under a name of so many
    bytes"""
    functions = vector([b'\0\0\0\1' for _ in exports])
    return 5 + len(b'\0\0' + functions + leb(len(exports))) + sum(len(leb(count)) + count + len(leb(f)) for f,
                                                                  count in enumerate(exports)) + len(exports)


def constant(title, text):
    print(f'const {title}: [u8; {len(text)}] = [', *(f'    {row}' for row in spell.rows(text)), '];\n',
          sep='\n')


if __name__ == '__main__':
    for title in ('LIB', 'STUB', 'MAIN', 'WIDE', 'WIDE_MAIN', 'COUNTS', 'BOTH', 'EACH', 'SUMS', 'OWES_RESULT',
                  'OWES_GLOBAL', 'TELLS', 'HIDES'):
        constant(title, globals()[title])
    f, h = library()
    print('// g 3 of SUMS over COUNTS:', sums(3, f, h))
    f, h = library()
    print('// where both names go to f:', sums(3, f, f))
    f, h = library()
    print('// where both names go to h:', sums(3, h, h))
    print('// the image of two functions with names of 70,000,000 bytes:', named(70_000_000, 70_000_000))
