#!/usr/bin/env python3
"""Prints what directives on programs show, as `spec`, `twin` and `forward` do. It has the rules of both
buffer machines, written from docs/CLI.md and FORMATS, reads images by companions/blade_companions, and shares
no code with Blade. Images are spelled by `spell.py` from commands that are written here by hand.

Directives are letters: `f` fetches, `y` and `n` predict that the condition isn't 0 or that it is, `r`
retires, and a digit executes that entry.

usage: python3 oracles/traces.py"""
import itertools
import pathlib
import sys

sys.path.insert(0, str(pathlib.Path(__file__).resolve().parents[1] / 'companions'))
from blade_companions.formats.image import read_image
from blade_companions.formats.operators import ACCESS_NAMES, DIVISIONS, width_of
from blade_companions.formats.running import meaning, read_start, signed

from images import F, IMAGES, PAGE
from spell import image as spelled

TRAPS = ['unreachable', 'integer divide by zero', 'integer overflow', 'out of bounds memory access',
         'undefined element', 'uninitialized element', 'indirect call type mismatch']
PAGE_BYTES, MOST_CALLS = 65536, 1024


class Entry:
    """An entry of the buffer. Its kind is nop, set (which waits for its operands), load, held, done, store,
    ready, guard or fail."""

    def __init__(self, kind, **fields):
        self.kind, self.to = kind, None
        self.__dict__.update(fields)


class Machine:
    """A buffer machine with room for so many entries; on one that forwards a load may take what an older
    store has."""

    def __init__(self, image, function, start, room=64, forwards=False):
        self.image, self.room, self.forwards = image, room, forwards
        self.statics = len(image.first_globals) + len(image.memories)
        defined = image.functions[function]
        self.registers = {(0, at): value for at,
                          value in enumerate(image.first_globals
                                             + [memory.pages for memory in image.memories])}
        self.registers.update({(1, defined.first + at): value for at, value in enumerate(start.arguments)})
        self.bases, self.space = [], bytearray()
        for memory in image.memories:
            self.bases.append(len(self.space))
            self.space += bytes(memory.reserve * PAGE_BYTES)
            for number, row in memory.rows:
                self.space[self.bases[-1] + 16 * number:self.bases[-1] + 16 * number + 16] = row
        for number, offset, data in start.contents:
            self.space[self.bases[number] + offset:self.bases[number] + offset + len(data)] = data
        self.first = bytes(self.space)
        self.function, self.entries, self.front, self.chain, self.end = function, [], defined.entry, (), None

    # ---- fetching

    def register(self, variable, depth):
        return (0 if variable < self.statics else depth, variable)

    def source(self, operand):
        """A number, or a register."""
        return self.register(operand.value, len(self.chain) + 1) if operand.is_variable else operand.value

    def fetch(self, guess):
        if self.end is not None or len(self.entries) == self.room:
            return None
        command, depth = self.image.commands[self.front], len(self.chain) + 1
        if (command.kind == 'Test') != (guess is not None):
            return None
        sources, behind = [self.source(operand) for operand in command.operands], self.front + 1
        if command.kind == 'Test':
            one, other = command.targets if guess else command.targets[::-1]
            entry, behind = Entry('guard', sources=sources, guess=guess, other=other, chain=self.chain), one
        elif command.kind in ('Set', 'Arg', 'Out'):
            to = {'Set': self.register(command.writes, depth), 'Arg': (depth + 1, command.writes),
                  'Out': (depth - 1, command.writes)}[command.kind]
            entry = Entry('set', to=to, sources=sources, operator=command.operator if command.kind == 'Set'
                          else 0, protect=command.is_protected)
        elif command.kind in ('Load', 'Store'):
            to = self.register(command.writes, depth) if command.kind == 'Load' else None
            entry = Entry(command.kind.lower(), to=to, sources=sources, command=command,
                          protect=command.is_protected)
        elif command.kind == 'Jump':
            entry, behind = Entry('nop'), command.targets[0]
        elif command.kind == 'Call' and depth < MOST_CALLS:
            entry, behind, self.chain = Entry('nop'), command.targets[0], (self.front + 1, *self.chain)
        elif command.kind == 'Ret' and self.chain:
            entry, behind, self.chain = Entry('nop'), self.chain[0], self.chain[1:]
        elif command.kind == 'Ret':
            entry, self.end = Entry('nop'), 'returned'
        else:
            self.end = 'trapped ' + ('call stack exhausted' if command.kind == 'Call' else TRAPS[self.front])
            entry = Entry('fail')
        entry.position, self.front = self.front, behind
        self.entries.append(entry)
        return 'none'

    # ---- executing

    def visible(self, source, n):
        """The value of a source before entry n; None where the last entry that writes it isn't done."""
        if not isinstance(source, tuple):
            return source
        for entry in reversed(self.entries[:n]):
            if entry.to == source:
                return entry.value if entry.kind == 'done' else None
        return self.registers.get(source, 0)

    def guarded(self, text, n):
        """The text with the guards before entry n."""
        guards = [str(at) for at, entry in enumerate(self.entries[:n]) if entry.kind == 'guard']
        return ' '.join([text, 'guards', *guards] if guards else [text])

    def place(self, command, address):
        return self.bases[command.memory] + address % 2**32 + command.offset

    def found(self, command, at, n):
        """The number that a load finds there, and the word for it; None where it waits."""
        width = width_of(ACCESS_NAMES[command.operator])
        number, word = int.from_bytes(self.space[at:at + width], 'little'), 'read'
        if any(entry.kind == 'store' or entry.kind == 'ready' and not self.forwards
               for entry in self.entries[:n]):
            return None
        for entry in self.entries[:n]:
            if entry.kind == 'ready' and entry.at < at + width and at < entry.at + entry.width:
                same = (entry.at, entry.width) == (at, width)
                number, word = (entry.value, 'forward') if same else (None, '')
        return None if number is None else (number, word)

    def ready(self, n):
        """The values by which entry n can be executed; None where it can't."""
        entry = self.entries[n]
        if entry.kind == 'held':
            return None if any(other.kind == 'guard' for other in self.entries[:n]) else []
        if entry.kind not in ('set', 'load', 'store', 'guard'):
            return None
        values = [self.visible(source, n) for source in entry.sources]
        if (None in values or entry.kind == 'load'
            and self.found(entry.command, self.place(entry.command, values[0]), n) is None):
            return None
        return values

    def execute(self, n):
        values = self.ready(n) if n < len(self.entries) else None
        return None if values is None else getattr(self, self.entries[n].kind)(self.entries[n], n, values)

    def held(self, entry, n, values):
        entry.kind = 'done'
        return 'none'

    def set(self, entry, n, values):
        shown = self.guarded(f'divide {values[0]} {values[1]}', n) if entry.operator in DIVISIONS else 'none'
        entry.value, entry.kind = meaning(entry.operator)(*values), 'held' if entry.protect else 'done'
        return shown

    def load(self, entry, n, values):
        at = self.place(entry.command, values[0])
        number, word = self.found(entry.command, at, n)
        name = ACCESS_NAMES[entry.command.operator]
        if name.endswith('_s'):
            number = signed(number, 8 * width_of(name)) % 2**int(name[1:3])
        entry.value, entry.kind = number, 'held' if entry.protect else 'done'
        return self.guarded(f'{word} {at}', n)

    def store(self, entry, n, values):
        entry.width = width_of(ACCESS_NAMES[entry.command.operator])
        entry.at, entry.value, entry.kind = self.place(entry.command,
                                                       values[0]), values[1] % 2**(8 * entry.width), 'ready'
        return self.guarded(f'write {entry.at}', n)

    def guard(self, entry, n, values):
        entry.kind = 'nop'
        if (values[0] % 2**32 != 0) == entry.guess:
            return 'none'
        del self.entries[n + 1:]
        self.front, self.chain, self.end = entry.other, entry.chain, None
        return f'rollback {n}'

    # ---- retiring, and the whole

    def retire(self):
        if not self.entries or self.entries[0].kind not in ('nop', 'done', 'ready', 'fail'):
            return None
        entry = self.entries.pop(0)
        if entry.kind == 'done':
            self.registers[entry.to] = entry.value
        elif entry.kind == 'ready':
            self.space[entry.at:entry.at + entry.width] = entry.value.to_bytes(entry.width, 'little')
        elif entry.kind == 'fail':
            self.entries = []
            return 'fail'
        return 'none'

    def step(self, letter):
        """What a directive shows; None where it isn't enabled."""
        if letter == 'r':
            return self.retire()
        if letter in 'fyn':
            return self.fetch({'f': None, 'y': True, 'n': False}[letter])
        return self.execute(int(letter))

    def observed(self, letters):
        """What these directives show, and the place of the first that isn't enabled, from 1; else None."""
        shown = []
        for letter in letters:
            line = self.step(letter)
            if line is None:
                return shown, len(shown) + 1
            shown.append(line)
        return shown, None

    def outcome(self):
        """Its lines; all results here are of i32."""
        if self.end is None or self.entries:
            return ['pending']
        defined, words = self.image.functions[self.function], [self.end]
        if self.end == 'returned':
            first = defined.first + defined.params
            words += [f'i32 {self.registers.get((0, first + at), 0)}' for at in range(defined.results)]
        lines = [' '.join(words)]
        for number, memory in enumerate(self.image.memories):
            lines.append(f'memory {number} pages '
                         f'{self.registers[(0, len(self.image.first_globals) + number)]}')
            for at in range(self.bases[number], self.bases[number] + memory.reserve * PAGE_BYTES, 16):
                if self.space[at:at + 16] != self.first[at:at + 16]:
                    lines.append(f'row {number} {at - self.bases[number]} {self.space[at:at + 16].hex()}')
        return lines


def spec(data, letters, start):
    image = read_image(data)
    machine = Machine(image, next(iter(image.entries.values())), read_start(start))
    shown, refused = machine.observed(letters)
    return shown + ([f'stuck {refused}'] if refused else machine.outcome())


def agree(image, function, one, other):
    """Whether two starts are equal but for what is declared secret."""
    secret = image.functions[function].secret_params
    arguments = [[value for value, is_secret in zip(start.arguments, secret) if not is_secret]
                 for start in (one, other)]
    machines = [Machine(image, function, start) for start in (one, other)]
    spaces = [b''.join(machine.space[base:base + memory.reserve * PAGE_BYTES] for base,
                       memory in zip(machine.bases, image.memories) if not memory.is_secret)
              for machine in machines]
    return arguments[0] == arguments[1] and spaces[0] == spaces[1]


def twin(data, letters, one, other, forwards=False):
    """The lines of `twin`, and those of `forward` behind its first."""
    image = read_image(data)
    function = next(iter(image.entries.values()))
    starts = [read_start(one), read_start(other)]
    runs = [Machine(image, function, start, forwards=forwards).observed(letters) for start in starts]
    lines, (first, second) = ['public ' + ('agree' if agree(image, function, *starts) else 'differ')], [
        shown + ['stuck'] * (refused is not None) for shown, refused in runs]
    for place in range(len(letters)):
        here = [shown[place] for shown in (first, second)]
        if here[0] != here[1]:
            return lines + [f'differ {place + 1}', *here]
        if here[0] == 'stuck':
            return lines + [f'stuck {place + 1}']
        lines.append(here[0])
    return lines + [f'equal {len(letters)}']


def shortened(lines):
    """Equal lines behind one another as one, with their number."""
    runs = [(line, len(list(same))) for line, same in itertools.groupby(lines)]
    return [line if count == 1 else f'{count} {line}' for line, count in runs]


def told(title, lines):
    print(f'{title}: ' + '; '.join(shortened(lines)))


# ---- programs: v0 is the memory's size, v1 the parameter, v2 the result

ONE = [1, 1, 0x7F, 0, 1, 0x7F]
SMALL = [0, 1, 1, 1, 0, 0]

def loads(access, width, protected, memories=PAGE, sizes=1):
    """A load, and a load of what it gives; sizes is the number of memories."""
    v = [f'v{at + sizes}' for at in range(7)]
    return spelled(memories + ONE + [7, 10] + F + [0], f"""
7 jump 8
8 set {v[2]} move {v[0]}
9 set {v[3]} outside {v[2]} v0 {width}
10 test {v[3]} 3 11
11 {access} {v[4]} {v[2]} {protected}
12 set {v[5]} outside {v[4]} v0 {width}
13 test {v[5]} 3 14
14 {access} {v[6]} {v[4]}
15 out 0 {v[6]}
16 ret
""")


# A load of eight bytes; the other memory is secret. Both have one page
BOTH = [0, 2, 1, 1, 0, 0, 1, 1, 1, 0]
EIGHT = spelled(BOTH + [1, 1, 0x7F, 0, 1, 0x7E, 5, 7] + F + [0], """
7 jump 8
8 set v4 move v2
9 set v5 outside v4 v0 8
10 test v5 3 11
11 load64 v6 v4
12 out 0 v6
13 ret
""")

# A store of the parameter at the place that it names, and a load of it
STORES = spelled([0, 1, 1, 1, 0, 0] + ONE + [5, 8] + F + [0], """
7 set v3 outside v1 v0 4
8 test v3 3 9
9 store v1 v1
10 set v4 outside v1 v0 4
11 test v4 3 12
12 load v5 v1
13 out 0 v5
14 ret
""")

# A test of the parameter, and its division by 3 in either case
DIVIDES = spelled([0, 0] + ONE + [3, 4] + F + [0], """
7 test v0 8 8
8 set v2 div_u v0 3
9 out 0 v2
10 ret
""")

# A call of itself, without end
CALLS = spelled([0, 0, 1, 0, 0, 0, 2] + F + [0], """
7 call 0
8 ret
""")


def stored(store, width, memories):
    """A store of the parameter at place 8, and a load of the word there, as they are lowered."""
    return spelled(memories + ONE + [8, 12] + F + [0], f"""
7 jump 8
8 set v3 move 8
9 set v4 move v1
10 set v5 outside v3 v0 {width}
11 test v5 3 12
12 {store} v3 v4
13 set v6 move 8
14 set v7 outside v6 v0 4
15 test v7 3 16
16 load v8 v6
17 out 0 v8
18 ret
""")


def two_stores(first=8, second=8, one=('store', 4), other=('store', 4), load=('load', 4), protected=''):
    """Stores of 0x1FF and of 0x17F at places, and a load of place 8."""
    return spelled(SMALL + ONE + [6, 11] + F + [0], f"""
7 set v3 outside {first} v0 {one[1]}
8 test v3 3 9
9 {one[0]} {first} 511
10 set v4 outside {second} v0 {other[1]}
11 test v4 3 12
12 {other[0]} {second} 383
13 set v5 outside 8 v0 {load[1]}
14 test v5 3 15
15 {load[0]} v6 8 {protected}
16 out 0 v6
17 ret
""")


# A store of 5 at place 8, and a load of it where the argument isn't 0
GUESSED = spelled(SMALL + ONE + [5, 11] + F + [0], """
7 set v3 outside 8 v0 4
8 test v3 3 9
9 store 8 5
10 test v1 11 16
11 set v4 outside 8 v0 4
12 test v4 3 13
13 load v5 8
14 out 0 v5
15 ret
16 out 0 9
17 ret
""")

AHEAD, ONE_LOAD, ROLLED = 'fffnffnf147', 'fffnffnf14', 'fffnf1423'
TRACE = 'ffffnfffnf12569'


def print_specs():
    protected = loads('load', 4, 'protected')
    told('ADD_ONE 41', spec(IMAGES['ADD_ONE_IMAGE'], 'ffffff1234rrrrrr', 'arg 41\n'))
    told('LOADS 0, rolled back', spec(protected, 'fffyf123f44f5nf76f8frrrrrrrrrr', 'arg 0\n'))
    told('STORES 8', spec(STORES, 'fnffnf201rrr201f3frrrrr', 'arg 8\n'))
    for letters in ('fffnff145', 'fffnf144', 'fffnf14234'):
        told(f'LOADS 0 {letters}', spec(protected, letters, 'arg 0\n'))
    for letters in ('fnffnf5', 'fnffnf25'):
        told(f'STORES 0 {letters}', spec(STORES, letters, 'arg 0\n'))
    told('DIVIDES 0', spec(DIVIDES, 'yf1', 'arg 0\n'))
    told('CALLS', spec(CALLS, 'fr' * 1024, ''))
    told('ADD_ONE 1', spec(IMAGES['ADD_ONE_IMAGE'], 'fr0', 'arg 1\n'))
    told('ADD_ONE 1 without directives', spec(IMAGES['ADD_ONE_IMAGE'], '', 'arg 1\n'))


def print_twins():
    lowered, hardened = loads('load8_u', 1, '', BOTH, 2), loads('load8_u', 1, 'protected', BOTH, 2)
    secrets = 'arg 65536\nmemory 1 0 05\n', 'arg 65536\nmemory 1 0 07\n'
    public = 'arg 0\nmemory 0 0 05\n', 'arg 0\nmemory 0 0 07\n'
    told('twin lowered, AHEAD', twin(lowered, AHEAD, *secrets))
    told('twin lowered, ONE_LOAD', twin(lowered, ONE_LOAD, *secrets))
    told('twin hardened, AHEAD', twin(hardened, AHEAD, *secrets))
    told('twin hardened, ONE_LOAD', twin(hardened, ONE_LOAD, *secrets))
    told('twin lowered, AHEAD, public bytes', twin(lowered, AHEAD, *public))
    told('twin hardened, ONE_LOAD, public bytes', twin(hardened, ONE_LOAD, *public))
    told('twin hardened, AHEAD, arguments', twin(hardened, AHEAD, 'arg 0\n', 'arg 1\n'))
    told('twin hardened, no directive',
         twin(hardened, '', 'arg 0\n', 'memory 0 9 00\narg 00\nmemory 1 65535 Ff'))
    for address in (65529, 131072):
        told(f'twin of eight bytes at {address}',
             twin(EIGHT, ROLLED, *(f'arg {address}\nmemory 1 0 0{last}\n' for last in (5, 7))))


def print_forwards():
    word, byte = stored('store', 4, PAGE), stored('store8', 1, PAGE)
    told('forward STORED 5 7', twin(word, TRACE, 'arg 5\n', 'arg 7\n', True))
    told('twin STORED 5 7', twin(word, TRACE, 'arg 5\n', 'arg 7\n'))
    told('forward BYTE_STORED 5 7', twin(byte, TRACE, 'arg 5\n', 'arg 7\n', True))
    told('forward STORED 5 5', twin(word, TRACE, 'arg 5\n', 'arg 5\n', True))
    told('forward BYTES_OF_BYTES',
         twin(loads('load8_u', 1, ''), AHEAD, 'arg 0\nmemory 0 0 05\n', 'arg 0\nmemory 0 0 07\n', True))


def machine_of(data, start, room=32):
    image = read_image(data)
    return Machine(image, 0, read_start(start), room, True)


def print_load(title, data, letters):
    """What a load behind two stores shows at last, and its value once all is retired."""
    machine = machine_of(data, 'arg 0\n')
    shown, refused = machine.observed('fnffnffnf' + letters)
    if refused is not None:
        return print(f'{title} {letters}: stuck {refused}')
    machine.observed('013467rrrrrrrrr')
    print(f'{title} {letters}: {shown[-1]}; {machine.registers.get((1, 6), 0):#x}')


def print_loads():
    print_load('same places', two_stores(), '258')
    print_load('same places', two_stores(), '528')
    print_load('second at 12', two_stores(second=12), '258')
    print_load('first at 10', two_stores(first=10), '258')
    print_load('first at 4, second at 12', two_stores(first=4, second=12), '258')
    for second in (10, 5):
        print_load(f'second at {second}', two_stores(second=second), '258')
    print_load('second of a byte', two_stores(other=('store8', 1)), '258')
    print_load('second of eight bytes', two_stores(other=('store64', 8)), '258')
    print_load('second of a byte at 11', two_stores(second=11, other=('store8', 1)), '258')
    for letters in ('28', '58'):
        print_load('same places', two_stores(), letters)
    print_load('second at 12', two_stores(second=12), '28')
    for store in ('store8', 'store64_8'):
        for load in ('load8_s', 'load8_u', 'load64_8_s', 'load64_8_u'):
            for second in (12, 8):
                print_load(f'{store}, {load}, second at {second}',
                           two_stores(8, second, (store, 1), (store, 1), (load, 1)), '258')


def print_machines():
    machine = machine_of(two_stores(protected='protected'), 'arg 0\n')
    print('protected load:', machine.observed('fnffnffnf' 'f258')[0][-1], machine.entries[8].kind,
          machine.step('8'), machine.step('9'), machine.observed('0134678')[0][-1], machine.entries[8].kind,
          machine.observed('9rrrrrrrrr')[0][-1], hex(machine.registers[(1, 6)]))
    machine = machine_of(GUESSED, 'arg 0\n')
    print('wrong guess:', machine.observed('fnfyfnf26')[0][-1], '|', machine.step('3'), machine.front,
          len(machine.entries), machine.observed('ff014rrrrrr'), machine.registers.get((1, 5), 0),
          machine.space[8], machine.outcome()[0])
    machine = machine_of(stored('store', 4, SMALL), 'arg 5\n', 1)
    print('one entry:', machine.step('f'), machine.step('f'),
          machine.observed('rf0rf0rf0rn0rf0rf0rf0rn0rf0rf0rfr')[0][26], machine.outcome()[0])
    for letters in ('ff', 'frf0rf'):
        image = read_image(IMAGES['ADD_ONE_IMAGE'])
        shown, refused = Machine(image, 0, read_start('arg 41\n'), 1).observed(letters)
        print(f'ADD_ONE with room for one, {letters}: {len(shown)} shown, refused {refused}')
    machine, made = Machine(read_image(IMAGES['ADD_ONE_IMAGE']), 0, read_start('arg 41\n'), 1), []
    for letter in 'r0yff01rfr0r':
        made.append(machine.step(letter) is not None)
    print('ADD_ONE with room for one, which of twelve are made:', made, 'front', machine.front)


if __name__ == '__main__':
    print_specs()
    print_twins()
    print_forwards()
    print_loads()
    print_machines()
