#!/usr/bin/env python3
"""Prints what tests of `predict` expect: the trace and the counts of drives of the images there, and the hits
and misses of accesses. It knows the rules of the predictor and of the cache, has the buffer machine of
traces.py, and shares no code with Blade. usage: python3 oracles/drives.py"""
from images import IMAGES
from spell import leb
from traces import Machine, read_image, shortened, read_start


class Lines:
    """Lists of at most so many lines, the most recent first."""

    def __init__(self, sets=64, most=8):
        self.lists, self.most = [[] for _ in range(sets)], most

    def access(self, address):
        line = address // 64
        lines = self.lists[line % len(self.lists)]
        hit = line in lines
        if hit:
            lines.remove(line)
        lines.insert(0, line)
        del lines[self.most:]
        return hit


def chosen(machine):
    """The entry that a drive executes: the first load that can be, else the first entry; None where none can
    be."""
    ready = [n for n in range(len(machine.entries)) if machine.ready(n) is not None]
    return next((n for n in ready if machine.entries[n].kind == 'load'), ready[0] if ready else None)


class Drive:
    """The buffer machine, driven by the predictor; and the cache, by what is shown."""

    def __init__(self, image, function, start):
        self.machine, self.counters, self.lines = Machine(image, function, start), [1] * 1024, Lines()
        self.rollbacks, self.hits, self.misses = 0, 0, 0

    def step(self):
        """The next directive."""
        machine, at = self.machine, self.machine.front
        is_test = machine.end is None and machine.image.commands[at].kind == 'Test'
        guess = self.counters[at % 1024] >= 2 if is_test else None
        if machine.fetch(guess) is not None:
            return 'fetch' if guess is None else f'fetch {int(guess)}'
        n = chosen(machine)
        if n is None:
            assert machine.retire() is not None
            return 'retire'
        self.execute(machine.entries[n], n)
        return f'exec {n}'

    def execute(self, entry, n):
        is_guard, shown = entry.kind == 'guard', self.machine.execute(n).split()
        is_wrong = shown[0] == 'rollback'
        self.rollbacks += is_wrong
        if is_guard:
            at, step = entry.position % 1024, 1 if entry.guess != is_wrong else -1
            self.counters[at] = min(3, max(0, self.counters[at] + step))
        if shown[0] in ('read', 'write'):
            hit = self.lines.access(int(shown[1]))
            self.hits, self.misses = self.hits + hit, self.misses + (not hit)


def drive(data, export, start, most=1000000):
    image, trace = read_image(data), []
    drive = Drive(image, image.entries[export], start)
    while (drive.machine.end is None or drive.machine.entries) and len(trace) < most:
        trace.append(drive.step())
    line = f'directives {len(trace)} rollbacks {drive.rollbacks} hits {drive.hits} misses {drive.misses}'
    return line, drive.machine.outcome()[0], trace


HEAD = b'BLIM\1'
# Set v0 = i32.sub v0 1; Test v0 7 9; Out 0 v0; Ret
LOOP = HEAD + bytes.fromhex('00 00 01 01 7F 00 01 7F 02 04 01 03 6D 2F 66 00 00 00 6B 00 00 00 01 01 03 00 '
                            '00 07 09 07 00 00 00 00 08')
PLACES = [4096 * n for n in (0, 1, 2, 3, 4, 5, 6, 7, 8, 1, 0)]


def load_at(place, position):
    """Set v3 = Move place; Set v4 = Outside v3 v0 4; Test v4 3 next; Load v2 at v3"""
    return (bytes.fromhex('00 00 00 03 01') + leb(place)
            + bytes.fromhex('00 00 01 04 00 03 00 00 01 04 03 00 04 03') + leb(position + 3)
            + bytes.fromhex('01 00 28 00 02 00 00 03'))


# A load at each of the places, which are nine lines of one list, and the second and the first of them again;
# Out 0 v2; Ret
NINE = (HEAD + bytes.fromhex('00 01 01 01 00 00 01 00 01 7F 04') + bytes([4 * len(PLACES) + 2])
        + bytes.fromhex('01 03 6D 2F 66 00')
        + b''.join(load_at(place, 7 + 4 * n) for n, place in enumerate(PLACES))
        + bytes.fromhex('07 00 00 00 02 08'))
DRIVES = [('INC', IMAGES['ADD_ONE_IMAGE'], 'inc/inc', [41]), ('LOADS', IMAGES['LOADS_IMAGE'], 'm/f', [0]),
          ('LOADS', IMAGES['LOADS_IMAGE'], 'm/f', [65536]), ('LOOP', LOOP, 'm/f', [40]),
          ('NINE', NINE, 'm/f', [])]


def main():
    for name, image, export, arguments in DRIVES:
        line, outcome, trace = drive(image, export,
                                     read_start(''.join(f'arg {value}\n' for value in arguments)))
        print(f'{name} {arguments}: {line}; {outcome}; {", ".join(shortened(trace))}')
    print('NINE =', ', '.join(f'0x{byte:02X}' for byte in NINE))
    print('LOOP =', ', '.join(f'0x{byte:02X}' for byte in LOOP))


if __name__ == '__main__':
    main()
