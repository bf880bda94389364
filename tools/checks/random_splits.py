"""Splits random programs with a secret memory, and runs them by the program beside the modules that weren't
split. A split program ends as the original does, with the same results and the same bytes in all of C's
memory, or it traps. There are three kinds of programs: modules by the rule of `blade gen`, small modules of
all instructions, and C that clang compiles. tools/checks/cc tries some of each kind; `tools/checks/cc --only
splits --random N` tries N. Licence: public domain (CC0)."""
from __future__ import annotations

import os
import random
import subprocess
import sys
from collections import Counter
from typing import Callable, Dict, List, NamedTuple, Sequence, Tuple

import made_modules
from harness import COMPANIONS, TOP, Check, lanes, passed
from blade_companions.c.splitting import of_memory, plain_start
from blade_companions.formats.encoding import section
from blade_companions.formats.labels import entries_of, with_labels
from blade_companions.formats.module import FUNCTION, Module, module_of
from blade_companions.formats.reading import Bad
from blade_companions.split import Named
from blade_companions.splitting import profile
from blade_companions.splitting.making import split
from blade_companions.splitting.starts import split_start

sys.path.append(f"{TOP}/oracles")
import made  # noqa: E402

STEPS, MORE = "100000", "10000000"  # the most of a run, and of a run of the split program
SECRET = ("secret-memory", (0,))
EDGES = (0, 1, 2, 7, 64, 255, 1024, 2048, 4095, 0xFFFFFFFF)
ROOM = 4096  # bytes that a start gives
DATA = 130000  # where the bytes stand that C gets: behind its data and stack
RAN, ENDED, SPENT = 0, 16, 17
TOLD = ("changed", "without a leak", "runs", "returned", "equal", "trapped")
UNKNOWN = "trapped unreachable"


class Program(NamedTuple):
    """A labelled module, and calls of one of its functions; the first call is recorded."""

    module: Module
    export: str
    calls: Sequence[profile.Call]


def labelled(data: bytes) -> Module:
    """The module of these bytes, with its memory secret beside what else it declares."""
    bare = module_of(data, "m.wasm")
    return module_of(with_labels(bare, sorted({*entries_of(bare), SECRET})), "m.wasm")


def some_bytes(chance: random.Random, count: int) -> bytes:
    return chance.getrandbits(8 * count).to_bytes(count, "little")


def calls_of(chance: random.Random, module: Module, export: str, arguments: Callable[[int], List[int]],
             contents: Callable[[], Tuple[int, bytes]]) -> Program:
    """Three calls. The same bytes are public in each, none, some or all."""
    at, data = contents()
    public = chance.choice(([], [(at, len(data) // 2)], [(at, len(data))]))
    function = module.exports[FUNCTION, export]
    calls = [profile.Call(function, arguments(number), [contents()], public) for number in range(3)]
    return Program(module, export, calls)


def long_module(chance: random.Random, folder: str) -> Program:
    """A module by the rule of `gen`; its numbers are addresses in the memory."""
    data = made.made(chance.randrange(1 << 16), chance.randrange(1, 40))
    module = labelled(data.replace(section(5, b"\1\0\1"), section(5, b"\1\1\1\1")))  # it doesn't grow

    def contents() -> Tuple[int, bytes]:
        step = chance.randrange(1, 256)
        return 0, bytes((step * at * 4 + at) % (256, 16)[at % 4] if at % 4 < 2 else 0 for at in range(ROOM))

    return calls_of(chance, module, "f", lambda _: [chance.randrange(1000) * 4], contents)


class Plain(made_modules.Body):
    """A function that may be split: no block has parameters. Most addresses are where a start gives bytes, so
    that most runs return."""

    def nested(self, kind: int, depth: int) -> bytes:
        return self.result(kind, depth)

    def address(self, depth: int) -> bytes:
        value = super().address(depth)
        return value if self.chance.random() < 0.02 else value + b"\x41\xFF\x0F\x71"  # & 2047


class Single(made_modules.Maker):
    """A module with a memory of its own, whose functions have one result or none."""

    body = Plain
    results = (0, 1, 1, 1)
    chance_of_memory = 1.0


def small_module(chance: random.Random, folder: str) -> Program:
    maker = Single(chance)
    module = labelled(maker.bytes())
    number = chance.randrange(len(maker.kinds))

    def arguments(_: int) -> List[int]:
        bits = [32 if kind == made_modules.I32 else 64 for kind in maker.kinds[number][0]]
        return [chance.choice((*EDGES, chance.getrandbits(64))) & ((1 << one) - 1) for one in bits]

    return calls_of(chance, module, f"f{number}", arguments, lambda: (0, some_bytes(chance, ROOM)))


HEAD = """typedef unsigned char u8;
typedef unsigned u32;
typedef unsigned long long u64;
struct context { u32 used, total; u8 bytes[64]; u32 words[8]; u64 wide; };
static struct context c, d;
"""


class Source:
    """A program in C: contexts with public numbers and secret bytes, as hashes have them. A few branches and
    counts depend on secrets."""

    def __init__(self, chance: random.Random) -> None:
        self.chance, self.depth, self.left = chance, 0, 40

    def public(self, depth: int = 0) -> str:
        ways = ["n", "p->used", "p->total", "c.used", "d.total", str(self.chance.choice((1, 3, 4, 16, 63)))]
        ways += ["i"] * 3 if self.depth else []
        if depth > 1 or self.chance.random() < 0.5:
            return self.chance.choice(ways)
        return f"({self.public(depth + 1)} {self.chance.choice('+-^*&|')} {self.public(depth + 1)})"

    def value(self, depth: int = 0) -> str:
        if depth < 2 and self.chance.random() < 0.4:
            sign = self.chance.choice(("+", "-", "^", "*", "&", "|", "<", ">>"))
            left, right = self.value(depth + 1), self.value(depth + 1)
            return f"({left} >> ({right} & 7))" if sign == ">>" else f"({left} {sign} {right})"
        at = self.public(1)
        return self.chance.choice((f"data[{at} & 63]", f"p->bytes[{at} & 63]", f"c.words[{at} & 7]",
                                   f"d.bytes[{at} & 63]", "(u32)p->wide", at))

    def place(self) -> str:
        at = self.public(1)
        return self.chance.choice((f"p->bytes[{at} & 63]", f"c.words[{at} & 7]", f"d.bytes[{at} & 63]",
                                   "p->wide", "p->bytes[p->used++ & 63]"))

    def statement(self) -> str:
        self.left -= 1
        way = self.chance.random()
        if way < 0.25 or self.left < 0 or self.depth > 2:
            return f"{self.place()} {self.chance.choice(('=', '^=', '+='))} {self.value()};"
        if way < 0.45:
            where = self.chance.choice(("p->used", "p->total", "c.used", "d.total"))
            return f"{where} = {self.value() if self.chance.random() < 0.05 else self.public()};"
        if way < 0.5:
            return self.chance.choice(("c = d;", "d = *p;", "p->wide = c.wide;"))
        if way < 0.6:
            return f"p->words[n & 7] += {self.called}(&{self.chance.choice('cd')}, data, {self.public()});"
        if way < 0.8:
            test = self.value() if self.chance.random() < 0.05 else self.public()
            other = f" else {self.block()}" if self.chance.random() < 0.4 else ""
            return f"if ({test} & {self.chance.choice((1, 2, 4))}) {self.block()}{other}"
        return f"for (u32 i = 0; i < ({self.public()} & 15); i++) {self.block(1)}"

    def block(self, loop: int = 0) -> str:
        self.depth += loop
        body = " ".join(self.statement() for _ in range(self.chance.randrange(1, 4)))
        self.depth -= loop
        return f"{{ {body} }}"

    def function(self, name: str, called: str) -> str:
        """A function that calls another one."""
        self.left, self.called = 40, called
        lines = [self.statement() for _ in range(self.chance.randrange(4, 12))]
        text = "\n    ".join(lines)
        return (f"__attribute__((noinline)) static u32 {name}(struct context *p, const u8 *data, u32 n)\n"
                f"{{\n    {text}\n    return p->used;\n}}\n")

    def text(self) -> str:
        last = "static u32 last(struct context *p, const u8 *data, u32 n) { return data[n & 63]; }\n"
        return (f"{HEAD}{last}{self.function('part', 'last')}{self.function('whole', 'part')}"
                "u32 f(u32 n, const u8 *data) { return whole(&c, data, n); }\n")


def c_program(chance: random.Random, folder: str) -> Program:
    """What clang makes of a program in C."""
    source, made_of = f"{folder}/m.c", f"{folder}/clang.wasm"
    with open(source, "w", encoding="ascii") as file:
        file.write(Source(chance).text())
    passed("clang", "--target=wasm32", f"-O{chance.randrange(1, 4)}", "-nostdlib", "-w", "-Wl,--no-entry",
           "-Wl,--export=f,--max-memory=131072", source, f"{COMPANIONS}/include/libc.c", "-o", made_of)
    with open(made_of, "rb") as made_file:
        module = labelled(made_file.read())
    return calls_of(chance, module, "f", lambda _: [chance.randrange(32), DATA],
                    lambda: (DATA, some_bytes(chance, 64)))


KINDS: Dict[str, Callable[[random.Random, str], Program]] = {
    "modules of gen": long_module, "modules of all instructions": small_module, "programs in C": c_program}


def ended(program: str, image: str, export: str, start: str, steps: str) -> Tuple[int, str]:
    done = subprocess.run([program, "run", image, f"m/{export}", start, "--steps", steps],
                          capture_output=True, text=True, check=False)
    return done.returncode, done.stdout + done.stderr


def hardened(program: str, folder: str, *modules: bytes) -> str:
    """The image of modules, of which the last is called m; what harden says ends with the verdict."""
    paths = []
    for name, data in zip(("shadow", "m")[-len(modules) :], modules):
        paths.append(f"{folder}/{name}.wasm")
        with open(paths[-1], "wb") as file:
            file.write(data)
    image = f"{folder}/{len(modules)}.img"
    passed(program, "harden", image, f"{folder}/m.json", *paths)
    return image


def compared(program: str, folder: str, one: Program) -> Tuple[Counter, str]:
    """What came of the runs, and the first fault. Runs that take too long are left out. The recorded run
    returns as the original, unless the split leaves a leak: then the verdict is no, and nobody uses it."""
    found: Counter = Counter()
    plain = hardened(program, folder, one.module.data)
    starts = [plain_start(Named("start", one.export, call)) for call in one.calls]
    ends = [ended(program, plain, one.export, written(folder, start), STEPS) for start in starts]
    if ends[0][0] == SPENT:
        return Counter(spent=1), ""
    try:
        apart = split(one.module, one.calls[:1])
    except Bad as bad:
        return Counter(refused=1), "" if "limit" in str(bad) else f"refused: {bad}"
    image = hardened(program, folder, apart.shadow, apart.made)
    found["changed"] += bool(apart.kinds.changes)
    found["without a leak"] += bool(apart.kinds.changes and not apart.recorded.leaks)
    for number, (call, (status, wanted)) in enumerate(zip(one.calls, ends)):
        if status == SPENT:
            continue
        start = written(folder, split_start(call, apart.base))
        _, given = ended(program, image, one.export, start, MORE)
        found["runs"] += 1
        found["returned"] += status == RAN
        if of_memory(given, 1) == of_memory(wanted, 0):
            found["equal"] += 1
        elif given.startswith(UNKNOWN) and (number or apart.recorded.leaks):
            found["trapped"] += 1
        else:
            return found, f"call {number}: {wanted[:200]} / {given[:200]}"
    return found, ""


def written(folder: str, start: str) -> str:
    with open(f"{folder}/start", "w", encoding="ascii") as file:
        file.write(start)
    return f"{folder}/start"


def tried(check: Check, kind: str, count: int, first: int = 0) -> Tuple[Counter, List[str]]:
    """What came of so many programs of a kind, and the faults by their seeds."""

    def work(seed: int) -> Tuple[Counter, str]:
        folder = check.path(f"random/{kind.replace(' ', '-')}/{seed}")
        os.makedirs(folder, exist_ok=True)
        return compared(check.program, folder, KINDS[kind](random.Random(f"{kind} {seed}"), folder))

    total: Counter = Counter()
    wrong = []
    for seed, (found, fault) in enumerate(lanes(work, range(first, first + count)), first):
        total += found
        wrong += [f"{seed}: {fault}"] * bool(fault)
    return total, wrong


def random_splits(check: Check) -> None:
    """Random programs of each kind."""
    for kind in KINDS:
        total, wrong = tried(check, kind, check.options.random)
        told = ", ".join(f"{name} {total[name]}" for name in TOLD)
        check.say(f"{kind}, {check.options.random} of them: {told}", total["equal"] and not wrong,
                  wrong or total)
        if not check.prints_right:
            print(f"       {kind}: {told}", flush=True)
