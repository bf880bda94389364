"""Split programs end as the original ones or trap, and what the shadow knows is so: C's memory byte by byte,
and each known bit. Mistakes of the tool are caught by this. Licence: public domain (CC0)."""
from __future__ import annotations

import sys
import unittest
from typing import Any, List, Sequence, Tuple
from unittest import mock

from blade_companions.formats.encoding import I32, section, sized, string, vector
from blade_companions.formats.labels import Entry, entries_of, is_changed, with_labels
from blade_companions.formats.module import FUNCTION, MEMORY, Module, module_of
from blade_companions.formats.places import section_of
from blade_companions.formats.reading import Bad
from blade_companions.splitting import (
    clearing,
    codes as op,
    functions,
    kinds,
    knowledge,
    making,
    running,
    shadow,
)
from blade_companions.splitting.making import WHY, first_known, refuse_lost_labels, split
from blade_companions.splitting.numerics import Trap
from blade_companions.splitting.parts import Data, Parts, parts_of
from blade_companions.splitting.profile import Call
from blade_companions.splitting.running import Instance
from blade_companions.splitting.starts import split_start
from blade_companions.splitting.terms import zero
from .split_programs import BY_HAND, PUBLIC, ROOM, SECRET, Maker, i, load, looked_up, module, store

# The other way a secret comes to a sink, so each of these traps; a leak that a run met is left as it is.
TRAPPED = ["half 1", "looped 1", "neighbours 1", "stale 1", "teed 1", "unseen 1"]
SECRETS = [bytes(at * 11 + 3 & 0xFF for at in range(64)), bytes(64), b"\xff" * 64]
OPEN = bytes(at * 3 & 0xFF for at in range(64))


def small(argument: int, secret: int = 0) -> Call:
    return Call(0, [argument], [(SECRET, SECRETS[secret]), (PUBLIC, OPEN)], [(PUBLIC, 64)])


def ended(parts: Parts, given: Call) -> Tuple[object, bytes]:
    instance = Instance(parts)
    for at, data in given.contents:
        instance.memory[at : at + len(data)] = data
    try:
        return instance.call(given.function, given.arguments), bytes(instance.memory)
    except Trap as trap:
        return str(trap), bytes(instance.memory)


class Split:
    """A module that was split by recorded runs, as it is written and read again."""

    def __init__(self, original: Module, recorded: Sequence[Call]) -> None:
        self.original = parts_of(original)
        self.split = split(original, recorded)
        self.shadow = parts_of(module_of(self.split.shadow, "shadow.wasm"))
        self.made = parts_of(module_of(self.split.made, "program.wasm"))
        self.public, self.secret = self.instances()

    def instances(self) -> Tuple[Instance, Instance]:
        public = Instance(self.shadow)
        return public, Instance(self.made, imports=public.exports("shadow"))

    def start(self, given: Call) -> None:
        """A new instance, with the contents of a start file."""
        self.public, self.secret = self.instances()
        for line in split_start(given, self.split.base).splitlines():
            words = line.split()
            if words[0] == "memory":
                data, at = bytes.fromhex(words[3]), int(words[2])
                (self.public if words[1] == "0" else self.secret).memory[at : at + len(data)] = data

    def call(self, given: Call) -> object:
        try:
            return self.secret.call(self.secret.exported("f"), given.arguments)
        except Trap as trap:
            return str(trap)

    def compare(self, case: unittest.TestCase, given: Call) -> bool:
        """Whether it ends as the original; else it has to trap. If it returns, what is known has to be so;
        after a trap, masks that were to be cleared later may be left."""
        wanted, original = ended(self.original, given)
        self.start(given)
        result = self.call(given)
        public, memory, base = self.public.memory, self.secret.memory, self.split.base
        known = [at for at in range(base) if public[base + at]]
        if self.split.kinds.reads_shadow and not isinstance(result, str):
            wrong = [at for at in known if (public[at] ^ memory[at]) & public[base + at]]
            case.assertEqual(wrong, [], "a known bit isn't so")
        if result == "unreachable" != wanted:
            return False
        case.assertEqual(result, wanted)
        if not isinstance(wanted, str):
            case.assertEqual(bytes(memory), original)
        return True


def by_hand(case: unittest.TestCase) -> List[str]:
    """Splits each program by a run that goes the one way, runs it the other way, and says which traps."""
    trapped = set()
    for name, program in BY_HAND.items():
        one = Split(program, [small(0)])
        for argument in (0, 1):
            for secret in range(len(SECRETS)):
                if not one.compare(case, small(argument, secret)):
                    trapped.add(f"{name} {argument}")
    return sorted(trapped)


def at_random(case: unittest.TestCase, seeds: Sequence[int]) -> int:
    """Programs at random; how many of their runs end as the original."""
    alike = 0
    for seed in seeds:
        one = Split(Maker(seed).program(), [small(seed & 3, seed % 3)])
        for argument, secret in ((seed & 3, seed % 3), (5, 1), (1 << 31, 2)):
            alike += one.compare(case, small(argument, secret))
    return alike


class Programs(unittest.TestCase):
    def test_by_hand(self) -> None:
        self.assertEqual(by_hand(self), TRAPPED)

    def test_at_random(self) -> None:
        self.assertGreater(at_random(self, range(100)), 150)

    def test_a_run_without_an_end(self) -> None:
        """A recorded run is left after so many turns of loops, and what it showed is used."""
        program = module(
            [[*looked_up(load(ROOM)), i("drop"), i("loop"), i("br", 0), i("end"), i("unreachable")]]
        )
        told: List[str] = []
        with mock.patch.object(running, "TURNS", 1000):
            self.assertTrue(split(program, [small(0)], (), told.append).kinds.checked)
        self.assertIn("a recorded run ends early: it takes too long", told)

    def test_several_recorded_runs(self) -> None:
        """A second run goes the other way: what it needs is known to be unknown, so the verdict is no, and
        nothing traps."""
        one = Split(BY_HAND["stale"], [small(0), small(1)])
        self.assertTrue(one.split.recorded.leaks)
        self.assertTrue(all(one.compare(self, small(argument)) for argument in (0, 1)))


def all_d() -> Any:
    """Every needed load is D, and none P: so known bits go through all instructions, and are checked at
    sinks."""
    return mock.patch.object(making, "decide", lambda flow, recorded: kinds.Kinds(flow, (), recorded))


class KnownBits(unittest.TestCase):
    """The same with every needed load as D."""

    def setUp(self) -> None:
        patched = all_d()
        patched.start()
        self.addCleanup(patched.stop)

    def test_by_hand(self) -> None:
        self.assertEqual(by_hand(self), TRAPPED)

    def test_at_random(self) -> None:
        self.assertGreater(at_random(self, range(1000, 1070)), 170)


class Mutants(unittest.TestCase):
    """Each mistake of the tool has to be caught by one of the tests above."""

    def caught(self, target: object, name: str, wrong: object) -> None:
        with mock.patch.object(target, name, wrong):
            try:
                trapped = by_hand(self)
                at_random(self, range(60))
            except AssertionError:
                return
        self.assertNotEqual(trapped, TRAPPED, "not caught")

    def test_a_store_that_does_not_clear(self) -> None:
        for name in ("wipe", "clear"):
            self.caught(shadow.Shadow, name, lambda self, one: "")

    def test_a_loop_that_does_not_clear(self) -> None:
        self.caught(shadow.Shadow, "wipe_range", lambda self, one: "")

    def test_a_mask_that_is_too_wide(self) -> None:
        put = shadow.Shadow.put
        self.caught(
            shadow.Shadow,
            "put",
            lambda self, one: put(self, one).replace(
                "local.get 2", f"i{op.BITS[op.ACCESSES[one.code].type]}.const -1"
            ),
        )
        self.caught(knowledge, "low_run", lambda mask: knowledge.ones(mask.bits))

    def test_a_load_that_is_not_checked(self) -> None:
        public = shadow.Shadow.public
        self.caught(
            shadow.Shadow, "public", lambda self, one: public(self, one).replace("unreachable", "nop")
        )

    def test_a_tee_whose_value_is_not_what_is_known(self) -> None:
        nothing = lambda self, place, step, known: knowledge.wholly(zero(known.bits))  # noqa: E731
        self.caught(functions.FunctionWriter, "teed", nothing)

    def test_a_sink_that_is_not_checked(self) -> None:
        with all_d():
            self.caught(functions.FunctionWriter, "check", lambda self, mask: None)

    def test_masks_that_are_cleared_too_late(self) -> None:
        self.caught(
            clearing.Clearing,
            "settle",
            lambda self, place, step: (self.sums.begin() if clearing.begins_straight(step) else None),
        )

    def test_first_bytes_that_are_not_known(self) -> None:
        self.caught(making, "first_known", lambda *_: [making.First(0, b"\1" * 65536, "wrong")])
        # Zeros are so at the start, unless a start file gives other bytes and the shadow doesn't forget.
        with mock.patch.object(making, "first_known", lambda *_: [making.First(0, bytes(65536), "zeros")]):
            made = split_start
            self.caught(
                sys.modules[__name__],
                "split_start",
                lambda call, base: "\n".join(
                    line for line in made(call, base).splitlines() if not line.endswith("00")
                ),
            )


CONSTANT = [store(ROOM, [i("const", 3)]), looked_up(load(ROOM))]


def labelled(*labels: Entry, more: bytes = b"", bodies: int = 1) -> Module:
    body = [*looked_up(load(ROOM))]
    return module([body] * bodies, labels=[("secret-memory", (0,)), *labels], more=more)


def one_global() -> bytes:
    return section(6, vector([bytes([I32, 1, 0x41, 0, 0x0B])] * 2))


LABELS: List[Entry] = [
    ("secret-param", (0, 0)),
    ("secret-global", (1,)),
    ("public-result", (0, 0)),
    ("public-global", (0,)),
]


class Labels(unittest.TestCase):
    """No label of the module is lost."""

    def test_each_kind_is_carried_over(self) -> None:
        before = labelled(*LABELS, more=one_global())
        after = module_of(split(before, [small(0)]).made, "program.wasm")
        by, door = len(after.imported(FUNCTION)), after.exports[FUNCTION, "f"]
        self.assertNotEqual(door, by)
        wanted = {
            ("secret-memory", (0,)),
            ("secret-global", (1,)),
            ("public-global", (0,)),
            *((kind, (function, 0)) for kind in ("secret-param", "public-result") for function in (by, door)),
        }
        self.assertEqual(set(entries_of(after)), wanted)
        self.assertFalse(is_changed(after))

    def test_a_lost_label_is_refused(self) -> None:
        before = labelled(*LABELS, more=one_global())
        made = module_of(split(before, []).made, "program.wasm")
        entries = entries_of(made)
        refuse_lost_labels(before, made)
        for lost in entries:
            rest = module_of(with_labels(made, [one for one in entries if one != lost]), "program.wasm")
            with self.assertRaisesRegex(Bad, "a label would be lost"):
                refuse_lost_labels(before, rest)

    def test_a_writer_that_loses_one_is_refused(self) -> None:
        with mock.patch.object(making, "with_labels", lambda bare, entries: with_labels(bare, entries[:-1])):
            with self.assertRaisesRegex(Bad, "a label would be lost"):
                split(labelled(*LABELS, more=one_global()), [])

    def test_a_module_changed_since_it_was_labelled(self) -> None:
        before = labelled()
        data = before.data.replace(b"\x41\x0f\x71", b"\x41\x07\x71")
        self.assertNotEqual(data, before.data)
        with self.assertRaisesRegex(Bad, "its code isn't what its labels were made for"):
            split(module_of(data, "program.wasm"), [])


class Demands(unittest.TestCase):
    """A result, or a global, that has to be public takes a checked value."""

    def test_a_public_result(self) -> None:
        body = [
            *store(ROOM, [i("const", 5)]),
            i("get", 0),
            i("if"),
            *store(ROOM, load(SECRET)),
            i("end"),
            *load(ROOM),
        ]
        labels: List[Entry] = [("secret-memory", (0,)), ("public-result", (0, 0))]
        one = Split(module([body], labels=labels), [small(0)])
        self.assertEqual([one.compare(self, small(argument)) for argument in (0, 1)], [True, False])
        self.assertTrue(one.split.kinds.reads_shadow)
        plain = Split(module([body]), [small(0)])
        self.assertFalse(plain.split.kinds.reads_shadow)

    def test_a_public_global(self) -> None:
        body = [
            *store(ROOM, [i("const", 5)]),
            i("get", 0),
            i("if"),
            *store(ROOM, load(SECRET)),
            i("end"),
            *load(ROOM),
            i("global.set", 0),
            i("global.get", 0),
        ]
        labels: List[Entry] = [("secret-memory", (0,)), ("public-global", (0,))]
        one = Split(module([body], labels=labels, more=one_global()), [small(0)])
        self.assertEqual([one.compare(self, small(argument)) for argument in (0, 1)], [True, False])
        self.assertEqual(one.split.kinds.of(one.split.kinds.flow.globals[0]), "U")


class Start(unittest.TestCase):
    """What the shadow knows at the start, and what is enforced from then on."""

    def test_only_constants_and_what_is_named(self) -> None:
        parts = parts_of(labelled())
        parts.data = [Data(1024, b"\1\2\3\4", ".rodata"), Data(1032, b"key!", ".data"), Data(1040, b"more")]
        recorded = kinds.Recorded(zeros={1028, 1029, 1033})
        found = first_known(parts, recorded, [Call(0, [], [(1026, b"x")])], [(1042, 2), (2048, 1)])
        self.assertEqual(
            [(one.offset, one.bytes, one.why) for one in found],
            [
                (1024, b"\1\2", WHY[2]),
                (1027, b"\4", WHY[2]),
                (1028, b"\0\0", WHY[4]),
                (1042, b"re", WHY[3]),
                (2048, b"\0", WHY[3]),
            ],
        )

    def test_data_that_is_no_constant_is_in_no_public_memory(self) -> None:
        segment = vector([b"\0\x41" + b"\x80\x08" + b"\x0b" + sized(b"SECRETKEY")])
        before = labelled()
        data = with_labels(module_of(before.data + section(11, segment), "program.wasm"), entries_of(before))
        made = split(module_of(data, "program.wasm"), [small(0)])
        self.assertIn(b"SECRETKEY", made.made)
        self.assertNotIn(b"SECRETKEY", made.shadow)

    def test_a_start_file_forgets(self) -> None:
        """A start file gives other bytes for what the shadow would know: zeros that the recorded run read."""
        body = looked_up(load(ROOM))
        one = Split(module([body]), [small(0)])
        self.assertTrue(one.compare(self, small(0)))
        other = Call(0, [0], [(ROOM, b"\1\0\0\0")])
        self.assertFalse(one.compare(self, other))
        self.assertTrue(one.compare(self, Call(0, [0], [(ROOM, b"\1\0\0\0")], [(ROOM, 4)])))

    def test_no_call_after_a_trap(self) -> None:
        one = Split(BY_HAND["stale"], [small(0)])
        one.start(small(0))
        self.assertNotEqual(one.call(small(0)), "unreachable")
        self.assertNotEqual(one.call(small(0)), "unreachable")
        self.assertEqual(one.call(small(1)), "unreachable")
        self.assertEqual(one.call(small(0)), "unreachable")

    def test_no_memory_is_exported(self) -> None:
        """By it a client, or a host, would write bytes that the shadow doesn't learn of."""
        before = labelled()
        more = module_of(
            before.data.replace(
                section(7, vector([string("f") + b"\0\0"])),
                section(7, vector([string("f") + b"\0\0", string("memory") + bytes([MEMORY, 0])])),
            ),
            "program.wasm",
        )
        whole = module_of(with_labels(more, entries_of(before)), "program.wasm")
        self.assertIn((MEMORY, "memory"), whole.exports)
        made = module_of(split(whole, []).made, "program.wasm")
        self.assertEqual(list(made.exports), [(FUNCTION, "f")])


class Refused(unittest.TestCase):
    """What isn't split is refused, with a reason."""

    def refused(self, data: bytes, why: str) -> None:
        bare = module_of(data, "program.wasm")
        with self.assertRaisesRegex(Bad, why):
            split(module_of(with_labels(bare, [("secret-memory", (0,))]), "program.wasm"), [])

    def test_modules(self) -> None:
        plain = labelled().data
        with self.assertRaisesRegex(Bad, "isn't declared secret"):
            split(module([CONSTANT[1]], labels=()), [])
        with self.assertRaisesRegex(Bad, "the shadow's name"):
            split(module_of(plain, "shadow.wasm"), [])
        with self.assertRaisesRegex(Bad, "was split already"):
            split(module_of(split_again(), "program.wasm"), [])
        grown = plain.replace(section(5, vector([b"\1\1\1"])), section(5, vector([b"\0\1"])))
        self.refused(grown, "may grow to 1024 pages")
        imported = plain.replace(
            section(3, vector([b"\0"])),
            section(2, vector([string("other") + string("g") + b"\0\0"])) + section(3, vector([b"\0"])),
        )
        self.refused(imported, "other.g is imported, a function")

    def test_code_that_is_not_valid(self) -> None:
        with self.assertRaisesRegex(Bad, "its code isn't valid"):
            split(module([[i("drop"), i("const", 1)]]), [])

    def test_several_results(self) -> None:
        plain = labelled().data
        kind = section(1, vector([b"\x60" + sized(bytes([I32])) + sized(bytes([I32]))]))
        two = section(1, vector([b"\x60" + sized(bytes([I32])) + sized(bytes([I32, I32]))]))
        self.assertIn(kind, plain)
        self.refused(plain.replace(kind, two), "several results")


def split_again() -> bytes:
    """A module with the mark of a split one."""
    before = labelled()
    return with_labels(module_of(before.data + section_of([(1, 1)]), "program.wasm"), entries_of(before))


if __name__ == "__main__":
    unittest.main()
