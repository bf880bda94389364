"""Tests of blade-witness without the program: what changes between two runs, start files, and which command a
directive is about. Licence: public domain (CC0)."""
from __future__ import annotations

import unittest

from blade_companions.formats.image import Command, Function, Image, Memory, Operand
from blade_companions.formats.reading import Bad
from blade_companions.formats.operators import OUTSIDE
from blade_companions.formats.running import Start
from blade_companions.verdict.evidence import end_at, kind_of
from blade_companions.verdict.flow import find
from blade_companions.witnesses.directives import last_of
from blade_companions.witnesses.meeting import Meeting
from blade_companions.witnesses.pairs import Range, Secret, joined, ranges_of, what_changes, without


def tiny() -> Image:
    """A function of a public and a secret parameter, which tests the public one and, where it isn't 0, the
    secret one; a secret memory."""
    p, q = Operand(True, 1), Operand(True, 2)
    commands = [Command("Trap")] * 7 + [Command("Test", (p,), (), (1,), targets=(8, 9)),
                                        Command("Test", (q,), (), (2,), targets=(9, 9)), Command("Ret")]
    function = Function([False, True], 0, 2, 3, 1, 7, [0x7F, 0x7E])
    return Image([], [], [Memory(1, 1, True, [(0, bytes(range(16)))])], [function], {0: "m/f"}, {"m/f": 0},
                 [], {}, commands)


def loading() -> Image:
    """A function that loads from its secret parameter and branches by what it loads."""
    at, out, value = (Operand(True, number) for number in range(3))
    commands = [Command("Trap")] * 7 + [
        Command("Set", (at,), (0,), (), 1, OUTSIDE), Command("Test", (out,), (), (1,), targets=(3, 9)),
        Command("Load", (at,), (), (0,), 2, 0x28, 0), Command("Test", (value,), (), (2,), targets=(11, 11)),
        Command("Ret")]
    function = Function([True], 0, 3, 5, 0, 7, [0x7F])
    return Image([], [], [Memory(1, 1, False, [])], [function], {0: "m/f"}, {"m/f": 0}, [], {}, commands)


class Kinds(unittest.TestCase):
    def test_a_bounds_test_is_of_an_address(self) -> None:
        image = loading()
        self.assertEqual([kind_of(image, at) for at in (8, 9, 10)],
                         ["address of a load", "address of a load", "branch"])
        self.assertEqual([end_at(image, at) for at in (8, 9, 10)], [9, 9, 10])
        # The test of the bounds is no end of its own, since the address is secret itself.
        self.assertEqual([(end.position, end.kind) for end in find(image).refused],
                         [(9, "address of a load")])
        self.assertEqual([(end.position, end.kind) for end in find(image).ends],
                         [(8, "address of a load"), (9, "address of a load"), (10, "branch")])


class Pairs(unittest.TestCase):
    def setUp(self) -> None:
        self.image = tiny()
        self.start = Start([5, 1 << 40], [(0, 4, b"\x10\x11"), (0, 5, b"\x22\x23"), (0, 40, b"\x33")])
        self.ranges = what_changes(self.image, 0, self.start, [], [Range(0, 6, 1)])

    def test_bytes_that_meet_are_joined(self) -> None:
        ranges = [Range(3, 7, 1), Range(3, 9, 1), Range(3, 8, 1), Range(3, 1, 1), Range(3, 1, 1)]
        self.assertEqual(joined(ranges), [Range(3, 1, 1), Range(3, 7, 3)])

    def test_what_stays_is_taken_out(self) -> None:
        """Against sets of bytes, for all ranges of a few bytes."""
        some = [Range(0, at, size) for at in range(4) for size in range(1, 5)]
        for one in some:
            for kept in ([first, other] for first in some for other in some):
                asked, staying = joined([one, Range(0, 6, 3)]), joined(kept)
                left = {at for it in without(asked, staying) for at in range(it.offset, it.offset + it.size)}
                wanted = {*range(one.offset, one.offset + one.size), 6, 7, 8} - {
                    at for it in kept for at in range(it.offset, it.offset + it.size)}
                self.assertEqual(left, wanted, (one, kept))

    def test_no_more_changes_than_a_search_can_change(self) -> None:
        self.image.memories[0] = Memory(9, 9, True, [])
        for size, many, told in ((262_137, 1, "262,145 secret bytes"), (1, 4_096, "4,097 ranges")):
            start = Start([5, 1], [(0, 2 * at, bytes(size)) for at in range(many)])
            with self.subTest(told), self.assertRaisesRegex(Bad, f"limit: {told}"):
                what_changes(self.image, 0, start, [], [])

    def test_what_changes(self) -> None:
        """The secret parameter, of 8 bytes; what the lines give, those that meet as one; without what is
        kept."""
        self.assertEqual(self.ranges, [Range(None, 1, 8), Range(0, 4, 2), Range(0, 40, 1)])
        self.assertEqual(what_changes(self.image, 0, self.start, [Range(0, 0, 2)], []),
                         [Range(None, 1, 8), Range(0, 0, 2)])

    def test_start_files_of_secrets(self) -> None:
        secret = Secret(self.image, self.start, self.ranges)
        self.assertEqual(secret.first, (1 << 40).to_bytes(8, "little") + b"\x10\x22\x33")
        self.assertEqual(secret.text(bytes(8) + b"\xaa\xbb\xcc"),
                         "arg 5\narg 0\nmemory 0 5 2223\nmemory 0 4 aabb\nmemory 0 40 cc\n")
        self.assertEqual([secret.name(place) for place in (7, 8, 10)],
                         ["parameter 1", "memory 0, byte 4", "memory 0, byte 40"])

    def test_a_bit_of_a_mark_is_of_several_bytes_if_there_are_many(self) -> None:
        self.image.memories[0] = Memory(1, 1, True, [])
        secret = Secret(self.image, Start([5, 1], [(0, 0, bytes(5_000))]), [Range(0, 0, 5_000)])
        met = Meeting(self.image, 0, secret)
        self.assertEqual((met.row, met.bytes[0][4_999]), (5, 1 << 999))
        self.assertEqual(list(met.places(1 << 999 | 1)), [0, 1, 2, 3, 4, *range(4_995, 5_000)])

    def test_words_that_are_no_ranges(self) -> None:
        for word in ("0:1", "0:1:0", "0:-1:2", "x:1:2"):
            with self.subTest(word), self.assertRaises(Bad):
                ranges_of([word])


class Directives(unittest.TestCase):
    def test_a_wrong_guess_takes_what_was_fetched_with_it(self) -> None:
        trace = ["fetch 1", "fetch 0", "exec 1", "exec 0", "fetch"]
        position, entries = last_of(tiny(), 0, trace, ["none", "none", "none", "rollback 0"])
        self.assertEqual((position, [entry.position for entry in entries], entries[0].guess), (9, [7], None))
