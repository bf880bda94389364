"""Tests of blade-label: sections written by hand, words and modules that are refused. Licence: public domain
(CC0)."""
from __future__ import annotations

import hashlib
import unittest

from blade_companions.formats.labels import entries_of, is_changed, labelled, section_of, without_labels
from blade_companions.formats.reading import Bad
from blade_companions.formats.module import MAGIC, Module, module_of

# A module with one imported function (f 0: no parameter), a function `add` of two i32 to one (1), a memory
# (0) and globals 0 and 1; the name section calls global 1 `key`.
PARTS = [
    "01 0A 02 60 00 00 60 02 7F 7F 01 7F", "02 07 01 01 61 01 62 00 00", "03 02 01 01", "05 03 01 00 01",
    "06 0B 02 7F 01 41 00 0B 7F 01 41 00 0B", "07 07 01 03 61 64 64 00 01", "0A 06 01 04 00 20 00 0B",
    "00 0D 04 6E 61 6D 65 07 06 01 01 03 6B 65 79",
]
MODULE = MAGIC + b"".join(map(bytes.fromhex, PARTS))
HEAD = "0C 62 6C 61 64 65 2E 6C 61 62 65 6C 73"
# Words, and the section that they ask for, written by hand.
CASES = [
    ("secret-memory 0", f"00 11 {HEAD} 01 01 02 00"),
    ("secret-param 1 1", f"00 12 {HEAD} 01 01 00 01 01"),
    ("secret-param add 0", f"00 12 {HEAD} 01 01 00 01 00"),
    ("secret-global key", f"00 11 {HEAD} 01 01 01 01"),
    ("secret-param add 0 public-result add 0", f"00 15 {HEAD} 02 02 00 01 00 03 01 00"),
    ("public-global 0 secret-memory 0", f"00 13 {HEAD} 02 02 04 00 02 00"),
    ("", f"00 0F {HEAD} 01 00"),
]
# The section that says for which code labels were made: the sections 1, 2, 3, 6 and 10 in order, each with
# its number and size in front.
SUMMED = b"".join(bytes.fromhex(PARTS[at]) for at in (0, 1, 2, 4, 6))
SUM = bytes.fromhex("00 2B 09 62 6C 61 64 65 2E 73 75 6D 01") + hashlib.sha256(SUMMED).digest()
# Bytes of the imported name, of a global's first value and of the code.
CHANGED = [MODULE.index(bytes.fromhex("61 01 62")), MODULE.index(bytes.fromhex("41 00 0B")) + 1,
           MODULE.index(bytes.fromhex("20 00 0B")) + 1]
# Words that are refused.
REFUSED = [
    "secret-param add", "secret-memory -1", "secret-memory 1", "secret-local 0", "0", "secret-memory 0 0",
    "secret-param add 2", "secret-param 2 0", "secret-param 0 0", "secret-param sub 0", "public-result add 1",
    "secret-global 2", "secret-global lock", "secret-memory 0 secret-memory 0",
    "secret-global 1 public-global key"]
UNFIT = [b"", b"\0asm\2\0\0\0", MAGIC + b"\0\5\1", MAGIC + b"\1\x80", MODULE + section_of([])]


def module(data: bytes = MODULE) -> Module:
    return module_of(data, "m")


class Labels(unittest.TestCase):
    def test_sections_written_by_hand(self) -> None:
        for words, spelled in CASES:
            with self.subTest(words):
                given = labelled(module(), words.split())
                self.assertEqual(given, MODULE + bytes.fromhex(spelled) + (SUM if words else b""))
                self.assertFalse(is_changed(module(given)))
                self.assertEqual(without_labels(module(given)), MODULE)

    def test_words_that_are_refused(self) -> None:
        for words in REFUSED:
            with self.subTest(words), self.assertRaises(Bad):
                labelled(module(), words.split())

    def test_a_refusal_keeps_the_name(self) -> None:
        kinds = ("the kinds are secret-param F I, secret-global G, secret-memory M, public-result F I and "
                 "public-global G")
        for words, told in (("secret-param add 7", "secret-param add 7: add has 2 parameters"),
                            ("secret-param 1 2", "secret-param add 2: add has 2 parameters (counted from 0)"),
                            ("public-result add 1", "public-result add 1: add has 1 result (counted from 0)"),
                            ("secret-param 9 0", "secret-param 9 0: the module has 2 functions"),
                            ("secret-memory 4", "secret-memory 4: the module has 1 memory"),
                            ("secret-global key secret-global 1",
                             "secret-global key: named before, by secret-global key"),
                            ("secret-local 0", f"secret-local is no kind of label: {kinds}"),
                            ("secret-param add", f"too few words behind secret-param: {kinds}")):
            with self.subTest(words), self.assertRaises(Bad) as raised:
                labelled(module(), words.split())
            self.assertEqual(str(raised.exception), told)

    def test_modules_that_are_refused(self) -> None:
        for data in UNFIT:
            with self.subTest(data), self.assertRaises(Bad):
                labelled(module(data), ["secret-memory", "0"])

    def test_a_section_is_replaced(self) -> None:
        again = labelled(module(MODULE + section_of([("secret-memory", (0,))])), ["secret-global", "0"], True)
        self.assertEqual(entries_of(module(again)), [("secret-global", (0,))])

    def test_another_name_of_that_length_is_none(self) -> None:
        other = MODULE + bytes.fromhex("00 0D 0C 62 6C 61 64 65 2E 73 74 69 63 6B 73")
        self.assertEqual(labelled(module(other), []), other + section_of([]))

    def test_a_module_that_was_changed_after_it_was_labelled(self) -> None:
        for place in CHANGED:
            with self.subTest(place):
                changed = bytearray(labelled(module(), ["secret-memory", "0"]))
                changed[place] ^= 1
                self.assertTrue(is_changed(module(bytes(changed))))

    def test_a_module_of_another_tool_has_no_sum(self) -> None:
        self.assertFalse(is_changed(module(MODULE + section_of([("secret-memory", (0,))]))))
