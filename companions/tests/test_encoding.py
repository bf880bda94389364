"""Tests of LEB128, by numbers that were spelled by hand, and of the reader on what is spelled. Licence:
public domain (CC0)."""
from __future__ import annotations

import unittest

from blade_companions.formats.encoding import leb, signed_leb
from blade_companions.formats.reading import Bad, Reader

# 624,485 and -123,456 are worked in the DWARF standard's text on LEB128.
UNSIGNED = [(0, "00"), (1, "01"), (127, "7F"), (128, "80 01"), (624_485, "E5 8E 26"),
            ((1 << 32) - 1, "FF FF FF FF 0F")]
SIGNED = [(0, "00"), (63, "3F"), (64, "C0 00"), (-1, "7F"), (-64, "40"), (-65, "BF 7F"),
          (-123_456, "C0 BB 78"), (-(1 << 31), "80 80 80 80 78")]


class Numbers(unittest.TestCase):
    def test_unsigned(self) -> None:
        for number, spelled in UNSIGNED:
            with self.subTest(number):
                self.assertEqual(leb(number), bytes.fromhex(spelled))
                self.assertEqual(Reader(bytes.fromhex(spelled)).number(), number)

    def test_signed(self) -> None:
        for number, spelled in SIGNED:
            with self.subTest(number):
                self.assertEqual(signed_leb(number), bytes.fromhex(spelled))
                self.assertEqual(Reader(bytes.fromhex(spelled)).signed(), number)

    def test_a_longer_spelling(self) -> None:
        self.assertEqual(leb(3, 2), bytes.fromhex("83 80 00"))

    def test_numbers_that_end_too_early_or_too_late(self) -> None:
        for data in (b"", b"\x80", b"\xff" * 11):
            with self.subTest(data), self.assertRaises(Bad):
                Reader(data).number()
