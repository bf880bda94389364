"""Tests of positions: modules counted by hand. Licence: public domain (CC0)."""
from __future__ import annotations

import unittest
from typing import Tuple

from blade_companions.formats.image import SITES, TRAPS
from blade_companions.formats.lowering import lower
from blade_companions.formats.module import MAGIC, module_of

# Modules behind their first 8 bytes, with their functions, commands and sites.
CASES = [
    # local.get 0, i32.const 1, i32.add: behind the seven traps Jump, Set, Set, Set, Out, Ret.
    ("01060160017F017F 03020100 0707 0103696E630000 0A09010700200041016A0B", (1, 13, 4)),
    # unreachable in a block with a result, then br_if and an if without else: Jump, Jump, Trap, Set, Test,
    # Ret, Set, Test, Jump, Jump, Ret.
    ("01050160017F00 03020100 0A13 0111 00 0240 00 41000B 2000 0D00 2000 0440 0B 0B", (1, 18, 2)),
    # A table of two slots, one of which has the function: Jump, Set, then Set Test Set Test, Call, Jump, and
    # Ret.
    ("010401600000 03020100 040401700002 09070100 41000B 0100 0A090107 00 4101 110000 0B", (1, 16, 3)),
    # A loop with a parameter, which it drops: Jump, Set, Set, Jump, Jump, Jump, Ret.
    ("01080260000060017F00 03020100 0A0A0108 00 4107 0301 1A 0B 0B", (1, 14, 2)),
]


def counts_of(text: str) -> Tuple[int, int, int]:
    functions = lower([module_of(MAGIC + bytes.fromhex(text), "m")])
    kinds = [kind for function in functions for row in function.rows for kind in row.kinds]
    return len(functions), TRAPS + len(kinds), sum(kind in SITES for kind in kinds)


class Lowering(unittest.TestCase):
    def test_modules_counted_by_hand(self) -> None:
        for text, wanted in CASES:
            with self.subTest(text):
                self.assertEqual(counts_of(text), wanted)
