"""Tests of annotations: what of its instruction each site holds back, worked out by hand. Licence: public
domain (CC0)."""
from __future__ import annotations

import unittest
from typing import Tuple

from blade_companions.formats.image import SITES
from blade_companions.c.lines import Spot
from blade_companions.formats.lowering import LinkedFunction, Row
from blade_companions.formats.metadata import held_at

# An instruction, its commands, and of each the kind and the number of what it holds back; - where it is no
# site, and . for what stands at a function's entry.
CASES = [
    ("i32.add", "Set", "0"), ("local.get 0", "Set", "0"), ("global.set 0", "Set", "0"),
    ("select", "Set", "0"), ("memory.size", "Set", "0"), ("i32.const 5", "Set", "0"),
    ("i64.load32_u 4", "Set Test Load", "3:0 - 0"), ("i64.store8 4", "Set Test Store", "3:0 - -"),
    ("i32.rem_s", "Set Test Set", "3:1 - 0"), ("i64.div_u", "Set Test Set", "3:1 - 0"),
    ("i32.div_s", "Set Test Set Set Set Test Set", "3:1 - 3:2 3:2 3:2 - 0"),
    ("memory.grow", "Set Set Test Set Set Jump Set", "3:4 3:4 - 0 3:5 - 0"),
    ("call none", "Call", "-"), ("call one", "Arg Call Set", "1:0 - 0"),
    ("call many", "Arg Arg Arg Call Set Set", "1:0 1:1 1:2 - 2:0 2:1"),
    ("call other", "Call Set Set Set", "- 2:0 2:1 2:2"),
    ("call_indirect", "Jump", "-"), ("call_indirect", "Set Test Set Test", "3:3 - 3:3 -"),
    ("call_indirect", "Set Test Arg Arg Call Set Jump", "3:3 - 1:0 1:1 - 0 -"),
    ("call_indirect", "Set Test Set Test Arg Call Set Set Jump Arg Call Set Set Jump",
     "3:3 - 3:3 - 1:0 - 2:0 2:1 - 1:0 - 2:0 2:1 -"),
    ("call_indirect", "Set Test Set Test Call Jump Call Jump", "3:3 - 3:3 - - - - -"),
    ("br 0", "Set Set Jump", "1:0 1:1 -"), ("br_if 0", "Test Set Jump", "- 1:0 -"),
    ("br_if 1", "Test Out Out Ret", "- 1:0 1:1 -"), ("return", "Out Ret", "1:0 -"),
    ("br_table 0", "Set Jump", "1:0 -"), ("br_table 0 1", "Set Test Jump Jump", "3:3 - - -"),
    ("br_table 0 1 2", "Set Test Set Test Set Set Jump Out Out Ret Set Set Jump",
     "3:3 - 3:3 - 1:0 1:1 - 1:0 1:1 - 1:0 1:1 -"),
    ("end", "Set Jump", "1:0 -"), ("end", "Set Set Jump Set Set Jump", "1:0 1:1 - 1:0 1:1 -"),
    ("end", "Out Out Ret", "1:0 1:1 -"), ("end", "", ""),
    ("else", "Set Set Jump", "1:0 1:1 -"), ("loop", "Set Set Jump", "1:0 1:1 -"), ("if", "Test", "-"),
    ("block", "Jump", "-"), ("drop", "Jump", "-"), ("unreachable", "Trap", "-"),
    ("entering", "Set Set Jump", ". . -"),
]


def held(text: str, kinds: Tuple[str, ...], at: int) -> str:
    """What the command at a place of an instruction holds back, as CASES spell it."""
    if kinds[at] not in SITES:
        return "-"
    found = held_at(Spot(0, LinkedFunction(None, 0), Row(100, 0, text, kinds)), 100 + at)
    return "." if found is None else f"{found.what}:{found.number}" if found.what else str(found.what)


class Sites(unittest.TestCase):
    def test_sites_of_each_shape_of_instructions(self) -> None:
        for text, commands, wanted in CASES:
            kinds = tuple(commands.split())
            with self.subTest(text, commands=commands):
                self.assertEqual([held(text, kinds, at) for at in range(len(kinds))], wanted.split())
