"""Names in C are identifiers, and no two are one, whatever an image calls its exports. Licence: public domain
(CC0)."""
import unittest
from typing import List

from outcomes import export_names
from blade_companions.native.names import identifier, memory_names, prefix_of


class Names(unittest.TestCase):
    def words(self, *names: bytes) -> List[str]:
        return [word for word, _, _ in export_names([(name, 0) for name in names])]

    def test_the_module_goes_where_all_have_the_same(self) -> None:
        self.assertEqual(self.words(b"lib/one", b"lib/two"), ["one", "two"])
        self.assertEqual(self.words(b"lib/one", b"more/one"), ["lib_one", "more_one"])

    def test_any_bytes(self) -> None:
        self.assertEqual(
            self.words(b"m/", b"m/\xff\0", b"m/0x", b"m/a b", b"m/a-b", b"m/*/"),
            ["unnamed", "unnamed_2", "n0x", "a_b", "a_b_2", "unnamed_3"],
        )

    def test_what_the_tool_defines(self) -> None:
        self.assertEqual(self.words(b"m/new", b"m/free"), ["new_2", "free_2"])

    def test_memories(self) -> None:
        self.assertEqual(memory_names(["ledger", "x-y", "ledger", "1"]), ["LEDGER", "X_Y", "LEDGER_2", "N1"])

    def test_prefixes(self) -> None:
        self.assertEqual(
            [prefix_of(path) for path in ("a/b.c", "x-y.c", "int.c", "1.c")], ["b", "x_y", "int_image", "n1"]
        )

    def test_what_is_printed_ends_no_comment(self) -> None:
        self.assertNotIn("*/", export_names([(b"m/*/\n", 0)])[0][2])

    def test_identifiers(self) -> None:
        self.assertRegex(identifier("\u202e"), "^[A-Za-z_][A-Za-z0-9_]*$")


if __name__ == "__main__":
    unittest.main()
