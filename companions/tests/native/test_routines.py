"""Every worked routine gives its published vector, and ends natively as `blade run` ends it. Its object
passes the check. Licence: public domain (CC0)."""
import tempfile
import unittest

from outcomes import Native, blade
from blade_companions.native.building import build
from blade_companions.native.checking import check_object
from built import CASES, WAYS, routine


class Routines(unittest.TestCase):
    """All routines in all ways, by both compilers."""

    def test_vectors(self) -> None:
        for name in CASES:
            for way in WAYS:
                one = routine(name, way)
                with tempfile.TemporaryDirectory() as folder:
                    with open(f"{folder}/start", "w", encoding="ascii") as file:
                        file.write(one.start)
                    told = blade("run", one.image, one.export, f"{folder}/start", "--steps", "4000000000")
                    for compiler in ("clang", "gcc"):
                        with self.subTest(name=name, way=way, compiler=compiler):
                            outcome = Native(one.data, folder, f"by_{compiler}", compiler).outcome(
                                one.export.encode(), one.begin
                            )
                            self.assertEqual(outcome, told)
                            self.assertEqual(one.result(outcome), one.expected)

    def test_objects(self) -> None:
        for source in sorted({case.source for case in CASES.values()}):
            one = routine(next(name for name, case in CASES.items() if case.source == source), "ledger")
            for compiler in ("clang", "gcc"):
                with self.subTest(source=source, compiler=compiler), tempfile.TemporaryDirectory() as folder:
                    native = Native(one.data, folder, "tried", compiler)
                    build(compiler, f"{folder}/tried.c", f"{folder}/tried.o")
                    self.assertEqual(check_object(native.image, f"{folder}/tried.o", "tried").findings, [])


if __name__ == "__main__":
    unittest.main()
