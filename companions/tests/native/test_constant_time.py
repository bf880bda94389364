"""No branch and no address of a binary depends on a secret: memcheck runs it with all secrets undefined (as
ctgrind does). Licence: public domain (CC0).

Controls must be reported: a look-up by a secret, and the routines without value barriers."""
import tempfile
import unittest
from concurrent.futures import ThreadPoolExecutor
from typing import List, Sequence, Tuple

from outcomes import TOP, Start, blade, image_of
from blade_companions.native.memchecking import TOLD, Result, export_named, memcheck
from built import CASES, routine

BUILDS = [(compiler, f"-O{level}") for compiler in ("clang", "gcc") for level in (1, 2, 3)]


def memchecked(
    data: bytes,
    export: str,
    start: Start,
    compiler: str,
    level: str,
    more: Sequence[str] = (),
    result: Result = Result(),
) -> Tuple[int, str]:
    """Memcheck's status, and the bytes that the program printed."""
    image = image_of(data)
    done = memcheck(image, export_named(image, export), start, compiler, level, more, result)
    return done.returncode, "".join(done.stdout.splitlines()[1:])


def of_routine(name: str, way: str, compiler: str, level: str, more: Sequence[str] = ()) -> Tuple[int, str]:
    """A routine's published call."""
    one, case = routine(name, way), CASES[name]
    number = 1 if way == "ledger" else 0
    return memchecked(
        one.data,
        one.export,
        one.begin,
        compiler,
        level,
        more,
        Result(number, 131072 + case.result_at, len(case.result)),
    )


class ConstantTime(unittest.TestCase):
    """Both compilers, at three levels."""

    def all(self, names: Sequence[str], more: Sequence[str] = ()) -> List[Tuple[Tuple, Tuple]]:
        works = [(name, compiler, level) for name in names for compiler, level in BUILDS]
        for name in names:
            routine(name, "ledger")
        with ThreadPoolExecutor(2) as pool:
            ends = pool.map(lambda work: of_routine(work[0], "ledger", *work[1:], more), works)
        return list(zip(works, ends))

    def test_routines(self) -> None:
        for work, (status, printed) in self.all(CASES):
            with self.subTest(work=work):
                self.assertEqual((status, printed), (0, CASES[work[0]].result.hex()))

    def test_control_without_value_barriers(self) -> None:
        """Some compiler makes a branch of a secret somewhere, and memcheck reports it."""
        told = [
            work
            for work, (status, _) in self.all(["poly1305", "x25519"], ["-DBLADE_NAIVE"])
            if status == TOLD
        ]
        print(f" without value barriers: {told}", end=" ", flush=True)
        self.assertTrue(told)

    def test_control_lookup(self) -> None:
        """A look-up by a secret index has a secret address in every build."""
        with tempfile.TemporaryDirectory() as folder:
            blade("harden", f"{folder}/lookup.img", f"{folder}/lookup.json", f"{TOP}/examples/lookup.wasm")
            with open(f"{folder}/lookup.img", "rb") as file:
                data = file.read()
        for compiler, level in BUILDS:
            with self.subTest(compiler=compiler, level=level):
                self.assertEqual(memchecked(data, "lookup/lookup", Start([3], []), compiler, level)[0], TOLD)

    def test_masked_lookup(self) -> None:
        """The look-up with a mask has none."""
        with tempfile.TemporaryDirectory() as folder:
            blade(
                "harden",
                f"{folder}/masked_ssa.img",
                f"{folder}/masked.json",
                f"{TOP}/examples/masked_ssa.wasm",
            )
            with open(f"{folder}/masked_ssa.img", "rb") as file:
                data = file.read()
        for compiler, level in BUILDS:
            with self.subTest(compiler=compiler, level=level):
                told = memchecked(data, "masked_ssa/masked", Start([3], []), compiler, level)
                self.assertEqual(told[0], 0)


if __name__ == "__main__":
    unittest.main()
