"""Random programs end natively as `blade run` ends them: results, traps, pages and every changed row. SEEDS
says how many of each kind, FIRST the first seed. Licence: public domain (CC0)."""
import os
import random
import sys
import tempfile
import unittest
from concurrent.futures import ThreadPoolExecutor
from typing import Callable, List, NamedTuple, Sequence, Tuple

from outcomes import TOP, Native, blade, image_of, read_start
from random_images import random_image, random_start, value

sys.path += [f"{TOP}/oracles", f"{TOP}/tools/checks"]
import made  # noqa: E402
import made_modules  # noqa: E402

SEEDS, FIRST = int(os.environ.get("SEEDS", "200")), int(os.environ.get("FIRST", "0"))
STEPS, ENDED, SPENT = "1000000", 16, 17
LEVELS = ("-O0", "-O1", "-O2", "-O3")


class Run(NamedTuple):
    """What the native program and what blade say of one run."""

    native: str
    blade: str


def runs_of(data: bytes, calls: Sequence[Tuple[str, str]], compiler: str, level: str) -> List[Run]:
    """The runs of an image's functions from start files. One that goes on for too long is left out."""
    found = []
    with tempfile.TemporaryDirectory() as folder:
        native = Native(data, folder, "tried", compiler, level)
        for export, start in calls:
            for name, contents in (("image", data), ("start", start.encode())):
                with open(f"{folder}/{name}", "wb") as file:
                    file.write(contents)
            words = ("run", f"{folder}/image", export, f"{folder}/start", "--steps", STEPS)
            expected = blade(*words, expected=(0, ENDED, SPENT))
            if not expected.startswith("spent"):
                found.append(Run(native.outcome(export.encode(), read_start(start)), expected))
    return found


def hardened(modules: Sequence[bytes]) -> bytes:
    """The image of modules, of which the last one may import from those before."""
    with tempfile.TemporaryDirectory() as folder:
        paths = [f"{folder}/{name}.wasm" for name, _ in zip(("first", "second"), modules)]
        for path, data in zip(paths, modules):
            with open(path, "wb") as file:
                file.write(data)
        blade("harden", f"{folder}/made.img", f"{folder}/made.json", *paths)
        with open(f"{folder}/made.img", "rb") as file:
            return file.read()


def of_long_module(seed: int) -> List[Run]:
    """The module that `blade gen` hardens, which the oracle of its rule writes; from a start with numbers and
    zeros, so that its loops end."""
    contents = bytes((seed * at * 4 + at) % 256 * (at % 4 < 2) for at in range(4096))
    start = f"arg {4 * (seed * 37 % 900)}\nmemory 0 0 {contents.hex()}\n"
    data = hardened([made.made(seed, 1 + seed * 7 % 60)])
    return runs_of(data, [("first/f", start)], ("clang", "gcc")[seed % 2], "-O2")


def of_module(seed: int) -> List[Run]:
    """Modules with loops, tables, calls of all kinds, growth, labels and imports: each function that they
    export, once."""
    chance = random.Random(seed)
    first = made_modules.Maker(chance)
    modules = [first.bytes()] + [made_modules.Maker(chance, first).bytes()] * (seed % 3 == 2)
    data = hardened(modules)
    image, calls = image_of(data), []
    for name, number in image.names:
        lines = [f"arg {value(chance, kind)}" for kind in image.functions[number].types]
        lines += [f"memory 0 16 {chance.getrandbits(512):0128x}"] * bool(image.memories)
        calls.append((name.decode(), "".join(f"{line}\n" for line in lines)))
    return runs_of(data, calls, ("clang", "gcc")[seed % 2], LEVELS[seed // 2 % 4])


def of_image(seed: int) -> List[Run]:
    """A random image of all commands."""
    data, functions = random_image(seed)
    number = len(functions) - 1
    call = (f"t/f{number}", random_start(seed, functions[number]))
    return runs_of(data, [call], ("clang", "gcc")[seed % 2], LEVELS[seed // 2 % 4])


class Random(unittest.TestCase):
    """Both compilers take turns, and so do the levels of optimising."""

    def all_same(self, what: str, runs: Callable[[int], List[Run]]) -> None:
        with ThreadPoolExecutor(2) as pool:
            found = list(pool.map(runs, range(FIRST, FIRST + SEEDS)))
        ends = [one for some in found for one in some]
        wrong = [seed for seed, some in enumerate(found, FIRST)
                 if any(one.native != one.blade for one in some)]
        self.assertEqual(wrong, [])
        self.assertGreaterEqual(len(ends), SEEDS * 0.9)
        first = {one.blade.splitlines()[0] for one in ends}
        print(f" {SEEDS} {what}: {len(ends)} runs, {len(first)} different outcomes", file=sys.stderr)

    def test_long_modules(self) -> None:
        self.all_same("modules of gen", of_long_module)

    def test_modules(self) -> None:
        self.all_same("modules of all instructions", of_module)

    def test_images_of_all_commands(self) -> None:
        self.all_same("images", of_image)


if __name__ == "__main__":
    unittest.main()
