"""AArch64 under qemu: each protect has its barrier, the routines give their published vectors, and random
images end as `blade run` ends them. Licence: public domain (CC0)."""
import os
import re
import shutil
import subprocess
import tempfile
import unittest
from typing import List, Tuple

from outcomes import blade, image_of, read_start, translate
from built import CASES, routine
from ending import ending
from random_images import random_image, random_start
from test_object import looked_up
from blade_companions.native.building import build
from blade_companions.native.checking import expected_protects
from blade_companions.native.memchecking import export_named

GCC, EMULATOR, OBJDUMP = "aarch64-linux-gnu-gcc", "qemu-aarch64", "aarch64-linux-gnu-objdump"
IMAGES = int(os.environ.get("SEEDS", "16"))
BARRIER = re.compile(r"<blade\.protect\.(\d+)\.x\d+\.\d+>:\n.*\tdsb\s+sy\n.*\tisb\n")
STACK = "-DBLADE_STACK=65536"


def compiled(data: bytes, folder: str, compiler: str, level: str) -> str:
    """The object of an image, for AArch64."""
    translation = translate(image_of(data), "tried")
    for ending_, text in ((".c", translation.source), (".h", translation.header)):
        with open(f"{folder}/tried{ending_}", "w", encoding="ascii") as file:
            file.write(text)
    more = ["-c", STACK] + ["--target=aarch64-linux-gnu"] * (compiler == "clang")
    build(compiler, f"{folder}/tried.c", f"{folder}/tried.o", level, more)
    return f"{folder}/tried.o"


def barriers(path: str) -> List[int]:
    """The protects that have a `dsb sy` and an `isb` where their barrier is named."""
    words = [OBJDUMP, "-d", "--no-show-raw-insn", path]
    return [int(one) for one in BARRIER.findall(subprocess.check_output(words, text=True))]


def ends(data: bytes, export: str, start: str, compiler: str, level: str) -> Tuple[str, str, List[int]]:
    """What the program under the emulator and blade say of a run, and the protects with a barrier."""
    image = image_of(data)
    with tempfile.TemporaryDirectory() as folder:
        made = compiled(data, folder, compiler, level)
        with open(f"{folder}/main.c", "w", encoding="ascii") as file:
            file.write(ending(image, export_named(image, export), read_start(start)))
        subprocess.run([GCC, "-static", "-w", f"{folder}/main.c", made, "-o", f"{folder}/main"], check=True)
        for name, contents in (("image", data), ("start", start.encode())):
            with open(f"{folder}/{name}", "wb") as file:
                file.write(contents)
        told = blade("run", f"{folder}/image", export, f"{folder}/start", "--steps", "4000000000",
                     expected=(0, 16))
        printed = subprocess.check_output([EMULATOR, f"{folder}/main"], text=True)
        return printed, told, barriers(made)


@unittest.skipUnless(shutil.which(GCC) and shutil.which(EMULATOR), f"no {GCC} or no {EMULATOR} here")
class AArch64(unittest.TestCase):
    """Both compilers."""

    def test_routines(self) -> None:
        """The vectors come from the routines' specifications."""
        for name in CASES:
            one = routine(name, "ledger")
            expected = expected_protects(image_of(one.data))
            for compiler in (GCC, "clang"):
                with self.subTest(name=name, compiler=compiler):
                    printed, told, found = ends(one.data, one.export, one.start, compiler, "-O2")
                    self.assertEqual(printed, told)
                    self.assertEqual(one.result(printed), one.expected)
                    self.assertEqual(set(found), expected)

    def test_images_of_all_commands(self) -> None:
        for seed in range(IMAGES):
            data, functions = random_image(seed)
            number = len(functions) - 1
            start = random_start(seed, functions[number])
            with self.subTest(seed=seed):
                how = (GCC, "clang")[seed % 2], f"-O{seed // 2 % 4}"
                printed, told, _ = ends(data, f"t/f{number}", start, *how)
                self.assertEqual(printed, told)

    def test_control(self) -> None:
        """A barrier without its second half isn't counted."""
        with tempfile.TemporaryDirectory() as folder:
            self.assertEqual(set(barriers(compiled(looked_up(), folder, GCC, "-O2"))), {9})
            with open(f"{folder}/tried.c", encoding="ascii") as file:
                source = file.read()
            with open(f"{folder}/tried.c", "w", encoding="ascii") as file:
                file.write(source.replace("dsb sy\\n\\tisb", "dsb sy\\n\\tnop"))
            build(GCC, f"{folder}/tried.c", f"{folder}/tried.o", "-O2", ["-c", STACK])
            self.assertEqual(barriers(f"{folder}/tried.o"), [])


if __name__ == "__main__":
    unittest.main()
