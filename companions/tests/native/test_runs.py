"""Traps, growth, depth, several results, and what NAME.h offers, each against `blade run` where it can say
it. Licence: public domain (CC0)."""
import ctypes
import os
import subprocess
import tempfile
import unittest
from typing import Any, List, Tuple

from outcomes import Native, blade, image_of, read_start, translate
from images import (
    ARG,
    CALL,
    I32,
    I64,
    LOAD,
    MOVE,
    OUT,
    RET,
    SET,
    STORE,
    TEST,
    TRAP,
    Function,
    K,
    bounded,
    image,
)
from blade_companions.native.emission import counts_depth
from blade_companions.native.reading import calls
from blade_companions.native.stack import SYSTEM, frames_in, most_bytes, most_of_functions
from blade_companions.formats.reading import Bad

ADD, SUB, GT_U = 0x6A, 0x6B, 0x4B
TRAPS = (
    "unreachable",
    "integer divide by zero",
    "integer overflow",
    "out of bounds memory access",
    "undefined element",
    "uninitialized element",
    "indirect call type mismatch",
)


def growth(size: int, reserve: int, entry: int) -> Function:
    """memory.grow as it is lowered: of parameter 1 into result 2, the scratch variable is 3."""
    return Function(
        [I32],
        [I32],
        3,
        [
            (SET, 0, SUB, size + 3, K(reserve), size),
            (SET, 0, GT_U, size + 3, size + 1, size + 3),
            (TEST, size + 3, entry + 6, entry + 3),
            (SET, 0, MOVE, size + 3, size),
            (SET, 0, ADD, size, size, size + 1),
            (TEST, K(1), entry + 7, entry + 7),
            (SET, 0, MOVE, size + 3, K(0xFFFFFFFF)),
            (OUT, 0, 0, size + 3),
            (RET,),
        ],
    )


class Runs(unittest.TestCase):
    """One image after another."""

    def setUp(self) -> None:
        self.kept = tempfile.TemporaryDirectory()
        self.folder = self.kept.name

    def tearDown(self) -> None:
        self.kept.cleanup()

    def native(self, data: bytes) -> Native:
        self.data = data
        return Native(data, self.folder, f"n{len(os.listdir(self.folder))}")

    def same(self, native: Native, export: str, start: str) -> str:
        """The outcome, which is blade's."""
        for name, contents in (("image", self.data), ("start", start.encode())):
            with open(f"{self.folder}/{name}", "wb") as file:
                file.write(contents)
        told = blade("run", f"{self.folder}/image", export, f"{self.folder}/start", expected=(0, 16))
        self.assertEqual(native.outcome(export.encode(), read_start(start)), told)
        return told

    def test_each_trap(self) -> None:
        native = self.native(image([Function([], [], 0, [(TRAP, kind)]) for kind in range(8)]))
        for kind, text in enumerate((*TRAPS, "call stack exhausted")):
            self.assertEqual(self.same(native, f"t/f{kind}", ""), f"trapped {text}\n")

    def test_a_trap_keeps_what_was_written(self) -> None:
        commands = bounded(7, 2, 0, (STORE, 0x36, 0, 0, 1, K(0x01020304)), 4) + [(TRAP, 0)]
        native = self.native(image([Function([I32], [], 2, commands)], memories=[(1, 1)]))
        self.assertEqual(
            self.same(native, "t/f0", "arg 32\n"),
            "trapped unreachable\nmemory 0 pages 1\nrow 0 32 04030201" + "0" * 24 + "\n",
        )

    def test_bounds(self) -> None:
        commands = bounded(7, 3, 0, (LOAD, 0, 0x28, 0, 4, 4, 1), 4) + [(OUT, 0, 0, 4), (RET,)]
        native = self.native(image([Function([I32], [I32], 4, commands)], memories=[(1, 1)]))
        for address in (0, 65528, 65529, 65536, 0x7FFFFFFF, 0x80000000, 0xFFFFFFF8, 0xFFFFFFFF):
            told = self.same(native, "t/f0", f"arg {address}\n")
            self.assertEqual(told.startswith("trapped out of bounds"), address > 65528)

    def test_growth(self) -> None:
        reads = bounded(16, 6, 0, (LOAD, 0, 0x2D, 0, 7, 0, 4), 1) + [(OUT, 0, 0, 7), (RET,)]
        native = self.native(image([growth(0, 4, 7), Function([I32], [I32], 4, reads)], memories=[(1, 4)]))
        for pages in (0, 1, 3, 4, 0xFFFFFFFF):
            self.same(native, "t/f0", f"arg {pages}\n")
        instance = native.function("new")()
        self.assertEqual(native.call(instance, b"t/f1", [65536])[0], 4)
        self.assertEqual(native.call(instance, b"t/f0", [3]), (0, ["i32 1"]))
        self.assertEqual(native.call(instance, b"t/f1", [65536]), (0, ["i32 0"]))
        self.assertEqual(native.call(instance, b"t/f1", [4 * 65536])[0], 4)
        native.function("reset")(ctypes.c_void_p(instance))
        self.assertEqual(native.call(instance, b"t/f1", [65536])[0], 4)

    def test_a_memory_without_pages(self) -> None:
        """Each access to it traps, also that of no address at all, until it has grown."""
        reads = bounded(16, 6, 0, (LOAD, 0, 0x2D, 0, 7, 0, 4), 1) + [(OUT, 0, 0, 7), (RET,)]
        native = self.native(image([growth(0, 1, 7), Function([I32], [I32], 4, reads)], memories=[(0, 1)]))
        self.assertTrue(self.same(native, "t/f1", "arg 0\n").startswith("trapped out of bounds"))
        self.assertTrue(self.same(native, "t/f0", "arg 1\n").startswith("returned i32 0\nmemory 0 pages 1"))
        never = self.native(image([Function([I32], [], 1, [(RET,)])], memories=[(0, 0)]))
        self.assertEqual(self.same(never, "t/f0", "arg 0\n"), "returned\nmemory 0 pages 0\n")
        instance = never.function("new")()
        self.assertEqual([never.write(instance, 0, 0, contents) for contents in (b"", b"x")], [1, 0])
        never.function("free")(ctypes.c_void_p(instance))

    def test_a_memory_of_256_pages(self) -> None:
        """The last bytes of the largest memory are there, and nothing behind them."""
        last = 256 * 65536 - 4
        stores = bounded(7, 2, 0, (STORE, 0x36, 0, 0, 1, K(0x01020304)), 4) + [(RET,)]
        native = self.native(image([Function([I32], [], 2, stores)], memories=[(256, 256)]))
        told = self.same(native, "t/f0", f"arg {last}\n")
        self.assertEqual(told, f"returned\nmemory 0 pages 256\nrow 0 {last - 12} {'0' * 24}04030201\n")
        for address in (last + 1, last + 4, 0xFFFFFFFF):
            self.assertTrue(self.same(native, "t/f0", f"arg {address}\n").startswith("trapped out of bounds"))

    def test_depth(self) -> None:
        """A function that calls itself as often as its argument says: at most 1,024 calls are open."""
        commands = [(TEST, 0, 8, 12), (SET, 0, SUB, 1, 0, K(1)), (ARG, 0, 0, 0, 1), (CALL, 0), (RET,), (RET,)]
        native = self.native(image([Function([I32], [], 2, commands)]))
        self.assertTrue(counts_depth(calls(native.image)))
        self.assertEqual(self.same(native, "t/f0", "arg 1023\n"), "returned\n")
        self.assertEqual(self.same(native, "t/f0", "arg 1024\n"), "trapped call stack exhausted\n")

    def chain(self, count: int) -> bytes:
        """Functions of which each calls the one before it."""
        return image(
            [Function([], [], 0, [(RET,)])]
            + [Function([], [], 0, [(CALL, at), (RET,)]) for at in range(count - 1)]
        )

    def test_depth_without_a_round(self) -> None:
        self.assertFalse(counts_depth(calls(image_of(self.chain(1024)))))
        native = self.native(self.chain(1025))
        self.assertTrue(counts_depth(calls(native.image)))
        self.assertEqual(self.same(native, "t/f1023", ""), "returned\n")
        self.assertEqual(self.same(native, "t/f1024", ""), "trapped call stack exhausted\n")

    def test_several_results(self) -> None:
        callee = Function(
            [I32, I64], [I64, I32, I32], 5, [(OUT, 0, 0, 1), (OUT, 0, 1, 0), (OUT, 0, 2, K(9)), (RET,)]
        )
        caller = Function(
            [],
            [I32, I64],
            2,
            [
                (ARG, 0, 0, 0, K(5)),
                (ARG, 0, 0, 1, K(1 << 40)),
                (CALL, 0),
                (OUT, 0, 0, 3),
                (OUT, 0, 1, 2),
                (RET,),
            ],
        )
        native = self.native(image([callee, caller]))
        self.assertEqual(self.same(native, "t/f0", "arg 1\narg 2\n"), "returned i64 2 i32 1 i32 9\n")
        self.assertEqual(self.same(native, "t/f1", ""), "returned i32 5 i64 1099511627776\n")

    def test_globals(self) -> None:
        commands = [(SET, 0, ADD, 0, 0, K(1)), (OUT, 0, 0, 0), (RET,)]
        native = self.native(image([Function([], [I32], 1, commands)], globals_=[(I32, 41), (I64, 1 << 63)]))
        self.assertEqual(self.same(native, "t/f0", ""), "returned i32 42\n")
        instance, got = native.function("new")(), ctypes.c_uint64()
        pointer = ctypes.c_void_p(instance)
        native.call(instance, b"t/f0", [])
        self.assertEqual((native.function("global")(pointer, 0, ctypes.byref(got)), got.value), (1, 42))
        self.assertEqual((native.function("global")(pointer, 1, ctypes.byref(got)), got.value), (1, 1 << 63))
        self.assertEqual(native.function("global")(pointer, 2, ctypes.byref(got)), 0)
        self.assertEqual(native.function("set_global")(pointer, 0, ctypes.c_uint64(99)), 1)
        self.assertEqual(native.call(instance, b"t/f0", []), (0, ["i32 100"]))
        native.function("reset")(pointer)
        self.assertEqual(native.call(instance, b"t/f0", []), (0, ["i32 42"]))
        native.function("free")(pointer)
        native.function("free")(None)

    def test_accessors_keep_to_the_memory(self) -> None:
        native = self.native(image([Function([], [], 0, [(RET,)])], memories=[(1, 2)]))
        instance = native.function("new")()
        for number, offset, size, is_inside in (
            (0, 65536, 0, 1),
            (0, 65535, 1, 1),
            (0, 65536, 1, 0),
            (0, 0xFFFFFFFF, 1, 0),
            (1, 0, 0, 0),
        ):
            self.assertEqual(native.write(instance, number, offset, b"x" * size), is_inside)

    def test_a_memory_has_its_reservation(self) -> None:
        """Behind the pages that a memory may grow to nothing can be read, as far as any address and offset
        reach."""
        native = self.native(image([Function([], [], 0, [(RET,)])], memories=[(1, 3)]))
        before = set(self.maps())
        instance = native.function("new")()
        new = sorted(set(self.maps()) - before)
        pages = 3 * 65536
        self.assertTrue(
            any(
                rights == "rw-p" and end - begin == pages and (end, begin + (1 << 33) + 65536, "---p") in new
                for begin, end, rights in new
            ),
            new,
        )
        native.function("free")(ctypes.c_void_p(instance))

    @staticmethod
    def maps() -> List[Tuple[Any, ...]]:
        """The places of this process's memory: first, last, rights."""
        with open("/proc/self/maps", encoding="ascii") as file:
            rows = [line.split()[:2] for line in file]
        return [(*(int(one, 16) for one in place.split("-")), rights) for place, rights in rows]

    def test_the_stack_is_known(self) -> None:
        self.assertEqual(most_of_functions([set(), {0}, {0, 1}], {0: 16, 1: 32, 2: 8}), 56)
        self.assertEqual(most_of_functions([{0}], {0: 16}), 1024 * 16)
        with open(f"{self.folder}/tried.su", "w", encoding="ascii") as file:
            file.write("t.image:7:f0\t8\tstatic\nt.image:7:f0.part.0\t16\tstatic\nt.c:9:t_f0\t40\tstatic\n")
        frames = frames_in(f"{self.folder}/tried.su")
        self.assertEqual((frames.functions, frames.other), ({0: 40}, 48))
        self.assertEqual(most_bytes([set()], frames), 40 + 2 * 48 + SYSTEM)

    def test_a_frame_of_unknown_size_is_refused(self) -> None:
        with open(f"{self.folder}/tried.su", "w", encoding="ascii") as file:
            file.write("t.image:7:f0\t8\tdynamic\n")
        self.assertRaises(Bad, frames_in, f"{self.folder}/tried.su")

    def test_cpp_takes_the_header(self) -> None:
        translation = translate(
            image_of(image([Function([I32], [I32], 3, [(SET, 0, MOVE, 2, 0), (OUT, 0, 0, 2), (RET,)])])),
            "tried",
        )
        with open(f"{self.folder}/tried.h", "w", encoding="ascii") as file:
            file.write(translation.header)
        with open(f"{self.folder}/user.cc", "w", encoding="ascii") as file:
            file.write(
                '#include "tried.h"\nint main() { uint32_t r; tried *t = tried_new(); '
                'tried_end e = tried_f0(t, 1, &r); tried_free(t); return e; }\n'
            )
        subprocess.run(
            [
                "clang++",
                "-Wall",
                "-Wextra",
                "-Wpedantic",
                "-Werror",
                "-fsyntax-only",
                f"{self.folder}/user.cc",
            ],
            check=True,
        )

    def test_other_targets_compile(self) -> None:
        """AArch64's barriers are written (test_aarch64 runs them); a target without a known barrier is
        refused."""
        commands = [(SET, 8, ADD, 2, 0, 0), (OUT, 0, 0, 2), (RET,)]
        translation = translate(image_of(image([Function([I32], [I32], 3, commands)])), "tried")
        for ending, text in ((".c", translation.source), (".h", translation.header)):
            with open(f"{self.folder}/tried{ending}", "w", encoding="ascii") as file:
                file.write(text)
        os.makedirs(
            f"{self.folder}/gnu"
        )  # glibc's headers for x86-64 are taken, which ask for this one on other targets
        with open(f"{self.folder}/gnu/stubs-32.h", "w", encoding="ascii"):
            pass
        words = [
            "clang",
            "-std=c11",
            "-O2",
            "-S",
            f"-I{self.folder}",
            "-isystem",
            "/usr/include/x86_64-linux-gnu",
            f"{self.folder}/tried.c",
            "-o",
            f"{self.folder}/tried.s",
        ]
        subprocess.run([*words, "--target=aarch64-linux-gnu"], check=True, capture_output=True)
        with open(f"{self.folder}/tried.s", encoding="ascii") as file:
            self.assertRegex(file.read(), r"dsb\tsy\n\tisb")
        refused = subprocess.run(
            [*words, "--target=riscv64-linux-gnu"], check=False, capture_output=True, text=True
        )
        self.assertIn("no speculation barrier is known for this target", refused.stderr)


if __name__ == "__main__":
    unittest.main()
