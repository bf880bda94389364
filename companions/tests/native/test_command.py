"""blade-native as it is called: what it refuses, what it keeps, libraries, C's stack, names, and memcheck.
Licence: public domain (CC0)."""
import contextlib
import io
import os
import shutil
import subprocess
import tempfile
import unittest
from typing import List, Tuple

from outcomes import TOP, blade, image_of
from images import ARG, CALL, I32, LOAD, OUT, RET, SET, TEST, Function, K, bounded, image
from test_object import looked_up
from blade_companions.native.checking import check_object
from blade_companions.native.command import main
from blade_companions.native.names import is_parameter

SUB, TOO_SMALL = 0x6B, 9
STACK_USER = """#define _GNU_SOURCE
#include "deep.h"
#include <pthread.h>
#include <stdio.h>
#include <stdlib.h>
#include <ucontext.h>
static int end;
static ucontext_t home, other;
static void *work(void *m) { uint32_t r; end = deep_f0(m, 1000, &r); return 0; }
static deep *made;
static void elsewhere(void) { work(made); }
static int on(size_t size)
{
    pthread_t thread;
    pthread_attr_t how;
    pthread_attr_init(&how);
    if (pthread_attr_setstacksize(&how, size) || pthread_create(&thread, &how, work, made)) return -1;
    pthread_join(thread, 0);
    return end;
}
int main(void)
{
    made = deep_new();
    printf("%d ", on(32 << 10));
    printf("%d ", on(1 << 20));
    getcontext(&other);
    other.uc_stack.ss_sp = malloc(1 << 20);
    other.uc_stack.ss_size = 1 << 20;
    other.uc_link = &home;
    makecontext(&other, elsewhere, 0);
    swapcontext(&home, &other);
    printf("%d ", end);
    work(made);
    printf("%d\\n", end);
    return 0;
}
"""


def deep() -> bytes:
    """A function that calls itself as often as its argument says, and needs behind the call what it loaded
    before."""
    commands = [*bounded(7, 3, 0, (LOAD, 0, 0x28, 0, 4, 0, 1), 4), (TEST, 1, 11, 15)]
    commands += [(SET, 0, SUB, 5, 1, K(1)), (ARG, 0, 0, 0, 5), (CALL, 0), (SET, 0, SUB, 4, 4, 2)]
    return image([Function([I32], [I32], 5, [*commands, (OUT, 0, 0, 4), (RET,)])], memories=[(1, 1)])


class Command(unittest.TestCase):
    """Calls in a folder of their own."""

    def setUp(self) -> None:
        self.kept = tempfile.TemporaryDirectory()
        self.folder = self.kept.name

    def tearDown(self) -> None:
        self.kept.cleanup()

    def path(self, name: str, contents: bytes = b"") -> str:
        if contents:
            with open(f"{self.folder}/{name}", "wb") as file:
                file.write(contents)
        return f"{self.folder}/{name}"

    def call(self, *words: str) -> Tuple[int, str]:
        """The status, and all that is printed."""
        printed = io.StringIO()
        with contextlib.redirect_stdout(printed), contextlib.redirect_stderr(printed):
            try:
                status = main(words)
            except SystemExit as end:
                status = int(end.code or 0)
        return status, printed.getvalue()

    def hardened(self, name: str) -> str:
        """An example's image, with its certificate next to it."""
        blade("harden", self.path(f"{name}.img"), self.path(f"{name}.json"), f"{TOP}/examples/{name}.wasm")
        return self.path(f"{name}.img")

    def made(self) -> List[str]:
        given = (".img", ".json", ".start")
        return sorted(name for name in os.listdir(self.folder) if not name.endswith(given))

    # ---- verdicts

    def test_only_verified_images(self) -> None:
        no, yes = self.hardened("lookup"), self.hardened("masked_ssa")
        status, printed = self.call(no, "-o", self.path("lookup.c"))
        self.assertEqual((status, self.made()), (1, []))
        self.assertIn("blade verify says no: constant-time", printed)
        self.path("other.json", b'{"protects": [], "paths": []')
        status, _ = self.call(yes, "-o", self.path("a.c"), "--certificate", self.path("other.json"))
        self.assertEqual((status, self.made()), (1, []))
        os.unlink(self.path("masked_ssa.json"))
        status, printed = self.call(yes, "-o", self.path("a.c"))
        self.assertEqual((status, self.made()), (1, []))
        self.assertIn("there is no certificate", printed)

    def test_allow_no_is_written_into_the_files(self) -> None:
        status, _ = self.call(self.hardened("lookup"), "-o", self.path("lookup.c"), "--allow-no")
        self.assertEqual((status, self.made()), (0, ["lookup.c", "lookup.h"]))
        for ending in ("c", "h"):
            with open(self.path(f"lookup.{ending}"), encoding="ascii") as file:
                self.assertIn("blade verify says no", file.readline())

    def test_files_of_others_stay(self) -> None:
        found = self.hardened("masked_ssa")
        for mine in ("a.c", "a.h", "a.o", "liba.a", "liba.so"):
            for more in ([], ["--library"]):
                self.path(mine, b"int mine;\n")
                status, printed = self.call(found, "-o", self.path("a.c"), *more)
                self.assertEqual((status, self.made()), (3, [mine]), printed)
                self.assertIn(f"{mine} wasn't made by blade-native", printed)
                os.unlink(self.path(mine))

    def test_usage(self) -> None:
        for words in ([], ["-o", "a-b.c"], ["-o", "int.c"], ["-o", "a.o"], ["--object"], ["--level", "-O9"]):
            self.assertEqual(self.call("x.img", *words)[0], 2, words)
        self.assertEqual(self.call("x.img", "--check", "no.o")[0], 3)

    # ---- objects and libraries

    def compiler(self, *more: str) -> str:
        """A clang that does more than it is asked."""
        path = self.path("clang", f'#!/bin/sh\nexec clang "$@" {" ".join(more)}\n'.encode())
        os.chmod(path, 0o755)
        return path

    def test_what_the_check_refuses_is_not_kept(self) -> None:
        found = self.path("tried.img", looked_up())
        words = (found, "-o", self.path("tried.c"), "--allow-no", "--library")
        self.assertEqual(self.call(*words)[0], 0)
        kept = ["libtried.a", "libtried.so", "tried.c", "tried.h", "tried.o"]
        self.assertEqual(self.made(), kept)
        status, printed = self.call(*words, "--cc", self.compiler("-DBLADE_NO_PROTECTS"))
        self.assertEqual((status, self.made()), (1, ["clang", "tried.c", "tried.h"]))
        self.assertIn("protect 9 has no barrier", printed)
        self.assertEqual(self.call(*words, "--cc", self.compiler("-DNO_SUCH=", "-nosuch"))[0], 3)
        self.assertEqual(self.made(), ["clang", "tried.c", "tried.h"])

    def test_linked_files(self) -> None:
        """A library passes, and one of two images by each; not without symbols, or with a fence gone."""
        for name, data in (("tried", looked_up()), ("deep", deep())):
            words = ("-o", self.path(f"{name}.c"), "--allow-no", "--library", "--cc", "gcc")
            self.assertEqual(self.call(self.path(f"{name}.img", data), *words)[0], 0, name)
        both = self.path("both.so")
        subprocess.run(["gcc", "-shared", "-o", both, self.path("tried.o"), self.path("deep.o")], check=True)
        for name in ("tried", "deep"):
            status, printed = self.call(self.path(f"{name}.img"), "--check", both, "--name", name)
            self.assertEqual((status, ", 0 findings" in printed), (0, True), printed)
        self.assertEqual(self.call(self.path("tried.img"), "--check", both)[0], 1)
        self.refused_library("strip", "no function of the image is in the file")
        self.refused_library("unfence", "no barrier stands where protect 9 has one")

    def refused_library(self, how: str, why: str) -> None:
        """A library that was stripped, or in which fences became something else, has findings."""
        other = shutil.copy(self.path("libtried.so"), self.path("libother.so"))
        if how == "strip":
            subprocess.run(["strip", other], check=True)
        else:
            with open(other, "rb") as file:
                data = file.read()
            self.assertIn(b"\x0f\xae\xe8", data)
            with open(other, "wb") as file:
                file.write(data.replace(b"\x0f\xae\xe8", b"\x0f\x1f\x00"))
        findings = check_object(image_of(looked_up()), other, "tried").findings
        self.assertTrue(any(why in one for one in findings), findings)

    # ---- C's stack

    def test_a_stack_that_is_too_small(self) -> None:
        """A call is refused on a thread with 32 KiB, and on a stack that isn't the thread's."""
        self.assertEqual(
            self.call(self.path("deep.img", deep()), "-o", self.path("deep.c"), "--allow-no", "--object")[0],
            0,
        )
        user = self.path("user.c", STACK_USER.encode())
        subprocess.run(["clang", "-pthread", user, self.path("deep.o"), "-o", self.path("user")], check=True)
        done = subprocess.run([self.path("user")], capture_output=True, text=True, check=True)
        self.assertEqual(done.stdout, f"{TOO_SMALL} 0 {TOO_SMALL} 0\n")

    # ---- names

    def test_names_of_parameters(self) -> None:
        good = ("key", "key_size", "x1", "message")
        own = ("", "m", "p0", "r12", "int", "uint32_t", "errno")
        bad = ("Key", "NULL", "a__b", "_a", "a-b", "a\n", "\u00e9", "a" * 99)
        self.assertEqual([name for name in good + own + bad if is_parameter(name)], list(good))

    def test_another_module_is_refused(self) -> None:
        found = self.hardened("masked_ssa")
        words = (found, "-o", self.path("a.c"), "--module")
        self.assertEqual(self.call(*words, f"{TOP}/examples/masked_ssa.wasm")[0], 0)
        status, printed = self.call(*words, f"{TOP}/examples/sample.wasm")
        self.assertEqual(status, 3)
        self.assertIn("the image wasn't made from this module", printed)

    @unittest.skipUnless(shutil.which("wasm-opt"), "the tools of blade-cc aren't installed")
    def test_from_c(self) -> None:
        """blade-cc writes the header and the object after a yes; what they were made from is judged again."""
        out, source = self.path("out"), self.path("add.c")
        words = [
            f"{TOP}/companions/blade-cc",
            source,
            "--label",
            "secret-param add 0",
            "--native",
            "-o",
            f"{out}/",
        ]
        made = f"{out}/native"
        for text, status, files in (
            (
                "unsigned add(unsigned key, unsigned size) { return key + size; }",
                0,
                ["add.c", "add.h", "add.o"],
            ),
            ("unsigned add(unsigned key, unsigned size) { return size % key; }", 1, []),
        ):
            self.path("add.c", text.encode() + b"\n")
            done = subprocess.run([*words, "--export", "add"], capture_output=True, text=True, check=False)
            self.assertEqual((done.returncode, sorted(os.listdir(made))), (status, files), done.stderr)
            if files:
                with open(f"{made}/add.h", encoding="ascii") as file:
                    self.assertIn(
                        "add_end add_add(add *m, uint32_t key, uint32_t size, uint32_t *r0);", file.read()
                    )

    # ---- memcheck

    @unittest.skipUnless(shutil.which("valgrind"), "valgrind isn't installed")
    def test_memcheck(self) -> None:
        start = self.path("a.start", b"arg 3\n")
        self.assertEqual(self.call(self.hardened("masked_ssa"), "--test", start)[0], 0)
        status, printed = self.call(self.hardened("lookup"), "--test", f"lookup={start}")
        self.assertEqual((status, "depends on a secret" in printed), (1, True), printed)
        status, printed = self.call(self.path("tried.img", looked_up()), "--test", start)
        self.assertEqual((status, "nothing secret" in printed), (4, True), printed)

    def test_memcheck_isn_t_there(self) -> None:
        """A test that can't run isn't one that passed."""
        found, path = self.hardened("masked_ssa"), os.environ["PATH"]
        os.environ["PATH"] = self.folder
        try:
            status, printed = self.call(found, "--test", self.path("a.start", b"arg 3\n"))
        finally:
            os.environ["PATH"] = path
        self.assertEqual((status, "valgrind isn't installed" in printed), (4, True), printed)


if __name__ == "__main__":
    unittest.main()
