"""Tests an installed copy of Blade in a few seconds. Licence: public domain (CC0).

    blade-selftest

It hardens the samples of examples/, verifies and runs the images, changes a byte of one, joins a client and
its library, and searches for a leak. It compares each answer with one that is known from outside: the sum of
a list, or a sample that leaks by design. If clang and its linker are installed, it also goes from C to a
verdict. In an installed copy it first compares all files with their checksums.

It prints a line for each test, and ends with 0 if all are right, 1 if one is wrong, 2 for a wrong call, 4 if
there is no program.
Tests whose tool is missing are skipped, and named."""
from __future__ import annotations

import os
import shutil
import subprocess
import sys
import tempfile
from typing import Callable, Dict, List, Sequence, Tuple

from .ending import ended, is_answered
from .programs import TOP, ready_program
from .statuses import GAVE_UP, USAGE

RIGHT, WRONG = 0, 1
EXAMPLES = os.path.join(TOP, "examples")
# The list 5, 7, 11 from address 2048 on: each entry is its value and the address of the next.
LIST = "arg 2048\nmemory 0 2048 050000000808000007000000100800000b00000000000000\n"
SUM = "returned i32 23"
YES = "certificate yes\nstable yes\nconstant-time yes\nsafe yes\n"
OF_CC = ("clang", "wasm-ld", "wasm-opt", "llvm-symbolizer")  # the tools that blade-cc runs


class Wrong(Exception):
    """An answer that isn't the known one."""


class Skipped(Exception):
    """A test that can't be made here."""


def asked(words: Sequence[str], folder: str) -> Tuple[int, str]:
    """What a call prints in a folder, and its status."""
    done = subprocess.run(words, cwd=folder, stdin=subprocess.DEVNULL, stdout=subprocess.PIPE,
                          stderr=subprocess.STDOUT, check=False)
    return done.returncode, done.stdout.decode("utf-8", "replace")


class Tests:
    """The tests, over a program and a folder for the files that they make."""

    def __init__(self, program: str, folder: str) -> None:
        self.program, self.folder = program, folder

    def blade(self, status: int, text: str, *words: str) -> str:
        """What the program prints, which has that status and has that text in it."""
        return self.answer(status, text, [self.program, *words])

    def tool(self, status: int, text: str, name: str, *words: str) -> str:
        """What a tool prints, in the same way."""
        path = os.path.join(TOP, "companions", name)
        return self.answer(status, text, [sys.executable, "-B", path, *words])

    def answer(self, status: int, text: str, words: List[str]) -> str:
        found, told = asked(words, self.folder)
        if found != status or text not in told:
            first = told.splitlines()[:1] or ["nothing"]
            raise Wrong(f"{' '.join(words[:2])} ends with {found} and prints {first[0][:100]!r}; "
                        f"expected {status} and {text!r}")
        return told

    def sample(self, name: str) -> str:
        return os.path.join(EXAMPLES, name)

    def start(self) -> str:
        path = os.path.join(self.folder, "list.start")
        with open(path, "w", encoding="ascii") as file:
            file.write(LIST)
        return path

    def files(self) -> None:
        """the files of this copy have their checksums"""
        if not os.path.exists(os.path.join(TOP, "SHA256SUMS")):
            raise Skipped("a clone has no checksums")
        status, told = asked(["sha256sum", "--quiet", "-c", "SHA256SUMS"], TOP)
        if status:
            raise Wrong(told.splitlines()[0][:200] if told else f"sha256sum ends with {status}")

    def list(self) -> None:
        """a list without secrets is hardened with one protect, verified, and sums up to 23"""
        self.blade(0, "\nconstant-time yes\n", "harden", "list.img", "list.json", self.sample("list.wasm"))
        if self.blade(0, YES, "verify", "list.img", "list.json") != YES:
            raise Wrong("verify prints more than its four lines")
        self.blade(0, SUM, "run", "list.img", "list/list", self.start())
        self.blade(0, SUM, "interp", "list/list", self.start(), self.sample("list.wasm"))

    def changed(self) -> None:
        """an image without its protect is refused, and so is one with a byte cut off"""
        self.blade(0, "commands ", "lower", "plain.img", self.sample("list.wasm"))
        self.blade(1, "safe no", "verify", "plain.img", "list.json")
        with open(os.path.join(self.folder, "list.img"), "rb") as file:
            data = file.read()
        with open(os.path.join(self.folder, "cut.img"), "wb") as file:
            file.write(data[:-1])
        self.blade(12, "image: ", "verify", "cut.img", "list.json")

    def leak(self) -> None:
        """a look-up at a secret index is refused, and two runs show it"""
        self.blade(0, "constant-time no parameter 0 0", "harden", "lookup.img", "lookup.json",
                   self.sample("lookup.wasm"))
        self.tool(1, "safe no", "blade-check", "lookup.img", "lookup.json", "--blade", self.program)
        self.tool(1, "leak witnessed", "blade-witness", "lookup.img", "lookup/lookup",
                  self.sample("three.start"), self.sample("lookup.wasm"), "--out", "leak",
                  "--blade", self.program)
        self.blade(1, "public agree", "twin", "lookup.img", "lookup/lookup", "leak.trace", "leak.a.start",
                   "leak.b.start")

    def masked(self) -> None:
        """the look-up with a mask is constant-time"""
        self.blade(0, "\nconstant-time yes\n", "harden", "masked.img", "masked.json",
                   self.sample("masked_ssa.wasm"))
        self.tool(0, YES, "blade-check", "masked.img", "masked.json", "--blade", self.program)

    def parts(self) -> None:
        """a client and a library that are hardened separately can be joined"""
        apart = os.path.join(EXAMPLES, "apart")
        interface = os.path.join(apart, "mac.if")
        self.blade(0, "protects ", "part", "library", "mac.part", interface, os.path.join(apart, "mac.wasm"))
        self.blade(0, "protects ", "part", "client", "mail.part", interface,
                   os.path.join(apart, "stub", "mac.wasm"), os.path.join(apart, "mail.wasm"))
        self.blade(0, "joined functions ", "join", "mail.img", interface, "mail.part", "mac.part")

    def compiler(self) -> None:
        """blade-cc goes from C to a yes, and to a no"""
        lost = [name for name in OF_CC if shutil.which(name) is None]
        if lost:
            raise Skipped(f"there is no {lost[0]}")
        for name, status, verdict in (("masked", 0, "constant-time yes"), ("lookup", 1, "constant-time no")):
            self.tool(status, verdict, "blade-cc", self.sample(f"{name}.c"), "-o", f"{name}/",
                      "--blade", self.program)

    def all(self) -> Dict[str, Callable[[], None]]:
        """The tests in their order, by their sentence."""
        return {test.__doc__ or "": test for test in (
            self.files, self.list, self.changed, self.leak, self.masked, self.parts, self.compiler)}


def run(words: Sequence[str]) -> int:
    if is_answered("blade-selftest", words, __doc__):
        return RIGHT
    if words:
        print(__doc__, file=sys.stderr)
        return USAGE
    program = ready_program()
    if program is None:
        print("WRONG: there is no program: ./blade-prove builds it")
        return GAVE_UP
    status = RIGHT
    with tempfile.TemporaryDirectory(prefix="blade-selftest-") as folder:
        for sentence, test in Tests(program, folder).all().items():
            try:
                test()
                print(f"right: {sentence}", flush=True)
            except Skipped as why:
                print(f"skipped: {sentence}: {why}", flush=True)
            except Wrong as why:
                status = WRONG
                print(f"WRONG: {sentence}: {why}", flush=True)
    return status


def main(words: Sequence[str]) -> int:
    return ended("blade-selftest", lambda: run(words), GAVE_UP)


if __name__ == "__main__":
    sys.exit(main(sys.argv[1:]))
