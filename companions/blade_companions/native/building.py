"""How the C of an image is compiled. Licence: public domain (CC0)."""
from __future__ import annotations

import os
import shutil
import subprocess
from typing import Sequence

from ..formats.reading import Bad, GaveUp

# No tables: a jump through a table is a guess of its own, and under a wrong guess a table may be read past
# its end.
# No builtins: a loop stays a loop, and isn't turned into a call of memcpy.
# No vectors: their constants come from tables.
# No branches that the image doesn't have: no unrolled loops with a rest, no choices that become branches.
# The ends of blocks aren't joined, so that each branch keeps the line of its Test, which the check needs.
# One section, so that an address belongs to one function.
# A frame is touched page by page, so that a stack that is too small faults and isn't overrun.
FLAGS = [
    "-std=c11",
    "-w",
    "-fno-jump-tables",
    "-fno-builtin",
    "-fno-stack-protector",
    "-fstack-clash-protection",
    "-mgeneral-regs-only",
    "-gdwarf-4",
    "-gno-column-info",
]
BY_FAMILY = {
    "gcc": [
        "-fno-tree-switch-conversion",
        "-fno-tree-loop-distribute-patterns",
        "-fno-tree-vectorize",
        "-fno-reorder-blocks-and-partition",
        "-fno-reorder-functions",
    ],
    "clang": [
        "-fno-vectorize",
        "-fno-slp-vectorize",
        "-fno-unroll-loops",
        "-mllvm",
        "-x86-cmov-converter=false",
        "-mllvm",
        "-disable-cgp-select2branch",
        "-mllvm",
        "-simplifycfg-sink-common=false",
        "-mllvm",
        "-enable-tail-merge=0",
    ],
}


def family(compiler: str) -> str:
    """gcc or clang, by what the compiler says of itself."""
    if not shutil.which(compiler):
        raise GaveUp(f"{compiler} is no compiler that is installed")
    told = subprocess.run([compiler, "--version"], capture_output=True, text=True, check=False).stdout.lower()
    return "clang" if "clang" in told else "gcc"


def ran(words: Sequence[str], what: str) -> None:
    """Runs a tool that has to succeed."""
    if not shutil.which(words[0]):
        raise GaveUp(f"there is no {words[0]} here")
    done = subprocess.run(words, capture_output=True, text=True, errors="replace", check=False)
    if done.returncode:
        raise Bad(f"{words[0]} doesn't {what}: {done.stderr.strip()[:600]}")


def build(compiler: str, source: str, output: str, level: str = "-O2", more: Sequence[str] = ("-c",)) -> None:
    """Compiles a translated image. Warnings are off: they ask what an author meant, and a program wrote
    this."""
    words = [compiler, level, *FLAGS, *BY_FAMILY[family(compiler)], *more, source, "-o", output]
    ran(words, f"compile {source}")


def libraries(compiler: str, path: str, stem: str) -> None:
    """Makes STEM.a and STEM.so from an object."""
    if os.path.exists(f"{stem}.a"):
        os.unlink(f"{stem}.a")
    ran(["ar", "rcsD", f"{stem}.a", path], f"make {stem}.a")
    ran([compiler, "-shared", "-Wl,-z,text", "-pthread", "-o", f"{stem}.so", path], f"make {stem}.so")
