"""The tools that blade-cc runs: where they are, whether they are new enough, and what they are told.
Licence: public domain (CC0)."""
from __future__ import annotations

import functools
import os
import re
import shlex
import shutil
import subprocess
import sys
from typing import NamedTuple, Optional, Sequence

from .arguments import MISSING, Stop
from ..programs import TOP, ready_program
from ..writing import write_file as written_to

HERE = os.path.dirname(os.path.dirname(os.path.dirname(os.path.realpath(__file__))))  # the folder of blade-cc
INCLUDE = os.path.join(HERE, "include")  # its headers, its libc and its module of accessors
NEWEST = 22  # Debian's names of tools with a version, clang-14 and so on, are looked for up to this one


class Tool(NamedTuple):
    """A tool: Debian's package that has it, the least version that is known to do, and what may be missing
    below that."""

    package: str
    least: int
    lacks: str


TOOLS = {
    "clang": Tool("clang", 13, "the labels of blade.h, or the lines of C"),
    "clang++": Tool("clang", 13, "the labels of blade.h, or the lines of C"),
    "wasm-ld": Tool("lld", 13, "the joined labels of blade.h"),
    "wasm-opt": Tool("binaryen", 108, "locals split without a loss of the lines of C"),
    "llvm-symbolizer": Tool("llvm", 13, "the lines of WebAssembly modules"),
}


@functools.lru_cache(None)
def found(name: str) -> str:
    """The name that a tool has here; one that is missing or too old ends the work."""
    tool = TOOLS[name]
    here = next((one for one in (name, *(f"{name}-{version}" for version in range(NEWEST, 12, -1)))
                 if shutil.which(one)), None)
    if here is None:
        raise Stop(MISSING, f"blade-cc: error: there is no {name}: apt-get install {tool.package}")
    told = subprocess.run([here, "--version"], capture_output=True, text=True, check=False).stdout
    version = re.search(r"(?:version |LLD )(\d+)", told)
    if version and int(version[1]) < tool.least:
        raise Stop(MISSING, f"blade-cc: error: {here} is of version {version[1]}; "
                   f"before {tool.least} it may lack {tool.lacks}: "
                   f"apt-get install a newer {tool.package}")
    return here


def program(given: str) -> str:
    """blade: as words or the variable BLADE give it, else the launcher of this release or clone, else blade
    of the path."""
    launcher = os.path.join(TOP, "blade")
    for one in (given, os.environ.get("BLADE")):
        if one and shutil.which(one):
            return one
    if os.path.exists(launcher):
        if ready_program():
            return launcher
        raise Stop(MISSING, f"blade-cc: error: {launcher} isn't built yet: run it once, "
                   "or give a program by --blade PROGRAM or BLADE")
    if shutil.which("blade"):
        return "blade"
    raise Stop(MISSING, "blade-cc: error: there is no blade: give it by --blade PROGRAM or BLADE, "
               "or install a release")


class Ran(NamedTuple):
    status: int
    out: str
    errors: str


class Runner:
    """Runs commands, and shows them as they could be typed."""

    def __init__(self, is_shown: bool) -> None:
        self.is_shown = is_shown

    def show(self, words: Sequence[str], to: str = "") -> None:
        self.show_text(shlex.join(words) + (f" > {shlex.quote(to)}" if to else ""))

    def show_text(self, text: str) -> None:
        if self.is_shown:
            print(f" {text}", file=sys.stderr, flush=True)

    def run(self, words: Sequence[str], to: str = "", errors: Optional[int] = subprocess.PIPE,
            given: Optional[str] = None) -> Ran:
        """What is printed goes to a file, too, where one is named; errors are kept, or go on to who asked
        (None). A question that is given on the standard input isn't shown, since nothing comes of it but
        further words."""
        if given is None:
            self.show(words, to)
        done = subprocess.run(words, input=given, stdout=subprocess.PIPE, stderr=errors, text=True,
                              errors="replace", check=False)
        if to:
            written_to(to, done.stdout.encode())
        return Ran(done.returncode, done.stdout, done.stderr or "")
