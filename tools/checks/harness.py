"""What the checks share: their options, the program, a folder of their own, and one vocabulary for results.
Licence: public domain (CC0).

A check is a script with a list of functions. Each function takes a `Check` and tells it by `say` what is
right. A result is `right`, `WRONG` or `skipped`; what this machine has no tool for is skipped. The status is
1 only if something is wrong, and 2 for arguments that aren't known."""
from __future__ import annotations

import argparse
import functools
import os
import shutil
import subprocess
import sys
import tempfile
import threading
import time
from concurrent.futures import ThreadPoolExecutor
from typing import Any, Callable, Iterable, List, Sequence, Tuple, TypeVar, Union

TOP = os.path.dirname(os.path.dirname(os.path.dirname(os.path.realpath(__file__))))
EXAMPLES, COMPANIONS, FORMATS, BENCH = (f"{TOP}/{name}" for name in ("examples", "companions", "formats",
                                                                     "bench"))
sys.path[:0] = [COMPANIONS, FORMATS, BENCH]
# The versions by which the examples' modules, their verdicts and the pages were made, as examples/README.md
# names them.
VERSIONS = {"clang": "14.0.6", "wasm-ld": "14.0.6", "wasm-opt": "version 108", "wat2wasm": "1.0.32"}
LONG = 800  # characters of a fault that are printed
LANES = 2  # calls at a time
Item, Found = TypeVar("Item"), TypeVar("Found")


class Failed(Exception):
    """A command that has to pass doesn't."""


def ran(*words: str, **more: Any) -> Tuple[int, str]:
    """The status of a command, and what it prints, with the errors behind it."""
    done = subprocess.run(words, stdin=subprocess.DEVNULL, capture_output=True, text=True, check=False,
                          **more)
    return done.returncode, done.stdout + done.stderr


def passed(*words: str, **more: Any) -> str:
    """What a command that has to pass prints."""
    done = subprocess.run(words, capture_output=True, text=True, check=False, **more)
    if done.returncode:
        shown = " ".join(map(os.path.basename, words))
        raise Failed(f"{shown}: status {done.returncode}: {done.stderr or done.stdout}")
    return done.stdout


def lanes(work: Callable[[Item], Found], items: Iterable[Item]) -> List[Found]:
    """What the work makes of each item, with two items at a time."""
    with ThreadPoolExecutor(LANES) as pool:
        return list(pool.map(work, items))


@functools.lru_cache(maxsize=None)
def is_here(tool: str, exact: bool = False) -> bool:
    """Whether this machine has a tool; with `exact`, whether it has the version by which the examples were
    made."""
    found = shutil.which(tool, path=f"{os.environ['PATH']}:/usr/sbin")
    return bool(found) and (not exact or tool not in VERSIONS or VERSIONS[tool] in ran(tool, "--version")[1])


def read_bytes(path: str) -> bytes:
    with open(path, "rb") as file:
        return file.read()


def write_bytes(path: str, data: Union[bytes, str]) -> str:
    """Writes a file, and its folders; the path of it."""
    os.makedirs(os.path.dirname(path), exist_ok=True)
    with open(path, "wb") as file:
        file.write(data.encode() if isinstance(data, str) else data)
    return path


class Check:
    """Counts and prints what is right, wrong and skipped. It has the program, a folder for files, and the
    options."""

    prints_right = True

    def __init__(self, program: str, folder: str, options: argparse.Namespace) -> None:
        self.program, self.folder, self.options = program, folder, options
        self.right = self.wrong = self.skipped = 0
        self.lock = threading.Lock()

    def say(self, name: str, holds: object, more: object = "") -> None:
        """Says of what was tried whether it is right; more is printed if it isn't."""
        with self.lock:
            self.right, self.wrong = self.right + bool(holds), self.wrong + (not holds)
        text = str(more).strip()
        if len(text) > LONG:
            text = f"{text[: LONG // 2]} .. {text[-LONG // 2 :]}"
        text = "".join(letter if letter.isprintable() or letter == "\n" else repr(letter)[1:-1]
                       for letter in text)
        if not holds or self.prints_right:
            print(f"right  {name}" if holds else f"WRONG  {name}{': ' * bool(text)}{text}", flush=True)

    def fault(self, name: str, fault: object) -> None:
        """The same, given what is wrong: nothing if it is right."""
        self.say(name, not fault, fault)

    def skip(self, name: str, why: str) -> None:
        self.skipped += 1
        print(f"skipped  {name}: {why}", flush=True)

    def has(self, name: str, *tools: str, exact: bool = False) -> bool:
        """Whether this machine has the tools; if not, what is tried with them is skipped."""
        missing = [tool for tool in tools if not is_here(tool, exact)]
        if missing:
            wanted = [f"{tool} {VERSIONS[tool]}" if exact and tool in VERSIONS else tool for tool in missing]
            self.skip(name, f"no {', '.join(wanted)} here")
        return not missing

    def unit_tests(self, *names: str) -> None:
        """Runs tests of companions/tests; without names all of them."""
        words = [f"tests.{name}" for name in names] or ["discover", "-s", "tests", "-t", "."]
        status, text = ran(sys.executable, "-B", "-m", "unittest", *words, cwd=COMPANIONS)
        self.say(f"unit tests {' '.join(names)}".rstrip(), status == 0, text)

    def path(self, name: str) -> str:
        return f"{self.folder}/{name}"

    def write(self, name: str, data: Union[bytes, str]) -> str:
        return write_bytes(self.path(name), data)

    def read(self, name: str) -> bytes:
        return read_bytes(self.path(name))

    def blade(self, *words: str) -> "subprocess.CompletedProcess[str]":
        return subprocess.run([self.program, *words], capture_output=True, text=True, errors="replace",
                              check=False, cwd=self.folder)


Function = Callable[[Any], None]


def options_of(doc: str, functions: Sequence[Function],
               add: Callable[[argparse.ArgumentParser], None]) -> argparse.Namespace:
    """The options of a check: its own, which `add` declares, and those of all."""
    parser = argparse.ArgumentParser(prog=f"tools/checks/{name_of_script()}", description=doc,
                                     formatter_class=argparse.RawDescriptionHelpFormatter)
    parser.add_argument("program", nargs="?", default=os.environ.get("BLADE"),
                        help="blade; else that of the variable BLADE; else what tools/building/program finds")
    parser.add_argument("--only", default="", metavar="NAME,..",
                        help=f"try only some of: {', '.join(it.__name__ for it in functions)}")
    parser.add_argument("--keep", metavar="FOLDER", help="write files into this folder, and keep them")
    add(parser)
    options = parser.parse_args()
    unknown = set(filter(None, options.only.split(","))) - {it.__name__ for it in functions}
    if unknown:
        parser.error(f"there is no {', '.join(sorted(unknown))}")
    return options


def name_of_script() -> str:
    return os.path.basename(sys.argv[0])


def tried(check: Check, functions: Sequence[Function]) -> None:
    """Calls the functions; a command that fails there is one that is wrong."""
    only = check.options.only.split(",")
    for function in functions:
        if only == [""] or function.__name__ in only:
            try:
                function(check)
            except Failed as failed:
                check.say(function.__name__, False, failed)


def found_program() -> str:
    """The program that the launcher would run, or nothing; the launcher's notes go to standard error."""
    done = subprocess.run([f"{TOP}/tools/building/program"], stdout=subprocess.PIPE, text=True, check=False)
    return done.stdout.strip()


def main(doc: str, functions: Sequence[Function], make: Callable[..., Check] = Check,
         add: Callable[[argparse.ArgumentParser], None] = lambda parser: None,
         tools: Sequence[str] = (), room: str = tempfile.gettempdir(), prefix: str = "check-",
         needs_program: bool = True) -> None:
    """Runs a check, and ends with its status. Without the tools all of it is skipped. Files are written into
    a folder in `room`."""
    options, begun, name = options_of(doc, functions, add), time.monotonic(), name_of_script()
    program = os.path.abspath(options.program or found_program() or "blade")
    if needs_program and not os.access(program, os.X_OK):
        sys.exit(f"{name}: there is no program {program}: ./blade builds one")
    with tempfile.TemporaryDirectory(prefix=prefix, dir=room) as folder:
        check = make(program, os.path.abspath(options.keep or folder), options)
        os.makedirs(check.folder, exist_ok=True)
        if check.has(f"all of {name}", *tools):
            tried(check, functions)
        os.chdir(TOP)
    print(f"{name}: {check.right} right, {check.wrong} wrong, {check.skipped} skipped, "
          f"{time.monotonic() - begun:.0f} seconds")
    sys.exit(1 if check.wrong else 0)
