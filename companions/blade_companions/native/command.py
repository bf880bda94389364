"""The command line of blade-native. Licence: public domain (CC0)."""
from __future__ import annotations

import argparse
import os
import sys
from typing import Optional, Sequence

from ..ending import ended, version_line
from ..formats.reading import Bad
from ..printing import say
from ..statuses import GAVE_UP
from .making import DONE, NO, YES, Building, Given, checks, makes, why_not, write
from .memchecking import tried
from .names import identifier, prefix_of

LEVELS = ("-O1", "-O2", "-O3", "-Os")
EPILOG = (
    "Status: 0; 1 if the verdict is no, if a file has what the image doesn't allow, or if --test finds "
    "something; 2 for a usage error; 3 for a file that can't be read or compiled; 4 if a tool is missing, or "
    "if there is nothing to test."
)
OPTIONS = (
    (("-o",), {"dest": "output", "metavar": "NAME.c", "help": "write NAME.c, and NAME.h next to it"}),
    (
        ("--certificate",),
        {"metavar": "FILE", "help": "the certificate (IMAGE with the ending .json, if it is there)"},
    ),
    (
        ("--allow-no",),
        {
            "action": "store_true",
            "help": "translate an image whose verdict is no, or that has no certificate",
        },
    ),
    (
        ("--module",),
        {
            "metavar": "M.wasm",
            "action": "append",
            "default": [],
            "help": "the module that the image was made from, for names of parameters and lines of C; "
            "give it again for each further module, in their order",
        },
    ),
    (("--object",), {"action": "store_true", "help": "also compile NAME.o, and check it"}),
    (("--library",), {"action": "store_true", "help": "also make libNAME.a and libNAME.so, and check them"}),
    (
        ("--check",),
        {"metavar": "FILE", "help": "check an object, a shared library or a program that contains NAME.o"},
    ),
    (("--name",), {"metavar": "NAME", "help": "with --check: the NAME of NAME.c (that of FILE)"}),
    (
        ("--test",),
        {"metavar": "[EXPORT=]START", "help": "run a start file under memcheck, with undefined secrets"},
    ),
    (
        ("--cc",),
        {"default": os.environ.get("CC", "clang"), "metavar": "COMPILER", "help": "clang (default) or gcc"},
    ),
    (
        ("--level",),
        {"default": "-O2", "choices": LEVELS, "help": "how to optimise: -O1, -O2 (default), -O3, -Os"},
    ),
    (
        ("--blade",),
        {"metavar": "PROGRAM", "help": "the program that verifies (BLADE, else the one found here)"},
    ),
)


def words_of(words: Sequence[str]) -> argparse.Namespace:
    """The words of the command line."""
    parser = argparse.ArgumentParser(
        "blade-native",
        epilog=EPILOG,
        description="Translates a hardened image to C11, with its protects as speculation barriers.",
    )
    parser.add_argument("--version", action="version", version=version_line("blade-native"))
    parser.add_argument("image", metavar="IMAGE", help="an image that blade has hardened")
    for names, settings in OPTIONS:
        parser.add_argument(*names, **settings)
    given = parser.parse_args(list(words))
    if not given.output and not given.check and not given.test:
        parser.error("nothing to do: give -o NAME.c, --check FILE or --test START")
    if (given.object or given.library) and not given.output:
        parser.error("--object and --library need -o NAME.c")
    if given.output and os.path.basename(given.output) != f"{prefix_of(given.output)}.c":
        parser.error(f"the output is a C file whose name is one of C, as {prefix_of(given.output)}.c")
    return given


def certificate_of(given: argparse.Namespace) -> Optional[str]:
    """The file of the certificate: the one that is named, else the one next to the image."""
    beside = f"{os.path.splitext(given.image)[0]}.json"
    return given.certificate or (beside if os.path.isfile(beside) else None)


def name_in(path: str) -> str:
    """The NAME that a file is called by: NAME.o, libNAME.so, or NAME."""
    base = os.path.basename(path).partition(".")[0]
    return prefix_of(base[3:] if base.startswith("lib") and ".so" in path else base)


def verdict_of(given: argparse.Namespace) -> Optional[str]:
    """What NAME.c says of the verdict; None if the image may not be translated."""
    fault = why_not(given.blade, given.image, certificate_of(given))
    if fault and not given.allow_no:
        say(f"blade-native: {fault}; --allow-no translates it all the same", sys.stderr)
        return None
    if fault:
        say(f"blade-native: warning: {fault}", sys.stderr)
    return fault or YES


def work(words: Sequence[str]) -> int:
    """Does what the words ask for."""
    given = words_of(words)
    verdict = verdict_of(given) if given.output else YES
    if verdict is None:
        return NO
    known, status = Given.at(given.image, given.module), DONE
    if given.output:
        write(known, given.output, verdict)
    if given.object or given.library:
        status = makes(known, Building(given.cc, given.level, given.library), given.output)
    if given.check:
        if not os.path.isfile(given.check):
            raise Bad(f"there is no {given.check}")
        name = identifier(given.name) if given.name else name_in(given.check)
        status = max(status, DONE if checks(known, given.check, name) else NO)
    if given.test:
        status = max(status, DONE if tried(known, given.test, given.cc, given.level) else NO)
    return status


def main(words: Sequence[str]) -> int:
    """Ends with the status of the command; if nobody reads on, a no still isn't a yes."""
    return ended("blade-native", lambda: work(words), GAVE_UP)
