"""NAME.c and NAME.h of an image, and what is compiled from them. Licence: public domain (CC0).

What the check refuses isn't kept, and what an earlier call made goes with it: a linker and make take any file
that is there for a good one."""
from __future__ import annotations

import os
import sys
import tempfile
from typing import Iterable, List, NamedTuple, Optional

from ..check import refused_answers
from ..formats.image import Image
from ..formats.reading import Bad, GaveUp, read_file
from ..printing import say
from ..writing import write_file
from .building import build, libraries
from .checking import Checked, check_object
from .names import prefix_of
from .origin import Origin
from .reading import calls, image_of
from .stack import frames_in, most_bytes
from .translation import translate

DONE, NO = 0, 1
FORGET = "shadow/forget"  # what the shadow of split modules exports
MADE_BY = b"/* Made by blade-native"  # how NAME.c and NAME.h begin
MOST_FINDINGS = 20  # are printed
YES = "blade verify says yes to all four questions"


class Given(NamedTuple):
    """An image with what its modules say of it."""

    image: Image
    origin: Origin

    @staticmethod
    def at(path: str, modules: Iterable[str] = ()) -> Given:
        image = image_of(read_file(path, "image"))
        if FORGET in image.entries:
            raise Bad(f"{path} is of split modules: if a program writes to C's memory, the shadow would "
                      "still know what was there before, so blade-native doesn't take it")
        return Given(image, Origin(image, list(modules)))


class Building(NamedTuple):
    """How NAME.c is compiled, and whether libraries are made."""

    compiler: str = "clang"
    level: str = "-O2"
    makes_libraries: bool = False


def why_not(program: Optional[str], image: str, certificate: Optional[str]) -> Optional[str]:
    """Why an image may not be translated: it isn't verified. None if it may."""
    if certificate is None:
        return "there is no certificate: give it by --certificate FILE"
    refused = refused_answers(program, image, certificate)
    return f"blade verify says no: {', '.join(refused)}" if refused else None


def made_of(output: str) -> List[str]:
    """What is compiled from NAME.c: the object and the libraries."""
    folder, name = os.path.split(output[:-2])
    library = os.path.join(folder, f"lib{name}")
    return [f"{output[:-2]}.o", f"{library}.a", f"{library}.so"]


def is_ours(path: str) -> bool:
    """Whether blade-native made a file of C."""
    try:
        with open(path, "rb") as file:
            return file.read(len(MADE_BY)) == MADE_BY
    except OSError:
        return False


def write(given: Given, output: str, verdict: str) -> None:
    """Writes NAME.c and NAME.h, but not over files that somebody else wrote. What was compiled from an
    earlier NAME.c is removed; without an earlier NAME.c such files are somebody else's, too."""
    header = f"{output[:-2]}.h"
    others = [path for path in (output, header) if os.path.lexists(path) and not is_ours(path)]
    if not is_ours(output):
        others += filter(os.path.lexists, made_of(output))
    if others:
        raise Bad(f"{others[0]} wasn't made by blade-native, and isn't overwritten")
    translation = translate(given.image, prefix_of(output), verdict, given.origin)
    for path in filter(os.path.lexists, made_of(output)):
        os.unlink(path)
    write_file(header, translation.header.encode("ascii"))
    write_file(output, translation.source.encode("ascii"))


def is_right(path: str, checked: Checked) -> bool:
    """Prints what a check found."""
    for finding in checked.findings[:MOST_FINDINGS]:
        say(f"{os.path.basename(path)}: {finding}", sys.stderr)
    say(
        f"{os.path.basename(path)}: {checked.branches} branches ({checked.joined} without a line), "
        f"{checked.protects} protects, {checked.barriers} barriers, {len(checked.findings)} findings"
    )
    return not checked.findings


def checks(given: Given, path: str, name: str) -> bool:
    """Whether an object or a linked file has only what the image allows."""
    return is_right(path, check_object(given.image, path, name, given.origin.line_of))


def compiled(given: Given, how: Building, source: str, path: str) -> int:
    """Compiles an object, and gives how many bytes of C's stack a call may need. It is compiled once to learn
    them, and a second time so that each export tests for them."""
    called, usage, more = calls(given.image), f"{path[:-2]}.su", ["-c", "-fPIC", "-fstack-usage"]
    build(how.compiler, source, path, how.level, [*more, "-DBLADE_STACK=1"])
    most = most_bytes(called, frames_in(usage))
    build(how.compiler, source, path, how.level, [*more, f"-DBLADE_STACK={most}"])
    if most_bytes(called, frames_in(usage)) > most:
        raise GaveUp("the frames differ from one compilation to the next")
    return most


def makes(given: Given, how: Building, output: str) -> int:
    """Compiles NAME.o and the libraries in a folder of their own, checks them, and puts them in place if
    nothing is found."""
    beside = os.path.dirname(os.path.abspath(output))
    with tempfile.TemporaryDirectory(prefix=".blade-", dir=beside) as folder:
        made = [f"{folder}/{os.path.basename(path)}" for path in made_of(output)]
        most = compiled(given, how, os.path.abspath(output), made[0])
        if how.makes_libraries:
            libraries(how.compiler, made[0], made[1][:-2])
        name = prefix_of(output)
        linked = [path for path in made if path.endswith((".o", ".so")) and os.path.exists(path)]
        if not all([checks(given, path, name) for path in linked]):
            return NO
        for path, to in zip(made, made_of(output)):
            if os.path.exists(path):
                os.replace(path, to)
    say(f"stack: a call needs at most {most:,} bytes; with less it ends as STACK_TOO_SMALL")
    return DONE


def files_of(folder: str, name: str) -> List[str]:
    """What `native_of` made of a module of this name: nothing if NAME.c isn't its own."""
    output = output_of(folder, name)
    return [output, f"{output[:-2]}.h", *made_of(output)] if is_ours(output) else []


def output_of(folder: str, name: str) -> str:
    """The C file of a module."""
    return os.path.join(folder, f"{prefix_of(name)}.c")


def native_of(program: str, stem: str, modules: Iterable[str], folder: str, compiler: str) -> int:
    """NAME.c, NAME.h and NAME.o of the image STEM.img with its certificate STEM.json, in a folder. The status
    of blade-native."""
    fault = why_not(program, f"{stem}.img", f"{stem}.json")
    if fault:
        say(f"blade-native: {fault}", sys.stderr)
        return NO
    os.makedirs(folder, exist_ok=True)
    output, given = output_of(folder, os.path.basename(stem)), Given.at(f"{stem}.img", modules)
    write(given, output, YES)
    return makes(given, Building(compiler), output)
