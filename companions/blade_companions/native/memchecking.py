"""Runs a call under memcheck with all secrets undefined, as ctgrind does. Licence: public domain (CC0).

Every byte of a secret memory, each secret global and each secret parameter is undefined as the call begins.
Memcheck reports each branch and each address that depends on them, in this run and in this binary."""
from __future__ import annotations

import shutil
import subprocess
import sys
import tempfile
from typing import List, NamedTuple, Sequence, Tuple

from ..formats.image import Image
from ..formats.reading import Bad, GaveUp, read_file
from ..formats.running import PAGE, Start, read_start
from ..printing import say
from .building import build
from .header import Export
from .making import Given
from .operators import C_TYPES
from .reading import I32
from .translation import exports_of, translate

NAME = "tried"
TOLD = 99  # the status of memcheck if it has something to report
ENDED = "ended: "  # what the driver prints in front of how the call ended
MOST_LINES = 40


class Result(NamedTuple):
    """Bytes that are printed behind the call: a memory, an offset, and how many."""

    memory: int = 0
    offset: int = 0
    size: int = 0


def is_any_secret(image: Image, number: int) -> bool:
    """Whether a call of a function has anything secret."""
    return any((*image.secret_memories, *image.secret_globals, *image.functions[number].secret_params))


def fits(image: Image, number: int, start: Start) -> None:
    """Refuses a start that isn't one of a function."""
    kinds = image.functions[number].types
    if len(start.arguments) != len(kinds):
        raise Bad(f"start: arguments {len(start.arguments)}, and the function has {len(kinds)}")
    if any(value >> (32 if kind == I32 else 64) for kind, value in zip(kinds, start.arguments)):
        raise Bad("start: an argument is too great")
    pages = [memory.pages for memory in image.memories]
    for memory, offset, contents in start.contents:
        if memory >= len(pages) or offset + len(contents) > pages[memory] * PAGE:
            raise Bad(f"start: bytes outside of the memory {memory}")


def preparation(image: Image, number: int, start: Start) -> Tuple[List[str], List[str]]:
    """The statements in front of the call, and its arguments."""
    lines, words = [], ["m"]
    for at, (memory, offset, contents) in enumerate(start.contents):
        lines.append(f"static const uint8_t c{at}[] = {{{', '.join(map(str, contents))}}};")
        lines.append(f"if (!{NAME}_write(m, {memory}, {offset}u, c{at}, sizeof c{at})) return 2;")
    undefined = "VALGRIND_MAKE_MEM_UNDEFINED({}, {});"
    for at, one in enumerate(image.memories):
        if one.is_secret:
            lines.append(undefined.format(f"m->memory[{at}]", f"m->pages[{at}] * PAGE"))
    for at, is_secret in enumerate(image.secret_globals):
        if is_secret:
            lines.append(undefined.format(f"&m->g{at}", f"sizeof m->g{at}"))
    function = image.functions[number]
    for index, (value, kind) in enumerate(zip(start.arguments, function.types)):
        lines.append(f"{C_TYPES[kind]} p{index} = UINT64_C({value});")
        if function.secret_params[index]:
            lines.append(undefined.format(f"&p{index}", f"sizeof p{index}"))
        words.append(f"p{index}")
    for index, kind in enumerate(function.result_types):
        lines.append(f"{C_TYPES[kind]} r{index};")
        words.append(f"&r{index}")
    return lines, words


def driver(image: Image, one: Export, start: Start, result: Result = Result()) -> str:
    """A program that makes the call with undefined secrets, and prints how it ended and the bytes shown."""
    lines, words = preparation(image, one.number, start)
    body = "\n    ".join(lines)
    return f"""#include "{NAME}.c"
#include <stdio.h>
#include <valgrind/memcheck.h>
int main(void)
{{
    if (!RUNNING_ON_VALGRIND) return 2;
    {NAME} *m = {NAME}_new();
    if (!m) return 2;
    {body}
    {NAME}_end end = {NAME}_{one.word}({', '.join(words)});
    uint8_t found[{result.size + 1}];
    {NAME}_read(m, {result.memory}, {result.offset}u, found, {result.size}u);
    VALGRIND_MAKE_MEM_DEFINED(found, sizeof found);
    printf("{ENDED}%s\\n", {NAME}_end_text(end));
    for (int at = 0; at < {result.size}; at++) printf("%02x", found[at]);
    return 0;
}}
"""


def memcheck(
    image: Image,
    one: Export,
    start: Start,
    compiler: str,
    level: str,
    more: Sequence[str] = (),
    result: Result = Result(),
) -> "subprocess.CompletedProcess[str]":
    """Compiles the call, and runs it under memcheck."""
    fits(image, one.number, start)
    translation = translate(image, NAME)
    with tempfile.TemporaryDirectory(prefix="blade-native-") as folder:
        texts = {f"{NAME}.c": translation.source, f"{NAME}.h": translation.header}
        texts["driver.c"] = driver(image, one, start, result)
        for name, text in texts.items():
            with open(f"{folder}/{name}", "w", encoding="ascii") as file:
                file.write(text)
        build(compiler, f"{folder}/driver.c", f"{folder}/driver", level, more)
        words = ["valgrind", "-q", f"--error-exitcode={TOLD}", f"{folder}/driver"]
        return subprocess.run(words, stdin=subprocess.DEVNULL, capture_output=True, text=True, check=False)


def export_named(image: Image, name: str) -> Export:
    """The export of a name, or the only one."""
    found = [one for one in exports_of(image) if name in ("", one.word, one.origin)]
    if len(found) != 1:
        raise Bad(f"EXPORT=START names one of: {', '.join(one.word for one in exports_of(image)[:8])}")
    return found[0]


def tried(of: Given, given: str, compiler: str, level: str) -> bool:
    """Whether memcheck reports nothing on a run from [EXPORT=]START."""
    if not shutil.which("valgrind"):
        raise GaveUp("the test was skipped: valgrind isn't installed")
    name, is_named, path = given.partition("=")
    if not is_named:
        name, path = "", given
    one = export_named(of.image, name)
    if not is_any_secret(of.image, one.number):
        raise GaveUp(f"{one.word} has nothing secret, so the test would show nothing")
    start = read_start(read_file(path, "start").decode("ascii", "replace"))
    done = memcheck(of.image, one, start, compiler, level)
    if done.returncode not in (0, TOLD) or not done.stdout.startswith(ENDED):
        raise GaveUp("the test didn't run: valgrind ended with "
                     f"{done.returncode}: {done.stderr.strip()[-300:]}")
    end = done.stdout[len(ENDED) :].splitlines()[0]
    if done.returncode == TOLD:
        for line in done.stderr.splitlines()[:MOST_LINES]:
            say(line, sys.stderr)
        say(f"{one.word} {end}: a branch or an address depends on a secret")
        return False
    say(f"{one.word} {end}: memcheck saw no branch and no address that depends on a secret, in this run")
    return True
