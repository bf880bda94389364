"""Splits a module, whose memory is declared secret, into two: one with C's memory, and one with a public
memory of what is known of it, the shadow. Public numbers that pass through C's memory (a count, a length, an
offset) are read from the shadow, and the program traps if one of them isn't known there. So code that needs
them for a branch or an address may be constant-time without an edit of its source. Licence: public domain
(CC0).

    blade-split MODULE -o OUT/ [--start [EXPORT=]START ..] [--also [EXPORT=]START ..]
                [--public OFFSET:SIZE ..]

writes OUT/shadow.wasm and OUT/MODULE. The verdict is that of the program, on both:

    blade harden IMAGE CERTIFICATE OUT/shadow.wasm OUT/MODULE

    --start [EXPORT=]START   records a run: by what the runs show the tool chooses which loads read the
                             shadow. The start file is written to OUT/ for the split modules, in which memory
                             0 is the shadow and memory 1 is C's. May be given again, also for other exports
    --also [EXPORT=]START    writes a start file for the split modules, but records no run
    --public OFFSET:SIZE     these bytes of C's memory are public at the start: those of start files, or else
                             the module's own

    blade-split --trap IMAGE EXPORT START OUT/shadow.wasm OUT/MODULE

says by its line of C where a run of the hardened image trapped. An instance that trapped lets no further
call in.

At the start the shadow knows C's constants (segments .rodata), what --public names, and zeros that a recorded
run read before any store; no other data, since a key may be embedded there. The report lists all of this.

It ends with 0; 2 for words that it doesn't know; 3 for files that it can't read, write or split."""
from __future__ import annotations

import argparse
import os
import sys
from typing import NamedTuple, Sequence, Tuple

from .c.lines import Lines
from .ending import ended, is_answered
from .explain import functions_of
from .formats.image import image_at
from .formats.module import FUNCTION, Module, read_module
from .formats.reading import Bad, read_file
from .formats.running import read_start
from .printing import say
from .splitting.making import Split, split
from .splitting.parts import Parts, whole_parts_of
from .splitting.profile import Call, call_of
from .splitting.report import report_of
from .splitting.shadow import NAME
from .splitting.starts import split_start
from .splitting.trapping import trapped
from .statuses import DONE, USAGE
from .writing import write_file


class Named(NamedTuple):
    """A start file: its name, the exported function that it calls, and the call."""

    name: str
    export: str
    call: Call


def words_of(words: Sequence[str]) -> argparse.Namespace:
    parser = argparse.ArgumentParser(
        prog="blade-split", usage="see the head of this file, and " "docs/from-no-to-yes.md", add_help=False
    )
    parser.add_argument("module")
    parser.add_argument("-o", "--out", required=True)
    for flag in ("--start", "--also", "--public"):
        parser.add_argument(flag, action="append", default=[])
    return parser.parse_args(words)


def span(word: str) -> Tuple[int, int]:
    first, colon, size = word.partition(":")
    if not colon or not all(one.isascii() and one.isdigit() and len(one) < 11 for one in (first, size)):
        raise Bad(f"--public {word}: not OFFSET:SIZE")
    return int(first), int(size)


def exported(module: Module, name: str, word: str) -> str:
    """The function that a start file's word names, or the only one that is exported."""
    functions = [told for sort, told in module.exports if sort == FUNCTION]
    if not name and len(functions) != 1:
        raise Bad(f"{word}: EXPORT=START says which function runs: {', '.join(functions[:8])}")
    if name and name not in functions:
        raise Bad(f"{word}: {name} isn't exported")
    return name or functions[0]


def named(parts: Parts, word: str, public: Sequence[Tuple[int, int]]) -> Named:
    name, _, path = word.rpartition("=")
    start = read_start(read_file(path, "start").decode("utf-8", "replace"))
    export = exported(parts.module, name, word)
    call = call_of(parts, parts.module.exports[FUNCTION, export], start, public)
    return Named(os.path.basename(path), export, call)


def write_split(made: Split, name: str, starts: Sequence[Named], out: str) -> None:
    """Writes the two modules and the start files."""
    os.makedirs(out, exist_ok=True)
    write_file(os.path.join(out, f"{NAME}.wasm"), made.shadow)
    write_file(os.path.join(out, f"{name}.wasm"), made.made)
    for one in starts:
        write_file(os.path.join(out, one.name), split_start(one.call, made.base).encode())


def refuse_same(out: str, read: Sequence[str], made: Sequence[str]) -> None:
    """Refuses to overwrite a file that is read."""
    kept = {os.path.realpath(path) for path in read}
    for name in made:
        if os.path.realpath(os.path.join(out, name)) in kept:
            raise Bad(f"{os.path.join(out, name)} would be overwritten: give another folder by -o")
    if len(set(made)) != len(made):
        raise Bad("two start files have one name")


def tell_trap(words: Sequence[str]) -> int:
    if len(words) < 4:
        print(__doc__, file=sys.stderr)
        return USAGE
    path, export, start, *modules = words
    image = image_at(path)
    functions, differ = functions_of(image, modules)
    if differ:
        raise Bad(f"{path} wasn't made of these modules: {differ[0]}")
    if export not in image.entries:
        raise Bad(f"{export} isn't exported")
    given = read_start(read_file(start, "start").decode("utf-8", "replace"))
    say(trapped(image, Lines(functions), export, given))
    return DONE


def run(words: Sequence[str]) -> int:
    if is_answered("blade-split", words, __doc__ or ""):
        return DONE
    if not words:
        print(__doc__, file=sys.stderr)
        return USAGE
    if words[0] == "--trap":
        return tell_trap(words[1:])
    asked = words_of(words)
    module = read_module(asked.module)
    parts, public = whole_parts_of(module), [span(word) for word in asked.public]
    recorded = [named(parts, word, public) for word in asked.start]
    others = [named(parts, word, public) for word in asked.also]
    files = [word.rpartition("=")[2] for word in asked.start + asked.also]
    refuse_same(
        asked.out,
        [asked.module, *files],
        [f"{NAME}.wasm", f"{module.name}.wasm", *(one.name for one in recorded + others)],
    )
    made = split(module, [one.call for one in recorded], public, say)
    write_split(made, module.name, recorded + others, asked.out)
    for line in report_of(made, bool(recorded)):
        say(line)
    return DONE


def main(words: Sequence[str]) -> int:
    return ended("blade-split", lambda: run(words))


if __name__ == "__main__":
    sys.exit(main(sys.argv[1:]))
