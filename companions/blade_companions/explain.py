"""Tells by lines of C why an image isn't constant-time, and what its protects are for. The program stays the
judge: give its report by --report, and what is told is compared with it. Licence: public domain (CC0).

    blade-explain IMAGE [MODULE ..] [--certificate FILE] [--report FILE] [--public POS,..] [--causes N]
    [--ways N] [--page FILE] blade-explain IMAGE MODULE .. --at POS,..     which instructions stand at
    positions blade-explain MODULE .. --list                all instructions of modules, with positions

It ends with 0; 1 where the program's report or the image's commands differ from what is told here; 2 for
words that it doesn't know; 3 for files that it can't read or write; 4 if there is no blade for --witness; 5
if a module was changed after it was labelled."""
from __future__ import annotations

import argparse
import os
import sys
from typing import List, Optional, Sequence, Tuple

from .verdict import compare, diagnostics, page, sarif, text
from .formats import metadata
from .verdict.causes import Cause, add_ends, causes_of
from .ending import ended, version_line
from .verdict.evidence import RUN, Evidence, evidence_of_run, read_witness, secret_of
from .verdict.flow import Findings, find
from .verdict.guesses import Guesser, settle
from .formats.image import Image, image_at
from .c.lines import Lines
from .formats.lowering import LinkedFunction, lower
from .formats.certificate import Protect, protects_of, read_certificate
from .formats.labels import is_labelled
from .formats.reading import read_file, read_text
from .c.declarations import declared
from .c.sources import Sources
from .formats.module import read_module
from .printing import say
from .programs import version
from .statuses import DONE, NO
from .writing import write_file

DIFFERS = NO
JUDGED = 400  # so many causes of a page get a likely reason
WORK = 4_000_000  # so many variables are gone through for them


def positions(word: str) -> List[int]:
    return [int(part) for part in word.split(",")]


def count(word: str) -> int:
    if not (word.isascii() and word.isdigit() and len(word) < 10):
        raise ValueError
    return int(word)


def pair(word: str) -> Tuple[str, str]:
    """OLD=NEW, as -ffile-prefix-map has it: the last = parts them."""
    old, equals, new = word.rpartition("=")
    if not old or not equals:
        raise ValueError
    return old, new


def words_of(words: Sequence[str]) -> argparse.Namespace:
    parser = argparse.ArgumentParser(
        prog="blade-explain",
        description="Tells by lines of C why an image isn't constant-time, and what its protects are for.",
        epilog="It ends with 0; 1 where the program's report or the image's commands differ from what is "
        "told here; 2 for words that it doesn't know; "
               "3 for files that it can't read or write; 4 if there is no blade for --witness; "
               "5 if a module was changed after it was labelled.")
    parser.add_argument("--version", action="version", version=version_line("blade-explain"))
    parser.add_argument("image", metavar="IMAGE")
    parser.add_argument("modules", metavar="MODULE", nargs="*",
                        help="the modules of the image in harden's order, best linked with -g")
    parser.add_argument("--certificate", metavar="FILE",
                        help="the image's certificate, for the reasons of protects")
    parser.add_argument("--report", metavar="FILE",
                        help="what harden or verify printed, to compare with (- is the standard input)")
    parser.add_argument("--public", metavar="POS,..", type=positions, default=[],
                        help="loads by position, as if what they load were public")
    parser.add_argument("--source", metavar="FOLDER", action="append",
                        help="lines are shown of sources below it alone, or of the file of that name (.)")
    parser.add_argument("--source-map", metavar="OLD=NEW", type=pair, action="append", default=[],
                        help="a source's path that begins with OLD begins with NEW here")
    parser.add_argument("--start", metavar=("EXPORT", "START"), nargs=2,
                        help="tells what one run shows of each cause, in place of a guess")
    parser.add_argument("--secret", metavar="M:OFFSET:SIZE", action="append", default=[],
                        help="with --start: these bytes change, instead of START's")
    parser.add_argument("--keep", metavar="M:OFFSET:SIZE", action="append", default=[],
                        help="with --start: these bytes don't")
    parser.add_argument("--run", metavar="N", type=count, default=RUN,
                        help="with --start: so many commands are followed (1,000,000)")
    parser.add_argument("--witness", metavar="PREFIX",
                        help="judges what blade-witness wrote again, and marks the place")
    parser.add_argument("--blade", metavar="PROGRAM", help="the program, for --witness (BLADE, else the one "
                        "that is built here, else blade)")
    parser.add_argument("--causes", metavar="N", type=count, default=3,
                        help="so many causes are told in detail (3)")
    parser.add_argument("--ways", metavar="N", type=count, default=1,
                        help="prints N violations of each cause (1)")
    parser.add_argument("--page", metavar="FILE", help="writes a page for the browser, too")
    parser.add_argument("--lines", action="store_true",
                        help="tells the refused places in the form of compilers, instead of the text")
    parser.add_argument("--errors", action="store_true",
                        help="calls them errors, as blade-cc does, and not warnings; in SARIF, too")
    parser.add_argument("--limit", metavar="N", type=count, default=20, help="so many of them (20)")
    parser.add_argument("--all", action="store_true", help="with --lines: those in libraries, too, which are "
                        "one line each otherwise")
    parser.add_argument("--json", metavar="FILE",
                        help="writes the refused places and the protects for scripts, too")
    parser.add_argument("--sarif", metavar="FILE",
                        help="writes them as SARIF 2.1.0, for code scanning and editors, too")
    parser.add_argument("--root", metavar="FOLDER", default=".", help="SARIF tells files from there on (.)")
    parser.add_argument("--annotate", metavar="FOLDER", help="writes copies of the modules there that say "
                        "where the protects stand, for runtimes")
    parser.add_argument("--at", metavar="POS,..", type=positions,
                        help="tells these positions alone: instruction, place, commands")
    parser.add_argument("--list", action="store_true", help="lists all instructions with their positions and "
                        "commands; IMAGE may be a module then")
    return parser.parse_args(list(words))


def listing(functions: Sequence[LinkedFunction], asked: Optional[Sequence[int]]) -> None:
    """Instructions with their positions, their places in the file and in the code section, and their
    commands."""
    wanted = set(asked or ())
    for number, linked in enumerate(functions):
        rows = [row for row in linked.rows if asked is None
                or wanted & set(range(row.position, row.position + len(row.kinds)))]
        if rows:
            say(f"function {number} {linked.name}")
        for row in rows:
            first = row.position if row.kinds else "-"
            say(f"{first:>7} {row.place:#07x} {row.place - linked.module.code:#07x}  {row.text:<20} "
                f"{' '.join(row.kinds)}".rstrip())


def functions_of(image: Image, paths: Sequence[str]) -> Tuple[List[LinkedFunction], List[str]]:
    """The functions of modules, where they are those of the image, and else why not."""
    if not paths:
        return [], []
    modules = [read_module(path) for path in paths]
    for module in modules:
        declared(module)  # too many lines are refused before anything is made of the module
    functions = lower(modules)
    differ = compare.positions_differ(image, functions)
    return ([] if differ else functions), differ


def evidence_of(words: argparse.Namespace, found: Findings, causes: Sequence[Cause]) -> Optional[Evidence]:
    """What a run and a witness show, where words name them."""
    if not words.start and not words.witness:
        return None
    evidence = Evidence(found, list(causes))
    if words.start:
        export, path = words.start
        evidence = evidence_of_run(found, causes, secret_of(found.image, export, path, words.secret,
                                                            words.keep), export, words.run)
    if words.witness:
        evidence.witness = read_witness(found.image, words.image, words.witness, words.blade)
    evidence.mark_causes()
    return evidence


def judged(found: Findings, lines: Lines, causes: List[Cause], ways: int) -> None:
    """Gives causes their ends and a likely reason, and has the lines looked up that are told of them."""
    for cause in causes:
        add_ends(found, cause)
    lines.ask({end.position for cause in causes for end in cause.reached})
    told = [cause.way(same[0]) for cause in causes for same in text.by_line(cause, lines)[:ways]]
    lines.ask({site for way in told for site in way.sites})
    guesser = Guesser(found, lines)
    for cause in causes:
        cause.likely = guesser.likely(cause)
    settle(causes, lines)


def detailed(found: Findings, words: argparse.Namespace) -> int:
    """How many causes are told in detail: on a page as many as a few million steps allow."""
    return max(words.causes, min(JUDGED, WORK // (len(found.core) + 1))) if words.page else words.causes


def explain(words: argparse.Namespace) -> int:
    image = image_at(words.image)
    functions, differ = functions_of(image, words.modules)
    if differ:
        differ = [f"{one}: other modules, or other options of wasm-opt? There are no lines now"
                  for one in differ]
    lines = Lines(functions, Sources(words.source or ["."], words.source_map))
    paths = read_certificate(read_file(words.certificate, "certificate")) if words.certificate else None
    protects = protects_of(image, paths)
    found = find(image)
    differ += compare.report_differs(found, protects,
                                     read_text(words.report, "report") if words.report else None)
    if words.public:
        found = find(image, words.public)
    causes = causes_of(found, lines)
    judged(found, lines, causes[: detailed(found, words)], words.ways)
    evidence = evidence_of(words, found, causes)
    lines.ask([site for protect in protects for site in [protect.position]
               + ([protect.reason[0][0], protect.reason[1]] if protect.reason else [])])
    told = write_all(words, found, causes, protects, lines, evidence)
    if not words.lines:
        told += text.report(found, causes, protects, lines, words.public, words.causes, words.ways, evidence)
    for line in [f"differs: {one}" for one in differ] + notes(words, functions, lines) + told:
        say(line)
    return DIFFERS if differ else DONE


def notes(words: argparse.Namespace, functions: Sequence[LinkedFunction], lines: Lines) -> List[str]:
    """Why less is told than could be."""
    modules = list({one.module.path: one.module for one in functions}.values())
    told = [f"warning: {module.path}: what its source declares secret by blade.h isn't in its labels: "
            "blade-label puts it there"
            for module in modules if declared(module) and not is_labelled(module)]
    if not words.modules:
        told.append("note: there are no names and lines without the modules: give them "
                    "in the order of harden")
    elif modules and not any(module.has_lines for module in modules):
        told.append(f"note: there are no lines of C in {modules[-1].path}: compile with -g, link without -s, "
                    "and let wasm-opt keep them (-g)")
    elif modules and lines.tool is None:
        told.append("note: there are no lines of C without llvm-symbolizer: apt-get install llvm")
    outside = sorted(lines.sources.outside)
    if outside:
        told.append(f"note: lines of {outside[0]}{f' and {len(outside) - 1} others' if outside[1:] else ''} "
                    "aren't shown: no such source is below "
                    f"{', '.join(words.source or ['.'])} (--source FOLDER, --source-map OLD=NEW)")
    return told


def write_all(words: argparse.Namespace, found: Findings, causes: List[Cause], protects: Sequence[Protect],
              lines: Lines, evidence: Optional[Evidence]) -> List[str]:
    """Writes what words ask for, and gives what is to be said of it."""
    said = annotate(words, found.image, lines) if words.annotate else []
    if words.lines or words.json or words.sarif:
        listed = diagnostics.told_of(found, lines, causes, protects)
        listed.level = diagnostics.ERROR if words.errors else diagnostics.WARNING
        if evidence:
            evidence.mark_problems(listed, lines)
        said += tell(words, listed, lines)
    if words.page:
        write_file(words.page, page.page_of(words.image, found, causes, protects, lines, evidence).encode())
    return said


def tell(words: argparse.Namespace, told: diagnostics.Told, lines: Lines) -> List[str]:
    """The refused places, as words ask for."""
    if words.json:
        write_file(words.json, sarif.as_json(told, words.image, words.modules).encode())
    if words.sarif:
        write_file(words.sarif, sarif.as_sarif(told, words.image, words.modules, lines,
                                               os.path.abspath(words.root), version()).encode())
    return list(diagnostics.as_text(told, words.image, words.limit, lines, words.all)) if words.lines else []


def annotate(words: argparse.Namespace, image: Image, lines: Lines) -> List[str]:
    """Copies of the modules with the places of protects, and what is to be said of them."""
    said: List[str] = []
    os.makedirs(words.annotate, exist_ok=True)
    for path, one in metadata.annotations(image, lines).items():
        write_file(os.path.join(words.annotate, os.path.basename(path)),
                   metadata.annotated(read_module(path), one))
        said += [f"differs: the protect at {position} ({instruction}) is of no value of {path}" for position,
                 instruction in one.lost]
    return said + [f"annotated: {number} {what}" for what,
                   number in sorted(metadata.tally(image, lines).items())]


def run(words: argparse.Namespace) -> int:
    if words.list or words.at is not None:
        is_module = words.image.endswith(".wasm")
        paths = [words.image] * is_module + words.modules
        functions = lower([read_module(path) for path in paths], True)
        differ = [] if is_module else compare.positions_differ(image_at(words.image), functions)
        for one in differ:
            say(f"differs: {one}")
        listing(functions, None if words.list else words.at)
        return DIFFERS if differ else DONE
    return explain(words)


def main(words: Sequence[str]) -> int:
    return ended("blade-explain", lambda: run(words_of(words)))


if __name__ == "__main__":
    sys.exit(main(sys.argv[1:]))
