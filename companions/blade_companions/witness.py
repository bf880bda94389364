"""Looks for two starts that agree in public and a list of directives that tells them apart, and has the
program judge it: `blade twin`. What is witnessed is a leak; nothing found says nothing. Licence: public
domain (CC0).

    blade-witness IMAGE EXPORT START [MODULE ..] [--secret M:OFFSET:SIZE] [--keep M:OFFSET:SIZE] [--public]
    [--forward] [--more N] [--run N]
                  [--out PREFIX] [--seconds N] [--seed N] [--blade PROGRAM]

Status: 0 searched, and nothing found; 1 a leak is witnessed, by `twin` or `forward`, or by whole runs: a
secret in a public memory or in a demanded result, or another way; 2 the words aren't right; 3 something can't
be read, or the program refuses it; 4 gave up before anything was searched, and the message begins with
that."""
from __future__ import annotations

import argparse
import random
import signal
import sys
import tempfile
from itertools import islice
from typing import Dict, Iterable, Iterator, List, Optional, Sequence, Tuple

from .witnesses import telling
from .witnesses.attempts import Sought
from .witnesses.directives import last_of
from .ending import ended, version_line
from .verdict.flow import find
from .formats.image import read_image
from .c.lines import Lines
from .explain import count, functions_of, pair
from .witnesses.pairs import flipped
from .witnesses.program import Program, program_of
from .formats.reading import GaveUp, read_file
from .witnesses.search import Searched, search
from .verdict.evidence import Evidence, evidence_of_run, function_of, kind_of, secret_of
from .witnesses.shrinking import Found, Shrinking
from .c.sources import Sources
from .printing import say
from .statuses import GAVE_UP, NO, YES
from .writing import write_file

NOTHING, WITNESSED = YES, NO
RUN = 150_000  # so many commands are followed first


def words_of(words: Sequence[str]) -> argparse.Namespace:
    parser = argparse.ArgumentParser(prog="blade-witness", description="Looks for two starts that agree in "
                                     "public and are told apart.")
    parser.add_argument("--version", action="version", version=version_line("blade-witness"))
    parser.add_argument("image", metavar="IMAGE")
    parser.add_argument("export", metavar="EXPORT")
    parser.add_argument("start", metavar="START", help="its public inputs stay; secret parameters and what "
                        "it gives of secret memories change")
    parser.add_argument("modules", metavar="MODULE", nargs="*",
                        help="the modules of the image in harden's order, for lines of C")
    parser.add_argument("--secret", metavar="M:OFFSET:SIZE", action="append", default=[],
                        help="these bytes change, of secret memories, instead of START's")
    parser.add_argument("--keep", metavar="M:OFFSET:SIZE", action="append", default=[],
                        help="these bytes stay: public numbers in a secret memory")
    parser.add_argument("--public", action="store_true", help="wrong guesses are tried with other public "
                        "arguments, too, the same in both starts")
    parser.add_argument("--forward", action="store_true", help="on the machine that forwards stores")
    parser.add_argument("--more", metavar="N", type=count, default=0,
                        help="where a leak is found, so many bytes are changed one by one, for other places")
    parser.add_argument("--run", metavar="N", type=count, default=RUN,
                        help="so many commands of START's run are followed first, to aim (150,000)")
    parser.add_argument("--source", metavar="FOLDER", action="append",
                        help="lines are shown of sources below it alone, or of the file of that name (.)")
    parser.add_argument("--source-map", metavar="OLD=NEW", type=pair, action="append", default=[],
                        help="a source's path that begins with OLD begins with NEW here")
    parser.add_argument("--out", metavar="PREFIX", default="witness",
                        help="writes PREFIX.trace, PREFIX.a.start, PREFIX.b.start and PREFIX.again (witness)")
    parser.add_argument("--seconds", metavar="N", type=float, default=60.0,
                        help="ends the search, without another answer (60)")
    parser.add_argument("--seed", metavar="N", type=count, default=1,
                        help="the same one, the same answer (1)")
    parser.add_argument("--blade", metavar="PROGRAM",
                        help="the program (BLADE, else the one that is built here, else blade)")
    return parser.parse_args(list(words))


def say_all(lines: Iterable[str]) -> None:
    for line in lines:
        say(line)


def sought_by(words: argparse.Namespace, folder: str) -> Tuple[Sought, Evidence]:
    """What words ask to look through, and what the run from START shows."""
    image = read_image(read_file(words.image, "image"))
    secret = secret_of(image, words.export, words.start, words.secret, words.keep)
    if not secret.first:
        raise GaveUp(f"{telling.UNSEARCHED}: nothing may change: no parameter of this function is secret, "
                     "and START gives no bytes of a secret memory (or --secret M:OFFSET:SIZE)")
    program = Program(program_of(words.blade), words.image, words.export,
                      "forward" if words.forward else "twin", folder)
    findings = find(image)
    evidence = evidence_of_run(findings, (), secret, words.export, words.run)
    return Sought(program, image, function_of(image, words.export), secret, findings, evidence.meeting,
                  words.seed, words.public), evidence


def write_starts(sought: Sought, prefix: str, first: bytes, second: bytes,
                 arguments: Optional[Sequence[int]] = None) -> None:
    """The two start files."""
    write_file(f"{prefix}.a.start", sought.text(first, arguments).encode())
    write_file(f"{prefix}.b.start", sought.text(second, arguments).encode())


def position_of(sought: Sought, trace: Sequence[str], common: Sequence[str]) -> int:
    return last_of(sought.image, sought.function, trace, common)[0]


def other_places(sought: Sought, most: int) -> Dict[int, Tuple[str, int]]:
    """Other places where single changed bytes are told apart on the trace of the start's own secret: what was
    changed, and the directive."""
    first, chance = sought.secret.first, random.Random(sought.seed)
    told: Dict[int, Tuple[str, int]] = {}
    tries: List[int] = []
    covered = 0
    for mark in sought.meeting.first.values():
        new = mark & ~covered
        covered |= mark
        tries += islice(sought.meeting.places(new), 2)
    tries += range(0, len(first), max(1, len(first) // most))
    with open(sought.given, encoding="ascii") as file:
        trace = file.read().splitlines()
    for place in list(dict.fromkeys(tries))[:most]:
        other = flipped(first, 8 * place + chance.randrange(8))
        difference = sought.program.compared(sought.given, sought.text(first), sought.text(other))
        if difference is not None:
            at = position_of(sought, trace[: difference.directive], difference.common)
            told.setdefault(at, (sought.secret.name(place), difference.directive))
    return told


def more_text(sought: Sought, found: Found, most: int, lines: Lines) -> Iterator[str]:
    """The other places, as text."""
    told = other_places(sought, most)
    told.pop(position_of(sought, found.trace, found.difference.common), None)
    for at, (name, directive) in told.items():
        yield (f"  also by {name}: {kind_of(sought.image, at)}: {telling.where(lines, at)}, "
               f"directive {directive}")


def tell_found(sought: Sought, searched: Searched, words: argparse.Namespace, lines: Lines) -> int:
    """Makes it small, writes it and tells it."""
    found = Shrinking(sought, *searched.found).go()
    position = position_of(sought, found.trace, found.difference.common)
    again = telling.again(sought.program.judge, words.image, words.export, words.out)
    write_file(f"{words.out}.trace", ("\n".join(found.trace) + "\n").encode())
    write_starts(sought, words.out, found.first, found.second, found.arguments)
    write_file(f"{words.out}.again", f"{again}\n".encode())
    say_all([*telling.witnessed(sought, found, position, lines), f"again: {again}"])
    if words.more:
        say_all(more_text(sought, found, words.more, lines))
    return WITNESSED


def tell_whole_runs(sought: Sought, searched: Searched, words: argparse.Namespace) -> int:
    """Writes and tells what whole runs show. There is no trace then."""
    attempt, tried = searched.whole_runs
    write_starts(sought, words.out, attempt.first, tried.other)
    again = telling.runs_again(words.image, words.export, words.out, tried.differs.startswith("position"))
    write_file(f"{words.out}.again", f"{again}\n".encode())
    say(f"  but whole runs of two secrets differ, though no observer was shown to see it: {tried.differs}")
    say_all(f"  secret changed: {change}"
            for change in telling.what_differs(sought.secret, attempt.first, tried.other))
    say(f"again: {again}")
    return WITNESSED


def run(words: argparse.Namespace, folder: str) -> int:
    """The status."""
    sought, evidence = sought_by(words, folder)
    functions, differ = functions_of(sought.image, words.modules)
    say_all(f"differs: {one}: there are no lines now" for one in differ)
    lines = Lines(functions, Sources(words.source or ["."], words.source_map))
    searched = search(sought, words.seconds)
    if searched.found:
        return tell_found(sought, searched, words, lines)
    say_all(telling.nothing(searched.done, evidence, words.seconds, lines))
    if searched.whole_runs:
        return tell_whole_runs(sought, searched, words)
    return NOTHING if searched.done.is_begun else GAVE_UP


def started(words: Sequence[str]) -> int:
    with tempfile.TemporaryDirectory() as folder:
        return run(words_of(words), folder)


def main(words: Sequence[str]) -> int:
    # So that what it began ends with it.
    signal.signal(signal.SIGTERM, lambda *_: sys.exit(128 + signal.SIGTERM))
    return ended("blade-witness", lambda: started(words))


if __name__ == "__main__":
    sys.exit(main(sys.argv[1:]))
