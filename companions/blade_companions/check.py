"""Checks an image and its certificate for scripts: status 0 only if `blade verify` answers all four of its
questions by yes. Licence: public domain (CC0).

    blade-check IMAGE CERTIFICATE [--blade PROGRAM]

`blade verify` ends with 0 although its last line may be `safe no`, since its status is about the certificate
and the protects. This tool prints what `verify` printed, and says which answers are no.

It ends with 0 if the certificate, the protects, the labels and both together are right; 1 if an answer is no;
2 for a wrong call; 3 for a file that can't be read; 4 if there is no blade, or if it doesn't answer; any
other number is that of `blade verify` (12: the image is no image, 13: the certificate is none)."""
from __future__ import annotations

import subprocess
import sys
from typing import List, Optional, Sequence, Tuple

from .ending import ended, is_answered
from .formats.reading import GaveUp
from .printing import say
from .statuses import GAVE_UP, NO, USAGE, YES
from .witnesses.program import program_of

# What verify answers, in its order, and what a no means.
ANSWERS = {
    "certificate": "the certificate doesn't show that no cheaper set of protects is safe",
    "stable": "a value that was loaded under a wrong guess can reach a branch, an address or a division",
    "constant-time": "a declared secret can reach a branch, an address or a division",
    "safe": "the image isn't safe",
}


def operands(words: Sequence[str]) -> Optional[Tuple[List[str], Optional[str]]]:
    """The image and the certificate, and the program; None if the words aren't of this kind."""
    rest, program = list(words), None
    if "--blade" in rest[:-1]:
        at = rest.index("--blade")
        program = rest[at + 1]
        del rest[at : at + 2]
    if len(rest) != 2 or any(word.startswith("-") for word in rest):
        return None
    return rest, program


def answers(text: str) -> List[Tuple[str, bool]]:
    """The answers of verify, in order, each with whether it is yes."""
    lines = [line.split(" ") for line in text.splitlines()]
    if ([line[0] for line in lines] != list(ANSWERS)
        or any(line[1:2] not in (["yes"], ["no"]) for line in lines)):
        raise GaveUp("blade verify doesn't answer its four questions")
    return [(line[0], line[1:] == ["yes"]) for line in lines]


def refused_answers(program: Optional[str], image: str, certificate: str) -> List[str]:
    """The questions of verify that are answered by no; all of them if it refuses the files. Nothing is
    printed."""
    words = [program_of(program), "verify", image, certificate]
    done = subprocess.run(words, stdin=subprocess.DEVNULL, stdout=subprocess.PIPE, text=True, check=False)
    if done.returncode not in (YES, NO):
        return [done.stdout.strip() or f"status {done.returncode}"]
    no = [name for name, is_yes in answers(done.stdout) if not is_yes]
    return no or ([] if done.returncode == YES else ["status 1"])


def run(words: Sequence[str]) -> int:
    if is_answered("blade-check", words, __doc__):
        return YES
    given = operands(words)
    if given is None:
        print(__doc__, file=sys.stderr)
        return USAGE
    files, program = given
    done = subprocess.run([program_of(program), "verify", *files], stdin=subprocess.DEVNULL,
                          stdout=subprocess.PIPE, text=True, check=False)
    sys.stdout.write(done.stdout)
    sys.stdout.flush()
    if done.returncode not in (YES, NO):
        return done.returncode if done.returncode > 0 else GAVE_UP
    no = [name for name, is_yes in answers(done.stdout) if not is_yes]
    for name in no:
        say(f"blade-check: no: {name}: {ANSWERS[name]}", sys.stderr)
    return NO if no or done.returncode != YES else YES


def main(words: Sequence[str]) -> int:
    # If nobody reads on, a no still isn't a yes.
    return ended("blade-check", lambda: run(words), GAVE_UP)


if __name__ == "__main__":
    sys.exit(main(sys.argv[1:]))
