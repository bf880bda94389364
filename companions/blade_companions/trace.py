"""Writes a trace of a run for `blade spec` and `blade twin`: in the order of the program, but for each load
and store, which is executed ahead of its bounds test. Or counts what a run executes. It runs the image apart
from the program. Licence: public domain (CC0).

    blade-trace IMAGE EXPORT START [--most N]             the directives, of at most so many commands
    (300,000) blade-trace IMAGE EXPORT START --count [--most N]     how many commands and protects are
    executed, of at most so many commands (30,000,000)

`twin` on such a trace compares two secrets along this one run. For all runs there is `constant-time yes`.

It ends with 0; 2 for words that it doesn't know; 3 for files that it can't read; 4 if what is counted hadn't
ended after so many commands, which is said as `spent N`."""
import sys
from typing import List, Optional, Sequence, Tuple

from .ending import ended, is_answered
from .formats.image import image_at
from .formats.reading import Bad, read_file
from .formats.running import Run, counts, read_start, traced
from .printing import say
from .statuses import DONE, GAVE_UP, USAGE

TRACED, COUNTED = 300_000, 30_000_000
LINES = 1_000_000


def asked(words: Sequence[str]) -> Optional[Tuple[List[str], bool, int]]:
    """The three words, whether to count, and the most commands; None where the words aren't of this kind."""
    words, counting, most = list(words), "--count" in words, None
    if counting:
        words.remove("--count")
    if "--most" in words[:-1]:
        at = words.index("--most")
        most = words[at + 1]
        del words[at : at + 2]
    if (len(words) != 3 or any(word.startswith("--") for word in words) or most is not None
        and not (most.isascii() and most.isdigit() and len(most) < 16)):
        return None
    return words, counting, int(most) if most is not None else COUNTED if counting else TRACED


def run(words: Sequence[str]) -> int:
    if is_answered("blade-trace", words, __doc__):
        return DONE
    given = asked(words)
    if given is None:
        print(__doc__, file=sys.stderr)
        return USAGE
    (path, export, start), counting, most = given
    image = image_at(path)
    if export not in image.entries:
        raise Bad(f"{export} isn't exported")
    begun = Run(image, image.entries[export],
                read_start(read_file(start, "start").decode("utf-8", "replace")))
    if counting:
        for name, number in sorted(counts(begun, most).items()):
            say(f"{name} {number}")
        if not begun.left:
            say(f"spent {most}")
        return DONE if begun.left else GAVE_UP
    for number, line in enumerate(traced(begun, most)):
        if number == LINES:
            break
        print(line)
    return DONE


def main(words: Sequence[str]) -> int:
    return ended("blade-trace", lambda: run(words))


if __name__ == "__main__":
    sys.exit(main(sys.argv[1:]))
