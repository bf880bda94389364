"""Makes the stub over which the clients of a library are hardened apart, or checks one with its clients.
Licence: public domain (CC0).

    blade-stub LIBRARY.wasm .. IFACE OUT.wasm ..
    blade-stub --check STUB.wasm .. IFACE LIBRARY.wasm .. [-- CLIENT.wasm ..]

IFACE is the interface file; modules are the words that end with .wasm. A stub has the name of the library's
module that it stands for, and for each function that the interface names there one of its own, of the
library's type; it exports nothing else. No two are equal, and wasm-opt merges none of them.

--check tells in a line each what keeps `join` from making what the linked modules compute: a name of the
interface that the stub or the library hasn't, or with other types; a function of the stub that the interface
doesn't name; two names that stand for one function of the stub and two of the library; what a client imports
of the stub but functions of the interface; a function of the stub that a client exports again. Where it says
nothing of these, and `part` and `join` end with 0, the joined image ends as the linked modules do
(docs/PROMISES.md). Modules stand in the order in which `blade` is given them.

It ends with 0; 1 where the interface and the library don't fit, and nothing is written, or where --check
tells of something; 2 for words that it doesn't know; 3 for files that it can't read or write."""
import os
import sys
from typing import List, Optional, Sequence, Tuple

from .ending import ended, is_answered
from .formats.interface import Linked, faults, read_interface, stub_of, unfit
from .formats.module import name_of_file, read_module
from .printing import say
from .statuses import DONE, NO, USAGE
from .writing import write_file


def parted(words: List[str]) -> Optional[Tuple[List[str], str, List[str]]]:
    """The modules in front of the interface, the interface, and those behind it; None where the words aren't
    of this kind."""
    others = [at for at, word in enumerate(words) if not word.endswith(".wasm")]
    if len(others) != 1 or any(word.startswith("-") for word in words):
        return None
    before, behind = words[: others[0]], words[others[0] + 1 :]
    return (before, words[others[0]], behind) if before and behind else None


def make(libraries: Sequence[str], interface: str, stubs: Sequence[str]) -> int:
    """Writes the stubs, or tells why there are none."""
    lines, library = read_interface(interface), Linked([read_module(path) for path in libraries])
    names = [name_of_file(path) for path in stubs]
    told = unfit(lines, library)
    told += [f"the library has no module {name}" for name in names if name not in library.places]
    told += [f"{line.name} is of no module that is made here"
             for line in lines if line.parts[0] in library.places and line.parts[0] not in names]
    for one in told:
        say(f"blade-stub: {one}", sys.stderr)
    if told:
        return NO
    made = [stub_of(name, lines, library) for name in names]
    for path, data in zip(stubs, made):
        write_file(path, data)
    say(f"stub functions {len(lines)}")
    return DONE


def check(stubs: Sequence[str], interface: str, libraries: Sequence[str], users: Sequence[str]) -> int:
    lines = read_interface(interface)
    told = faults(lines, *([read_module(path) for path in paths] for paths in (stubs, libraries, users)))
    for one in told:
        say(one)
    if not told:
        say(f"kept functions {len(lines)} clients {len(users)}")
    return NO if told else DONE


def is_over(paths: Sequence[str], others: Sequence[str]) -> bool:
    """Whether a file that is written is one that is read, or two are one."""
    real = [os.path.realpath(path) for path in paths]
    return len(set(real)) < len(real) or not set(real).isdisjoint(os.path.realpath(path) for path in others)


def run(words: List[str]) -> int:
    if is_answered("blade-stub", words, __doc__):
        return DONE
    checking = words[:1] == ["--check"]
    end = words.index("--") if checking and "--" in words else len(words)
    given, users = parted(words[checking:end]), words[end + 1 :]
    if (given is None or any(not word.endswith(".wasm") for word in users) or not checking
        and is_over(given[2], [*given[0], given[1]])):
        print(__doc__, file=sys.stderr)
        return USAGE
    return check(*given, users) if checking else make(*given)


def main(words: Sequence[str]) -> int:
    return ended("blade-stub", lambda: run(list(words)))


if __name__ == "__main__":
    sys.exit(main(sys.argv[1:]))
