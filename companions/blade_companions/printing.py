"""Words of others as they are printed: names in modules, paths, lines of sources. Nothing in them ends a
line, moves the cursor or turns the text round. Licence: public domain (CC0)."""
from __future__ import annotations

import sys
from typing import Any, Callable, Optional, TextIO

from .nesting import shortened

LONG = 200  # so many letters of a name are told
# What becomes of each line that is said: cargo-blade has its own words for what the tools say of C.
TELLING: Callable[[str], str] = str


def printable(text: str) -> str:
    """The text with all letters spelled that don't print: \\n, \\x1b, \\u202e."""
    return (text if text.isprintable()
            else "".join(letter if letter.isprintable() else spelled(letter) for letter in text))


def spelled(letter: str) -> str:
    return letter.encode("unicode_escape").decode("ascii")


def called(name: str) -> str:
    """A name as it is told: of a very long one without what is nested deepest in its types, or else the
    beginning."""
    name = shortened(name, LONG) if len(name) > LONG else name
    return printable(name if len(name) <= LONG else name[:LONG] + "..")


def all_printable(value: Any) -> Any:
    """Lists and dictionaries with all their texts as they are shown."""
    if isinstance(value, str):
        return printable(value)
    if isinstance(value, (list, tuple)):
        return [all_printable(one) for one in value]
    if isinstance(value, dict):
        return {name: all_printable(one) for name, one in value.items()}
    return value


def say(line: str, file: Optional[TextIO] = None) -> None:
    """Prints one line, whatever the words in it."""
    print(printable(TELLING(line)), file=file or sys.stdout)
