"""Where functions that the linker doesn't find are defined: in a file that was given, behind an #if, or in a
file next to those. The files are searched as text. Licence: public domain (CC0)."""
from __future__ import annotations

import os
import re
from typing import Dict, Iterator, List, NamedTuple, Sequence

from .paths import shown
from .sources import contents_of, is_plain

SOURCES = (".c", ".cc", ".cpp", ".cxx", ".C")
FILES = 2_000  # the most that are searched
FEW = 3  # so many files that define a name are told
WITH_FOLDER = ("-I", "-iquote", "-isystem", "-idirafter")
INCLUDED = re.compile(r'^[ \t]*#[ \t]*include[ \t]*["<]([^">\n]+)[">]', re.M)
COMMENT = re.compile(r"/\*.*?\*/|//[^\n]*", re.S)


class Place(NamedTuple):
    """A file that defines a name, the line, and whether the compiler was given the file."""

    path: str
    line: int
    is_given: bool


def folders_of(flags: Sequence[str]) -> List[str]:
    """The folders of headers that words of the compiler name."""
    found = []
    for word, behind in zip(flags, [*flags[1:], ""]):
        name = next((one for one in WITH_FOLDER if word.startswith(one)), "")
        if name:
            found.append(word[len(name) :] or behind)
    return [one for one in dict.fromkeys(found) if os.path.isdir(one)]


def text_of(path: str) -> str:
    """A file's text; comments are blank."""
    text = contents_of(path).decode("utf-8", "replace")
    return COMMENT.sub(lambda match: "\n" * match[0].count("\n"), text)


def included(path: str, text: str, folders: Sequence[str]) -> Iterator[str]:
    """The files that a text includes, as far as they are found."""
    for name in INCLUDED.findall(text):
        tried = [os.path.normpath(os.path.join(one, name)) for one in [os.path.dirname(path), *folders]]
        yield from [one for one in tried if is_plain(one)][:1]


def given(sources: Sequence[str], folders: Sequence[str]) -> Dict[str, str]:
    """The texts of sources and of the files that they include, whatever the #if around it."""
    texts: Dict[str, str] = {}
    work = [os.path.normpath(one) for one in sources]
    while work and len(texts) < FILES:
        path = work.pop(0)
        if path not in texts and is_plain(path):
            texts[path] = text_of(path)
            work += included(path, texts[path], folders)
    return texts


def beside(texts: Dict[str, str], folders: Sequence[str]) -> Iterator[str]:
    """Other sources in the folders of headers and in those of the sources."""
    near = [os.path.dirname(path) or "." for path in texts]
    for folder in dict.fromkeys([*near, *map(os.path.normpath, folders)]):
        for name in sorted(os.listdir(folder)) if os.path.isdir(folder) else []:
            path = os.path.normpath(os.path.join(folder, name))
            if name.endswith(SOURCES) and path not in texts and is_plain(path):
                yield path


def definition_of(name: str) -> "re.Pattern[str]":
    """How a function is defined that other files may call: its name at the beginning of a line, or behind
    words, with a body."""
    return re.compile(rf"^(?!static\b|typedef\b)(?:[A-Za-z_][^\n;{{}}()=#]*[\s*])?{re.escape(name)}[ \t]*"
                      r"\([^;{}]*\)[^;{}()=]*\{", re.M)


def defining(text: str, path: str, name: str, is_given: bool) -> List[Place]:
    match = definition_of(name).search(text) if name in text else None
    return [Place(shown(path), text.count("\n", 0, match.start()) + 1, is_given)] if match else []


def elsewhere(names: Sequence[str], sources: Sequence[str], flags: Sequence[str]) -> Dict[str, List[Place]]:
    """Of each name the files that define it: those that were given, or else others."""
    plain = [name for name in names if re.fullmatch(r"[A-Za-z_]\w*", name)]
    folders = folders_of(flags)
    texts = given(sources, folders)
    found = {name: [one for path, text in texts.items() for one in defining(text, path, name, True)]
             for name in plain}
    rest = [name for name in plain if not found[name]]
    for _, path in zip(range(FILES if rest else 0), beside(texts, folders)):
        text = text_of(path)
        for name in rest:
            found[name] += defining(text, path, name, False)
    return {name: sorted(places, key=lambda one: not is_called_so(one.path, name))[:FEW]
            for name, places in found.items() if places}


def is_called_so(path: str, name: str) -> bool:
    """Whether the words of a file's name are words of a function's: sha1.c has hmac_sha1."""
    stem = os.path.splitext(os.path.basename(path))[0]
    return set(re.split(r"[_-]", stem)) <= set(name.split("_"))


def help_of(places: Sequence[Place]) -> str:
    """What is said of names that files define."""
    first = places[0]
    if first.is_given:
        return f"in {first.path}:{first.line}, but not compiled: look at the #if around that line"
    which = "give that file, too" if len(places) == 1 else "give one of these files, too"
    return f"defined in {' or '.join(one.path for one in places)}: {which}"
