"""Long names of types and functions, shortened by nesting and never in the middle of a word. Licence: public
domain (CC0)."""
from __future__ import annotations

import re
from typing import List

WIDE = 72  # letters of a name that is shown whole


def brackets(text: str) -> List[int]:
    """Of each letter how many types it stands in."""
    depth, found = 0, []
    for at, letter in enumerate(text):
        depth += letter == "<" or letter == "["
        found.append(depth)
        depth -= (letter == ">" and text[at - 1 : at] not in ("-", "=") or letter == "]") and depth > 0
    return found


def shortened(name: str, wide: int = WIDE) -> str:
    """A long name without the modules of types, and then with .. for what is nested deepest, until it is
    short enough."""
    if len(name) <= wide or "<" not in name and "[" not in name:
        return name
    name = without_modules(name)
    depths = brackets(name)
    for most in range(max(depths, default=0) - 1, -1, -1):
        if len(name) <= wide:
            break
        name = cut(name, most)
    return name


def without_modules(name: str) -> str:
    """A name in which the types have no modules in front of them: <a::b::C as d::E>::f is <C as E>::f."""
    depths = brackets(name)
    return re.sub(r"(?:[A-Za-z_]\w*::)+(?=[A-Za-z_{])",
                  lambda found: "" if depths[found.start()] else found[0], name)


def cut(name: str, most: int) -> str:
    """The name without what stands in more than so many types."""
    depths, made = brackets(name), []
    for at, (letter, depth) in enumerate(zip(name, depths)):
        if depth <= most:
            made.append(letter)
        elif depth == most + 1 and letter in "<[" and (at == 0 or depths[at - 1] <= most or
                                                       name[at - 1] in ">]"):
            made.append(letter + "..")
        elif depth == most + 1 and letter in ">]" and (at + 1 == len(name) or depths[at + 1] <= most
                                                       or name[at + 1] in "<["):
            made.append(letter)
    return "".join(made)
