"""Names in C: of exports, which have any bytes, and of what the tool defines. Licence: public domain
(CC0)."""
from __future__ import annotations

import os
import re
from typing import Dict, List, Tuple

RESERVED = frozenset(
    ["new", "free", "reset", "end", "end_text", "read", "write", "pages", "global", "set_global", "trap"]
)

# A file of such a name, as int.c, gives another prefix: both languages reserve it.
KEYWORDS = frozenset(
    """alignas alignof and and_eq asm auto bitand bitor bool break case catch char class compl const constexpr
const_cast continue decltype default delete do double dynamic_cast else enum explicit export extern
false float for friend goto if inline int long mutable namespace new noexcept not not_eq nullptr
operator or or_eq private protected public register reinterpret_cast restrict return short signed sizeof
static static_assert static_cast struct switch template this thread_local throw true try typedef typeid
typename union unsigned using virtual void volatile wchar_t while xor xor_eq instance main trap wipe
fill address outside longjmp setjmp""".split()
)


MACROS = frozenset("errno assert stdin stdout stderr unix linux i386 near far small offsetof".split())


def identifier(text: str) -> str:
    """Letters, digits and underscores of a text; it doesn't begin with a digit."""
    word = re.sub(r"[^0-9A-Za-z]+", "_", text).strip("_") or "unnamed"
    return f"n{word}" if word[0].isdigit() else word


def is_parameter(text: str) -> bool:
    """Whether a parameter may have this name in NAME.h: no keyword, no type, nothing that C's headers like to
    define as a macro, and none of the names that the header gives by itself."""
    is_plain = re.fullmatch(r"[a-z][a-z0-9_]{0,62}", text) is not None and "__" not in text
    is_own = re.fullmatch(r"[mpr]|[pr][0-9]+", text) is not None or text.endswith("_t")
    return is_plain and not is_own and text not in KEYWORDS and text not in MACROS


def prefix_of(path: str) -> str:
    """The prefix of all names: that of the C file."""
    word = identifier(os.path.splitext(os.path.basename(path))[0])
    return f"{word}_image" if word in KEYWORDS else word


def without_module(names: List[bytes]) -> List[bytes]:
    """Names without their module, if they differ without it."""
    short = [name.partition(b"/")[2] for name in names]
    return short if len(set(short)) == len(names) else names


def memory_names(modules: List[str]) -> List[str]:
    """The names of memories by those of their modules, each once."""
    taken: Dict[str, int] = {}
    found = []
    for module in modules:
        word = identifier(module).upper()
        taken[word] = taken.get(word, 0) + 1
        found.append(word if taken[word] == 1 else f"{word}_{taken[word]}")
    return found


def export_names(exports: List[Tuple[bytes, int]]) -> List[Tuple[str, int, str]]:
    """Of each export its name in C without the prefix, its function, and its own name as it can be
    printed."""
    taken: Dict[str, int] = dict.fromkeys(RESERVED, 1)
    found = []
    for short, (name, function) in zip(without_module([name for name, _ in exports]), exports):
        word = identifier(short.decode("utf-8", "replace"))
        while word in taken:
            taken[word] += 1
            word = f"{word}_{taken[word]}"
        taken[word] = 1
        printed = name.decode("ascii", "backslashreplace").encode("unicode_escape").decode("ascii")
        found.append((word, function, printed.replace("*/", "*\\x2f")))
    return found
