"""Branches by which Rust panics: the check of an index, of a slice's ends, and others. Licence: public domain
(CC0)."""
from __future__ import annotations

from typing import Tuple

from ..c.lines import Lines
from ..formats.image import LEAVING, Image
from ..rust.demangling import demangled

# Parts of the names of functions that panic, and what is checked then.
CHECKS: Tuple[Tuple[str, str], ...] = (
    ("panic_bounds_check", "it is the check of an index"),
    ("slice_start_index", "it is the check of a slice's ends"),
    ("slice_end_index", "it is the check of a slice's ends"),
    ("slice_index", "it is the check of a slice's ends"),
    ("len_mismatch_fail", "it compares the lengths of two slices"),
    ("unwrap_failed", "it is an unwrap"),
    ("expect_failed", "it is an expect"),
    ("panic", "it decides on a panic"),
)
FAR = 12  # commands behind a branch that are looked at
FUNCTIONS = ("core::", "alloc::", "std::")


def check_of(symbol: str) -> str:
    """What is checked where a function of Rust's library is called that panics; empty for any other one."""
    name = demangled(symbol)
    if name == symbol or not symbol.endswith(".0") or not name.startswith(FUNCTIONS):
        return ""
    return next(
        (f"{text} ({name})" for part, text in CHECKS if part in name), f"it decides on a panic ({name})"
    )


def panic_text(image: Image, lines: Lines, position: int) -> str:
    """What a branch checks, if Rust panics on one of its sides; empty if it doesn't."""
    command = image.commands[position]
    if command.kind != "Test" or not lines.functions:
        return ""
    return next(filter(None, (panic_behind(image, lines, place) for place in command.targets)), "")


def panic_behind(image: Image, lines: Lines, place: int) -> str:
    """What is checked, if the commands from a place on lead to a panic at once."""
    for _ in range(FAR):
        one = image.commands[place]
        if one.kind == "Call":
            number = image.function_at(one.targets[0])
            return check_of(lines.functions[number].name) if 0 <= number < len(lines.functions) else ""
        if one.kind != "Jump" and one.kind in LEAVING:
            return ""
        place = one.targets[0] if one.kind == "Jump" else place + 1
    return ""
