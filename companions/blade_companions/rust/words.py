"""How messages speak of Rust: names as Rust spells them, short paths of crates and of rustc's own library,
and remedies that Rust has. Licence: public domain (CC0)."""
from __future__ import annotations

import json
import re
from typing import List, Sequence, Tuple

from .demangling import SYMBOL, names_told
from .demangling import told as told_name
from ..nesting import shortened

MEMORY = "secret_memory!()"
# What blade-cc and blade-explain say of C, and what holds of Rust in its place.
PHRASES: Tuple[Tuple[str, str], ...] = (
    ("blade-cc: ", "cargo-blade: "),
    (
        "BLADE_SECRET_PARAM or BLADE_SECRET_MEMORY of blade.h, or words; --unlabelled where that is meant",
        "secret_param!(f, x) or secret_memory!() of the crate blade-labels; --unlabelled if that is meant",
    ),
    (
        "give its members as parameters, or declare the memory by BLADE_SECRET_MEMORY",
        f"give its fields as parameters, or declare the memory by {MEMORY}",
    ),
    (
        " is a struct by value or nothing at all in the module",
        " is a slice, a struct or nothing at all in the module",
    ),
    (
        " is a struct by value, of which the module gets the address or a part",
        " is a struct, of which the module gets the address or a part",
    ),
    ("not what stands there. For that: BLADE_SECRET_MEMORY", f"not what stands there. For that: {MEMORY}"),
    ("BLADE_SECRET_MEMORY", MEMORY),
    (", mark the value by BLADE_SECRET(x), or say", ", or say"),
    (
        "and yet it is to be inlined (always_inline, or flatten at a caller): drop that",
        "and yet it is to be inlined (#[inline(always)]): drop that",
    ),
    (
        "so the linker or clang dropped it; export it, or drop the line",
        'so the compiler dropped it; export it by #[no_mangle] and pub extern "C", or drop the label',
    ),
    (" (nothing uses it, so the linker or clang dropped it; export it, or drop the line)", ""),
    (
        "give it as a parameter, or keep it in the ledger: PUB(x), SETPUB(x, v)",
        (
            "give it as a parameter, or take an array of a fixed size in place of a slice; --split keeps"
            " public numbers in a public memory"
        ),
    ),
    (
        "call the function directly, or keep the pointer in the ledger",
        "call the function directly, in place of dyn and of function pointers",
    ),
    (
        "call functions by their names, or keep the pointer in the ledger",
        "call functions by their names, in place of dyn and of function pointers",
    ),
    ("locals that clang shares between C variables", "locals that the compiler shares between variables"),
    ("wasm-opt -g --untee --ssa before labelling", "split the function in two"),
    (
        "one run decides (--start FILE); if it is public, give it as a parameter, or keep it in the ledger",
        (
            "one run decides (--start FILE); if it is public, give it as a parameter, take an array of a"
            " fixed size in place of a slice, or use --split"
        ),
    ),
    ("give it as a parameter, or keep it in the ledger", "give it as a parameter, or use --split"),
    (
        "If what is loaded is public, make it a parameter or keep it in the ledger.",
        "If what is loaded is public, make it a parameter, or use --split.",
    ),
    ("a variable that clang keeps in memory", "a variable that the compiler keeps in memory"),
    ("compile with -O1 or more", "take an opt-level of 1 or more in the profile"),
    (
        "compute without a branch: both ways, and a mask that keeps one",
        (
            "compute both ways and choose by subtle::ConditionallySelectable, or by a mask (black_box doesn't"
            " help)"
        ),
    ),
    (
        "read all entries, and keep one by a mask",
        "read all entries, and keep one by subtle::ConditionallySelectable",
    ),
    ("write all entries, by masks", "write all entries, each by conditional_assign of subtle"),
    (
        "read all entries, or compute without a branch",
        "read all entries, or choose by subtle::ConditionallySelectable",
    ),
    (
        (
            "keep it in a memory that is declared secret; unroll loops over local arrays, inline what takes"
            " an address"
        ),
        f"declare the memory secret by {MEMORY}",
    ),
    ("keep it in a memory that is declared secret", f"declare the memory secret by {MEMORY}"),
    (
        "compile all with -mcpu=mvp alone, as blade-cc does",
        (
            "the crates are compiled with -C target-cpu=mvp, but the standard library of rustc 1.82 and newer"
            " isn't: build it by -Z build-std, or take an older toolchain"
        ),
    ),
    ("no lines of C", "no lines of Rust"),
    ("C's secret memory", "the secret memory"),
    ("C's memory", "the module's memory"),
    ("by its source", "in the source"),
    ("docs/from-no-to-yes.md", "docs/rust.md"),
)
# Prefixes of paths, and how they are told.
PATHS: Tuple[Tuple["re.Pattern[str]", str], ...] = (
    (
        re.compile(r"(?<![\w./-])/?(?:[\w.+-]+/)*registry/(?:src/[^/\s]+/)?(?=[\w-]+-\d[\w.+-]*/)"),
        "registry/",
    ),
    (
        re.compile(
            r"(?<![\w./-])/?(?:[\w.+~-]+/)*library/(?=(?:alloc|core|std|panic_abort|portable-simd|"
            r"stdarch|backtrace)/)"
        ),
        "rustc/library/",
    ),
    (re.compile(r"(?<![\w./-])/?(?:[\w.+~-]+/)*vendor/(?=compiler_builtins)"), "rustc/vendor/"),
)
INSIDE = re.compile(r"\[in (.*)\]$")  # the function of a step
LIBRARY = re.compile(r"(?:.*/)?library/(alloc|core|std)/|.*/(compiler_builtins)(?:-[\d.]+)?/src/")


def in_rust(text: str) -> str:
    """A text of blade-cc in Rust's words."""
    for of_c, of_rust in PHRASES:
        text = text.replace(of_c, of_rust)
    return text


def spoken(text: str) -> str:
    """A text of blade-cc as it is told of Rust, with names in place of symbols."""
    return names_told(in_rust(text))


def spoken_in_json(text: str) -> str:
    """The same for a text in JSON."""
    for of_c, of_rust in PHRASES:
        text = text.replace(in_json(of_c), in_json(of_rust))
    return SYMBOL.sub(lambda found: in_json(told_name(found[0])), text)


def in_json(text: str) -> str:
    return json.dumps(text)[1:-1]


def told(text: str) -> str:
    """The same for a line that is read by people: with short paths."""
    text = spoken(text)
    for path, short in PATHS:
        text = path.sub(short, text)
    return INSIDE.sub(lambda found: f"[in {shortened(found[1])}]", text)


def library_of(path: str) -> str:
    """The part of rustc's own library that a file belongs to."""
    found = LIBRARY.match(path)
    return f"rustc's library ({found[1] or found[2]})" if found else ""


def libraries_of(packages: Sequence[Tuple[str, str]], own: str) -> List[Tuple[str, str]]:
    """The folders of other packages, with their names."""
    return [(folder, name) for folder, name in packages if folder != own]
