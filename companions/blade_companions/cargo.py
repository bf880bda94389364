"""From Rust to a verdict in one command: builds a crate, labels, hardens, verifies, and tells by lines of
Rust where a secret goes. It runs cargo, rustc, clang, wasm-ld, wasm-opt and blade; -v shows how. Licence:
public domain (CC0).

    cargo blade [WORDS] [-o OUT/]        builds the crate in this folder, and writes OUT/
                                         (target/blade/NAME/): NAME.wasm, labelled; NAME.img, NAME.json;
                                         report.txt, problems.json, NAME.sarif

The macros secret_param!, secret_memory! and public_result! of the crate blade-labels say what is secret.
cargo-blade [WORDS] does the same. WORDS:
    --manifest-path FILE     the Cargo.toml of the crate, or of its workspace
    -p, --package NAME       this package of the workspace
    --lib, --example NAME, --test NAME
                             which target is built (--lib): for wasm32-unknown-unknown, as a cdylib; a test
                             without a harness, and with exported functions of its own
    --features LIST, --all-features, --no-default-features, --offline, --locked, --frozen, -j N
                             are cargo's
    --profile NAME           the profile (release). Its lto, codegen-units, debug and strip don't count here
    --memory PAGES           so many pages of memory, first and last (3, or as many as the data takes and one)
    --counts [EXPORT=]START  sets protects by the counts of a run from a start file; may be given again
    --start [EXPORT=]START   after a no, looks for two runs from a start file that show the leak, for ten
                             seconds (blade-witness)
    --keep M:OFFSET:SIZE     with --start: these bytes of the start file are public; may be given again
    --public-callers=F,..    calls inside of the module may give public values for secret parameters of F
    --unlabelled             nothing is declared secret, and that is meant
    --split[=auto|always|never]
                             after a no, moves public numbers that pass through the secret memory to a public
                             one, the shadow, and judges again (blade-split); always: after a yes, too, and it
                             is an error if that fails
    --record [EXPORT=]START  a start file whose run is recorded for --split; may be given again
    --public OFFSET:SIZE     for --split: these bytes of the memory are public at the start
    --native                 also writes OUT/native/: NAME.c, NAME.h and NAME.o for this machine, if the
                             verdict is yes (blade-native)
    --page FILE              also writes a page for the browser (blade-explain)
    --no-fail                if the verdict is no, the status is 0 all the same, what is made is kept, and
                             violations are warnings, not errors
    --limit N                prints at most N violations (20)
    --all                    prints violations in other crates, too; otherwise each crate is one line with a
                             count
    --blade PROGRAM          the program (BLADE, else the one of this repository or release, else blade)
    -v                       shows each command, as it could be typed

The variables RUSTC, CARGO and RUSTFLAGS count as they do for cargo. rustc needs the standard library for
wasm32-unknown-unknown (Debian: libstd-rust-dev-wasm32), and clang has to be as new as rustc's LLVM. Where the
standard library panics the module traps, without a message.
Status: 0 constant-time; 1 not; 2 usage; 3 cargo, clang, the linker or blade refuses the files, or a run for
--counts fails; 4 gave up: a tool is missing or too old, or two tools don't agree; 5 a label isn't right or
was lost, or there is none."""
from __future__ import annotations

import os
import sys
from dataclasses import dataclass, field
from typing import Callable, Dict, List, Optional, Sequence

from . import printing
from .c import splitting
from .c.arguments import BUILD, USAGE, Asked, Stop, asked_by
from .c.lines import Lines
from .c.sources import Sources
from .c.splitting import Remaining
from .cc import Driver, mark, write_errors
from .ending import ended, is_answered
from .explain import judged
from .formats.module import Module
from .printing import say
from .rust import cargo, words
from .rust.building import RustBuilder
from .rust.demangling import demangled
from .statuses import YES
from .verdict.causes import causes_of
from .verdict.diagnostics import Told
from .verdict.page import page_of
from .writing import write_file

CAUSES = 20  # so many causes get a likely reason on a page
OF_CARGO = {
    "--features": 1,
    "-F": 1,
    "--all-features": 0,
    "--no-default-features": 0,
    "--offline": 0,
    "--locked": 0,
    "--frozen": 0,
    "-j": 1,
    "--jobs": 1,
}
# Words of blade-cc that hold here as well: with what stands behind them, and without.
WITH = frozenset(
    "-o --blade --memory --counts --start --keep --public-callers --record --public --limit".split()
)
ALONE = frozenset("--unlabelled --split --native --no-fail --all -v".split())


@dataclass
class Words:
    """What the words ask for: cargo's part, and blade-cc's."""

    manifest: Optional[str] = None
    package: Optional[str] = None
    kind: str = "lib"
    name: Optional[str] = None
    profile: str = "release"
    page: str = ""
    cargo: List[str] = field(default_factory=list)
    others: List[str] = field(default_factory=list)


def words_of(given: Sequence[str]) -> Words:
    made, rest = Words(), list(given)

    def set_kind(kind: str) -> Callable[[str], None]:
        return lambda value: (setattr(made, "kind", kind), setattr(made, "name", value))

    values: Dict[str, Callable[[str], None]] = {
        "--manifest-path": lambda value: setattr(made, "manifest", value),
        "-p": lambda value: setattr(made, "package", value),
        "--package": lambda value: setattr(made, "package", value),
        "--profile": lambda value: setattr(made, "profile", value),
        "--page": lambda value: setattr(made, "page", value),
        "--example": set_kind("example"),
        "--test": set_kind("test"),
    }
    while rest:
        word = rest.pop(0)
        name, is_joined, value = word.partition("=")
        is_valued = name in values or OF_CARGO.get(name) == 1 or name in WITH
        if is_valued and not is_joined:
            if not rest:
                raise Stop(USAGE, f"cargo-blade: error: {word} needs a word behind it")
            value = rest.pop(0)
        if name in values:
            values[name](value)
        elif name in OF_CARGO:
            made.cargo += [name] + [value] * OF_CARGO[name]
        elif name in WITH:
            made.others += [name, value]
        elif name in ALONE and (not is_joined or name == "--split"):
            made.others.append(word)
        elif word not in ("--lib", "--release"):
            raise Stop(USAGE, f"cargo-blade: error: {word}: no such word (cargo blade --help)")
    return made


class CargoDriver(Driver):
    """The steps of blade-cc for a crate."""

    def __init__(self, given: Words, asked: Asked, target: cargo.Target) -> None:
        self.given, self.target = given, target
        asked.name, asked.sources = target.name.replace("-", "_"), [target.source]
        asked.out = (asked.out or f"{target.folder}/{asked.name}").rstrip("/") + "/"
        super().__init__(asked)
        self.builder = RustBuilder(
            asked, self.runner, f"{self.folder}/build", target, given.cargo, given.profile
        )

    def label(self, linked: Module, module: Module) -> str:
        self.asked.public_callers = [
            symbol for name in self.asked.public_callers for symbol in symbols_of(linked, name)
        ]
        return super().label(linked, module)

    def sources(self) -> Sources:
        """The user's sources: what is below the current folder and the package. Those of other packages are
        shown as well, as libraries."""
        own = os.path.realpath(os.path.dirname(self.target.manifest))
        found = Sources([".", own])
        found.libraries = words.libraries_of(self.builder.packages, own)
        found.library_of = words.library_of
        return found

    def put(self, name: str, data: bytes) -> None:
        spoken = words.spoken_in_json if name.endswith((".json", ".sarif")) else words.spoken
        text = spoken(data.decode("utf-8", "surrogateescape"))
        super().put(name, text.encode("utf-8", "surrogateescape"))

    def explaining(self, made: str) -> List[str]:
        return super().explaining(made) + ["--page", self.given.page] * bool(self.given.page)

    def tell(
        self, told: Told, lines: Lines, modules: List[str], made: str, remaining: Optional[Remaining] = None
    ) -> None:
        super().tell(told, lines, modules, made, remaining)
        if self.given.page:
            found, causes = told.found, causes_of(told.found, lines)
            judged(found, lines, causes[:CAUSES], 1)
            text = page_of(f"{made}.img", found, causes, self.protects(found.image, made), lines, None)
            write_file(self.given.page, words.in_rust(text).encode())


def symbols_of(module: Module, name: str) -> List[str]:
    """The functions that a name or a path of Rust means, by their symbols."""
    found = [
        symbol
        for symbol in module.names.values()
        if demangled(symbol) == name or demangled(symbol).endswith(f"::{name}")
    ]
    return found or [name]


def status_of(given: Sequence[str], usage: str) -> int:
    rest = list(given[1:]) if given and given[0] == "blade" else list(given)
    if is_answered("cargo-blade", rest, usage):
        return YES
    driver, status = None, BUILD
    try:
        asked_for = words_of(rest)
        asked = asked_by(asked_for.others)
        splitting.refuse_words(asked)
        cargo.tools()
        driver = CargoDriver(
            asked_for,
            asked,
            cargo.target_of(asked_for.manifest, asked_for.package, asked_for.kind, asked_for.name),
        )
        status = driver.all()
    except Stop as stop:
        stop.lines = tuple(map(words.spoken, stop.lines))
        write_errors(driver, stop)
        for line in (line for one in stop.lines for line in one.split("\n")):
            say(line, sys.stderr)
        status = stop.status
    finally:
        mark(driver, not status)
    return status


def main(given: Sequence[str]) -> int:
    before, printing.TELLING = printing.TELLING, words.told
    try:
        return ended("cargo-blade: error", lambda: status_of(given, __doc__ or ""), BUILD)
    finally:
        printing.TELLING = before


if __name__ == "__main__":
    sys.exit(main(sys.argv[1:]))
