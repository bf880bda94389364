"""From a source to an object in which labelled functions are kept: clang's text for LLVM, what labels need in
that, and code. Licence: public domain (CC0)."""
from __future__ import annotations

import os
import re
import shlex
import sys
from typing import List, Sequence, Set, Tuple

from ..formats.reading import Bad
from ..printing import printable, say
from ..writing import write_file as written_to
from .arguments import BUILD, LABELS, USAGE, Asked, Stop
from .assumptions import INITIAL
from .missing import about_headers
from .opaque import BY_WORDS, MARK, Unit, opaque
from .prototypes import differing
from .tools import HERE, INCLUDE, Runner, found

# wasm-opt 108 can't read DWARF 5.
TARGET = ["--target=wasm32", "-mcpu=mvp", "-gdwarf-4"]
IMPLICIT = "-Werror=implicit-int"  # a macro of blade.h without blade.h would be a variable
VISIBLE = "-fvisibility=default"  # else clang hides all functions of this target
ASSEMBLER = (".s", ".S")
BEFORE = ["-S", "-emit-llvm", "-Xclang", "-disable-llvm-passes", "-fno-discard-value-names"]
# Words of the first step that the second one has no use for, by themselves or with the word behind them.
FIRST = re.compile(r"-(I|D|U|isystem|iquote|idirafter|include|imacros|std|x|M|nostdinc|pedantic|ansi).*")
FIRST_WITH_NEXT = frozenset("-I -D -U -include -isystem -idirafter -iquote -x -MF -MT -MQ -imacros -isysroot "
                            "--sysroot -std".split())


class Compiler:
    """Compiles sources by the words of blade-cc."""

    def __init__(self, asked: Asked, runner: Runner) -> None:
        self.asked, self.runner = asked, runner
        self.last: List[str] = []  # words for headers that count only if no other folder has them

    def empty_headers(self, folder: str) -> None:
        """Makes the headers of --config-h, empty, in a folder, and says so."""
        for name in self.asked.empty_headers:
            path = f"{folder}/{name}"
            above = os.path.dirname(path)
            os.makedirs(above, exist_ok=True)
            self.runner.show_text(f"mkdir -p {shlex.quote(above)} && : > {shlex.quote(path)}")
            written_to(path, b"")
            say(f"blade-cc: note: {name}: {path}, which is empty, counts if no folder of -I has another one: "
                "what the code asks for by HAVE_.. counts as missing", sys.stderr)
            self.last = ["-idirafter", folder]

    def words(self, source: str) -> List[str]:
        asked = self.asked
        words = [found("clang++" if source.endswith((".cc", ".cpp", ".cxx", ".C")) else "clang"), *TARGET,
                 VISIBLE, IMPLICIT]
        if not any(flag.startswith("-O") for flag in asked.flags):
            words.append("-O2")
        if asked.way:
            words.append(f"-D{asked.way.upper()}")
        headers = ["-isystem", INCLUDE, "-DBLADE_CC", "-isystem", os.path.join(INCLUDE, "freestanding")]
        library = asked.wasi_headers()
        if os.path.isdir(library):
            # Its headers ask for the macro.
            headers += ["-isystem", library, "-D__wasi__"]
        return words + headers + self.last + asked.flags + [INITIAL] * asked.no_assumptions

    def compile(self, pairs: Sequence[Tuple[str, str]], folder: str, last: str = "-c") -> None:
        """Makes the objects of sources, with what stands between in a folder. Where one has marked values the
        compiler may assume nothing in any."""
        for source, _ in pairs:
            refuse_path(source)
        texts = self.texts(pairs, folder)
        if any(MARK in text for text in texts) and not self.asked.no_assumptions:
            self.asked.no_assumptions = True
            texts = self.texts(pairs, folder)
        for (source, to), text in zip(pairs, texts):
            if source.endswith(ASSEMBLER):
                self.run([*self.words(source), last, "-o", to, source])
            else:
                self.behind(source, to, text, between(to, folder), last)

    def texts(self, pairs: Sequence[Tuple[str, str]], folder: str) -> List[str]:
        """LLVM's texts of sources; of assembler nothing."""
        return ["" if source.endswith(ASSEMBLER) else self.before(source, to, between(to, folder))
                for source, to in pairs]

    def behind(self, source: str, to: str, text: str, first: str, last: str) -> None:
        """What labels need in a source's text, and its object."""
        base = first[: -len(".ll")]
        later = any(flag.startswith(("-flto", "-emit-llvm")) for flag in self.asked.flags)
        words = [os.path.join(HERE, "blade-cc"), "--keep-labelled", f"{base}.ll", source]
        words += ["-flto"] * later + ["--no-assumptions"] * self.asked.no_assumptions
        labels = [word for label in self.labels() for word in ("--label", label)]
        self.runner.show([*words, *labels], f"{base}.kept.ll")
        made = kept(text, source, self.asked.labels, later, self.asked.no_assumptions)
        written_to(f"{base}.kept.ll", made.encode("utf-8", "surrogateescape"))
        self.run([*self.words_behind(source), last, "-o", to, f"{base}.kept.ll"])

    def labels(self) -> List[str]:
        return [" ".join(self.asked.labels)] if self.asked.labels else []

    def before(self, source: str, to: str, between: str) -> str:
        """LLVM's text of a source. clang knows some functions by name: where one of them is labelled it is
        told to forget that."""
        words = [*self.words(source), *self.depends(to), *BEFORE, "-o", between, source]
        self.run(words)
        text = read(between)
        unit = unit_of(text, source, self.asked.labels)
        self.refuse_other_order(unit, source)
        names = self.known_to_clang({named.name for named in unit.known})
        if names:
            self.run([*words, *(f"-fno-builtin-{name}" for name in sorted(names))])
            text = read(between)
        return text

    def depends(self, to: str) -> List[str]:
        """Words by which a list of headers is the object's, and stands beside it."""
        flags = self.asked.flags
        if not {"-MD", "-MMD"} & set(flags):
            return []
        more = [] if {"-MT", "-MQ"} & set(flags) else ["-MT", to]
        return more + ([] if "-MF" in flags else ["-MF", f"{os.path.splitext(to)[0]}.d"])

    def words_behind(self, source: str) -> List[str]:
        """The words for the second step."""
        flags, rest = [], list(self.asked.flags)
        while rest:
            word = rest.pop(0)
            if word in FIRST_WITH_NEXT:
                rest[:1] = []
            elif not FIRST.match(word):
                flags.append(word)
        head = self.words(source)
        return [*head[: head.index("-isystem")], *flags, "-Wno-unused-command-line-argument"]

    def refuse_other_order(self, unit: Unit, source: str) -> None:
        """A declaration may call another parameter so than the definition does: then nobody can tell which
        one a label means."""
        for label in unit.labels:
            named, name = label.named, label.function.name
            if named.kind == "secret-param" and not named.which.isdigit():
                bare = name.partition("<")[0]
                words = [*self.words(source), "-fsyntax-only", "-w", "-Xclang", "-ast-dump", "-Xclang",
                         f"-ast-dump-filter={bare}", "-fno-color-diagnostics", source]
                # The tree of an instance doesn't show which declaration it comes of.
                if "<" in name or differing(self.runner.run(words, given="").out, bare, named.which):
                    place = source if named.where == BY_WORDS else named.where
                    raise Stop(LABELS, f"{place}: error: declarations of {name} don't agree which parameter "
                               f"is {named.which}: give the same names, or its "
                               "number, from 0 [blade-label]")

    def known_to_clang(self, names: Set[str]) -> List[str]:
        """Those of some names that clang has code of its own for."""
        plain = sorted(name for name in names if re.fullmatch(r"[A-Za-z_]\w*", name))
        if not plain:
            return []
        asked = " ".join(f"__has_builtin({name})" for name in plain)
        done = self.runner.run([found("clang"), "--target=wasm32", "-E", "-P", "-x", "c", "-"],
                               given=asked + "\n")
        return [name for name, answer in zip(plain, done.out.split()) if answer != "0"]

    def run(self, words: Sequence[str]) -> None:
        done = self.runner.run(words)
        sys.stdout.write(done.out)
        sys.stderr.write(done.errors)
        if done.status:
            raise Stop(BUILD, *about_headers(done.errors, os.path.isdir(self.asked.wasi_headers())))


def between(to: str, folder: str) -> str:
    """Where LLVM's text of an object's source stands."""
    return f"{folder}/{os.path.splitext(os.path.basename(to))[0]}.ll"


def refuse_path(source: str) -> None:
    """A path stands in lines of assembler, which read some letters otherwise. The lines are UTF-8, also if
    the locale isn't."""
    text = os.fsencode(source).decode("utf-8", "surrogateescape")
    if not text.isprintable() or "\\" in text or '"' in text:
        raise Stop(USAGE, f"blade-cc: error: {printable(source)}: labels stand in lines with the source's "
                   "path, and a tab, a line's end, a backslash, a quote or a letter "
                   "that doesn't print would break them: rename it")


def read(path: str) -> str:
    with open(path, "rb") as file:
        return file.read().decode("utf-8", "surrogateescape")


def unit_of(text: str, source: str, labels: Sequence[str]) -> Unit:
    try:
        return Unit(text, os.path.abspath(source), labels)
    except Bad as bad:
        raise Stop(LABELS, f"blade-cc: error: {source}: {bad} [blade-label]") from None


def kept(text: str, source: str, labels: Sequence[str], is_linked_later: bool, is_strict: bool) -> str:
    try:
        return opaque(text, os.path.abspath(source), labels, is_linked_later, is_strict)
    except Bad as bad:
        raise Stop(LABELS, f"{source}: error: {bad} [blade-label]") from None


def keep_labelled(words: Sequence[str]) -> int:
    """The middle step by itself, to the standard output: blade-cc --keep-labelled FILE.ll SOURCE [-flto]
    [--no-assumptions] [--label WORDS]."""
    rest, labels = list(words), []
    while "--label" in rest:
        at = rest.index("--label")
        labels += shlex.split(rest[at + 1])
        del rest[at : at + 2]
    made = kept(read(rest[0]), rest[1], labels, "-flto" in rest, "--no-assumptions" in rest)
    sys.stdout.buffer.write(made.encode("utf-8", "surrogateescape"))
    return 0
