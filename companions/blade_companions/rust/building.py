"""From a crate to a linked module: rustc's bitcode with what labels need, compiled by clang and linked as
blade-cc links C. Licence: public domain (CC0)."""
from __future__ import annotations

import os
import re
from typing import List, Sequence, Set

from . import cargo
from .records import MARK, Record
from .units import Crate, crate_of, defined_in, kept, lost
from ..c.arguments import BUILD, LABELS, Asked, Stop
from ..c.build import Builder
from ..c.compiling import TARGET
from ..c.inputs import PLAIN, Input, members
from ..c.strangers import copies, unseen
from ..c.tools import Runner, written_to
from ..formats.module import Module
from ..formats.reading import Bad

TRACED = re.compile(r"(/.*\.rlib)\((.*)\)$")
PLAIN_POINTERS = 15  # the first clang whose pointers have no type


class RustBuilder(Builder):
    """Builds a target of cargo in a folder."""

    def __init__(
        self,
        asked: Asked,
        runner: Runner,
        folder: str,
        target: cargo.Target,
        words: Sequence[str],
        profile: str,
    ) -> None:
        super().__init__(asked, runner, folder)
        self.target, self.words, self.profile = target, list(words), profile
        self.linked = cargo.Linked()
        self.packages: List[tuple] = []
        self.members: Set[str] = set()  # objects of the standard library
        self.crates: List[str] = []  # objects of crates

    def objects(self) -> List[str]:
        messages, self.linked = cargo.collected(self.target, self.words, self.profile, self.runner)
        self.packages = cargo.packages(messages)
        if not self.linked.exports:
            raise Stop(
                BUILD,
                (
                    f"cargo-blade: error: {self.target.name} gives no function to others: write "
                    '#[no_mangle] and pub extern "C" in front of one'
                ),
            )
        self.asked.links += ["--no-demangle", *(f"--export={name}" for name in self.linked.exports)]
        crates = [self.read(at, one) for at, one in enumerate(self.linked.objects) if one.is_bitcode]
        others = [self.other(at, one) for at, one in enumerate(self.linked.objects) if not one.is_bitcode]
        records = list(dict.fromkeys(record for crate in crates for record in crate.records))
        wrong = lost(crates, records)
        if wrong:
            raise Stop(LABELS, wrong)
        defined = defined_in(crates)
        self.crates = [self.compiled(at, crate, records, defined) for at, crate in enumerate(crates)]
        return self.crates + others

    def link(self, objects: List[str]) -> Module:
        try:
            return super().link(objects)
        except Bad as bad:
            if not str(bad).startswith("limit: module"):
                raise
            raise Stop(
                BUILD,
                (
                    "cargo-blade: error: the module has more than 4 MiB with its lines: it links much of std"
                    " (println!, format!, panics with a hook): write #![no_std], or don't print in what is"
                    " verified"
                ),
            ) from None

    def other(self, at: int, one: Input) -> str:
        """An object that no crate's code is in."""
        if MARK.encode() in one.data:
            raise Stop(LABELS, f"cargo-blade: error: {os.path.basename(one.path)} has labels, and it is no "
                       "bitcode: was it compiled without cargo-blade? [blade-label]")
        path = f"{self.folder}/{at}.other.o"
        written_to(path, one.data)
        return path

    def read(self, at: int, one: Input) -> Crate:
        """LLVM's text of a crate, as rustc wrote it."""
        tools, to = cargo.tools(), f"{self.folder}/{at}.bc"
        written_to(to, one.data)
        done = self.runner.run(
            [
                tools.clang,
                "-x",
                "ir",
                "-S",
                "-emit-llvm",
                "-Xclang",
                "-disable-llvm-passes",
                "-fno-discard-value-names",
                "-o",
                "-",
                to,
            ]
        )
        if done.status:
            raise Stop(
                LABELS,
                (
                    f"cargo-blade: error: {os.path.basename(one.path)}: bitcode that {tools.clang} "
                    f"can't read (rustc writes LLVM {tools.llvm}) [blade-label]"
                ),
            )
        try:
            return crate_of(one.path, done.out, tools.clang_version >= PLAIN_POINTERS)
        except Bad as bad:
            raise Stop(
                LABELS, f"cargo-blade: error: {os.path.basename(one.path)}: {bad} [blade-label]"
            ) from None

    def compiled(self, at: int, crate: Crate, records: Sequence[Record], defined: Sequence[str]) -> str:
        base = f"{self.folder}/{at}"
        try:
            text = kept(crate, records, defined)
        except Bad as bad:
            raise Stop(LABELS, f"cargo-blade: error: {bad} [blade-label]") from None
        written_to(f"{base}.ll", text.encode("utf-8", "surrogateescape"))
        done = self.runner.run(
            [cargo.tools().clang, *TARGET, self.linked.level, "-w", "-c", "-o", f"{base}.o", f"{base}.ll"]
        )
        if done.status:
            raise Stop(
                BUILD,
                done.errors.rstrip(),
                f"cargo-blade: error: clang doesn't compile {os.path.basename(crate.path)}",
            )
        return f"{base}.o"

    def library(self, missing: Set[str]) -> List[str]:
        """The objects of the standard library that the crates need."""
        done = self.runner.run(
            [*self.linked_by, *self.linked.library, "--trace", "-o", f"{self.folder}/traced.wasm"]
        )
        if done.status:
            return []
        wanted = set(found.groups() for found in map(TRACED.match, done.out.splitlines()) if found)
        made = []
        for path in dict.fromkeys(path for path, _ in wanted):
            with open(path, "rb") as file:
                whole = Input(path, file.read())
            for one in members(whole) if whole.data.startswith(PLAIN) else []:
                if (path, one.path[len(path) + 1 : -1]) in wanted:
                    to = f"{self.folder}/std-{len(made)}.o"
                    written_to(to, one.data)
                    made.append(to)
        self.members = {os.path.abspath(one) for one in made}
        return made

    def strangers(self, linked: Module, names: Sequence[str], meant: Sequence[str]) -> List[str]:
        """What may be wrong with labels in code that rustc didn't compile. The standard library was compiled
        before the crates: it has no copies of their functions."""
        wanted = [name for name in names if name not in meant]
        known = self.compiler.known_to_clang(set(wanted)) if wanted else []
        inputs = [(one, "") for one in self.inputs() if os.path.abspath(one.path) not in self.members]
        return [*copies(inputs, wanted, known), *unseen(linked, known)]
