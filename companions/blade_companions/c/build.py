"""From C to a linked module whose variables have locals of their own: the first half of blade-cc.
Licence: public domain (CC0)."""
from __future__ import annotations

import os
import re
import subprocess
import tempfile
from typing import Dict, List, Sequence, Set

from .arguments import ALONE, BUILD, USAGE, Asked, Stop
from .dwarf import all_contents
from .declarations import lines_in
from .inputs import Input, inputs_in, lines_of, text_of
from .objects import given_by
from .strangers import left_out_words, of_inputs
from .compiling import TARGET, Compiler
from .elsewhere import elsewhere
from .missing import SOME, about_symbols, callers_of
from .tools import INCLUDE, Ran, Runner, found, written_to
from ..formats.memories import HEAP_BASE
from ..formats.module import FUNCTION, Module, read_module

# With the stack first a frame that doesn't fit traps; behind the data it would overwrite that.
STACK = ["--stack-first", "-z", "stack-size=65536"]
PAGE = 65536
FIRST_PAGES = 3  # one for the stack, one for data, one for the buffers of calls
MASKS = "blade_secret_mask_"  # what BLADE_SECRET reads
LIBRARY = ("memcpy", "memmove", "memset", "memcmp")
ALLOCATOR = ("malloc", "free", "calloc", "realloc", "aligned_alloc", "posix_memalign", "__libc_malloc",
             "__libc_calloc")


class Builder:
    """Compiles and links in a folder."""

    def __init__(self, asked: Asked, runner: Runner, folder: str) -> None:
        self.asked, self.runner, self.folder = asked, runner, folder
        self.compiler = Compiler(asked, runner)
        self.opened: List[Input] = []
        self.linked_by: List[str] = []  # the words of the last link

    def alone(self) -> int:
        """What clang does by itself, and objects, which are made as for a module."""
        asked = self.asked
        if asked.objects:
            raise Stop(USAGE, "blade-cc: error: objects, where nothing is linked")
        last = [flag for flag in asked.flags if flag in ("-c", "-S")]
        if last and not any(is_clangs_own(flag) for flag in asked.flags):
            asked.flags = [flag for flag in asked.flags if flag not in ("-c", "-S")]
            return self.objects_alone(last[-1])
        words = (self.compiler.words((asked.sources or ["x.c"])[0]) + asked.sources
                 + (["-o", asked.out] if asked.out else []))
        self.runner.show(words)
        return BUILD if subprocess.run(words, check=False).returncode else 0

    def objects_alone(self, last: str) -> int:
        sources, out = self.asked.sources, self.asked.out
        if out and len(sources) != 1:
            raise Stop(USAGE, "blade-cc: error: -o with several sources, where nothing is linked")
        with tempfile.TemporaryDirectory(prefix="blade-") as folder:
            ending = ".o" if last == "-c" else ".s"
            self.compiler.empty_headers(f"{folder}/config")
            names = [out or os.path.splitext(os.path.basename(source))[0] + ending for source in sources]
            for number, pair in enumerate(zip(sources, names)):
                os.mkdir(f"{folder}/{number}")
                self.compiler.compile([pair], f"{folder}/{number}", last)
        return 0

    def objects(self) -> List[str]:
        """The objects of the sources, and those that were given."""
        sources = self.asked.sources
        made = [f"{self.folder}/{number}-{os.path.splitext(os.path.basename(source))[0]}.o" for number, source
                in enumerate(sources)]
        self.compiler.empty_headers(f"{self.folder}/config")
        self.compiler.compile(list(zip(sources, made)), self.folder)
        return made + self.asked.objects

    def library(self, missing: Set[str]) -> List[str]:
        """What stands in no file that was given: the masks of BLADE_SECRET; the four functions of libc.c, and
        with --allocator those of allocator.c, which give way to the sources' own; wasi-libc and clang's own
        functions, where they are installed. memcmp of wasi-libc stops at the first difference, so that of
        libc.c goes first."""
        source, to = f"{self.folder}/blade-libc.c", f"{self.folder}/blade-libc.o"
        names, files, words = list(LIBRARY), ["libc.c", "masks.c"], []
        if self.asked.allocator:
            names += ALLOCATOR
            files, words = files + ["allocator.c"], [f"-DBLADE_HEAP={self.asked.allocator}"]
        written_to(source, "".join([f"#pragma weak {name}\n" for name in names]
                                   + [f'#include "{INCLUDE}/{name}"\n' for name in files]).encode())
        done = self.runner.run([found("clang"), *TARGET, "-O2", "-fno-builtin", "-fvisibility=hidden", *words,
                                "-c", "-o", to, source])
        if done.status:
            raise Stop(BUILD, done.errors)
        if all(name.startswith(MASKS) for name in missing):
            return [to]
        own = subprocess.run([found("clang"), "--target=wasm32-wasi", "-print-libgcc-file-name"],
                             capture_output=True, text=True, check=False).stdout.strip()
        return [to] + [one for one in (self.asked.wasi_library(), own) if os.path.exists(one)]

    def exports(self, objects: Sequence[str]) -> List[str]:
        """Words that export what other units may call, of the objects themselves: nothing else says what is
        exported."""
        names: List[str] = []
        for one in objects:
            given = given_by(one) if os.path.exists(one) and not one.endswith(".a") else []
            if given is None:
                return ["--export-dynamic"]
            names += given
        return [f"--export={name}" for name in dict.fromkeys(names)]

    def memory(self, pages: int) -> List[str]:
        """Words for as many pages at last as at first, as far as the words that were given don't say it."""
        asked = self.asked
        size = next((word.partition("=")[2] for word in asked.links if word.startswith("--initial-memory=")),
                    str(pages * PAGE))
        return [word for word in (f"--initial-memory={size}", f"--max-memory={size}")
                if not asked.is_linked_with(word.partition("=")[0])]

    def link(self, objects: List[str]) -> Module:
        """The linked module: again with what the first attempts lack, which are a library, exports, and
        memory for all data."""
        linked = f"{self.folder}/linked.wasm"
        links = [] if self.asked.is_linked_with("stack-size") else STACK
        exports: List[str] = []
        extra: List[str] = []
        least = pages = self.asked.pages or FIRST_PAGES
        while True:
            words = [found("wasm-ld"), "--no-entry", "--error-limit=0", *links, *self.memory(pages),
                     *self.asked.links, *exports]
            self.linked_by = [*words, *objects, *extra]
            done = self.runner.run([*self.linked_by, f"--reproduce={self.folder}/inputs.tar", "-o", linked])
            missing = set(re.findall(r"undefined symbol: (\S+)", done.errors))
            needed = re.search(r"memory too small, (\d+) bytes needed", done.errors)
            if done.status and missing and not extra:
                extra = self.library(missing)
            elif done.status and needed and not self.asked.pages and pages == least:
                pages = -(-int(needed[1]) // PAGE) + 1
            elif done.status:
                raise self.refused(done, missing, needed is not None)
            elif exports or self.asked.is_linked_with("--export") or exports_functions(read_module(linked)):
                return read_module(linked)
            else:
                exports = self.exports(objects) or ["--export-dynamic"]

    def free(self) -> Module:
        """A module that says where C's stack and data end, by the linker's own symbol. It is linked again for
        that, since one more global would be one more variable of the program."""
        path = f"{self.folder}/free.wasm"
        done = self.runner.run([*self.linked_by, "--strip-all", f"--export={HEAP_BASE}", "-o", path])
        if done.status:
            raise self.refused(done, set(), False)
        return read_module(path)

    def refused(self, done: Ran, missing: Set[str], is_small: bool) -> Stop:
        """Why the linker refuses the objects. What they lack is told once, with who calls it."""
        told = [line for line in done.errors.splitlines() if not missing or "undefined symbol: " not in line]
        if missing:
            names = sorted(missing)
            told += about_symbols(names, self.callers(), os.path.exists(self.asked.wasi_library()),
                                  elsewhere(names[:SOME], self.asked.sources, self.asked.flags))
        if is_small:
            told.append("blade-cc: note: give more pages by --memory PAGES")
        return Stop(BUILD, *told)

    def callers(self) -> Dict[str, List[str]]:
        """Of each function that no object defines those that call it: the objects are linked once more, with
        these functions as imports."""
        open_end = f"{self.folder}/undefined.wasm"
        done = self.runner.run([*self.linked_by, "--allow-undefined", "-o", open_end])
        return {} if done.status else callers_of(read_module(open_end))

    def inputs(self) -> List[Input]:
        """All that the linker opened."""
        if not self.opened:
            self.opened = inputs_in(f"{self.folder}/inputs.tar")
        return self.opened

    def lines(self) -> List[str]:
        """The lines of blade.h in all that the linker opened, linked or not."""
        found = [lines_of(one, self.runner, self.folder) if one.is_bitcode else lines_in(one.data)
                 for one in self.inputs()]
        return [line for lines in found for line in lines]

    def strangers(self, linked: Module, names: Sequence[str], meant: Sequence[str]) -> List[str]:
        """What may be wrong with labels in code that blade-cc didn't compile, or that doesn't know them."""
        asked = [name for name in names if name not in meant and not name.isdigit()]
        known = self.compiler.known_to_clang(set(asked)) if asked else []
        inputs = [one for one in self.inputs() if os.path.basename(one.path) != "blade-libc.o"]
        told = left_out_words(linked, inputs, self.asked.labels)
        texts = [text_of(one, self.runner, self.folder) if one.is_bitcode else "" for one in inputs]
        return told + of_inputs(linked, list(zip(inputs, texts)), asked, known)

    def split(self, name: str) -> Module:
        linked, made = f"{self.folder}/linked.wasm", f"{self.folder}/{name}.wasm"
        if os.path.lexists(made):
            os.remove(made)  # wasm-opt would follow a link
        done = self.runner.run([found("wasm-opt"), "-g", "--untee", "--ssa", linked, "-o", made])
        if done.status:
            why = (": it can't read DWARF 5, so compile by blade-cc -c, or with -gdwarf-4"
                   if has_dwarf_5(linked) else "")
            raise Stop(BUILD, *filter(None, [done.errors.rstrip()]),
                       f"blade-cc: error: wasm-opt ends with status {done.status}{why}")
        return read_module(made)


def exports_functions(module: Module) -> bool:
    return any(sort == FUNCTION for sort, _ in module.exports)


def is_clangs_own(flag: str) -> bool:
    """Whether a word asks for something that is no object."""
    return (flag in ALONE and flag not in ("-c", "-S") or flag.startswith(("-print-", "-dump"))
            or flag == "--version")


def has_dwarf_5(path: str) -> bool:
    """Whether the first unit is of version 5."""
    units = all_contents(read_module(path), ".debug_info")
    return bool(units) and units[0][4:6] == b"\5\0"
