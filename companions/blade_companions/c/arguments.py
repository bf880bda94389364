"""The words of blade-cc. Licence: public domain (CC0)."""
from __future__ import annotations

import os
import re
import shlex
from dataclasses import dataclass, field
from typing import Callable, Dict, List, Optional, Sequence, Tuple

from ..formats.reading import read_file
from ..statuses import GAVE_UP, INPUT, LOST, USAGE

# Names of the statuses here: clang, the linker or blade refuses the files, or there is no answer.
BUILD = REFUSED = INPUT
MISSING = DISAGREE = GAVE_UP
LABELS = LOST
SOURCES = (".c", ".cc", ".cpp", ".cxx", ".C", ".s", ".S", ".i")
OBJECTS = (".o", ".a", ".obj", ".bc")
# clang's words that have another one behind them.
WITH_NEXT = frozenset("-I -D -U -include -isystem -idirafter -iquote -x -Xclang -mllvm -MF -MT -MQ -imacros "
                      "-isysroot -std".split())
ALONE = frozenset("-c -S -E -M -MM -fsyntax-only -###".split())  # clang does all there is to do
OTHER_MACHINE = {
    "-mbulk-memory": "operations on whole memories", "-msimd128": "vectors", "-mrelaxed-simd": "vectors",
    "-mreference-types": "references", "-matomics": "threads", "-pthread": "threads",
    "-mtail-call": "tail calls", "-mexception-handling": "exceptions", "-mnontrapping-fptoint": "floats",
    "-mmultimemory": "several memories", "-m64": "64-bit addresses"}

# Words of clang and LLVM by which a labelled function may lose what keeps it, or another one is called.
FORBIDDEN = re.compile(r"--?(?:mllvm=--?)?(?:force-(?:remove-)?attribute\b|forceattrs-csv-path\b|fopenmp|"
                       r"fplugin=|fpass-plugin=|load$|load-pass-plugin\b|"
                       r"config(?:$|=|-system-dir|-user-dir))")
DEEP = 10  # files of words that name one another


class Stop(Exception):
    """The work ends: a status, and what is said."""

    def __init__(self, status: int, *lines: str) -> None:
        super().__init__(*lines)
        self.status, self.lines = status, lines


@dataclass
class Asked:
    """What the words ask for."""

    flags: List[str] = field(default_factory=list)
    links: List[str] = field(default_factory=list)
    sources: List[str] = field(default_factory=list)
    objects: List[str] = field(default_factory=list)
    labels: List[str] = field(default_factory=list)
    # start files, by EXPORT=FILE where there are several exports
    counts: List[str] = field(default_factory=list)
    start: Optional[str] = None  # a start file for a search after a no, in the same way
    empty_headers: List[str] = field(default_factory=list)  # of --config-h
    sysroot: str = field(default_factory=lambda: os.environ.get("WASI_SYSROOT", "/usr"))
    keep: List[str] = field(default_factory=list)  # bytes that are public there, M:OFFSET:SIZE
    out: Optional[str] = None
    name: Optional[str] = None
    blade: Optional[str] = None
    way: Optional[str] = None  # ledger or vault
    pages: Optional[int] = None
    part: Optional[str] = None  # library or client: one side of an interface
    interface: str = ""
    stubs: List[str] = field(default_factory=list)
    limit: int = 20
    everything: bool = False  # the violations of libraries are printed like those of the own sources
    allocator: int = 0  # bytes of the heap of the allocator for verification; 0 without it
    # labelled functions that may be given public values
    public_callers: List[str] = field(default_factory=list)
    alone: bool = False
    verbose: bool = False
    unlabelled: bool = False
    no_assumptions: bool = False  # the compiler may assume nothing, as in units with BLADE_SECRET
    native: bool = False
    no_fail: bool = False
    split: str = "never"  # whether public numbers are taken out of C's memory: never, auto or always
    record: List[str] = field(default_factory=list)  # start files for that, as for counts
    public: List[str] = field(default_factory=list)  # bytes that are public at the start, as OFFSET:SIZE

    def is_linked_with(self, word: str) -> bool:
        return any(word in one for one in self.links)

    def wasi_headers(self) -> str:
        """Where the headers of wasi-libc would be: as Debian has them, and wasi-sdk in its own folder."""
        return f"{self.sysroot}/include/wasm32-wasi"

    def wasi_library(self) -> str:
        return f"{self.sysroot}/lib/wasm32-wasi/libc.a"

    @property
    def base(self) -> str:
        """The name of the only file; nothing if there are several."""
        files = self.sources + self.objects
        return os.path.splitext(os.path.basename(files[0]))[0] if len(files) == 1 else ""


def number(word: str, value: str, most: int) -> int:
    if not value.isdigit() or not 0 < int(value) <= most:
        raise Stop(USAGE, f"blade-cc: error: {word} {value}: a number from 1 to {most} is due")
    return int(value)


def sysroot(asked: Asked, folder: str) -> None:
    """Where wasi-libc is."""
    asked.sysroot = folder
    if not os.path.isdir(asked.wasi_headers()):
        raise Stop(USAGE, f"blade-cc: error: --sysroot {folder}: there is no include/wasm32-wasi in it, as "
                   "wasi-libc has it")


def empty_header(asked: Asked, name: str) -> None:
    """A header that --config-h names: below the folder for it."""
    if name.startswith("/") or ".." in name.split("/") or not name.endswith(".h"):
        raise Stop(USAGE, f"blade-cc: error: --config-h={name}: the name of a header as code includes it is "
                   "due, without ..")
    asked.empty_headers.append(name)


def setters(asked: Asked) -> Dict[str, Callable[[str], None]]:
    """Words of blade-cc that have a value: by their name, what the value does."""

    def keep(name: str) -> Callable[[str], None]:
        return lambda value: setattr(asked, name, value)

    return {
        "-o": keep("out"), "--name": keep("name"), "--blade": keep("blade"),
        "--label": lambda value: asked.labels.extend(value.split()), "--counts": asked.counts.append,
        "--start": keep("start"), "--keep": asked.keep.append,
        "--sysroot": lambda value: sysroot(asked, value),
        "--part": keep("part"), "--interface": keep("interface"), "--stub": asked.stubs.append,
        "--record": asked.record.append, "--public": asked.public.append,
        "--public-callers": lambda value: asked.public_callers.extend(value.split(",")),
        "--export": lambda value: asked.links.append(f"--export={value}"),
        "--memory": lambda value: setattr(asked, "pages", number("--memory", value, 256)),
        "--limit": lambda value: setattr(asked, "limit", number("--limit", value, 1_000_000)),
        "-Xlinker": asked.links.append, "-z": lambda value: asked.links.extend(["-z", value]),
    }


HEAP, MOST_HEAP = 262_144, 16_000_000  # bytes for --allocator
SWITCHES: Dict[str, Tuple[str, object]] = {
    "--ledger": ("way", "ledger"), "--vault": ("way", "vault"), "--unlabelled": ("unlabelled", True),
    "--no-fail": ("no_fail", True), "--no-assumptions": ("no_assumptions", True),
    "--native": ("native", True), "--all": ("everything", True), "--allocator": ("allocator", HEAP),
    "--split": ("split", "auto"), "-v": ("verbose", True)}


def asked_by(words: Sequence[str]) -> Asked:
    asked, rest = Asked(), list(words)
    values = setters(asked)
    while rest:
        word = rest.pop(0)
        if word.startswith("@") and os.path.isfile(word[1:]):
            # A file of words, as CMake makes them.
            rest[:0] = shlex.split(read_file(word[1:]).decode())
            continue
        name, is_joined, value = word.partition("=")
        if word in values or word in WITH_NEXT:
            if not rest:
                raise Stop(USAGE, f"blade-cc: error: {word} needs a word behind it")
            value = rest.pop(0)
            values[word](value) if word in values else asked.flags.extend([word, value])
        elif name in values and is_joined and name.startswith("--"):
            values[name](value)
        elif name == "--allocator" and is_joined:
            asked.allocator = number(name, value, MOST_HEAP)
        elif word in SWITCHES:
            setattr(asked, *SWITCHES[word])
        elif name == "--split":
            asked.split = value
        else:
            plain(asked, word)
    refuse_forbidden(asked.flags + asked.links)
    refuse_unfit(asked)
    return asked


def refuse_unfit(asked: Asked) -> None:
    """Words that don't go together where a side of an interface is made."""
    why = ""
    if asked.part not in (None, "library", "client"):
        why = f"--part {asked.part}: library or client is due"
    elif asked.part and not asked.interface:
        why = f"--part {asked.part} needs --interface FILE"
    elif asked.part == "client" and not asked.stubs:
        why = "--part client needs --stub STUB.wasm, which --part library makes"
    elif asked.part != "client" and asked.stubs or asked.interface and not asked.part:
        why = "--stub is for --part client, and --interface for --part"
    elif asked.part and (asked.counts or asked.start or asked.native):
        why = "--counts, --start and --native are for whole programs, not for --part"
    if why:
        raise Stop(USAGE, f"blade-cc: error: {why}")


def plain(asked: Asked, word: str) -> None:
    """A word that stands for itself: clang's, the linker's, or a file."""
    if word in ALONE or word.startswith(("-print-", "-dump")) or word == "--version":
        asked.alone = True
        asked.flags.append(word)
    elif word == "--config-h" or word.startswith("--config-h="):
        empty_header(asked, word.partition("=")[2] or "config.h")
    elif word.startswith("-Wl,"):
        asked.links += word.split(",")[1:]
    elif word.startswith(("--export-", "--initial-memory=", "--max-memory=", "-L", "-l")):
        asked.links.append(word)
    elif word.startswith("-") and word != "-":
        refuse_machine(word)
        asked.flags.append(word)
    elif word.endswith(OBJECTS):
        asked.objects.append(word)
    elif word.endswith(SOURCES):
        asked.sources.append(word)
    else:
        raise Stop(USAGE, f"blade-cc: error: {word}: neither a source ({' '.join(SOURCES)}) "
                   f"nor an object ({' '.join(OBJECTS)})")


def refuse_forbidden(words: Sequence[str], depth: int = 0) -> None:
    """Refuses what a labelled function may lose its label by, also in files of words (@FILE) that clang or
    the linker reads."""
    for word in words:
        if FORBIDDEN.match(word):
            raise Stop(USAGE, f"blade-cc: error: {word}: with it a labelled function may lose "
                       "what keeps its label; leave it out")
        if word.startswith("@") and depth < DEEP and os.path.isfile(word[1:]):
            text = read_file(word[1:]).decode("utf-8", "surrogateescape")
            refuse_forbidden([part for one in re.split(r"\s+", text) for part in one.strip("\"'").split(",")],
                             depth + 1)


def refuse_machine(word: str) -> None:
    if word in OTHER_MACHINE:
        raise Stop(USAGE, f"blade-cc: error: {word}: blade takes WebAssembly 1.0, "
                   f"without {OTHER_MACHINE[word]}; leave it out")
    if re.match(r"-m(cpu|arch|tune)=(?!mvp$)|--target=(?!wasm32)", word):
        raise Stop(USAGE, f"blade-cc: error: {word}: blade-cc compiles for wasm32 with -mcpu=mvp; "
                   "leave it out")
