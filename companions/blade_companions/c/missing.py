"""What to do about headers that clang doesn't find and names that the linker doesn't find.
Licence: public domain (CC0)."""
from __future__ import annotations

import os
import re
from typing import Dict, Iterator, List, Mapping, NamedTuple, Optional, Sequence

from ..formats.module import FUNCTION, Module
from ..printing import called
from .callers import called_in
from .elsewhere import Place as Found, help_of

# The headers that wasi-libc has, but for those of networks and devices.
STANDARD = frozenset(
    "alloca.h assert.h byteswap.h complex.h ctype.h dirent.h endian.h err.h errno.h fcntl.h features.h "
    "fenv.h float.h fnmatch.h getopt.h glob.h iconv.h inttypes.h iso646.h langinfo.h libgen.h limits.h "
    "locale.h malloc.h math.h memory.h poll.h regex.h sched.h search.h semaphore.h signal.h stdalign.h "
    "stdarg.h stdbool.h stddef.h stdint.h stdio.h stdlib.h stdnoreturn.h string.h strings.h sysexits.h "
    "tgmath.h threads.h time.h uchar.h unistd.h utime.h values.h wchar.h wctype.h arpa/inet.h net/if.h "
    "netinet/in.h netinet/tcp.h sys/errno.h sys/fcntl.h sys/file.h sys/ioctl.h sys/mman.h sys/param.h "
    "sys/poll.h sys/random.h sys/resource.h sys/select.h sys/signal.h sys/socket.h sys/stat.h "
    "sys/syscall.h sys/time.h sys/times.h sys/types.h sys/uio.h sys/un.h sys/utsname.h".split())
# Those that Unix has and wasi-libc hasn't: processes, users, terminals.
UNIX = frozenset(
    "dlfcn.h elf.h execinfo.h grp.h link.h netdb.h pthread.h pty.h pwd.h setjmp.h shadow.h spawn.h "
    "syslog.h termios.h ucontext.h utmp.h utmpx.h wordexp.h sys/epoll.h sys/ipc.h sys/msg.h sys/prctl.h "
    "sys/ptrace.h sys/sem.h sys/shm.h sys/wait.h".split())
# Functions of the C library that cryptographic code calls most.
OF_LIBRARY = frozenset(
    "abort abs atoi bsearch calloc exit explicit_bzero fclose fopen fprintf fputc fputs fread free fwrite "
    "getenv isalnum isalpha isdigit isspace isxdigit labs malloc memccpy memchr memmem mempcpy memrchr "
    "printf putchar puts qsort rand realloc snprintf sprintf srand sscanf stpcpy strcasecmp strcat strchr "
    "strcmp strcpy strcspn strdup strerror strlen strncasecmp strncat strncmp strncpy strndup strnlen "
    "strrchr strspn strstr strtok strtol strtoul time tolower toupper vfprintf vprintf vsnprintf vsprintf "
    "__assert_fail posix_memalign aligned_alloc".split())
SOME = 12  # so many names are told in a row
FEW = 3  # so many callers of a name, and so many folders
FILES = 20_000  # the most that are looked through for a header
TEMPLATES = (".in", ".cmake", ".cmake.in", ".h.in", ".in.h")
# A folder with one of these files is a project, and its folders belong together.
BUILDS = frozenset("configure configure.ac configure.in CMakeLists.txt Makefile makefile GNUmakefile "
                   "Makefile.am Makefile.in meson.build SConstruct BUILD BUILD.bazel".split())
EMULATED = re.compile(r"-(D_WASI_EMULATED_[A-Z_]+)")
MISSING = re.compile(r"^(.*?):\d+:(?:\d+:)? fatal error: '([^'\n]+)' file not found", re.M)


class Place(NamedTuple):
    """The folders below the current one from which a header is found, and the templates of it there."""

    folders: List[str]
    templates: List[str]


def top_of(includer: str) -> str:
    """The folder below the current one that holds the project of a file: no other project is looked through.
    It is the current folder itself if the file is in none below it, or if the current folder is the
    project."""
    parts = os.path.relpath(includer or os.curdir).split(os.sep)
    is_below = len(parts) > 1 and parts[0] != os.pardir
    return parts[0] if is_below and BUILDS.isdisjoint(os.listdir(".")) else os.curdir


def looked_up(name: str, top: str) -> Place:
    """Where a header, or what it is made of, stands below a folder."""
    place, files = Place([], []), 0
    for folder, folders, names in os.walk(top):
        folders[:] = sorted(one for one in folders if not one.startswith("."))
        files += 1 + len(names)
        if files > FILES:
            break
        for one in sorted(names):
            path = os.path.normpath(os.path.join(folder, one))
            if f"/{path}".endswith(f"/{name}"):
                place.folders.append(path[: -len(name)].rstrip("/") or ".")
            elif any(f"/{path}".endswith(f"/{kind}") for kind in templates_of(name)):
                place.templates.append(path)
    return place


def templates_of(name: str) -> List[str]:
    return [(name[:-2] if ending.startswith(".h") or ending == ".in.h" else name) + ending
            for ending in TEMPLATES]


def nearest(folders: Sequence[str], includer: str) -> List[str]:
    """The folders, those first that have most folders at their beginning in common with the file that
    includes the header."""
    parts = os.path.dirname(os.path.relpath(includer or os.curdir)).split(os.sep)
    return sorted(folders, key=lambda one: -len(os.path.commonprefix([parts, one.split(os.sep)])))


def header_text(name: str, includer: str, has_library: bool) -> str:
    """What kind of header a missing one is, and what helps. The includer is the file that includes it."""
    if name in STANDARD and has_library:
        return (f"{name} is a standard header, which the wasi-libc here hasn't: name another by --sysroot "
                "FOLDER, or leave out what includes the header")
    if name in STANDARD:
        return (f"{name} is a standard header: apt-get install wasi-libc has it (or --sysroot FOLDER, or the "
                "variable WASI_SYSROOT, names where another wasi-libc is)")
    if name in UNIX:
        return (f"{name} is a header of Unix, which wasi-libc hasn't: leave out the file, or what includes "
                "the header")
    place = looked_up(name, top_of(includer))
    if place.folders:
        words = " or ".join(f"-I {folder}" for folder in nearest(place.folders, includer)[:FEW])
        return f"{name} is a header of the project: say {words}"
    if place.templates or os.path.basename(name) == "config.h":
        of = f" from {place.templates[0]}" if place.templates else ""
        word = "--config-h" if name == "config.h" else f"--config-h={name}"
        return (f"{name} is generated{of}: run configure (or cmake) first and name its folder by -I, or say "
                f"{word}, which makes an empty one and shows where")
    empty = (f", or say --config-h={name}, which makes an empty one and shows where"
             if name.endswith(".h") and ".." not in name and not name.startswith("/") else "")
    return (f"{name} is a header of the project or of another library: -I FOLDER names where it is; if a "
            f"script or the build makes it, run that first{empty}")


def about_headers(errors: str, has_library: bool) -> List[str]:
    """What to do about headers that clang doesn't find, and about a clang that can't make WebAssembly."""
    includers: Dict[str, str] = {}
    for includer, name in MISSING.findall(errors):
        includers.setdefault(name, includer)
    lines = [f"{header_text(name, includer, has_library)} [blade-header]"
            for name, includer in includers.items()]
    for macro in dict.fromkeys(EMULATED.findall(errors)):
        lines.append(f"-{macro} is right here: it gives the types and the constants. Leave out the library "
                     "that is named with it: a call of its functions stays undefined [blade-header]")
    if "No available targets" in errors or "unable to create target" in errors:
        lines.append("this clang lacks WebAssembly: apt-get install clang")
    return [f"blade-cc: note: {one}" for one in lines]


def callers_of(module: Module) -> Dict[str, List[str]]:
    """Of each function that a module imports, by its name, the functions that call it."""
    imported = [one.name for one in module.imports if one.sort == FUNCTION]
    found: Dict[str, List[str]] = {name: [] for name in imported}
    for caller, functions in called_in(module).items():
        for function in functions:
            if function < len(imported):
                found[imported[function]].append(module.function_name(caller))
    return found


def several(names: Sequence[str], most: int) -> str:
    """Names in a row, the first few."""
    told = ", ".join(called(name) for name in names[:most])
    return told + (f" and {len(names) - most} more" if len(names) > most else "")


def undefined(names: Sequence[str], callers: Mapping[str, Sequence[str]]) -> str:
    """All names that the linker doesn't find, each with who calls it."""
    told = [called(name) + (f" (called by {several(callers[name], FEW)})" if callers.get(name) else "")
            for name in names[:SOME]]
    more = f" and {len(names) - SOME} more" if len(names) > SOME else ""
    return f"blade-cc: error: no file that was given defines {', '.join(told)}{more} [blade-undefined]"


def by_place(names: Sequence[str], places: Mapping[str, Sequence[Found]]) -> Iterator[str]:
    """Names with the files that define them: those of one file in a row."""
    rows: Dict[tuple, List[str]] = {}
    for name in names:
        rows.setdefault(tuple((one.path, one.is_given) for one in places[name]), []).append(name)
    for row in rows.values():
        yield f"{several(row, SOME)}: {help_of(places[row[0]])}"


def remedies(names: Sequence[str], has_library: bool, places: Mapping[str, Sequence[Found]]) -> Iterator[str]:
    """What helps, by the kinds of the names."""
    rest = list(names)

    def taken(pattern: str) -> List[str]:
        found = [name for name in rest if re.fullmatch(pattern, name)]
        rest[:] = [name for name in rest if name not in found]
        return found

    wide = taken(r"__\w*?(mul|div|mod|ashl|ashr|lshr)\w*t[if]\d|__multi3")
    floats = taken(r"__\w+(sf|df|tf)\w*\d?")
    library = [] if has_library else taken("|".join(sorted(OF_LIBRARY)))
    known = taken("|".join(map(re.escape, places))) if places else []
    yield from by_place(known, places)
    for group, text in (
            (library, "of the C library: apt-get install wasi-libc has them (blade-cc itself has memcpy, "
             "memmove, memset and memcmp)"),
            (wide, "made of __int128: apt-get install libclang-rt-14-dev-wasm32 (or of your clang's "
             "version), or use smaller products"),
            (floats, "made of floats, which blade doesn't take"),
            (rest, "name the files or libraries that define them")):
        if group:
            yield f"{several(group, SOME)}: {text}"


def about_symbols(missing: Sequence[str], callers: Mapping[str, Sequence[str]], has_library: bool,
                  places: Optional[Mapping[str, Sequence[Found]]] = None) -> List[str]:
    """An error with all names that the linker doesn't find and who calls them, and one note on what helps.
    The places are those of files that define a name."""
    names = sorted(missing)
    helps = "; ".join(remedies(names, has_library, places or {}))
    return [undefined(names, callers), f"blade-cc: note: {helps}"]
