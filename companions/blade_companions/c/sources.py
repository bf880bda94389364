"""Lines of sources. A module names the files by itself, so those alone are read that the user lets be read.
Licence: public domain (CC0)."""
from __future__ import annotations

import os
import stat
from typing import Callable, Dict, List, Sequence, Set, Tuple

MOST = 4_194_304  # bytes of a source
# What sources are called; another file is read where the user names it.
ENDINGS = tuple(".c .h .i .s .S .C .cc .cpp .cxx .c++ .ii .hh .hpp .hxx .h++ .inc .inl .ipp .tcc .def .m "
                ".rs .zig".split())


class Sources:
    """The files below some folders, and files that are named by themselves; what paths begin with is replaced
    before, by the last pair that fits."""

    def __init__(self, roots: Sequence[str] = (".",), pairs: Sequence[Tuple[str, str]] = ()) -> None:
        self.roots, self.pairs = list(roots), list(pairs)
        self.known: Dict[str, List[str]] = {}
        self.outside: Set[str] = set()  # paths that stand below none of the folders
        # folders of libraries whose sources are shown, with the libraries' names; and how a path says by
        # itself which library it belongs to
        self.libraries: List[Tuple[str, str]] = []
        self.library_of: Callable[[str], str] = lambda path: ""

    def lines(self, path: str) -> List[str]:
        """The lines of a file, where it may be read."""
        if path not in self.known:
            self.known[path] = self.read(path)
        return self.known[path]

    def places(self, path: str) -> List[str]:
        """Where the file of a path may stand, without links."""
        new = next((new + path[len(old) :] for old, new in reversed(self.pairs) if path.startswith(old)),
                   path)
        return [os.path.realpath(os.path.join(root, new)) for root in self.roots] if "\0" not in new else []

    def may_be_read(self, real: str) -> bool:
        """Whether a path without links is a named file, or a source below a named folder."""
        roots = [os.path.realpath(root) for root in [*self.roots, *(folder for folder, _ in self.libraries)]]
        return real in roots or real.endswith(ENDINGS) and any(real.startswith(root.rstrip("/") + "/")
                                                               for root in roots)

    def read(self, path: str) -> List[str]:
        for real in self.places(path):
            if self.may_be_read(real) and is_plain(real):
                return [line.rstrip("\r")
                        for line in contents_of(real).decode("utf-8-sig", "replace").split("\n")]
        self.outside.add(path)
        return []


def is_plain(path: str) -> bool:
    """Whether it is a plain file that isn't too long."""
    try:
        status = os.lstat(path)
    except (OSError, ValueError):
        return False
    return stat.S_ISREG(status.st_mode) and status.st_size <= MOST


def contents_of(path: str) -> bytes:
    """The bytes of a plain file, as many as it is long; nothing where another one stands there by now."""
    try:
        with os.fdopen(os.open(path, os.O_RDONLY | os.O_NONBLOCK | os.O_NOFOLLOW | os.O_CLOEXEC),
                       "rb") as file:
            status = os.fstat(file.fileno())
            return file.read(min(status.st_size, MOST)) if stat.S_ISREG(status.st_mode) else b""
    except OSError:
        return b""
