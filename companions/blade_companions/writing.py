"""Files that are written whole: beside what stands there, and renamed over it. Licence: public domain
(CC0)."""
from __future__ import annotations

import os
import stat
import tempfile
from typing import Optional

IN_PLACE = ("/dev/", "/proc/")


def mode_of(path: str) -> Optional[int]:
    """What kind of file stands there, with its rights; None where there is none."""
    try:
        return os.stat(path).st_mode
    except FileNotFoundError:
        return None


def rights_of_new() -> int:
    """The rights of a new file."""
    mask = os.umask(0)
    os.umask(mask)
    return 0o666 & ~mask


def write_file(path: str, data: bytes) -> None:
    """Replaces what a name leads to by these bytes, or leaves it as it was; pipes and devices get them as
    they come."""
    mode = mode_of(path)
    if path.startswith(IN_PLACE) or mode is not None and not stat.S_ISREG(mode):
        with open(path, "wb") as file:
            file.write(data)
        return
    goal = os.path.realpath(path)
    try:
        handle, beside = tempfile.mkstemp(".tmp", ".blade-", os.path.dirname(goal))
    except OSError as fault:
        raise OSError(fault.errno, fault.strerror, path) from None
    try:
        with os.fdopen(handle, "wb") as file:
            file.write(data)
            file.flush()
            os.fsync(file.fileno())
        os.chmod(beside, rights_of_new() if mode is None else stat.S_IMODE(mode))
        os.replace(beside, goal)
    except BaseException:
        os.unlink(beside)
        raise
