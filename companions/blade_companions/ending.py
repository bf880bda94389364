"""How a companion ends: with a status and at most one line on what it couldn't do. Licence: public domain
(CC0)."""
from __future__ import annotations

import os
import signal
import sys
import threading
from typing import Any, Callable, Optional, Sequence

from .formats.reading import Bad
from .printing import say
from .programs import version
from .statuses import DONE, INPUT, INTERRUPTED


def why(fault: BaseException) -> str:
    """A fault in words."""
    if isinstance(fault, OSError):
        return (f"{fault.filename}: {fault.strerror}" if fault.filename and fault.strerror else fault.strerror
                or str(fault))
    if isinstance(fault, Bad):
        return str(fault) or "a file ends too early"
    if isinstance(fault, MemoryError):
        return "memory ran out"
    return f"what is read here isn't as it should be ({type(fault).__name__})"


def version_line(name: str) -> str:
    """What a tool prints for --version."""
    return f"{name} {version()}"


def is_answered(name: str, words: Sequence[str], usage: str) -> bool:
    """Prints the help or the version, if nothing else is asked for; whether that was so."""
    if list(words) in (["--help"], ["-h"]):
        print(usage)
    elif list(words) == ["--version"]:
        print(version_line(name))
    else:
        return False
    return True


def leave(*streams: int) -> None:
    """Nobody reads on: what is still to be written is dropped."""
    nothing = os.open(os.devnull, os.O_WRONLY)
    for stream in streams:
        os.dup2(nothing, stream)


def flush() -> None:
    if sys.stdout:  # it may be closed from the first
        sys.stdout.flush()


def status_of(name: str, work: Callable[[], Optional[int]]) -> int:
    try:
        try:
            status = work()
        except SystemExit as end:
            status = end.code
        flush()
        return status or DONE
    except (BrokenPipeError, KeyboardInterrupt):
        raise
    except Exception as fault:  # whatever a file has led to
        status = fault.status if isinstance(fault, Bad) else INPUT
        say(f"{name}: {why(fault)}", sys.stderr)
    try:
        flush()
    except OSError:
        leave(1)
    return status


def interrupts(handler: Any) -> None:
    """Sets what SIGINT does. Only a program's own thread may."""
    if threading.current_thread() is threading.main_thread():
        signal.signal(signal.SIGINT, handler)


def ended(name: str, work: Callable[[], Optional[int]], closed: int = DONE) -> int:
    """The status that work comes to. A file that isn't as it should be is told in one line, with a status of
    its own. A pipe that is closed is no fault unless it is said so."""
    for stream in (sys.stdout, sys.stderr):
        if hasattr(stream, "reconfigure"):
            stream.reconfigure(errors="backslashreplace")
    before = signal.getsignal(signal.SIGINT)
    try:
        interrupts(signal.default_int_handler)
        return status_of(name, work)
    except BrokenPipeError:
        leave(1, 2)
        return closed
    except KeyboardInterrupt:
        return INTERRUPTED
    finally:
        interrupts(before)
