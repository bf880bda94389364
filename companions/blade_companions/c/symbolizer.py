"""What llvm-symbolizer tells of places in a module's code. Its answers are JSON, a line each, which no name
can forge. Licence: public domain (CC0)."""
from __future__ import annotations

import json
import os
import resource
import shutil
import subprocess
import sys
import tempfile
import threading
from typing import IO, Iterator, List, NamedTuple, Optional, Sequence, Tuple

from ..printing import called

SYMBOLIZERS = ("llvm-symbolizer", *(f"llvm-symbolizer-{version}" for version in range(22, 13, -1)))
SECONDS = 120  # so long it may take
# The most bytes of data that it may have, and for each byte of the module.
MEMORY, MEMORY_OF_BYTE = 24 << 20, 20
LONGEST = 1 << 20  # the most bytes of an answer
PATH = 4096  # and letters of a path
SETTINGS = ("LLVM_SYMBOLIZER_OPTS", "DEBUGINFOD_URLS")  # other output, and servers that are asked


class Frame(NamedTuple):
    """A place in a source: its file, its line and column (0 where they aren't known), and the function."""

    path: str
    line: int
    column: int
    function: str


def symbolizer() -> Optional[str]:
    return next((tool for tool in SYMBOLIZERS if shutil.which(tool)), None)


def bounded(most: int) -> None:
    """A module's own tables may have the tool ask for all memory."""
    given = [limit for limit in resource.getrlimit(resource.RLIMIT_DATA) if limit != resource.RLIM_INFINITY]
    resource.setrlimit(resource.RLIMIT_DATA, (min(most, *given, most),) * 2)


def frames_of(tool: str, path: str, places: Sequence[int]) -> Iterator[Tuple[int, List[Frame]]]:
    """The frames of places, the inner ones first, as far as the tool answers what was asked."""
    words = [tool, f"--obj={path}", "--functions=short", "--output-style=JSON"]
    most = MEMORY + MEMORY_OF_BYTE * os.path.getsize(path)
    setting = {name: value for name, value in os.environ.items() if name not in SETTINGS}
    with tempfile.TemporaryFile() as asked:
        asked.write("".join(f"{place:#x}\n" for place in places).encode())
        asked.seek(0)
        with subprocess.Popen(words, stdin=asked, stdout=subprocess.PIPE, stderr=subprocess.DEVNULL,
                              env=setting, preexec_fn=lambda: bounded(most)) as running:
            watch = threading.Timer(SECONDS, running.kill)
            watch.start()
            try:
                yield from answers(running.stdout, places)
            finally:
                watch.cancel()
                running.kill()


def answers(told: IO[bytes], places: Sequence[int]) -> Iterator[Tuple[int, List[Frame]]]:
    for place in places:
        answer = told.readline(LONGEST)
        try:
            read = json.loads(answer)
            if int(read["Address"], 16) != place:
                return
            yield place, [frame_of(one) for one in read.get("Symbol", ())]
        except (ValueError, KeyError, TypeError, AttributeError, RecursionError):
            return


def frame_of(one: dict) -> Frame:
    path = sys.intern(str(one["FileName"]))
    return Frame(path if len(path) <= PATH else "", int(one["Line"]), int(one["Column"]),
                 sys.intern(called(str(one["FunctionName"]))))
